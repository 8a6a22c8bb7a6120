//! The walk over a tree that the fragments' own equality and hash ask for.

use crate::miniscript::ScriptContext;
use crate::sync::Arc;
use crate::{Miniscript, MiniscriptKey, Terminal};

pub trait TreeLike: Sized {
    /// The fragments, each before its children.
    fn pre_order_iter(self) -> std::vec::IntoIter<Self>;
}

impl<Pk: MiniscriptKey, Ctx: ScriptContext> TreeLike for &Terminal<Pk, Ctx> {
    fn pre_order_iter(self) -> std::vec::IntoIter<Self> {
        let mut list = Vec::new();
        let mut left = vec![self];
        while let Some(node) = left.pop() {
            list.push(node);
            left.extend(children(node).iter().rev().map(|child| &child.node));
        }
        list.into_iter()
    }
}

/// The children of a fragment, in order.
pub fn children<Pk: MiniscriptKey, Ctx: ScriptContext>(node: &Terminal<Pk, Ctx>) -> Vec<&Arc<Miniscript<Pk, Ctx>>> {
    use Terminal::*;
    match node {
        True | False | PkK(_) | PkH(_) | RawPkH(_) | After(_) | Older(_) | Sha256(_) | Hash256(_) | Ripemd160(_) | Hash160(_) => vec![],
        Multi(_) | MultiA(_) => vec![],
        Alt(x) | Swap(x) | Check(x) | DupIf(x) | Verify(x) | NonZero(x) | ZeroNotEqual(x) => vec![x],
        AndV(x, y) | AndB(x, y) | OrB(x, y) | OrD(x, y) | OrC(x, y) | OrI(x, y) => vec![x, y],
        AndOr(x, y, z) => vec![x, y, z],
        Thresh(t) => t.iter().collect(),
    }
}
