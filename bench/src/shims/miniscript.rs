//! A fragment with its type and figures, and how each is made.

use std::fmt;
use std::marker::PhantomData;

use crate::hashes::hash160;
use crate::miniscript::limits::{MAX_PUBKEYS_IN_CHECKSIGADD, MAX_PUBKEYS_PER_MULTISIG};
use crate::miniscript::types::{ExtData, Type};
use crate::miniscript::ScriptContext;
use crate::{tapscript, AbsLockTime, Error, ForEachKey, MiniscriptKey, RelLockTime, Terminal, Threshold, MAX_RECURSION_DEPTH};

/// A fragment tree.
#[derive(Clone)]
pub struct Miniscript<Pk: MiniscriptKey, Ctx: ScriptContext> {
    pub node: Terminal<Pk, Ctx>,
    pub ty: Type,
    pub ext: ExtData,
    phantom: PhantomData<Ctx>,
}

impl<Pk: MiniscriptKey, Ctx: ScriptContext> Miniscript<Pk, Ctx> {
    pub const TRUE: Self = Self::with(Terminal::True, Type::TRUE, ExtData::TRUE);
    pub const FALSE: Self = Self::with(Terminal::False, Type::FALSE, ExtData::FALSE);

    const fn with(node: Terminal<Pk, Ctx>, ty: Type, ext: ExtData) -> Self {
        Miniscript { node, ty, ext, phantom: PhantomData }
    }

    pub fn pk_k(pk: Pk) -> Self {
        let ext = ExtData::pk_k::<_, Ctx>(&pk);
        Self::with(Terminal::PkK(pk), Type::pk_k(), ext)
    }

    pub fn pk_h(pk: Pk) -> Self {
        let ext = ExtData::pk_h::<_, Ctx>(Some(&pk));
        Self::with(Terminal::PkH(pk), Type::pk_h(), ext)
    }

    pub fn expr_raw_pkh(hash: hash160::Hash) -> Self {
        Self::with(Terminal::RawPkH(hash), Type::pk_h(), ExtData::pk_h::<Pk, Ctx>(None))
    }

    pub fn after(time: AbsLockTime) -> Self {
        Self::with(Terminal::After(time), Type::time(), ExtData::after(time))
    }

    pub fn older(time: RelLockTime) -> Self {
        Self::with(Terminal::Older(time), Type::time(), ExtData::older(time))
    }

    pub fn sha256(hash: Pk::Sha256) -> Self {
        Self::with(Terminal::Sha256(hash), Type::hash(), ExtData::sha256())
    }

    pub fn hash256(hash: Pk::Hash256) -> Self {
        Self::with(Terminal::Hash256(hash), Type::hash(), ExtData::hash256())
    }

    pub fn ripemd160(hash: Pk::Ripemd160) -> Self {
        Self::with(Terminal::Ripemd160(hash), Type::hash(), ExtData::ripemd160())
    }

    pub fn hash160(hash: Pk::Hash160) -> Self {
        Self::with(Terminal::Hash160(hash), Type::hash(), ExtData::hash160())
    }

    pub fn multi(thresh: Threshold<Pk, MAX_PUBKEYS_PER_MULTISIG>) -> Self {
        let ext = ExtData::multi(&thresh);
        Self::with(Terminal::Multi(thresh), Type::multi(), ext)
    }

    pub fn multi_a(thresh: Threshold<Pk, MAX_PUBKEYS_IN_CHECKSIGADD>) -> Self {
        let ext = ExtData::multi_a(thresh.k(), thresh.n());
        Self::with(Terminal::MultiA(thresh), Type::multi_a(), ext)
    }

    /// The fragment over children that have their types: typed, not too tall, globally valid, or refused in this order.
    pub fn from_ast(t: Terminal<Pk, Ctx>) -> Result<Self, Error> {
        let (ty, ext) = (tapscript::typing::<Ctx, _>(|| Type::type_check(&t))?, ExtData::type_check(&t));
        let res = Self::with(t, ty, ext);
        if res.ext.tree_height as u32 > MAX_RECURSION_DEPTH {
            return Err(Error::MaxRecursiveDepthExceeded);
        }
        Ctx::check_global_validity(&res)?;
        Ok(res)
    }

    pub fn from_components_unchecked(node: Terminal<Pk, Ctx>, ty: Type, ext: ExtData) -> Self {
        Self::with(node, ty, ext)
    }

    pub fn as_inner(&self) -> &Terminal<Pk, Ctx> {
        &self.node
    }

    /// The most witness elements of a satisfaction, the script itself among them.
    pub fn max_satisfaction_witness_elements(&self) -> Result<usize, Error> {
        self.ext.sat_data.map(|data| data.max_witness_stack_count + 1).ok_or(Error::ImpossibleSatisfaction)
    }

    pub fn max_satisfaction_size(&self) -> Result<usize, Error> {
        Ctx::max_satisfaction_size(self).ok_or(Error::ImpossibleSatisfaction)
    }
}

impl<Pk: MiniscriptKey, Ctx: ScriptContext> fmt::Debug for Miniscript<Pk, Ctx> {
    fn fmt(&self, f: &mut fmt::Formatter) -> fmt::Result {
        write!(f, "{:?}", self.ty)
    }
}

/// An ill-typed fragment is written out in the Rust's error; here it shows as nothing, so that the Rust does not spend time on text.
impl<Pk: MiniscriptKey, Ctx: ScriptContext> fmt::Display for Terminal<Pk, Ctx> {
    fn fmt(&self, _: &mut fmt::Formatter) -> fmt::Result {
        Ok(())
    }
}

/// context.rs visits keys to count derivation paths, of which these keys have none.
impl<Pk: MiniscriptKey, Ctx: ScriptContext> ForEachKey<Pk> for Miniscript<Pk, Ctx> {
    fn for_each_key<'a, F: FnMut(&'a Pk) -> bool>(&'a self, _: F) -> bool
    where
        Pk: 'a,
    {
        true
    }
}
