//! Policies as the compiler matches on them.

use crate::sync::Arc;
use crate::{AbsLockTime, MiniscriptKey, RelLockTime, Threshold};

/// A policy; the weights of Or are machine words, as in the Rust.
#[derive(Clone, PartialEq, Eq, PartialOrd, Ord, Hash, Debug)]
pub enum Policy<Pk: MiniscriptKey> {
    Unsatisfiable,
    Trivial,
    Key(Pk),
    After(AbsLockTime),
    Older(RelLockTime),
    Sha256(Pk::Sha256),
    Hash256(Pk::Hash256),
    Ripemd160(Pk::Ripemd160),
    Hash160(Pk::Hash160),
    And(Vec<Arc<Policy<Pk>>>),
    Or(Vec<(usize, Arc<Policy<Pk>>)>),
    Thresh(Threshold<Arc<Policy<Pk>>, 0>),
}

/// The errors of a policy, of which the compiler's search gives none.
#[derive(Copy, Clone, PartialEq, Eq, Debug, Hash)]
pub enum PolicyError {}

impl std::fmt::Display for PolicyError {
    fn fmt(&self, _: &mut std::fmt::Formatter) -> std::fmt::Result {
        match *self {}
    }
}

impl std::error::Error for PolicyError {}
