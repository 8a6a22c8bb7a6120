//! Keys, hashes and locks: a key is a u64 number since document 02's R-3, neither uncompressed nor x-only; document 01's hashes are u32 numbers.

use std::{fmt, hash};

/// What the Rust asks of a key.
pub trait MiniscriptKey: Clone + Eq + Ord + fmt::Debug + fmt::Display + hash::Hash {
    fn is_uncompressed(&self) -> bool {
        false
    }

    fn is_x_only_key(&self) -> bool {
        false
    }

    fn num_der_paths(&self) -> usize {
        0
    }

    type Sha256: Clone + Eq + Ord + fmt::Debug + fmt::Display + hash::Hash;
    type Hash256: Clone + Eq + Ord + fmt::Debug + fmt::Display + hash::Hash;
    type Ripemd160: Clone + Eq + Ord + fmt::Debug + fmt::Display + hash::Hash;
    type Hash160: Clone + Eq + Ord + fmt::Debug + fmt::Display + hash::Hash;
}

/// A key that a context could parse.
pub trait ToPublicKey: MiniscriptKey {}

/// Visits every key.
pub trait ForEachKey<Pk: MiniscriptKey> {
    fn for_each_key<'a, F: FnMut(&'a Pk) -> bool>(&'a self, pred: F) -> bool
    where
        Pk: 'a;
}

/// The oracle's key: its number.
#[derive(Clone, Copy, PartialEq, Eq, PartialOrd, Ord, Hash, Debug)]
pub struct Key(pub u64);

impl fmt::Display for Key {
    fn fmt(&self, f: &mut fmt::Formatter) -> fmt::Result {
        write!(f, "{}", self.0)
    }
}

impl MiniscriptKey for Key {
    type Sha256 = u32;
    type Hash256 = u32;
    type Ripemd160 = u32;
    type Hash160 = u32;
}

/// A number that is no lock: 0, or one above 2,147,483,647.
#[derive(Clone, Copy, PartialEq, Eq, Debug)]
pub struct LockError(pub u32);

fn lock(number: u32) -> Result<u32, LockError> {
    if (1..=0x7fff_ffff).contains(&number) {
        Ok(number)
    } else {
        Err(LockError(number))
    }
}

/// A lock by height or time.
#[derive(Clone, Copy, PartialEq, Eq, PartialOrd, Ord, Hash, Debug)]
pub struct AbsLockTime(pub u32);

impl AbsLockTime {
    pub fn from_consensus(number: u32) -> Result<Self, LockError> {
        lock(number).map(AbsLockTime)
    }

    pub fn to_consensus_u32(self) -> u32 {
        self.0
    }

    pub fn is_block_height(self) -> bool {
        self.0 < 500_000_000
    }

    pub fn is_block_time(self) -> bool {
        !self.is_block_height()
    }
}

/// A lock by age.
#[derive(Clone, Copy, PartialEq, Eq, PartialOrd, Ord, Hash, Debug)]
pub struct RelLockTime(pub u32);

impl RelLockTime {
    pub fn from_consensus(number: u32) -> Result<Self, LockError> {
        lock(number).map(RelLockTime)
    }

    pub fn to_consensus_u32(self) -> u32 {
        self.0
    }

    pub fn is_height_locked(self) -> bool {
        self.0 & (1 << 22) == 0
    }

    pub fn is_time_locked(self) -> bool {
        !self.is_height_locked()
    }
}
