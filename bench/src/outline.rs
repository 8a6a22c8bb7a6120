//! A fragment tree as its script tells it: keys and hashes by their bytes.

use crate::hashes::{hash160, ripemd160, sha256};
use crate::keys::Key;
use crate::miniscript::ScriptContext;
use crate::random::Random;
use crate::secp256k1::XOnlyPublicKey;
use crate::{hash256, iter, MiniscriptKey, PublicKey, Terminal};

/// One fragment: document 01's kind, the lock or the k of a threshold, the bytes that it pushes, and its children.
#[derive(Clone, PartialEq, Eq, Debug)]
pub struct Outline {
    pub kind: u16,
    pub number: u32,
    pub pushes: Vec<Vec<u8>>,
    pub children: Vec<Outline>,
}

/// The bytes that stand for keys and hashes, if they are there.
pub trait Bytes<Pk: MiniscriptKey> {
    fn key(&self, key: &Pk) -> Option<Vec<u8>>;
    fn key_hash(&self, key: &Pk) -> Option<Vec<u8>>;
    fn sha256(&self, hash: &Pk::Sha256) -> Option<Vec<u8>>;
    fn hash256(&self, hash: &Pk::Hash256) -> Option<Vec<u8>>;
    fn ripemd160(&self, hash: &Pk::Ripemd160) -> Option<Vec<u8>>;
    fn hash160(&self, hash: &Pk::Hash160) -> Option<Vec<u8>>;
}

impl Outline {
    /// The outline of a fragment; none, if some key or hash of it has no bytes.
    pub fn of<Pk: MiniscriptKey, Ctx: ScriptContext>(node: &Terminal<Pk, Ctx>, bytes: &impl Bytes<Pk>) -> Option<Outline> {
        let keys = |keys: &[Pk]| keys.iter().map(|key| bytes.key(key)).collect::<Option<Vec<_>>>();
        let (kind, number, pushes) = match node {
            Terminal::False => (32, 0, vec![]),
            Terminal::True => (33, 0, vec![]),
            Terminal::PkK(key) => (34, 0, vec![bytes.key(key)?]),
            Terminal::PkH(key) => (35, 0, vec![bytes.key_hash(key)?]),
            Terminal::RawPkH(hash) => (35, 0, vec![hash.0.to_vec()]),
            Terminal::After(lock) => (36, lock.0, vec![]),
            Terminal::Older(lock) => (37, lock.0, vec![]),
            Terminal::Sha256(hash) => (38, 0, vec![bytes.sha256(hash)?]),
            Terminal::Hash256(hash) => (39, 0, vec![bytes.hash256(hash)?]),
            Terminal::Ripemd160(hash) => (40, 0, vec![bytes.ripemd160(hash)?]),
            Terminal::Hash160(hash) => (41, 0, vec![bytes.hash160(hash)?]),
            Terminal::Alt(_) => (42, 0, vec![]),
            Terminal::Swap(_) => (43, 0, vec![]),
            Terminal::Check(_) => (44, 0, vec![]),
            Terminal::DupIf(_) => (45, 0, vec![]),
            Terminal::Verify(_) => (46, 0, vec![]),
            Terminal::NonZero(_) => (47, 0, vec![]),
            Terminal::ZeroNotEqual(_) => (48, 0, vec![]),
            Terminal::AndB(..) => (49, 0, vec![]),
            Terminal::AndV(..) => (50, 0, vec![]),
            Terminal::OrB(..) => (51, 0, vec![]),
            Terminal::OrD(..) => (52, 0, vec![]),
            Terminal::OrC(..) => (53, 0, vec![]),
            Terminal::OrI(..) => (54, 0, vec![]),
            Terminal::AndOr(..) => (55, 0, vec![]),
            Terminal::Thresh(t) => (56, t.k() as u32, vec![]),
            Terminal::Multi(t) => (57, t.k() as u32, keys(t.data())?),
            Terminal::MultiA(t) => (58, t.k() as u32, keys(t.data())?),
        };
        let children = iter::children(node).iter().map(|child| Outline::of(&child.node, bytes)).collect::<Option<Vec<_>>>()?;
        Some(Outline { kind, number, pushes, children })
    }

    pub fn over(kind: u16, children: Vec<Outline>) -> Outline {
        Outline { kind, number: 0, pushes: vec![], children }
    }

    /// Whether a fragment is a W, which only stands behind another.
    pub fn is_w(&self) -> bool {
        matches!(self.kind, 42 | 43)
    }
}

/// The tables that a caller lends: keys, the keys' hashes, hashes of 32 bytes and hashes of 20, entry i at i times its size.
pub type Tables = [Vec<u8>; 4];

/// The sizes of the entries in a context.
pub fn sizes(context: u32) -> [usize; 4] {
    [if context == 0 { 33 } else { 32 }, 20, 32, 20]
}

/// Tables of random bytes with so many entries each.
pub fn random_tables(random: &mut Random, context: u32, entries: [usize; 4]) -> Tables {
    let sizes = sizes(context);
    [0, 1, 2, 3].map(|table| (0..entries[table] * sizes[table]).map(|_| random.next() as u8).collect())
}

/// Tables as a context reads them.
pub struct Lent<'a> {
    pub context: u32,
    pub tables: &'a Tables,
}

impl Lent<'_> {
    /// Entry i of a table, if all of it is there.
    fn entry(&self, table: usize, i: u64) -> Option<Vec<u8>> {
        let size = sizes(self.context)[table];
        self.tables[table].chunks_exact(size).nth(usize::try_from(i).ok()?).map(<[u8]>::to_vec)
    }
}

impl Bytes<Key> for Lent<'_> {
    fn key(&self, key: &Key) -> Option<Vec<u8>> {
        self.entry(0, key.0)
    }

    fn key_hash(&self, key: &Key) -> Option<Vec<u8>> {
        self.entry(1, key.0)
    }

    fn sha256(&self, hash: &u32) -> Option<Vec<u8>> {
        self.entry(2, u64::from(*hash))
    }

    fn hash256(&self, hash: &u32) -> Option<Vec<u8>> {
        self.entry(2, u64::from(*hash))
    }

    fn ripemd160(&self, hash: &u32) -> Option<Vec<u8>> {
        self.entry(3, u64::from(*hash))
    }

    fn hash160(&self, hash: &u32) -> Option<Vec<u8>> {
        self.entry(3, u64::from(*hash))
    }
}

/// What was read from a script holds its bytes itself; it has no PkH, whose key no script tells.
pub struct Read;

macro_rules! read {
    ($key:ty) => {
        impl Bytes<$key> for Read {
            fn key(&self, key: &$key) -> Option<Vec<u8>> {
                Some(key.0.to_vec())
            }

            fn key_hash(&self, _: &$key) -> Option<Vec<u8>> {
                None
            }

            fn sha256(&self, hash: &sha256::Hash) -> Option<Vec<u8>> {
                Some(hash.0.to_vec())
            }

            fn hash256(&self, hash: &hash256::Hash) -> Option<Vec<u8>> {
                Some(hash.0.to_vec())
            }

            fn ripemd160(&self, hash: &ripemd160::Hash) -> Option<Vec<u8>> {
                Some(hash.0.to_vec())
            }

            fn hash160(&self, hash: &hash160::Hash) -> Option<Vec<u8>> {
                Some(hash.0.to_vec())
            }
        }
    };
}

read!(PublicKey);
read!(XOnlyPublicKey);
