//! Document 01's record form, with document 02's kinds for keys of 64 bits: policies read as they tell, fragment trees written, and records moved
//! from one kind of key to the other.

use crate::keys::Key;
use crate::miniscript::ScriptContext;
use crate::policy::Concrete;
use crate::random::Random;
use crate::sync::Arc;
use crate::{AbsLockTime, Miniscript, RelLockTime, Terminal, Threshold};

pub const BAD_POLICY: u32 = 3;
pub const ZERO_WEIGHT: u32 = 4;
pub const POLICY_TOO_LARGE: u32 = 5;
pub const OUTPUT_TOO_SMALL: u32 = 13;

const POLICY_RECORDS: usize = 64;
const POLICY_DEPTH: usize = 16;
pub const TREE_RECORDS: usize = 4_096;
pub const LOCK_MAX: u32 = 2_147_483_647;
pub const THRESH_MAX: usize = 16;

pub fn u16_at(bytes: &[u8], at: usize) -> usize {
    usize::from(u16::from_le_bytes([bytes[at], bytes[at + 1]]))
}

pub fn u32_at(bytes: &[u8], at: usize) -> u32 {
    u32::from_le_bytes([bytes[at], bytes[at + 1], bytes[at + 2], bytes[at + 3]])
}

/// The number of so many bytes, the low one first.
pub fn number_at(bytes: &[u8], at: usize, width: usize) -> u64 {
    bytes[at..at + width].iter().rev().fold(0, |number, &byte| number << 8 | u64::from(byte))
}

/// The kinds of records that hold keys: in a policy Key, in a tree PkK, PkH, Multi and MultiA. Each is written in two kinds, with numbers of 4 bytes
/// and of 8; the second kind is so much higher than the first.
const KEY_KINDS: [(usize, usize); 5] = [(3, 16), (34, 50), (35, 50), (57, 50), (58, 50)];

/// The kind, of those that document 01 has, that a written kind stands for.
pub fn meant(written: usize) -> usize {
    KEY_KINDS.iter().find(|(kind, more)| kind + more == written).map_or(written, |(kind, _)| *kind)
}

/// The bytes of a number in a record of this written kind.
pub fn width(written: usize) -> usize {
    if meant(written) == written {
        4
    } else {
        8
    }
}

/// The kind in which a record is written whose numbers have 8 bytes, if it holds keys.
pub fn long_kind(kind: usize) -> Option<usize> {
    KEY_KINDS.iter().find(|(short, _)| *short == kind).map(|(short, more)| short + more)
}

/// One record as it is written, of bytes that are of the form.
pub struct Record<'a> {
    pub kind: usize,
    pub payload: &'a [u8],
}

/// The records of bytes that are of the form.
pub fn records(bytes: &[u8]) -> Vec<Record<'_>> {
    let mut list = Vec::new();
    let mut at = 0;
    while at < bytes.len() {
        let length = u16_at(bytes, at);
        list.push(Record { kind: u16_at(bytes, at + 2), payload: &bytes[at + 4..at + length] });
        at += length;
    }
    list
}

impl Record<'_> {
    /// What stands before the keys, k and n of Multi and MultiA, and the keys; none, if the record holds no keys.
    pub fn keys(&self) -> Option<(&[u8], Vec<u64>)> {
        let kind = meant(self.kind);
        long_kind(kind)?;
        let (front, keys) = self.payload.split_at(if kind >= 57 { 4 } else { 0 });
        let size = width(self.kind);
        Some((front, (0..keys.len() / size).map(|i| number_at(keys, i * size, size)).collect()))
    }
}

/// The records with each that holds keys in the kind that `long` asks for, and all else as it is; none, if a key is too large for its kind.
pub fn in_kinds(bytes: &[u8], mut long: impl FnMut(&[u64]) -> bool) -> Option<Vec<u8>> {
    let mut out = Writer::default();
    for record in records(bytes) {
        let Some((front, keys)) = record.keys() else {
            out.record(record.kind as u16, record.payload);
            continue;
        };
        let kind = meant(record.kind);
        let mut payload = front.to_vec();
        if long(&keys) {
            payload.extend(keys.iter().flat_map(|key| key.to_le_bytes()));
            out.record(long_kind(kind)? as u16, &payload);
        } else {
            let short = keys.iter().map(|&key| u32::try_from(key).ok()).collect::<Option<Vec<u32>>>()?;
            payload.extend(short.iter().flat_map(|key| key.to_le_bytes()));
            out.record(kind as u16, &payload);
        }
    }
    Some(out.bytes)
}

/// The records with each that holds keys in either of its kinds, where they fit.
pub fn mixed(random: &mut Random, bytes: &[u8]) -> Vec<u8> {
    let large = |key: &u64| *key > u64::from(u32::MAX);
    in_kinds(bytes, |keys| keys.iter().any(large) || random.once_in(2)).expect("a key that is too large is written in 8 bytes")
}

/// The records with every key in the kinds of document 02.
pub fn in_new_kinds(bytes: &[u8]) -> Vec<u8> {
    in_kinds(bytes, |_| true).expect("8 bytes hold every key")
}

/// The records with every key in the kinds of document 01, if all of them fit.
pub fn in_old_kinds(bytes: &[u8]) -> Option<Vec<u8>> {
    in_kinds(bytes, |_| false)
}

/// The policy that the bytes write, or document 01's number of their refusal.
pub fn read_policy(bytes: &[u8]) -> Result<Arc<Concrete<Key>>, u32> {
    let mut read: Vec<Arc<Concrete<Key>>> = Vec::new();
    let mut depths: Vec<usize> = Vec::new();
    let mut taken: Vec<bool> = Vec::new();
    let mut at = 0;
    while at < bytes.len() {
        if read.len() == POLICY_RECORDS {
            return Err(POLICY_TOO_LARGE);
        }
        let rest = &bytes[at..];
        if rest.len() < 4 {
            return Err(BAD_POLICY);
        }
        let length = u16_at(rest, 0);
        if length < 4 || length > rest.len() {
            return Err(BAD_POLICY);
        }
        let (policy, depth) = read_record(u16_at(rest, 2), &rest[4..length], &read, &depths, &mut taken)?;
        read.push(policy);
        depths.push(depth);
        taken.push(false);
        at += length;
    }
    let Some(root) = read.pop() else { return Err(BAD_POLICY) };
    taken.pop();
    if taken.contains(&false) {
        return Err(BAD_POLICY);
    }
    if depths[depths.len() - 1] > POLICY_DEPTH {
        return Err(POLICY_TOO_LARGE);
    }
    Ok(root)
}

/// One record's policy and depth: kind, length for the kind, numbers, children, weights, in this order.
fn read_record(
    written: usize,
    payload: &[u8],
    read: &[Arc<Concrete<Key>>],
    depths: &[usize],
    taken: &mut [bool],
) -> Result<(Arc<Concrete<Key>>, usize), u32> {
    let form = |right: bool| if right { Ok(()) } else { Err(BAD_POLICY) };
    let mut depth = 1;
    let mut child = |at: usize| {
        let number = u16_at(payload, at);
        if number >= read.len() || taken[number] {
            return Err(BAD_POLICY);
        }
        taken[number] = true;
        depth = depth.max(1 + depths[number]);
        Ok(Arc::clone(&read[number]))
    };
    let kind = meant(written);
    let policy = match kind {
        1 | 2 => {
            form(payload.is_empty())?;
            if kind == 1 {
                Concrete::Unsatisfiable
            } else {
                Concrete::Trivial
            }
        }
        3 => {
            form(payload.len() == width(written))?;
            Concrete::Key(Key(number_at(payload, 0, width(written))))
        }
        4..=9 => {
            form(payload.len() == 4)?;
            let number = u32_at(payload, 0);
            match kind {
                4 | 5 => {
                    form((1..=LOCK_MAX).contains(&number))?;
                    if kind == 4 {
                        Concrete::After(AbsLockTime(number))
                    } else {
                        Concrete::Older(RelLockTime(number))
                    }
                }
                6 => Concrete::Sha256(number),
                7 => Concrete::Hash256(number),
                8 => Concrete::Ripemd160(number),
                _ => Concrete::Hash160(number),
            }
        }
        10 => {
            form(payload.len() == 4)?;
            Concrete::And(vec![child(0)?, child(2)?])
        }
        11 => {
            form(payload.len() == 12)?;
            let (left, right) = (child(0)?, child(2)?);
            let (l, r) = (u32_at(payload, 4), u32_at(payload, 8));
            if l == 0 || r == 0 {
                return Err(ZERO_WEIGHT);
            }
            Concrete::Or(vec![(l as usize, left), (r as usize, right)])
        }
        12 => {
            form(payload.len() >= 4)?;
            let (k, n) = (u16_at(payload, 0), u16_at(payload, 2));
            form(payload.len() == 4 + 2 * n)?;
            form(1 <= k && k <= n && n <= THRESH_MAX)?;
            let children = (0..n).map(|i| child(4 + 2 * i)).collect::<Result<Vec<_>, _>>()?;
            Concrete::Thresh(Threshold::new(k, children).map_err(|()| BAD_POLICY)?)
        }
        _ => return Err(BAD_POLICY),
    };
    Ok((Arc::new(policy), depth))
}

/// Records as they are written, one after another.
#[derive(Default)]
pub struct Writer {
    pub bytes: Vec<u8>,
    pub records: usize,
}

impl Writer {
    /// Writes a record and gives its number.
    pub fn record(&mut self, kind: u16, payload: &[u8]) -> u16 {
        let length = (payload.len() + 4) as u16;
        self.bytes.extend_from_slice(&length.to_le_bytes());
        self.bytes.extend_from_slice(&kind.to_le_bytes());
        self.bytes.extend_from_slice(payload);
        self.records += 1;
        (self.records - 1) as u16
    }
}

/// Numbers of two bytes each, low byte first.
pub fn u16s(numbers: &[u16]) -> Vec<u8> {
    numbers.iter().flat_map(|n| n.to_le_bytes()).collect()
}

/// The tree's records in post-order, or OutputTooSmall where they exceed the most that may be written.
pub fn write_tree<Ctx: ScriptContext>(tree: &Miniscript<Key, Ctx>) -> Result<Vec<u8>, u32> {
    let mut out = Writer::default();
    write_node(&mut out, &tree.node)?;
    Ok(out.bytes)
}

fn write_node<Ctx: ScriptContext>(out: &mut Writer, node: &Terminal<Key, Ctx>) -> Result<u16, u32> {
    let mut children = |list: &[&Arc<Miniscript<Key, Ctx>>]| -> Result<Vec<u8>, u32> {
        Ok(u16s(&list.iter().map(|c| write_node(out, &c.node)).collect::<Result<Vec<_>, _>>()?))
    };
    let keys = |k: usize, list: &[Key]| -> Vec<u8> {
        let mut payload = u16s(&[k as u16, list.len() as u16]);
        payload.extend(list.iter().flat_map(|key| key.0.to_le_bytes()));
        payload
    };
    let (kind, payload) = match node {
        Terminal::False => (32, vec![]),
        Terminal::True => (33, vec![]),
        Terminal::PkK(key) => (84, key.0.to_le_bytes().to_vec()),
        Terminal::PkH(key) => (85, key.0.to_le_bytes().to_vec()),
        Terminal::RawPkH(_) => unreachable!("the compiler makes no raw key hash"),
        Terminal::After(lock) => (36, lock.0.to_le_bytes().to_vec()),
        Terminal::Older(lock) => (37, lock.0.to_le_bytes().to_vec()),
        Terminal::Sha256(hash) => (38, hash.to_le_bytes().to_vec()),
        Terminal::Hash256(hash) => (39, hash.to_le_bytes().to_vec()),
        Terminal::Ripemd160(hash) => (40, hash.to_le_bytes().to_vec()),
        Terminal::Hash160(hash) => (41, hash.to_le_bytes().to_vec()),
        Terminal::Alt(x) => (42, children(&[x])?),
        Terminal::Swap(x) => (43, children(&[x])?),
        Terminal::Check(x) => (44, children(&[x])?),
        Terminal::DupIf(x) => (45, children(&[x])?),
        Terminal::Verify(x) => (46, children(&[x])?),
        Terminal::NonZero(x) => (47, children(&[x])?),
        Terminal::ZeroNotEqual(x) => (48, children(&[x])?),
        Terminal::AndB(x, y) => (49, children(&[x, y])?),
        Terminal::AndV(x, y) => (50, children(&[x, y])?),
        Terminal::OrB(x, y) => (51, children(&[x, y])?),
        Terminal::OrD(x, y) => (52, children(&[x, y])?),
        Terminal::OrC(x, y) => (53, children(&[x, y])?),
        Terminal::OrI(x, y) => (54, children(&[x, y])?),
        Terminal::AndOr(x, y, z) => (55, children(&[x, y, z])?),
        Terminal::Thresh(t) => {
            let mut payload = u16s(&[t.k() as u16, t.n() as u16]);
            payload.extend(children(&t.iter().collect::<Vec<_>>())?);
            (56, payload)
        }
        Terminal::Multi(t) => (107, keys(t.k(), t.data())),
        Terminal::MultiA(t) => (108, keys(t.k(), t.data())),
    };
    if out.records == TREE_RECORDS {
        return Err(OUTPUT_TOO_SMALL);
    }
    Ok(out.record(kind, &payload))
}

/// Bytes in hexadecimal, `-` where there are none.
pub fn to_hex(bytes: &[u8]) -> String {
    if bytes.is_empty() {
        return "-".to_string();
    }
    bytes.iter().map(|b| format!("{b:02X}")).collect()
}

/// The bytes that a word of hexadecimal digits writes.
pub fn from_hex(word: &str) -> Option<Vec<u8>> {
    if word == "-" {
        return Some(vec![]);
    }
    let digits = word.chars().map(|c| c.to_digit(16)).collect::<Option<Vec<_>>>()?;
    if digits.is_empty() || digits.len() % 2 != 0 {
        return None;
    }
    Some(digits.chunks(2).map(|pair| (pair[0] * 16 + pair[1]) as u8).collect())
}
