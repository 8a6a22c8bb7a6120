//! Policies made for the bench: random ones of every kind and shape, and damaged copies that reach every refusal of the reader.

use crate::random::Random;
use crate::records::{meant, u16s, Writer};

/// A policy, before it is written as records.
#[derive(Clone, Debug)]
pub enum Policy {
    Unsatisfiable,
    Trivial,
    /// A leaf of kind 3 to 9, and its number.
    Leaf(u16, u32),
    /// A key in document 02's kind.
    LongKey(u64),
    And(Box<[Policy; 2]>),
    Or(Box<[Policy; 2]>, [u32; 2]),
    Thresh(usize, Vec<Policy>),
}

use Policy::{Leaf, LongKey, Thresh, Trivial, Unsatisfiable};

pub const KEY: u16 = 3;
pub const LONG_KEY: u16 = 19;
pub const AFTER: u16 = 4;
pub const OLDER: u16 = 5;
pub const SHA256: u16 = 6;
pub const HASH160: u16 = 9;

/// Weights at their ends, and some between.
const WEIGHTS: [u32; 9] = [1, 2, 4_294_967_294, 4_294_967_295, 1, 1, 3, 9, 99];

/// Locks on both sides of every size of a script number, of a height, and of an age.
pub const LOCKS: [u32; 17] = [
    1, 16, 17, 127, 128, 32_767, 32_768, 65_535, 4_194_303, 4_194_304, 8_388_607, 8_388_608, 499_999_999, 500_000_000, 500_000_001,
    2_147_483_646, 2_147_483_647,
];

pub fn key(n: u32) -> Policy {
    Leaf(KEY, n)
}

pub fn long_key(n: u64) -> Policy {
    LongKey(n)
}

pub fn and(x: Policy, y: Policy) -> Policy {
    Policy::And(Box::new([x, y]))
}

pub fn or(l: u32, x: Policy, r: u32, y: Policy) -> Policy {
    Policy::Or(Box::new([x, y]), [l, r])
}

pub fn thresh(k: usize, children: Vec<Policy>) -> Policy {
    Thresh(k, children)
}

impl Policy {
    fn children(&self) -> &[Policy] {
        match self {
            Unsatisfiable | Trivial | Leaf(..) | LongKey(_) => &[],
            Policy::And(children) | Policy::Or(children, _) => &children[..],
            Thresh(_, children) => children,
        }
    }

    fn records(&self) -> usize {
        1 + self.children().iter().map(Policy::records).sum::<usize>()
    }

    fn depth(&self) -> usize {
        1 + self.children().iter().map(Policy::depth).max().unwrap_or(0)
    }

    fn write(&self, out: &mut Writer, numbers: &[u16]) -> u16 {
        match self {
            Unsatisfiable => out.record(1, &[]),
            Trivial => out.record(2, &[]),
            Leaf(kind, number) => out.record(*kind, &number.to_le_bytes()),
            LongKey(number) => out.record(LONG_KEY, &number.to_le_bytes()),
            Policy::And(_) => out.record(10, &u16s(numbers)),
            Policy::Or(_, weights) => {
                let mut payload = u16s(numbers);
                payload.extend(weights.iter().flat_map(|w| w.to_le_bytes()));
                out.record(11, &payload)
            }
            Thresh(k, children) => {
                let mut payload = u16s(&[*k as u16, children.len() as u16]);
                payload.extend(u16s(numbers));
                out.record(12, &payload)
            }
        }
    }

    /// The records, children left to right before their parent.
    pub fn bytes(&self) -> Vec<u8> {
        fn visit(policy: &Policy, out: &mut Writer) -> u16 {
            let numbers: Vec<u16> = policy.children().iter().map(|c| visit(c, out)).collect();
            policy.write(out, &numbers)
        }
        let mut out = Writer::default();
        visit(self, &mut out);
        out.bytes
    }

    /// The records in a random order in which children come first.
    pub fn shuffled(&self, random: &mut Random) -> Vec<u8> {
        fn visit<'a>(policy: &'a Policy, list: &mut Vec<(&'a Policy, Vec<usize>)>) -> usize {
            let children = policy.children().iter().map(|c| visit(c, list)).collect();
            list.push((policy, children));
            list.len() - 1
        }
        let mut list = Vec::new();
        visit(self, &mut list);
        let mut numbers: Vec<Option<u16>> = vec![None; list.len()];
        let mut out = Writer::default();
        while out.records < list.len() {
            let ready: Vec<usize> =
                (0..list.len()).filter(|&i| numbers[i].is_none() && list[i].1.iter().all(|&c| numbers[c].is_some())).collect();
            let i = *random.pick(&ready);
            let children: Vec<u16> = list[i].1.iter().filter_map(|&c| numbers[c]).collect();
            numbers[i] = Some(list[i].0.write(&mut out, &children));
        }
        out.bytes
    }
}

/// A random policy of at most `records` records and depth at most 16.
pub struct Maker<'a> {
    pub random: &'a mut Random,
    /// Sub-policies made so far, to be met again.
    made: Vec<Policy>,
    /// One leaf in how many is no key.
    others: usize,
    /// Whether the policy is a chain, so that depth is reached.
    deep: bool,
    /// Whether one leaf in three is Unsatisfiable or Trivial, so that costs are infinite.
    barren: bool,
    /// Whether all weights are at their ends, so that probabilities are near 0 and near 1.
    extreme: bool,
    /// Whether keys are of both kinds.
    both_kinds: bool,
}

impl<'a> Maker<'a> {
    pub fn new(random: &'a mut Random) -> Self {
        Maker { both_kinds: true, ..Maker::old(random) }
    }

    /// A maker of policies whose keys are all of document 01's kind.
    pub fn old(random: &'a mut Random) -> Self {
        Maker { random, made: Vec::new(), others: 2, deep: false, barren: false, extreme: false, both_kinds: false }
    }

    fn number(&mut self) -> u32 {
        match self.random.below(8) {
            0 => *self.random.pick(&[0, 1, 255, 256, 65_535, 65_536, 4_294_967_294, 4_294_967_295]),
            _ => self.random.below(12) as u32,
        }
    }

    /// A key of either kind. Few numbers are met, so that one is met in both kinds, and so are numbers above 2^32 whose low half is one of them.
    fn key(&mut self) -> Policy {
        let number = self.number();
        if !self.both_kinds {
            return key(number);
        }
        let low = u64::from(number);
        match self.random.below(6) {
            0 | 1 => key(number),
            2 | 3 => long_key(low),
            4 => long_key(low | *self.random.pick(&[1 << 32, 1 << 32, 1 << 33, 1 << 63])),
            _ => long_key(*self.random.pick(&[1 << 32, (1 << 33) - 1, 1 << 63, u64::MAX - 1, u64::MAX])),
        }
    }

    fn weight(&mut self) -> u32 {
        if self.extreme {
            return *self.random.pick(&[1, 1, 2, 4_294_967_294, 4_294_967_295]);
        }
        match self.random.below(10) {
            0 => 1 + (self.random.next() % 4_294_967_295) as u32,
            _ => *self.random.pick(&WEIGHTS),
        }
    }

    fn lock(&mut self) -> u32 {
        match self.random.below(6) {
            0 => 1 + (self.random.next() % 2_147_483_647) as u32,
            _ => *self.random.pick(&LOCKS),
        }
    }

    fn leaf(&mut self) -> Policy {
        if self.barren && self.random.once_in(3) {
            return if self.random.once_in(3) { Trivial } else { Unsatisfiable };
        }
        if !self.random.once_in(self.others) {
            return self.key();
        }
        match self.random.below(12) {
            0 => Unsatisfiable,
            1 => Trivial,
            2..=4 => Leaf(AFTER, self.lock()),
            5..=7 => Leaf(OLDER, self.lock()),
            _ => Leaf(self.random.between(usize::from(SHA256), usize::from(HASH160)) as u16, self.number()),
        }
    }

    fn threshold_number(&mut self, n: usize) -> usize {
        match self.random.below(3) {
            0 => 1,
            1 => n,
            _ => self.random.between(1, n),
        }
    }

    /// `n` parts of `records`, none of them 0; `n` is at most `records`.
    fn parts(&mut self, records: usize, n: usize) -> Vec<usize> {
        let mut parts = vec![1; n];
        for _ in n..records {
            if !self.random.once_in(16) {
                let at = self.random.below(n);
                parts[at] += 1;
            }
        }
        parts
    }

    pub fn policy(&mut self, records: usize, depth: usize) -> Policy {
        let policy = self.shape(records, depth);
        self.made.push(policy.clone());
        policy
    }

    fn shape(&mut self, records: usize, depth: usize) -> Policy {
        if records >= 2 && self.random.once_in(6) {
            let near = |p: &&Policy| p.records() <= records && 2 * p.records() + 6 >= records && p.depth() <= depth;
            let fits: Vec<&Policy> = self.made.iter().filter(near).collect();
            if !fits.is_empty() {
                return (*self.random.pick(&fits)).clone();
            }
        }
        if records < 2 || depth < 2 || (records < 8 && self.random.once_in(12)) {
            return self.leaf();
        }
        match self.random.below(10) {
            0 if records <= 20 && !self.deep => self.all_keys(records),
            1 | 2 if !self.deep => {
                let n = self.random.between(1, 16.min(records - 1));
                let parts = self.parts(records - 1, n);
                let children = parts.iter().map(|&p| self.policy(p, depth - 1)).collect();
                Thresh(self.threshold_number(n), children)
            }
            _ if records < 3 => self.leaf(),
            shape => {
                let parts = if self.deep || self.random.once_in(3) { vec![1, records - 2] } else { self.parts(records - 1, 2) };
                let (x, y) = (self.policy(parts[0], depth - 1), self.policy(parts[1], depth - 1));
                let (x, y) = if self.random.once_in(2) { (x, y) } else { (y, x) };
                if shape < 7 {
                    and(x, y)
                } else {
                    or(self.weight(), x, self.weight(), y)
                }
            }
        }
    }

    fn all_keys(&mut self, records: usize) -> Policy {
        let n = self.random.between(1, 16.min(records - 1));
        let children = (0..n).map(|_| self.key()).collect();
        Thresh(self.threshold_number(n), children)
    }

    /// A threshold with any k of any n from 1 to 16 that the records have room for.
    fn threshold(&mut self, records: usize) -> Policy {
        let n = self.random.between(1, 16.min(records - 1));
        let parts = self.parts(records - 1, n);
        let children = parts.iter().map(|&p| self.policy(p, 15)).collect();
        Thresh(self.random.between(1, n), children)
    }

    /// A chain of Ors, each with a leaf on one side, above any policy; 3 records at least.
    fn alternatives(&mut self, records: usize) -> Policy {
        let depth = self.random.between(1, 15.min((records - 1) / 2));
        let inner = self.policy(records - 2 * depth, 16 - depth);
        (0..depth).fold(inner, |rest, _| {
            let (left, right) = (self.weight(), self.weight());
            let leaf = self.leaf();
            if self.random.once_in(2) {
                or(left, leaf, right, rest)
            } else {
                or(left, rest, right, leaf)
            }
        })
    }

    /// A context and the bytes of a policy at the edge: a threshold of any k and n, a chain of Ors, or any shape, with barren leaves, extreme
    /// weights, or both.
    fn edge_case(&mut self, records: usize) -> (u32, Vec<u8>) {
        self.others = *self.random.pick(&[1, 2, 4, 16, 64]);
        (self.barren, self.extreme) = *self.random.pick(&[(true, false), (false, true), (true, true)]);
        let records = self.random.between(1, records);
        let policy = match self.random.below(4) {
            0 | 1 if records >= 2 => self.threshold(records),
            2 if records >= 3 => self.alternatives(records),
            _ => self.policy(records, 16),
        };
        (self.random.below(2) as u32, policy.bytes())
    }

    /// A context and the bytes of a policy, one in three at the edge. `case` of an old maker alone makes those of the stored list.
    pub fn any_case(&mut self, records: usize) -> (u32, Vec<u8>) {
        if self.random.once_in(3) {
            self.edge_case(records)
        } else {
            self.case(records)
        }
    }

    /// A context and the bytes of a policy.
    pub fn case(&mut self, records: usize) -> (u32, Vec<u8>) {
        self.made.clear();
        self.others = *self.random.pick(&[1, 2, 4, 16, 64]);
        self.deep = self.random.once_in(8);
        let records = self.random.between(1, records);
        let policy = self.policy(records, 16);
        let bytes = if self.random.once_in(2) { policy.bytes() } else { policy.shuffled(self.random) };
        (self.random.below(2) as u32, bytes)
    }
}

/// Where the records of a well-formed policy begin, and their kinds.
fn places(bytes: &[u8]) -> Vec<(usize, u16)> {
    let mut places = Vec::new();
    let mut at = 0;
    while at + 4 <= bytes.len() {
        let length = usize::from(u16::from_le_bytes([bytes[at], bytes[at + 1]]));
        places.push((at, u16::from_le_bytes([bytes[at + 2], bytes[at + 3]])));
        at += length.max(4);
    }
    places
}

/// k and n of each threshold of a well-formed policy.
#[cfg(port)]
pub fn thresholds(bytes: &[u8]) -> Vec<(u8, u8)> {
    places(bytes).iter().filter(|place| place.1 == 12).map(|place| (bytes[place.0 + 4], bytes[place.0 + 6])).collect()
}

/// A copy with one key broken: its kind, its length, or both.
fn damaged_key(random: &mut Random, bytes: &[u8]) -> Vec<u8> {
    let keys: Vec<(usize, u16)> = places(bytes).into_iter().filter(|place| meant(usize::from(place.1)) == usize::from(KEY)).collect();
    let mut out = bytes.to_vec();
    if keys.is_empty() {
        return out;
    }
    let (at, kind) = *random.pick(&keys);
    let length = usize::from(bytes[at]);
    match random.below(4) {
        // The other kind at the same length.
        0 => out[at + 2] = (KEY + LONG_KEY - kind) as u8,
        // The other length at the same kind.
        1 => {
            let other = 20 - length;
            let payload: Vec<u8> = bytes[at + 4..at + length].iter().copied().chain([0; 4]).take(other - 4).collect();
            out.splice(at..at + length, [&[other as u8, 0, kind as u8, 0], &payload[..]].concat());
        }
        // A byte more or less.
        2 => {
            out[at] = length as u8 + 1;
            out.insert(at + length, random.next() as u8);
        }
        _ => {
            out[at] = length as u8 - 1;
            out.remove(at + length - 1);
        }
    }
    out
}

/// A damaged copy of a policy with keys of both kinds.
pub fn damaged_any(random: &mut Random, bytes: &[u8]) -> Vec<u8> {
    if random.once_in(5) {
        damaged_key(random, bytes)
    } else {
        damaged(random, bytes)
    }
}

/// A damaged copy: one thing is broken, of those that the policy has. It alone makes those of the stored list.
pub fn damaged(random: &mut Random, bytes: &[u8]) -> Vec<u8> {
    let places = places(bytes);
    let mut out = bytes.to_vec();
    let find = |random: &mut Random, kinds: &[u16]| -> Option<usize> {
        let found: Vec<usize> = places.iter().filter(|p| kinds.contains(&p.1)).map(|p| p.0).collect();
        (!found.is_empty()).then(|| *random.pick(&found))
    };
    let at = random.pick(&places).0;
    match random.below(16) {
        0 => out.truncate(random.below(bytes.len())),
        1 => out[at] = out[at].wrapping_add(*random.pick(&[1, 2, 4, 252, 254, 255])),
        2 => out[at + 1] = 1 + random.below(255) as u8,
        3 => out[at + 2] = *random.pick(&[0, 13, 19, 32, 33, 34, 56, 255]),
        4 => out[at + 3] = 1 + random.below(255) as u8,
        5 => {
            // A record longer than its kind has it.
            let length = out[at].wrapping_add(1);
            out[at] = length;
            out.insert(at + usize::from(length) - 1, 0);
        }
        6 => {
            if let Some(at) = find(random, &[AFTER, OLDER]) {
                let lock: u32 = *random.pick(&[0, 2_147_483_648, 4_294_967_295]);
                out[at + 4..at + 8].copy_from_slice(&lock.to_le_bytes());
            }
        }
        7 | 8 => {
            if let Some(at) = find(random, &[11]) {
                let side = 8 + 4 * random.below(2);
                out[at + side..at + side + 4].fill(0);
                if random.once_in(3) {
                    out[at + 8..at + 16].fill(0);
                }
            }
        }
        9 => {
            if let Some(at) = find(random, &[12]) {
                let n = out[at + 6];
                out[at + 4] = *random.pick(&[0, n.wrapping_add(1), 17, 255]);
            }
        }
        10 => {
            if let Some(at) = find(random, &[12]) {
                out[at + 6] = *random.pick(&[0, 17, out[at + 6].wrapping_add(1), out[at + 6].wrapping_sub(1)]);
            }
        }
        11 => {
            // A child taken twice, or one that is not smaller.
            if let Some(at) = find(random, &[10, 11]) {
                let own = places.iter().position(|p| p.0 == at).unwrap_or(0) as u16;
                let child = *random.pick(&[own, own + 1, 0, 65_535, u16::from(out[at + 4])]);
                out[at + 6..at + 8].copy_from_slice(&child.to_le_bytes());
            }
        }
        12 => {
            // A leaf that nothing takes.
            out = [&[8, 0, 3, 0, 7, 0, 0, 0], bytes].concat();
        }
        13 => {
            // Leaves and more leaves, to the 65th record and past it.
            for _ in 0..random.between(1, 66) {
                out.extend_from_slice(&[8, 0, 3, 0, 7, 0, 0, 0]);
            }
        }
        14 => out = chain(random.between(15, 19), random).bytes(),
        _ => {
            let at = random.below(out.len());
            out[at] ^= 1 << random.below(8);
        }
    }
    out
}

/// A policy of exactly this depth, an And above an And.
pub fn chain(depth: usize, random: &mut Random) -> Policy {
    let mut policy = key(random.below(12) as u32);
    for _ in 1..depth {
        let leaf = key(random.below(12) as u32);
        policy = if random.once_in(2) { and(leaf, policy) } else { and(policy, leaf) };
    }
    policy
}

/// A context, now and then one that there is not.
pub fn damaged_context(random: &mut Random, context: u32) -> u32 {
    if random.once_in(24) {
        *random.pick(&[2, 255, 256, 65_536, 4_294_967_295])
    } else {
        context
    }
}
