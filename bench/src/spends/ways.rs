//! Random ways to satisfy and to dissatisfy a tree, with real elements, and a world in which their signatures are good and their hashes meet.
//!
//! The rows are BIP 379's satisfaction table; where needless ways are asked for, those that it brackets are among them.

use std::collections::{HashMap, HashSet};

use super::machine::{Element, Outcome, Outcomes, Question};
use crate::encode as op;
use crate::outline::Outline;
use crate::random::Random;

/// Fixed outcomes: a signature by key and signature, a digest by hash and input, a time check by word and number.
#[derive(Default)]
pub struct World {
    digests: HashMap<(u8, Element), Element>,
    good: HashSet<(Element, Element)>,
    /// The time checks that fail.
    pub late: HashSet<(u8, Element)>,
}

/// The bytes of a hash's digest.
fn digest_size(hash: u8) -> usize {
    match hash {
        op::SHA256 | op::HASH256 => 32,
        _ => 20,
    }
}

/// A digest for an input that nobody fixed: another one for another input, most often.
fn any_digest(hash: u8, of: &[u8]) -> Element {
    let seed = of.iter().fold(u64::from(hash), |sum, &byte| (sum ^ u64::from(byte)).wrapping_mul(0x0000_0100_0000_01B3));
    let mut random = Random::new(seed);
    (0..digest_size(hash)).map(|_| random.next() as u8).collect()
}

impl Outcomes for World {
    fn outcome(&mut self, question: Question) -> Option<Outcome> {
        let yes = |yes: bool| if yes { Outcome::Yes } else { Outcome::No };
        let good = |key: &[u8], signature: &[u8]| self.good.contains(&(key.to_vec(), signature.to_vec()));
        Some(match question {
            Question::Digest { hash, of } => {
                let fixed = self.digests.get(&(hash, of.to_vec())).cloned();
                Outcome::Digest(fixed.unwrap_or_else(|| any_digest(hash, of)))
            }
            Question::Signature { key, signature } => yes(good(key, signature)),
            Question::Signatures { keys, signatures } => {
                let mut keys = keys.iter();
                yes(signatures.iter().all(|signature| keys.any(|key| good(key, signature))))
            }
            Question::Time { word, number } => yes(!self.late.contains(&(word, number.to_vec()))),
        })
    }
}

/// A piece of a way; a row has its deepest one first.
#[derive(Clone, Copy)]
enum Piece {
    Sat(usize),
    Dissat(usize),
    Signature(usize),
    SignedKey,
    UnsignedKey,
    Preimage,
    NoPreimage,
    Empty,
    One,
}

use Piece::{Dissat as D, Empty, One, Sat as S};

type Row = Vec<Piece>;

/// Whether a fragment has a way to be satisfied and one to be dissatisfied, and its children's likewise.
struct Able {
    sat: bool,
    dissat: bool,
    children: Vec<Able>,
}

impl Able {
    fn has(&self, satisfied: bool) -> bool {
        if satisfied {
            self.sat
        } else {
            self.dissat
        }
    }

    /// Whether the children have what a row takes of them.
    fn serves(&self, row: &Row) -> bool {
        row.iter().all(|piece| match *piece {
            S(i) => self.children[i].sat,
            D(i) => self.children[i].dissat,
            _ => true,
        })
    }
}

/// How many children of a threshold are satisfied: from the least to the most that can be; none, where a child has no way at all.
fn counts(able: &Able) -> Option<(usize, usize)> {
    let only = |satisfied: bool| able.children.iter().filter(|child| child.has(satisfied) && !child.has(!satisfied)).count();
    let all = able.children.iter().all(|child| child.sat || child.dissat);
    all.then(|| (only(true), able.children.len() - only(false)))
}

/// The counts of satisfied children with which a threshold is satisfied, or dissatisfied.
fn fitting_counts(k: usize, able: &Able, satisfied: bool, needless: bool) -> Vec<usize> {
    let fits = |&count: &usize| if satisfied { count == k } else { count == 0 || needless && count != k };
    counts(able).map_or(vec![], |(least, most)| (least..=most).filter(fits).collect())
}

/// The rows of a fragment that is no threshold.
fn rows(tree: &Outline, satisfied: bool, needless: bool) -> Vec<Row> {
    let (mut list, more) = match (tree.kind, satisfied) {
        (32, true) | (33 | 36 | 37 | 46 | 53, false) => (vec![], vec![]),
        (32, false) | (33 | 36 | 37, true) => (vec![vec![]], vec![]),
        (34, true) => (vec![vec![Piece::Signature(0)]], vec![]),
        (35, true) => (vec![vec![Piece::SignedKey]], vec![]),
        (35, false) => (vec![vec![Piece::UnsignedKey]], vec![]),
        (38..=41, true) => (vec![vec![Piece::Preimage]], vec![]),
        (38..=41, false) => (vec![], vec![vec![Piece::NoPreimage]]),
        (42 | 43 | 44 | 46 | 48, true) | (47, true) => (vec![vec![S(0)]], vec![]),
        (42 | 43 | 44 | 48, false) => (vec![vec![D(0)]], vec![]),
        (45, true) => (vec![vec![S(0), One]], vec![]),
        (34 | 45, false) => (vec![vec![Empty]], vec![]),
        (47, false) => (vec![vec![Empty]], vec![vec![D(0)]]),
        (49 | 50, true) => (vec![vec![S(1), S(0)]], vec![]),
        (49, false) => (vec![vec![D(1), D(0)]], vec![vec![S(1), D(0)], vec![D(1), S(0)]]),
        (50, false) => (vec![], vec![vec![D(1), S(0)]]),
        (51, true) => (vec![vec![D(1), S(0)], vec![S(1), D(0)]], vec![vec![S(1), S(0)]]),
        (51 | 52, false) => (vec![vec![D(1), D(0)]], vec![]),
        (52 | 53, true) => (vec![vec![S(0)], vec![S(1), D(0)]], vec![]),
        (54, true) => (vec![vec![S(0), One], vec![S(1), Empty]], vec![]),
        (54, false) => (vec![vec![D(0), One], vec![D(1), Empty]], vec![]),
        (55, true) => (vec![vec![S(1), S(0)], vec![S(2), D(0)]], vec![]),
        (55, false) => (vec![vec![D(2), D(0)]], vec![vec![D(1), S(0)]]),
        (57, false) => (vec![vec![Empty; tree.number as usize + 1]], vec![]),
        (58, false) => (vec![vec![Empty; tree.pushes.len()]], vec![]),
        (kind, _) => unreachable!("{kind} has no rows of its own"),
    };
    if needless {
        list.extend(more);
    }
    list
}

fn able(tree: &Outline, needless: bool) -> Able {
    let children = tree.children.iter().map(|child| able(child, needless)).collect();
    let mut found = Able { sat: false, dissat: false, children };
    let has = |satisfied: bool| match (tree.kind, satisfied) {
        (56, _) => !fitting_counts(tree.number as usize, &found, satisfied, needless).is_empty(),
        (57 | 58, true) => true,
        _ => rows(tree, satisfied, needless).iter().any(|row| found.serves(row)),
    };
    (found.sat, found.dissat) = (has(true), has(false));
    found
}

/// So many of the numbers below n, in order.
fn some_of(random: &mut Random, count: usize, among: Vec<usize>) -> Vec<usize> {
    let mut left = among;
    let mut taken: Vec<usize> = (0..count).map(|_| left.swap_remove(random.below(left.len()))).collect();
    taken.sort_unstable();
    taken
}

/// Builds ways, and the world in which they are what they are meant to be.
pub struct Builder<'a> {
    pub random: &'a mut Random,
    pub world: World,
    pub context: u32,
    pub needless: bool,
}

impl Builder<'_> {
    fn bytes(&mut self, count: usize) -> Element {
        (0..count).map(|_| self.random.next() as u8).collect()
    }

    fn signature(&mut self, key: &[u8]) -> Element {
        let size = if self.context == 0 { self.random.between(70, 72) } else { self.random.between(64, 65) };
        let signature = self.bytes(size);
        self.world.good.insert((key.to_vec(), signature.clone()));
        signature
    }

    /// One of the rows that can be, for a fragment that has one.
    fn row(&mut self, tree: &Outline, able: &Able, satisfied: bool) -> Row {
        let (k, n) = (tree.number as usize, tree.pushes.len());
        match (tree.kind, satisfied) {
            (56, _) => {
                let count = *self.random.pick(&fitting_counts(k, able, satisfied, self.needless));
                let must: Vec<usize> = (0..able.children.len()).filter(|&i| !able.children[i].dissat).collect();
                let may = (0..able.children.len()).filter(|&i| able.children[i].sat && able.children[i].dissat).collect();
                let chosen = some_of(self.random, count - must.len(), may);
                let piece = |i: usize| if must.contains(&i) || chosen.contains(&i) { S(i) } else { D(i) };
                (0..able.children.len()).rev().map(piece).collect()
            }
            (57, true) => {
                let signed = some_of(self.random, k, (0..n).collect());
                [Empty].into_iter().chain(signed.into_iter().map(Piece::Signature)).collect()
            }
            (58, true) => {
                let signed = some_of(self.random, k, (0..n).collect());
                (0..n).rev().map(|i| if signed.contains(&i) { Piece::Signature(i) } else { Empty }).collect()
            }
            _ => {
                let fits: Vec<Row> = rows(tree, satisfied, self.needless).into_iter().filter(|row| able.serves(row)).collect();
                self.random.pick(&fits).clone()
            }
        }
    }

    /// Adds the elements of a piece, the deepest first.
    fn piece(&mut self, tree: &Outline, able: &Able, piece: Piece, out: &mut Vec<Element>) {
        match piece {
            S(i) => self.way(&tree.children[i], &able.children[i], true, out),
            D(i) => self.way(&tree.children[i], &able.children[i], false, out),
            Piece::Signature(i) => out.push(self.signature(&tree.pushes[i])),
            Piece::SignedKey | Piece::UnsignedKey => {
                let key = self.bytes(if self.context == 0 { 33 } else { 32 });
                self.world.digests.insert((op::HASH160, key.clone()), tree.pushes[0].clone());
                out.push(if matches!(piece, Piece::SignedKey) { self.signature(&key) } else { vec![] });
                out.push(key);
            }
            Piece::Preimage => {
                let hash = [op::SHA256, op::HASH256, op::RIPEMD160, op::HASH160][usize::from(tree.kind - 38)];
                let preimage = self.bytes(32);
                self.world.digests.insert((hash, preimage.clone()), tree.pushes[0].clone());
                out.push(preimage);
            }
            Piece::NoPreimage => out.push(self.bytes(32)),
            Empty => out.push(vec![]),
            One => out.push(vec![1]),
        }
    }

    fn way(&mut self, tree: &Outline, able: &Able, satisfied: bool, out: &mut Vec<Element>) {
        for piece in self.row(tree, able, satisfied) {
            self.piece(tree, able, piece, out);
        }
    }

    /// A way to satisfy or to dissatisfy a tree, its top element last; none, if there is none.
    pub fn any_way(&mut self, tree: &Outline, satisfied: bool) -> Option<Vec<Element>> {
        let able = able(tree, self.needless);
        let mut out = Vec::new();
        able.has(satisfied).then(|| self.way(tree, &able, satisfied, &mut out))?;
        Some(out)
    }
}
