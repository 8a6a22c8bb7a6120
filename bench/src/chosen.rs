//! What a work memory holds between claspwillow_choose and claspwillow_write, by the bench's own reading of the form that docs/ENTRIES.md states.

use crate::random::Random;
use crate::records::{u16_at, u32_at, LOCK_MAX, THRESH_MAX, TREE_RECORDS};
use crate::trees::arity;

/// The words of work memory. Word 0 has the count of the tree's bytes, which follow from word 1 on, eight to a word, the low one first.
pub const WORK: usize = 612_360;
const TREE: usize = 1;

/// The memory that holds a tree, as its words that are not zero: where each stands, and what it is.
pub fn words(tree: &[u8]) -> Vec<(usize, u64)> {
    let word = |bytes: &[u8]| bytes.iter().rev().fold(0, |word, &byte| word << 8 | u64::from(byte));
    let count = [(0, tree.len() as u64)].into_iter();
    count.chain(tree.chunks(8).enumerate().map(|(i, bytes)| (TREE + i, word(bytes)))).collect()
}

/// The children of a record, if it is of the form and of a kind that compile writes.
fn children(kind: usize, payload: &[u8]) -> Option<Vec<usize>> {
    let list = |from: usize| payload[from..].chunks(2).map(|pair| u16_at(pair, 0)).collect::<Vec<_>>();
    let threshold = |width: usize| {
        let (k, n) = (payload.len() >= 4).then(|| (u16_at(payload, 0), u16_at(payload, 2)))?;
        (1 <= k && k <= n && n <= THRESH_MAX && payload.len() == 4 + width * n).then_some(())
    };
    let leaf = |right: bool| right.then(Vec::new);
    match kind {
        32 | 33 => leaf(payload.is_empty()),
        84 | 85 => leaf(payload.len() == 8),
        36 | 37 => leaf(payload.len() == 4 && (1..=LOCK_MAX).contains(&u32_at(payload, 0))),
        38..=41 => leaf(payload.len() == 4),
        42..=55 => (payload.len() == 2 * arity(kind as u16)).then(|| list(0)),
        56 => threshold(2).map(|()| list(4)),
        107 | 108 => threshold(8).map(|()| Vec::new()),
        _ => None,
    }
}

/// Whether bytes are records in post-order that write one tree.
fn is_written(bytes: &[u8]) -> bool {
    // The records that nothing has taken yet: each takes the last of them, in order.
    let mut roots: Vec<usize> = Vec::new();
    let (mut at, mut number) = (0, 0);
    while at < bytes.len() {
        let rest = &bytes[at..];
        if number == TREE_RECORDS || rest.len() < 4 || !(4..=rest.len()).contains(&u16_at(rest, 0)) {
            return false;
        }
        let length = u16_at(rest, 0);
        let Some(children) = children(u16_at(rest, 2), &rest[4..length]) else { return false };
        if !roots.ends_with(&children) {
            return false;
        }
        roots.truncate(roots.len() - children.len());
        roots.push(number);
        number += 1;
        at += length;
    }
    roots.len() == 1
}

/// The bytes that a work memory holds, if it holds a tree and nothing else.
pub fn held(memory: &[u64]) -> Option<Vec<u8>> {
    if memory.len() != WORK {
        return None;
    }
    let count = usize::try_from(memory[0]).ok().filter(|&count| count <= 8 * (WORK - TREE))?;
    let (tree, rest) = memory[TREE..].split_at(count.div_ceil(8));
    let mut bytes: Vec<u8> = tree.iter().flat_map(|word| word.to_le_bytes()).collect();
    let behind = bytes.split_off(count);
    let zeros = behind.iter().all(|&byte| byte == 0) && rest.iter().all(|&word| word == 0);
    (zeros && is_written(&bytes)).then_some(bytes)
}

/// Spoils a memory that holds so many bytes in one place: a bit, a byte or a word, most often of the count or of the tree, and else anywhere.
pub fn spoil(random: &mut Random, memory: &mut [u64], bytes: usize, what: usize) {
    let place = match random.below(8) {
        0 => 0,
        1 => TREE + bytes / 8 + random.below(2),
        2 => random.below(memory.len()),
        _ => TREE + random.below(bytes / 8 + 1),
    };
    let word = &mut memory[place];
    match what {
        0 => *word ^= 1 << random.below(64),
        1 => {
            let mut parts = word.to_le_bytes();
            parts[random.below(8)] = random.next() as u8;
            *word = u64::from_le_bytes(parts);
        }
        _ => *word = *random.pick(&[0, 1, 8, u64::MAX, word.wrapping_add(8), word.wrapping_sub(8)]),
    }
}
