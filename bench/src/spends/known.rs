//! Spends whose verdict was worked out by hand from document 01 and document 02, and the example log of the program `spends`.

use super::log::{judge, replay, Entry, Log, Verdict, WORK};
use super::machine::{self, Element, Outcome};
use crate::outline::Tables;
use crate::random::Random;
use crate::records::{u16s, Writer};

use Outcome::{No, Yes};
use Verdict::{Agrees, Differs, Mismatched, TooLarge};

/// A tree by kind and payload, a record each.
fn tree(list: &[(u16, Vec<u8>)]) -> Vec<u8> {
    let mut out = Writer::default();
    for (kind, payload) in list {
        out.record(*kind, payload);
    }
    out.bytes
}

fn number(n: u32) -> Vec<u8> {
    n.to_le_bytes().to_vec()
}

/// k of the keys 0, 1, ..
fn keys(k: u16, n: u16) -> Vec<u8> {
    u16s(&[k, n]).into_iter().chain((0..u32::from(n)).flat_map(u32::to_le_bytes)).collect()
}

/// Eight keys, key hashes and hashes of each size: every byte of entry i is i, 0x10 + i, 0x20 + i, 0x30 + i.
fn tables(context: u32) -> Tables {
    let sizes = crate::outline::sizes(context);
    [0u8, 1, 2, 3].map(|table| (0..8).flat_map(|i| vec![0x10 * table + i; sizes[usize::from(table)]]).collect())
}

fn digest(byte: u8, size: usize) -> Outcome {
    Outcome::Digest(vec![byte; size])
}

fn entry(start: &[&[u8]], outcomes: &[Outcome], end: Option<&[&[u8]]>) -> Entry {
    let stack = |list: &[&[u8]]| -> Vec<Element> { list.iter().map(|element| element.to_vec()).collect() };
    Entry { number: 0, start: stack(start), outcomes: outcomes.to_vec(), end: end.map(stack) }
}

/// Entries of one tree with their verdicts.
struct Known {
    context: u32,
    tree: Vec<u8>,
    entries: Vec<(Entry, Verdict)>,
}

fn known() -> Vec<Known> {
    const T: &[u8] = &[1];
    const F: &[u8] = &[];
    const SIG: &[u8] = &[0x30; 71];
    let pk = tree(&[(34, number(2)), (44, u16s(&[0]))]);
    let pkh = tree(&[(35, number(2)), (44, u16s(&[0]))]);
    let sha = tree(&[(38, number(3))]);
    let older = tree(&[(37, number(144))]);
    let multi = tree(&[(57, keys(2, 3))]);
    let multi_a = tree(&[(58, keys(2, 3))]);
    let dup_if = tree(&[(33, vec![]), (46, u16s(&[0])), (45, u16s(&[1])), (48, u16s(&[2]))]);
    let or_i = tree(&[(33, vec![]), (32, vec![]), (54, u16s(&[0, 1]))]);
    let non_zero = tree(&[(34, number(2)), (44, u16s(&[0])), (47, u16s(&[1]))]);
    let verify_false = tree(&[(32, vec![]), (46, u16s(&[0]))]);
    let swap = tree(&[(33, vec![]), (34, number(2)), (44, u16s(&[1])), (43, u16s(&[2])), (49, u16s(&[0, 3]))]);
    let thresh = tree(&[
        (34, number(0)), (44, u16s(&[0])), (34, number(1)), (44, u16s(&[2])), (43, u16s(&[3])), (56, u16s(&[1, 2, 1, 4])),
    ]);
    let key = [2u8; 33];
    let full = vec![F; 4_096];
    let over = vec![F; 4_097];
    let but_one = &full[1..];
    let with = |below: &[&'static [u8]], top: &'static [u8]| -> Vec<&'static [u8]> { below.iter().copied().chain([top]).collect() };
    let wide: &[u8] = &[7; 521];
    let least: &[u8] = &[7; 520];
    vec![
        Known { context: 0, tree: pk.clone(), entries: vec![
            (entry(&[SIG], &[Yes], Some(&[T])), Agrees),
            (entry(&[SIG], &[No], Some(&[F])), Agrees),
            (entry(&[F], &[Yes], Some(&[T])), Agrees),
            (entry(&[SIG], &[No], Some(&[T])), Differs),
            (entry(&[SIG], &[Yes], Some(&[&[1, 0]])), Differs),
            (entry(&[SIG], &[Yes], Some(&[F, T])), Differs),
            (entry(&[SIG], &[Yes], None), Differs),
            (entry(&[], &[], None), Agrees),
            (entry(&[], &[], Some(&[])), Differs),
            (entry(&[], &[Yes], None), Mismatched),
            (entry(&[SIG], &[], Some(&[T])), Mismatched),
            (entry(&[SIG], &[Yes, Yes], Some(&[T])), Mismatched),
            (entry(&[SIG], &[digest(1, 1)], Some(&[T])), Mismatched),
            (entry(&[least, SIG], &[Yes], Some(&[least, T])), Agrees),
            (entry(&[wide, SIG], &[Yes], Some(&[wide, T])), TooLarge),
            (entry(&[SIG], &[Yes], Some(&[wide])), TooLarge),
            (entry(&[SIG], &[Yes, digest(1, 521)], Some(&[T])), TooLarge),
            (entry(&[SIG], &[Yes, digest(1, 520)], Some(&[T])), Mismatched),
            // The key is the 4,097th element.
            (entry(&with(but_one, SIG), &[Yes], Some(&with(but_one, T))), TooLarge),
            (entry(&with(&full[2..], SIG), &[Yes], Some(&with(&full[2..], T))), Agrees),
            (entry(&over, &[], None), TooLarge),
            (entry(&[SIG], &[Yes], Some(&over)), TooLarge),
            (entry(&[SIG], &[Yes], Some(&full)), Differs),
        ]},
        Known { context: 0, tree: pkh, entries: vec![
            (entry(&[SIG, &key], &[digest(0x12, 20), Yes], Some(&[T])), Agrees),
            (entry(&[SIG, &key], &[digest(0x13, 20)], None), Agrees),
            (entry(&[SIG, &key], &[digest(0x13, 20), Yes], None), Mismatched),
            (entry(&[SIG, &key], &[Yes, digest(0x12, 20)], None), Mismatched),
            (entry(&[], &[], None), Agrees),
            (entry(&[&key], &[digest(0x12, 20)], None), Agrees),
        ]},
        Known { context: 1, tree: sha, entries: vec![
            (entry(&[&[5; 32]], &[digest(0x23, 32)], Some(&[T])), Agrees),
            (entry(&[&[5; 32]], &[digest(0x23, 31)], Some(&[F])), Agrees),
            (entry(&[&[5; 31]], &[], None), Agrees),
            (entry(&[&[5; 31]], &[digest(0x23, 32)], None), Mismatched),
            (entry(&[&[5; 32]], &[No], Some(&[F])), Mismatched),
        ]},
        Known { context: 0, tree: older, entries: vec![
            (entry(&[], &[Yes], Some(&[&[0x90, 0]])), Agrees),
            (entry(&[], &[No], None), Agrees),
            (entry(&[], &[No], Some(&[&[0x90, 0]])), Differs),
            (entry(&[], &[], None), Mismatched),
        ]},
        Known { context: 0, tree: multi, entries: vec![
            (entry(&[F, SIG, SIG], &[Yes], Some(&[T])), Agrees),
            (entry(&[F, F, F], &[No], Some(&[F])), Agrees),
            (entry(&[T, SIG, SIG], &[], None), Agrees),
            (entry(&[T, SIG, SIG], &[Yes], None), Mismatched),
            (entry(&[SIG, SIG], &[], None), Agrees),
            (entry(&[F, SIG, SIG], &[Yes, Yes], Some(&[T])), Mismatched),
        ]},
        Known { context: 1, tree: multi_a, entries: vec![
            (entry(&[SIG, F, SIG], &[Yes, No, Yes], Some(&[T])), Agrees),
            (entry(&[SIG, SIG, SIG], &[Yes, Yes, Yes], Some(&[F])), Agrees),
            (entry(&[SIG, SIG], &[Yes, Yes], None), Agrees),
            (entry(&[SIG, F, SIG], &[Yes, Yes], Some(&[T])), Mismatched),
        ]},
        Known { context: 0, tree: dup_if.clone(), entries: vec![
            (entry(&[&[0x80]], &[], Some(&[F])), Agrees),
            (entry(&[&[0, 0, 0, 0]], &[], Some(&[F])), Agrees),
            (entry(&[&[0, 0, 0, 0x80]], &[], Some(&[F])), Agrees),
            (entry(&[&[0, 0, 0, 0, 0]], &[], None), Agrees),
            (entry(&[&[5, 0, 0, 0x80]], &[], Some(&[T])), Agrees),
            (entry(&[&[5, 0, 0, 0, 0x80]], &[], None), Agrees),
        ]},
        Known { context: 1, tree: dup_if, entries: vec![
            (entry(&[F], &[], Some(&[F])), Agrees),
            (entry(&[T], &[], Some(&[T])), Agrees),
            (entry(&[&[0x80]], &[], None), Agrees),
            (entry(&[&[2]], &[], None), Agrees),
            (entry(&[&[1, 0]], &[], None), Agrees),
        ]},
        Known { context: 0, tree: or_i.clone(), entries: vec![
            (entry(&[&[2]], &[], Some(&[T])), Agrees),
            (entry(&[&[0, 0x80]], &[], Some(&[F])), Agrees),
            (entry(&[], &[], None), Agrees),
            (entry(&full, &[], Some(&full)), Agrees),
        ]},
        Known { context: 1, tree: or_i, entries: vec![
            (entry(&[T], &[], Some(&[T])), Agrees),
            (entry(&[&[0]], &[], None), Agrees),
        ]},
        Known { context: 1, tree: non_zero, entries: vec![
            (entry(&[F], &[], Some(&[F])), Agrees),
            (entry(&[SIG], &[Yes], Some(&[T])), Agrees),
            (entry(&[SIG], &[No], Some(&[F])), Agrees),
            (entry(&[F], &[No], Some(&[F])), Mismatched),
        ]},
        Known { context: 0, tree: verify_false, entries: vec![
            (entry(&[], &[], None), Agrees),
            (entry(&[], &[], Some(&[])), Differs),
        ]},
        Known { context: 0, tree: swap, entries: vec![
            (entry(&[SIG], &[Yes], Some(&[T])), Agrees),
            (entry(&[], &[], None), Agrees),
        ]},
        Known { context: 0, tree: thresh, entries: vec![
            (entry(&[F, SIG], &[Yes, No], Some(&[T])), Agrees),
            (entry(&[SIG, SIG], &[Yes, Yes], Some(&[F])), Agrees),
            (entry(&[SIG], &[Yes], None), Agrees),
        ]},
    ]
}

/// How many of the spends there are, or what the interpreter says of one that it does not judge so.
pub fn judged() -> Result<usize, String> {
    let mut count = 0;
    for Known { context, tree, entries } in known() {
        let log = Log { context, tree, tables: tables(context), entries: entries.iter().map(|(entry, _)| entry.clone()).collect() };
        let read = Log::read(&log.bytes()).ok_or("a log of known spends is broken")?;
        let words = machine::words(&read.outline().map_err(|number| format!("a log of known spends is refused with {number}"))?);
        for (given, (wanted, verdict)) in read.entries.iter().zip(&entries) {
            let reason = judge(context, &words, given);
            if given != wanted || reason.verdict() != *verdict {
                return Err(format!("context {context}, tree {:02x?}, {wanted:02x?}: {verdict:?} was worked out, the bench says {reason:?}", log.tree));
            }
            count += 1;
        }
    }
    Ok(count)
}

/// The example: or_d(c:pk_k(0),and_v(v:c:pk_h(1),and_v(v:sha256(0),older(144)))) in Tapscript, spent by key and by preimage.
pub fn example() -> Log {
    let context = 1;
    let tree = tree(&[
        (34, number(0)), (44, u16s(&[0])), (35, number(1)), (44, u16s(&[2])), (46, u16s(&[3])), (38, number(0)), (46, u16s(&[5])),
        (37, number(144)), (50, u16s(&[6, 7])), (50, u16s(&[4, 8])), (52, u16s(&[1, 9])),
    ]);
    let mut random = Random::new(6);
    let mut bytes = |count: usize| -> Vec<u8> { (0..count).map(|_| random.next() as u8).collect() };
    let tables = [bytes(2 * 32), bytes(2 * 20), bytes(32), vec![]];
    let (signature, other, key, preimage) = (bytes(64), bytes(64), tables[0][32..].to_vec(), bytes(32));
    let key_hash = || Outcome::Digest(tables[1][20..].to_vec());
    let hash = || Outcome::Digest(tables[2].clone());
    let by_preimage = [&preimage, &other, &key, &vec![]].map(|element| element.clone()).to_vec();
    let number = |number, start: Vec<Element>, outcomes: Vec<Outcome>, end| Entry { number, start, outcomes, end };
    let lock = || Some(vec![vec![0x90, 0]]);
    let entries = vec![
        number(101, vec![signature.clone()], vec![Yes], Some(vec![vec![1]])),
        number(102, by_preimage.clone(), vec![No, key_hash(), Yes, hash(), Yes], lock()),
        number(103, by_preimage.clone(), vec![No, key_hash(), Yes, hash(), No], None),
        number(104, by_preimage.clone(), vec![No, key_hash(), No], lock()),
        number(105, by_preimage.clone(), vec![No, key_hash(), Yes, hash()], lock()),
        number(106, by_preimage, vec![No, key_hash(), Yes, Yes, Yes], lock()),
        number(107, vec![signature.clone(), vec![0; 521]], vec![Yes], Some(vec![signature.clone(), vec![1]])),
        number(101, vec![signature], vec![Yes], Some(vec![vec![]])),
        number(108, vec![], vec![], None),
    ];
    Log { context, tree, tables, entries }
}

/// The bytes of the example, in which the interpreter finds each verdict where it was meant to be.
pub fn example_bytes() -> Result<Vec<u8>, String> {
    judged()?;
    let bytes = example().bytes();
    let (_, found) = replay(&bytes, WORK, bytes.len()).map_err(|number| format!("the example is refused with {number}"))?;
    let verdicts: Vec<Verdict> = found.iter().map(|(_, reason)| reason.verdict()).collect();
    if verdicts != [Agrees, Agrees, Agrees, Differs, Mismatched, Mismatched, TooLarge, Differs, Agrees] {
        return Err(format!("the verdicts on the example are {verdicts:?}"));
    }
    Ok(bytes)
}
