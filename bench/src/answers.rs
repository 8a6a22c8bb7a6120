//! The stored list of answers: a fixed list of cases under headings that say what each part is there for.
//!
//! Each heading states something of its cases that is checked as the list is made, so a part can't silently stop showing what it says.

use std::io::{self, BufRead, Write};

use crate::oracle::{answer, Answer};
use crate::policies::{and, chain, damaged, damaged_context, key, long_key, or, thresh, Maker, Policy, AFTER, HASH160, KEY, LOCKS, LONG_KEY, OLDER, SHA256};
use crate::random::Random;
use crate::records::{from_hex, in_old_kinds, meant, records as read_records, to_hex, u16s, Writer};
use crate::room::{self, Counts};

/// The list as it is stored.
pub const STORED: &str = include_str!("../../crates/oracle_replay/data/compile.txt");

/// How the headings of document 02's keys begin.
const LONG_KEYS: &str = "keys of 64 bits";

type Case = (u32, Vec<u8>);
type Test = fn(&Answer, &Counts) -> bool;

fn any(_: &Answer, _: &Counts) -> bool {
    true
}

/// A test that the answer has this number.
macro_rules! refused_with {
    ($number:literal) => {
        |answer: &Answer, _: &Counts| answer.number == $number
    };
}

fn leaf(kind: u16, number: u32) -> Policy {
    Policy::Leaf(kind, number)
}

/// The bytes in both contexts.
fn both(list: Vec<Vec<u8>>) -> Vec<Case> {
    list.into_iter().flat_map(|bytes| [(0, bytes.clone()), (1, bytes)]).collect()
}

/// The policies in both contexts.
fn policies(list: Vec<Policy>) -> Vec<Case> {
    both(list.iter().map(Policy::bytes).collect())
}

/// Records given by kind and payload.
fn records(list: &[(u16, Vec<u8>)]) -> Vec<u8> {
    let mut out = Writer::default();
    for (kind, payload) in list {
        out.record(*kind, payload);
    }
    out.bytes
}

fn key_record() -> (u16, Vec<u8>) {
    (3, vec![7, 0, 0, 0])
}

fn or_payload(children: [u16; 2], weights: [u32; 2]) -> Vec<u8> {
    [u16s(&children), weights.iter().flat_map(|w| w.to_le_bytes()).collect()].concat()
}

fn thresh_payload(k: u16, n: u16, children: &[u16]) -> Vec<u8> {
    [u16s(&[k, n]), u16s(children)].concat()
}

const MAX: u32 = 4_294_967_295;

fn every_kind() -> Vec<Policy> {
    let mut leaves = vec![Policy::Unsatisfiable, Policy::Trivial, key(7), key(0), key(MAX), leaf(AFTER, 100), leaf(OLDER, 100)];
    leaves.extend((SHA256..=HASH160).map(|kind| leaf(kind, 5)));
    let mut list = leaves.clone();
    for x in &leaves {
        list.push(and(key(1), x.clone()));
        list.push(and(x.clone(), key(1)));
        list.push(or(1, key(1), 1, x.clone()));
        list.push(or(3, x.clone(), 1, and(key(1), key(2))));
        list.push(thresh(1, vec![x.clone()]));
        list.push(thresh(2, vec![key(1), key(2), x.clone()]));
        list.push(thresh(2, vec![key(1), x.clone()]));
    }
    for lock in LOCKS {
        list.push(and(key(1), leaf(AFTER, lock)));
        list.push(or(1, key(1), 9, and(key(2), leaf(OLDER, lock))));
    }
    for n in 1..=16 {
        for k in [1, (n + 1) / 2, n] {
            list.push(thresh(k, (0..n as u32).map(key).collect()));
        }
    }
    list
}

fn boundaries() -> Vec<Vec<u8>> {
    let mut random = Random::new(16);
    let keys = |n: u16| -> Vec<(u16, Vec<u8>)> { (0..n).map(|_| key_record()).collect() };
    let thresh_of = |n: u16| records(&[keys(n), vec![(12, thresh_payload(1, n, &(0..n).collect::<Vec<_>>()))]].concat());
    let lock = |kind: u16, lock: u32| and(key(1), leaf(kind, lock)).bytes();
    let mut list = vec![
        chain(16, &mut random).bytes(),
        chain(17, &mut random).bytes(),
        or(MAX, key(1), MAX, key(2)).bytes(),
        or(MAX - 1, key(1), 1, key(2)).bytes(),
        or(0, key(1), 1, key(2)).bytes(),
        or(1, key(1), 0, key(2)).bytes(),
        thresh_of(16),
        thresh_of(17),
    ];
    for kind in [AFTER, OLDER] {
        list.extend([0, 1, 2_147_483_647, 2_147_483_648, MAX].map(|n| lock(kind, n)));
    }
    list
}

fn bad_policies() -> Vec<Vec<u8>> {
    let two = || vec![key_record(), key_record()];
    let with = |last: (u16, Vec<u8>)| records(&[two(), vec![last]].concat());
    let whole = key(7).bytes();
    vec![
        vec![],
        whole[..1].to_vec(),
        whole[..3].to_vec(),
        whole[..7].to_vec(),
        [&whole[..], &[0]].concat(),
        vec![0, 0, 3, 0],
        vec![3, 0, 2, 0],
        vec![4, 0, 0, 0],
        vec![4, 0, 13, 0],
        vec![4, 0, 1, 1],
        vec![4, 0, 33, 0],
        records(&[(1, vec![0])]),
        records(&[(3, vec![7, 0, 0])]),
        records(&[(3, vec![7, 0, 0, 0, 0])]),
        with((10, u16s(&[0]))),
        with((10, u16s(&[0, 1, 1]))),
        with((10, u16s(&[0, 0]))),
        with((10, u16s(&[0, 2]))),
        with((10, u16s(&[3, 0]))),
        with((11, u16s(&[0, 1]))),
        with((12, u16s(&[1]))),
        with((12, thresh_payload(0, 2, &[0, 1]))),
        with((12, thresh_payload(3, 2, &[0, 1]))),
        with((12, thresh_payload(1, 3, &[0, 1]))),
        with((12, thresh_payload(1, 1, &[0, 1]))),
        with((12, thresh_payload(1, 2, &[1, 1]))),
        with((12, thresh_payload(0, 0, &[]))),
        with((12, thresh_payload(1, 1, &[0]))),
        records(&two()),
        // A child that is taken twice comes before a weight of 0, and a record that nothing takes before depth.
        with((11, or_payload([1, 1], [0, 1]))),
        [records(&[key_record()]), shifted(&chain(17, &mut Random::new(17)))].concat(),
    ]
}

/// The policy's records, to stand behind one other record.
fn shifted(policy: &Policy) -> Vec<u8> {
    let bytes = policy.bytes();
    let mut out = bytes.clone();
    let mut at = 0;
    while at < bytes.len() {
        if bytes[at + 2] == 10 {
            for child in [at + 4, at + 6] {
                out[child] += 1;
            }
        }
        at += usize::from(bytes[at]);
    }
    out
}

fn zero_weights() -> Vec<Vec<u8>> {
    let or_of = |weights: [u32; 2]| (11, or_payload([0, 1], weights));
    let with = |weights| records(&[key_record(), key_record(), or_of(weights)]);
    vec![
        with([0, 1]),
        with([1, 0]),
        with([0, 0]),
        // The record with the weight comes before a broken one.
        [with([0, MAX]), vec![9, 9]].concat(),
    ]
}

fn too_large() -> Vec<Vec<u8>> {
    let leaves = |n: usize| records(&vec![key_record(); n]);
    vec![
        leaves(65),
        // A 65th record begins with its first byte, whatever follows.
        [leaves(64), vec![0]].concat(),
        chain(17, &mut Random::new(1)).bytes(),
        chain(32, &mut Random::new(2)).bytes(),
    ]
}

/// Or above Or to the right, each with a key, or with an And of two keys, on its left.
fn or_chain(depth: u32, ands: bool) -> Policy {
    (1..depth).fold(key(0), |rest, i| {
        let left = if ands && i % 2 == 1 { and(key(i), key(100 + i)) } else { key(i) };
        or(1, left, 1, rest)
    })
}

/// A balanced tree of Ors over `n` keys.
fn or_tree(low: u32, n: u32) -> Policy {
    match n {
        1 => key(low),
        _ => or(low + 1, or_tree(low, n / 2), 2, or_tree(low + n / 2, n - n / 2)),
    }
}

/// `n` Ands over keys, as a tree.
fn and_tree(low: u32, n: u32) -> Policy {
    match n {
        1 => key(low),
        _ => and(and_tree(low, n / 2), and_tree(low + n / 2, n - n / 2)),
    }
}

/// Policies of 32 and of 64 records, of thresholds over keys.
fn wide() -> [Policy; 2] {
    let keys = |k: usize, low: u32, n: u32| thresh(k, (low..low + n).map(key).collect());
    [
        and(keys(2, 0, 16), keys(1, 16, 13)),
        and(keys(3, 0, 16), or(1, keys(2, 16, 16), 3, or(2, keys(15, 32, 16), 1, keys(9, 48, 9)))),
    ]
}

/// In SegWit v0 nothing that can't be satisfied is valid; in both, a choice between two hashes or locks is malleable.
fn hopeless() -> Vec<Case> {
    let unsatisfiable =
        [Policy::Unsatisfiable, and(key(1), Policy::Unsatisfiable), and(Policy::Unsatisfiable, Policy::Unsatisfiable)];
    let malleable = vec![
        or(1, leaf(SHA256, 1), 1, leaf(SHA256, 2)),
        thresh(1, vec![leaf(AFTER, 1), leaf(AFTER, 2)]),
        thresh(2, vec![leaf(SHA256, 1), leaf(SHA256, 2), leaf(AFTER, 3)]),
    ];
    unsatisfiable.iter().map(|policy| (0, policy.bytes())).chain(policies(malleable)).collect()
}

fn unsafe_roots() -> Vec<Policy> {
    vec![
        Policy::Trivial,
        leaf(AFTER, 1),
        leaf(OLDER, 144),
        leaf(SHA256, 1),
        and(leaf(SHA256, 1), leaf(AFTER, 9)),
        or(1, key(1), 1, leaf(SHA256, 1)),
        or(9, key(1), 1, leaf(OLDER, 144)),
    ]
}

/// Tapscript's roots that no witness satisfies: two parts that can't be satisfied cost more than the largest f64.
fn nevers() -> Vec<Case> {
    let no = || Policy::Unsatisfiable;
    let list = [
        and(no(), no()),
        and(no(), and(key(1), no())),
        and(and(key(1), no()), and(no(), leaf(SHA256, 1))),
        and(and(leaf(AFTER, 9), no()), no()),
        and(thresh(1, vec![no()]), or(1, no(), 1, and(key(1), no()))),
        or(1, and(no(), no()), 1, and(no(), no())),
        thresh(2, vec![no(), no()]),
        thresh(3, vec![no(), key(1), no()]),
        thresh(1, vec![and(no(), no())]),
        thresh(2, vec![and(no(), no()), key(1)]),
    ];
    list.iter().map(|policy| (1, policy.bytes())).collect()
}

/// Thresholds of which a child, as E and as W, costs never: alone, first, last, and beside another.
fn never_children() -> Vec<Case> {
    let never = || and(Policy::Unsatisfiable, Policy::Unsatisfiable);
    let list = [
        thresh(1, vec![never()]),
        thresh(1, vec![never(), key(1)]),
        thresh(1, vec![key(1), never()]),
        thresh(2, vec![key(1), never(), key(2)]),
        thresh(2, vec![never(), key(1), never()]),
        thresh(1, vec![never(), never()]),
        thresh(2, vec![never(), never(), never()]),
        and(key(3), thresh(1, vec![never(), key(1), and(key(2), key(4))])),
    ];
    list.iter().map(|policy| (1, policy.bytes())).collect()
}

/// Keys of 64 bits: alone, and beside a key of the old kind, with numbers that are its own, that have its low half, and at both ends.
fn long_keys() -> Vec<Policy> {
    let numbers = [0, 7, u64::from(MAX), 1 << 32, (1 << 32) + 7, u64::MAX];
    let mut list: Vec<Policy> = numbers.map(long_key).to_vec();
    for n in numbers {
        list.push(and(key(7), long_key(n)));
        list.push(or(3, long_key(n), 1, and(key(7), long_key(n))));
        list.push(thresh(2, vec![key(7), long_key(n), key(8)]));
    }
    list
}

/// Policies in which each key is of one kind in one place and of the other in another.
fn one_key_in_both_kinds() -> Vec<Policy> {
    vec![
        and(key(7), long_key(7)),
        or(1, and(key(1), key(2)), 1, and(long_key(1), long_key(2))),
        or(9, and(key(1), long_key(2)), 1, and(long_key(1), key(2))),
        thresh(2, vec![key(1), long_key(1), key(2), long_key(2)]),
        thresh(1, vec![or(1, key(1), 2, long_key(2)), or(1, long_key(1), 2, key(2))]),
        and(thresh(2, vec![key(1), key(2), long_key(3)]), thresh(2, vec![long_key(1), long_key(2), key(3)])),
    ]
}

/// Records of a key whose length is not that of its kind, and kinds beside document 02's.
fn bad_long_keys() -> Vec<Vec<u8>> {
    let of = |kind: u16, length: usize| records(&[(kind, vec![7; length])]);
    [(LONG_KEY, 0), (LONG_KEY, 4), (LONG_KEY, 7), (LONG_KEY, 9), (KEY, 8), (18, 8), (20, 8), (84, 8), (34, 4)].map(|(kind, length)| of(kind, length)).to_vec()
}

/// Random cases with keys of both kinds.
fn random_in_both_kinds(seed: u64, records: usize, count: usize) -> Vec<Case> {
    let mut random = Random::new(seed);
    (0..count).map(|_| Maker::new(&mut random).case(records)).collect()
}

/// An error, if a case whose keys are all below 2^32 is answered otherwise in the old kinds.
fn same_in_old_kinds(cases: &[Case]) -> Result<(), String> {
    for (context, policy) in cases {
        if let Some(old) = in_old_kinds(policy) {
            if answer(*context, policy)?.0 != answer(*context, &old)?.0 {
                return Err(format!("context {context}: {} and {} are answered otherwise", to_hex(policy), to_hex(&old)));
            }
        }
    }
    Ok(())
}

/// The first `count` random cases with a property.
fn found(seed: u64, records: usize, count: usize, test: Test) -> Vec<Case> {
    let mut random = Random::new(seed);
    let mut list = Vec::new();
    while list.len() < count {
        let case = Maker::old(&mut random).case(records);
        if answer(case.0, &case.1).is_ok_and(|(answer, counts)| test(&answer, &counts)) {
            list.push(case);
        }
    }
    list
}

/// The first `count` Tapscript policies with a property, each made around a random one of up to 6 records.
fn around(seed: u64, count: usize, wrap: fn(Policy) -> Policy, test: Test) -> Vec<Case> {
    let mut random = Random::new(seed);
    let mut list = Vec::new();
    while list.len() < count {
        let case = (1, wrap(Maker::old(&mut random).policy(6, 8)).bytes());
        if answer(case.0, &case.1).is_ok_and(|(answer, counts)| test(&answer, &counts)) {
            list.push(case);
        }
    }
    list
}

fn random_cases(seed: u64, records: usize, count: usize) -> Vec<Case> {
    found(seed, records, count, any)
}

/// Random cases of at least `low` records.
fn random_from(seed: u64, low: usize, count: usize) -> Vec<Case> {
    let mut random = Random::new(seed);
    let cases = std::iter::repeat_with(|| Maker::old(&mut random).case(64));
    cases.filter(|(_, policy)| record_count(policy) >= low).take(count).collect()
}

fn damaged_cases(seed: u64, records: usize, count: usize) -> Vec<Case> {
    let mut random = Random::new(seed);
    let damage = |_| {
        let (context, policy) = Maker::old(&mut random).case(records);
        (damaged_context(&mut random, context), damaged(&mut random, &policy))
    };
    (0..count).map(damage).collect()
}

fn record_count(bytes: &[u8]) -> usize {
    let (mut count, mut at) = (0, 0);
    while at < bytes.len() {
        at += usize::from(u16::from_le_bytes([bytes[at], bytes[at + 1]]));
        count += 1;
    }
    count
}

/// Writes one part of the list: its heading, then its cases; a case that lacks what the heading says is an error.
fn part(out: &mut impl Write, heading: &str, cases: &[Case], test: Test) -> Result<(), String> {
    let text = |e: io::Error| e.to_string();
    writeln!(out, "# {heading}").map_err(text)?;
    for (context, policy) in cases {
        let (answer, counts) = answer(*context, policy)?;
        let line = format!("{context} {} {answer}", to_hex(policy));
        if !test(&answer, &counts) {
            return Err(format!("under `{heading}` this case is not as the heading says: {line}"));
        }
        writeln!(out, "{line}").map_err(text)?;
    }
    Ok(())
}

/// Writes the whole list.
pub fn run(out: &mut impl Write) -> Result<(), String> {
    let done: Test = refused_with!(0);
    let desk = or(MAX, key(1), 1, key(2));
    part(out, "the desk's policy, weights 4,294,967,295 to 1", &policies(vec![desk]), done)?;
    part(out, "document 01's whole case", &policies(vec![key(7)]), done)?;
    part(out, "every kind of policy, every boundary of a lock, thresholds of 1 to 16 keys", &policies(every_kind()), any)?;
    part(out, "the boundaries of 'Figures to meet', on both sides", &both(boundaries()), any)?;
    let contexts = [2, 3, 255, 256, 65_535, 65_536, MAX].map(|context| (context, key(7).bytes()));
    part(out, "refused with 1: a context that there is not", &contexts, refused_with!(1))?;
    part(out, "1 comes before every fault of the policy", &[(2, vec![]), (9, vec![1])], refused_with!(1))?;
    part(out, "refused with 3: each way in which a policy breaks the form", &both(bad_policies()), refused_with!(3))?;
    part(out, "refused with 4: a weight of 0", &both(zero_weights()), refused_with!(4))?;
    part(out, "refused with 5: a 65th record, a depth of 17 or more", &both(too_large()), refused_with!(5))?;
    part(out, "refused with 8: Or above Or, 12 and 14 deep", &policies(vec![or_chain(12, false), or_chain(14, true)]), refused_with!(8))?;
    part(out, "refused with 11: a table stays empty, or no entry suits", &hopeless(), refused_with!(11))?;
    part(out, "refused with 12: the cheapest root is not safe", &policies(unsafe_roots()), refused_with!(12))?;
    part(out, "an infinite cost is compared", &found(100, 10, 60, |_, counts| counts.infinite), |_, counts| counts.infinite)?;
    part(out, "done, after an infinite cost", &found(101, 10, 40, |a, c| c.infinite && a.number == 0), refused_with!(0))?;
    part(out, "the root costs never: two parts that can't be satisfied", &nevers(), |answer, _| answer.never)?;
    let without_witness = |x| and(and(x, Policy::Unsatisfiable), Policy::Unsatisfiable);
    part(out, "the root costs never, around random policies", &around(109, 10, without_witness, |answer, _| answer.never), |answer, _| answer.never)?;
    part(out, "never against never in a Thresh's choice of its E", &never_children(), |_, counts| counts.never_both)?;
    let never_both: Test = |answer, counts| answer.number == 0 && counts.never_both;
    let beside_never = |x| thresh(1, vec![and(Policy::Unsatisfiable, Policy::Unsatisfiable), x]);
    part(out, "done, after never against never in a Thresh's choice, around random policies", &around(110, 10, beside_never, never_both), never_both)?;
    let hits: Test = |answer, counts| answer.number == 0 && counts.hits > 20;
    part(out, "tables are remembered and met again more than 20 times", &found(102, 12, 60, hits), hits)?;
    let large = policies(wide().to_vec());
    if !large.iter().map(|(_, policy)| record_count(policy)).eq([32, 32, 64, 64]) {
        return Err("a policy of 32 or 64 records has another number of them".to_string());
    }
    part(out, "32 and 64 records: thresholds of keys", &large, any)?;
    part(out, "31 and 63 records: 16 and 32 keys under Ors and under Ands", &policies(vec![or_tree(0, 16), and_tree(0, 16), and_tree(0, 32)]), any)?;
    part(out, "random, 32 records or more", &random_from(103, 32, 20), any)?;
    part(out, "random, 48 records or more", &random_from(104, 48, 20), any)?;
    part(out, "random, to 5 records", &random_cases(105, 5, 200), any)?;
    part(out, "random, to 10 records", &random_cases(106, 10, 300), any)?;
    part(out, "random, to 20 records", &random_cases(107, 20, 120), any)?;
    part(out, "damaged copies, to 12 records", &damaged_cases(108, 12, 500), any)?;
    let in_both = [policies(one_key_in_both_kinds()), random_in_both_kinds(111, 6, 40)].concat();
    same_in_old_kinds(&in_both)?;
    part(out, &format!("{LONG_KEYS}: numbers on both sides of 2^32, beside the same number in the old kind"), &policies(long_keys()), done)?;
    part(out, &format!("{LONG_KEYS}: one key in both kinds, and random, to 6 records"), &in_both, any)?;
    part(out, &format!("{LONG_KEYS}: refused with 3, a length that is not the kind's"), &both(bad_long_keys()), refused_with!(3))?;
    eprintln!("bench: answers: {}", room::tall_searches());
    out.flush().map_err(|e| e.to_string())
}

/// An output in the kinds of document 01; or what it holds that the Rust before document 02 could not have written.
fn lowered(output: &str) -> Result<String, String> {
    let bytes = from_hex(output).ok_or("the output is no even number of hexadecimal digits, nor `-`")?;
    if let Some(record) = read_records(&bytes).iter().find(|record| record.keys().is_some() && meant(record.kind) == record.kind) {
        return Err(format!("the output has a record of kind {}", record.kind));
    }
    in_old_kinds(&bytes).map(|old| to_hex(&old)).ok_or("a key of the output is over 4,294,967,295".to_string())
}

/// Writes a list of answers as it was before document 02's keys: without the parts of those, and with every output in the old kinds.
pub fn lower(input: impl BufRead, out: &mut impl Write) -> Result<(), String> {
    let text = |e: io::Error| e.to_string();
    let mut passed_over = false;
    for (at, line) in input.lines().enumerate() {
        let line = line.map_err(text)?;
        if let Some(heading) = line.strip_prefix("# ") {
            passed_over = heading.starts_with(LONG_KEYS);
        }
        if passed_over {
            continue;
        }
        let words: Vec<&str> = line.split(' ').collect();
        match words[..] {
            [context, policy, number, output, cost, nodes] if !line.starts_with('#') => {
                let output = lowered(output).map_err(|message| format!("line {}: {message}", at + 1))?;
                writeln!(out, "{context} {policy} {number} {output} {cost} {nodes}").map_err(text)?;
            }
            _ => writeln!(out, "{line}").map_err(text)?,
        }
    }
    out.flush().map_err(text)
}
