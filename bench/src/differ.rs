//! `bench differ`: pairs of trees through a walk of the bench's own, written from document 02, and through the port's claspwillow_differ.

use crate::port;
use crate::random::Random;
use crate::records::{self, long_kind, meant, mixed, to_hex, u16_at, u16s, u32_at, Writer, TREE_RECORDS};
use crate::room::HEIGHT;
use crate::trees::{self, CHECK_WORK};

const OUTPUT_TOO_SMALL: u32 = 13;

/// The words of work memory that the entry asks for: one for each record of either tree.
const WORK: usize = 2 * CHECK_WORK;

/// Bytes and words behind what is lent, which no call may touch.
const FENCE: usize = 16;
const FENCE_WORD: u64 = 0xFEED_FACE_CAFE_BEEF;
const FENCE_BYTE: u8 = 0xA5;

/// One record: the kind of fragment, what stands in it, and its children.
#[derive(Clone)]
struct Record {
    kind: u16,
    /// Whether its keys have 8 bytes, which is no difference.
    long: bool,
    /// The number of a key, a hash or a lock; k, n and the keys of a threshold.
    numbers: Vec<u64>,
    children: Vec<usize>,
}

/// The records of a tree that the check passes.
fn records_of(bytes: &[u8]) -> Vec<Record> {
    let read = |record: &records::Record| {
        let (kind, payload) = (meant(record.kind) as u16, record.payload);
        let children = |from: usize| (from..payload.len()).step_by(2).map(|place| u16_at(payload, place)).collect();
        let threshold = || vec![u16_at(payload, 0) as u64, u16_at(payload, 2) as u64];
        let keys = || record.keys().map_or(vec![], |(_, keys)| keys);
        let (numbers, children) = match kind {
            32..=33 => (vec![], vec![]),
            34..=35 => (keys(), vec![]),
            36..=41 => (vec![u64::from(u32_at(payload, 0))], vec![]),
            56 => (threshold(), children(4)),
            57..=58 => ([threshold(), keys()].concat(), vec![]),
            _ => (vec![], children(0)),
        };
        Record { kind, long: record.kind != usize::from(kind), numbers, children }
    };
    records::records(bytes).iter().map(read).collect()
}

/// Records as bytes.
fn bytes_of(records: &[Record]) -> Vec<u8> {
    let mut out = Writer::default();
    for record in records {
        let long = long_kind(usize::from(record.kind)).filter(|_| record.long);
        let width = if long.is_some() { 8 } else { 4 };
        let (front, rest) = record.numbers.split_at(if (56..=58).contains(&record.kind) { 2 } else { 0 });
        let front: Vec<u16> = front.iter().map(|&n| n as u16).collect();
        let rest: Vec<u8> = rest.iter().flat_map(|n| n.to_le_bytes()[..width].to_vec()).collect();
        let children: Vec<u16> = record.children.iter().map(|&child| child as u16).collect();
        out.record(long.map_or(record.kind, |kind| kind as u16), &[u16s(&front), rest, u16s(&children)].concat());
    }
    out.bytes
}

/// The first place on each path where two trees differ, from the roots, children left to right.
fn differences(left: &[Record], right: &[Record]) -> Vec<(u32, u32)> {
    let mut list = Vec::new();
    let mut to_do = vec![(left.len() - 1, right.len() - 1)];
    while let Some((i, j)) = to_do.pop() {
        let (x, y) = (&left[i], &right[j]);
        if (x.kind, &x.numbers, x.children.len()) != (y.kind, &y.numbers, y.children.len()) {
            list.push((i as u32, j as u32));
            continue;
        }
        to_do.extend(x.children.iter().copied().zip(y.children.iter().copied()).rev());
    }
    list
}

/// The differences of two trees in a context, or the number of a refusal, for right work memory and room enough.
fn wanted(context: u32, left: &[u8], right: &[u8]) -> Result<Vec<(u32, u32)>, u32> {
    for tree in [left, right] {
        match trees::check(context, tree, CHECK_WORK).0 {
            0 => {}
            number => return Err(number),
        }
    }
    Ok(differences(&records_of(left), &records_of(right)))
}

/// The memory that is lent, and what the calls have given.
#[derive(Default)]
struct Desk {
    work: Vec<u64>,
    out: Vec<u8>,
    numbers: [u64; 20],
    differences: u64,
}

impl Desk {
    /// One call with so much room and work memory; what differs is said.
    fn call(&mut self, dirt: u64, context: u32, left: &[u8], right: &[u8], room: usize, words: usize) {
        let answer = match (trees::check(context, &[], if words == WORK { CHECK_WORK } else { 0 }).0, wanted(context, left, right)) {
            (number @ (1 | 2), _) | (_, Err(number)) => Err(number),
            (_, Ok(list)) if 8 * list.len() > room => Err(OUTPUT_TOO_SMALL),
            (_, Ok(list)) => Ok(list),
        };
        self.numbers[answer.as_ref().err().copied().unwrap_or(0) as usize] += 1;
        if let Err(message) = self.differs(dirt, context, left, right, room, words, answer) {
            self.differences += 1;
            if self.differences <= 10 {
                println!("context {context}, room {room}, work {words}, left {}, right {}: {message}", to_hex(left), to_hex(right));
            }
        }
    }

    #[allow(clippy::too_many_arguments)]
    fn differs(
        &mut self,
        dirt: u64,
        context: u32,
        left: &[u8],
        right: &[u8],
        room: usize,
        words: usize,
        answer: Result<Vec<(u32, u32)>, u32>,
    ) -> Result<(), String> {
        self.work.clear();
        self.work.resize(words, dirt);
        self.work.resize(words + FENCE, FENCE_WORD);
        self.out.clear();
        self.out.resize(room, dirt as u8);
        self.out.resize(room + FENCE, FENCE_BYTE);
        let mut count = dirt;
        let number = port::differ(context, left, right, &mut self.out[..room], &mut self.work[..words], &mut count);
        let asked = answer.as_ref().err().copied().unwrap_or(0);
        let list = answer.unwrap_or_default();
        if (number, count) != (asked, list.len() as u64) {
            return Err(format!("wanted {asked} and {} differences, the port gives {number} and {count}", list.len()));
        }
        let written: Vec<u8> = list.iter().flat_map(|(i, j)| [i.to_le_bytes(), j.to_le_bytes()].concat()).collect();
        if !self.out.starts_with(&written) {
            return Err(format!("wanted {}, the port writes {}", to_hex(&written), to_hex(&self.out[..written.len()])));
        }
        if self.out[written.len()..room].iter().any(|&byte| byte != dirt as u8) {
            return Err("output past the differences was changed".to_string());
        }
        if self.work[..words].iter().any(|&word| word != 0) {
            return Err("work memory is not all zero".to_string());
        }
        if self.work[words..].iter().any(|&word| word != FENCE_WORD) || self.out[room..].iter().any(|&byte| byte != FENCE_BYTE) {
            return Err("memory behind what was lent was written".to_string());
        }
        Ok(())
    }
}

/// The records of one tree in another order, children first.
fn renumbered(random: &mut Random, records: &[Record]) -> Vec<Record> {
    let mut parent = vec![None; records.len()];
    for (number, record) in records.iter().enumerate() {
        for &child in &record.children {
            parent[child] = Some(number);
        }
    }
    let mut waits: Vec<usize> = records.iter().map(|record| record.children.len()).collect();
    let mut ready: Vec<usize> = (0..records.len()).filter(|&i| waits[i] == 0).collect();
    let mut place = vec![0; records.len()];
    let mut list: Vec<Record> = Vec::new();
    while !ready.is_empty() {
        let i = ready.swap_remove(random.below(ready.len()));
        place[i] = list.len();
        let children = records[i].children.iter().map(|&child| place[child]).collect();
        list.push(Record { children, ..records[i].clone() });
        if let Some(above) = parent[i] {
            waits[above] -= 1;
            if waits[above] == 0 {
                ready.push(above);
            }
        }
    }
    list
}

/// Changes one record so that the tree is still of the form, if it can be; its types may break.
fn change(random: &mut Random, records: &mut [Record]) {
    let i = random.below(records.len());
    let record = &mut records[i];
    match record.kind {
        32 | 33 => record.kind = 65 - record.kind,
        34 | 35 if random.once_in(3) => record.kind = 69 - record.kind,
        36 | 37 if random.once_in(3) => record.kind = 73 - record.kind,
        38..=41 if random.once_in(3) => record.kind = random.between(38, 41) as u16,
        34..=35 if record.long && random.once_in(2) => record.numbers[0] ^= 1 << random.below(64),
        34..=41 => record.numbers[0] = 1 + (record.numbers[0] % 1_000 + random.between(1, 3) as u64) % 1_000,
        42..=48 => record.kind = random.between(42, 48) as u16,
        49..=54 if random.once_in(2) => record.kind = random.between(49, 54) as u16,
        49..=55 => record.children.reverse(),
        56 if random.once_in(2) => record.children.reverse(),
        56 => record.numbers[0] = random.between(1, record.numbers[1] as usize) as u64,
        _ => match random.below(4) {
            0 => record.numbers[0] = random.between(1, record.numbers[1] as usize) as u64,
            1 if record.numbers[1] < 16 => {
                record.numbers[1] += 1;
                record.numbers.push(random.below(20) as u64);
            }
            2 if record.numbers[1] > record.numbers[0] => {
                record.numbers[1] -= 1;
                record.numbers.pop();
            }
            _ => {
                let key = random.between(2, record.numbers.len() - 1);
                record.numbers[key] ^= 1 << random.below(if record.long { 64 } else { 32 });
            }
        },
    }
}

/// A copy with so many records changed that still passes the check, if one is met soon.
fn changed(random: &mut Random, context: u32, records: &[Record], times: usize) -> Vec<Record> {
    for _ in 0..20 {
        let mut copy = records.to_vec();
        for _ in 0..times {
            change(random, &mut copy);
        }
        if trees::check(context, &bytes_of(&copy), CHECK_WORK).0 == 0 {
            return copy;
        }
    }
    records.to_vec()
}

/// A record over others of a list, and its number.
fn put(list: &mut Vec<Record>, kind: u16, numbers: Vec<u64>, children: Vec<usize>) -> usize {
    list.push(Record { kind, long: list.len() % 2 == 1, numbers, children });
    list.len() - 1
}

/// A fragment that a Thresh may have as its first child: a key, a hash, a multisignature, or a Thresh again, at most so many in each other.
fn part(random: &mut Random, context: u32, list: &mut Vec<Record>, levels: usize) -> usize {
    match random.below(4) {
        0 if levels > 0 => threshold(random, context, list, levels - 1),
        1 => {
            let n = random.between(1, 16);
            let k = random.between(1, n);
            let mut numbers = vec![k as u64, n as u64];
            numbers.extend((0..n).map(|_| random.below(20) as u64));
            put(list, 57 + context as u16, numbers, vec![])
        }
        2 => put(list, random.between(38, 41) as u16, vec![random.below(20) as u64], vec![]),
        _ => {
            let key = put(list, random.between(34, 35) as u16, vec![random.below(20) as u64], vec![]);
            put(list, 44, vec![], vec![key])
        }
    }
}

/// A Thresh of at least two children that asks for fewer than it has.
fn threshold(random: &mut Random, context: u32, list: &mut Vec<Record>, levels: usize) -> usize {
    let n = random.between(2, 6);
    let mut children = vec![part(random, context, list, levels)];
    for _ in 1..n {
        let other = part(random, context, list, levels);
        children.push(put(list, 42, vec![], vec![other]));
    }
    put(list, 56, vec![random.between(1, n - 1) as u64, n as u64], children)
}

/// A tree with such a Thresh: by itself, or as a branch of an OrI beside a random tree that suits.
fn with_threshold(random: &mut Random, context: u32, records: usize) -> Vec<u8> {
    let mut list = Vec::new();
    let one = threshold(random, context, &mut list, 2);
    let alone = bytes_of(&list);
    let beside = trees::case(random, context, 0, records);
    if random.once_in(3) || trees::check(context, &beside, CHECK_WORK).0 != 0 {
        return alone;
    }
    let from = list.len();
    for record in records_of(&beside) {
        list.push(Record { children: record.children.iter().map(|&child| child + from).collect(), ..record });
    }
    let other = list.len() - 1;
    let branches = if random.once_in(2) { vec![one, other] } else { vec![other, one] };
    put(&mut list, 54, vec![], branches);
    let both = bytes_of(&list);
    if trees::check(context, &both, CHECK_WORK).0 == 0 {
        both
    } else {
        alone
    }
}

/// A Thresh with its last child left out, wherever the tree has one with more than k children and the rest is still a tree; else the same tree.
fn fewer_children(random: &mut Random, context: u32, records: &[Record]) -> Vec<Record> {
    let thresholds: Vec<usize> = (0..records.len()).filter(|&i| records[i].kind == 56 && records[i].numbers[0] < records[i].numbers[1]).collect();
    if thresholds.is_empty() {
        return records.to_vec();
    }
    let at = *random.pick(&thresholds);
    let mut copy = records.to_vec();
    copy[at].numbers[1] -= 1;
    copy[at].children.pop();
    let mut kept = vec![false; copy.len()];
    let mut to_do = vec![copy.len() - 1];
    while let Some(i) = to_do.pop() {
        kept[i] = true;
        to_do.extend(&copy[i].children);
    }
    let place: Vec<usize> = (0..copy.len()).map(|i| kept[..i].iter().filter(|&&kept| kept).count()).collect();
    let list: Vec<Record> = (0..copy.len())
        .filter(|&i| kept[i])
        .map(|i| Record { children: copy[i].children.iter().map(|&child| place[child]).collect(), ..copy[i].clone() })
        .collect();
    if trees::check(context, &bytes_of(&list), CHECK_WORK).0 == 0 {
        list
    } else {
        records.to_vec()
    }
}

/// A left tree that the check passes; for a child less it has a Thresh with a child to spare.
fn left_tree(random: &mut Random, context: u32, pair: usize, records: usize) -> Vec<u8> {
    loop {
        let tree = if pair == CHILD_LESS { with_threshold(random, context, records) } else { trees::case(random, context, 0, records) };
        if trees::check(context, &tree, CHECK_WORK).0 == 0 {
            return tree;
        }
    }
}

/// What the right tree of a pair is.
const CHILD_LESS: usize = 4;
const PAIRS: [&str; 7] = [
    "the same in another order and other kinds", "one record changed", "two records changed", "many records changed", "a child less", "another tree",
    "a refused tree",
];

/// The right tree of a pair whose left tree passes the check.
fn partner(random: &mut Random, context: u32, pair: usize, left: &[u8], records: usize) -> Vec<u8> {
    let own = records_of(left);
    let other = match pair {
        0 => own.clone(),
        1 => changed(random, context, &own, 1),
        2 => changed(random, context, &own, 2),
        3 => {
            let many = random.between(3, 3 + own.len());
            changed(random, context, &own, many)
        }
        CHILD_LESS => fewer_children(random, context, &own),
        5 => return trees::case(random, context, 0, records),
        _ => {
            let flavour = random.between(1, 2);
            return trees::case(random, context, flavour, records);
        }
    };
    let other = if pair == 0 || random.once_in(2) { renumbered(random, &other) } else { other };
    mixed(random, &bytes_of(&other))
}

/// A pair with room enough; with the room that just suffices and a byte less; both ways round; now and then with other work memory, and in no context.
fn run_pair(desk: &mut Desk, random: &mut Random, context: u32, left: &[u8], right: &[u8]) -> usize {
    let count = wanted(context, left, right).map_or(0, |list| list.len());
    desk.call(random.next(), context, left, right, 8 * count + random.below(64), WORK);
    desk.call(random.next(), context, right, left, 8 * count, WORK);
    if count > 0 {
        desk.call(random.next(), context, left, right, 8 * count - random.between(1, 8 * count), WORK);
    }
    if random.once_in(16) {
        let words = *random.pick(&[0, 1, CHECK_WORK, WORK - 1, WORK + 1]);
        desk.call(random.next(), context, left, right, 8 * count, words);
        let nowhere = *random.pick(&[2, 255, 256, 65_536, u32::MAX]);
        desk.call(random.next(), nowhere, left, right, 8 * count, *random.pick(&[WORK, words]));
    }
    count
}

/// A chain of wrappers of so many records, over True.
fn chain(kinds: &[u16], records: usize) -> Vec<u8> {
    let mut out = Writer::default();
    let mut child = out.record(33, &[]);
    for i in 1..records {
        child = out.record(kinds[i % kinds.len()], &u16s(&[child]));
    }
    out.bytes
}

/// Trees of the greatest height and of different heights, and each refusal by its smallest case.
fn corners(desk: &mut Desk, random: &mut Random) {
    let deep = chain(&[48], HEIGHT);
    let tall = chain(&[48], HEIGHT + 1);
    let long = [4, 0, 33, 0].repeat(TREE_RECORDS + 1);
    let low = chain(&[48], 3);
    let key = |n: u8| [8, 0, 34, 0, n, 0, 0, 0, 6, 0, 44, 0, 0, 0];
    let long_key = |n: u8, high: u8| [12, 0, 84, 0, n, 0, 0, 0, high, 0, 0, 0, 6, 0, 44, 0, 0, 0];
    for (left, right) in [(&deep, &deep), (&deep, &low), (&low, &deep)] {
        run_pair(desk, random, 0, left, right);
    }
    let ill_typed = [4, 0, 33, 0, 6, 0, 44, 0, 0, 0];
    let list: [(u32, u32, &[u8], &[u8], usize, usize); 15] = [
        (0, 0, &key(7), &key(7), 0, WORK),
        (0, 1, &key(7), &key(8), 8, WORK),
        (0, 0, &key(7), &long_key(7, 0), 0, WORK),
        (0, 1, &key(7), &long_key(7, 1), 8, WORK),
        (OUTPUT_TOO_SMALL, 0, &key(7), &long_key(7, 1), 7, WORK),
        (1, 2, &[], &[], 0, 0),
        (2, 0, &[], &[], 0, WORK - 1),
        (14, 0, &[], &ill_typed, 0, WORK),
        (15, 0, &ill_typed, &[], 0, WORK),
        (16, 0, &long, &ill_typed, 0, WORK),
        (19, 0, &tall, &ill_typed, 0, WORK),
        (19, 0, &key(7), &tall, 0, WORK),
        (14, 0, &key(7), &[], 0, WORK),
        (15, 0, &key(7), &ill_typed, 0, WORK),
        (OUTPUT_TOO_SMALL, 0, &key(7), &key(8), 7, WORK),
    ];
    for (number, context, left, right, room, words) in list {
        let before = desk.numbers[number as usize];
        desk.call(random.next(), context, left, right, room, words);
        if desk.numbers[number as usize] == before {
            println!("the case for {number} asks for another number");
            desk.differences += 1;
        }
    }
}

/// COUNT pairs of each sort in each context; gives whether the port agrees on all of them.
pub fn run(seed: u64, count: u64, records: usize) -> bool {
    if port::differ_work() != WORK {
        println!("the port asks for {} words of work memory, not {WORK}", port::differ_work());
        return false;
    }
    let mut random = Random::new(seed);
    let mut desk = Desk::default();
    let mut pairs = 0;
    for context in 0..2 {
        for (pair, name) in PAIRS.iter().enumerate() {
            let mut with = [0u64; 4];
            for _ in 0..count {
                let left = left_tree(&mut random, context, pair, records);
                let right = partner(&mut random, context, pair, &left, records);
                let found = run_pair(&mut desk, &mut random, context, &left, &right);
                with[found.min(3)] += 1;
                pairs += 1;
                if pair == 0 && found != 0 {
                    println!("one tree in two orders differs: {} and {}", to_hex(&left), to_hex(&right));
                    desk.differences += 1;
                }
            }
            println!("context {context}, {name}: {count} pairs, with 0, 1, 2 and more differences {with:?}");
        }
    }
    corners(&mut desk, &mut random);
    let given: Vec<String> = (0..desk.numbers.len()).filter(|&n| desk.numbers[n] > 0).map(|n| format!("{n}: {}", desk.numbers[n])).collect();
    println!("given {}", given.join(", "));
    println!("{} differences in {pairs} pairs", desk.differences);
    desk.differences == 0
}
