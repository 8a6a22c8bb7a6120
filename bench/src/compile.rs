//! `bench compile` and `bench replay`: policies through the Rust, or its stored answers, and through the port: `claspwillow_compile`, and the choice
//! and the writing apart, with whatever memory stands between them.

use std::collections::BTreeSet;

use crate::answers::STORED;
use crate::chosen::{self, WORK};
use crate::oracle::{self, Answer};
use crate::policies::{damaged_any, thresholds, Maker};
use crate::port::{self, Results};
use crate::random::Random;
use crate::records::{from_hex, in_new_kinds, to_hex};
use crate::{room, trees};

/// Bytes and words behind what is lent, which no call may touch.
const FENCE: usize = 16;
const FENCE_WORD: u64 = 0xFEED_FACE_CAFE_BEEF;
const FENCE_BYTE: u8 = 0xA5;

fn shown(results: &Results) -> String {
    let Results { bytes, cost, never, nodes } = results;
    format!("{bytes} bytes, cost {cost:016X}, never {never}, {nodes} nodes")
}

/// The memory that is lent, kept from call to call: each call finds the dirt of another.
#[derive(Default)]
struct Lent {
    work: Vec<u64>,
    out: Vec<u8>,
}

/// What compile and the choice are to give besides the number.
fn results_of(wanted: &Answer) -> Results {
    Results { bytes: wanted.output.len() as u64, cost: wanted.cost, never: u32::from(wanted.never), nodes: wanted.nodes as u64 }
}

/// Results that hold dirt.
fn dirty(dirt: u64) -> Results {
    Results { bytes: dirt, cost: dirt, never: dirt as u32, nodes: dirt }
}

impl Lent {
    fn work(&mut self, words: usize, content: u64) {
        self.work.clear();
        self.work.resize(words, content);
        self.work.resize(words + FENCE, FENCE_WORD);
    }

    fn out(&mut self, room: usize, dirt: u8) {
        self.out.clear();
        self.out.resize(room, dirt);
        self.out.resize(room + FENCE, FENCE_BYTE);
    }

    /// What is wrong with the memory after a call that wrote so many bytes and leaves work memory zero.
    fn wrong(&self, dirt: u8, bytes: usize, room: usize, words: usize) -> Option<&'static str> {
        if self.out[bytes..room].iter().any(|&byte| byte != dirt) {
            Some("output past the bytes written was changed")
        } else if self.work[..words].iter().any(|&word| word != 0) {
            Some("work memory is not all zero")
        } else if self.work[words..].iter().any(|&word| word != FENCE_WORD) || self.out[room..].iter().any(|&byte| byte != FENCE_BYTE) {
            Some("memory behind what was lent was written")
        } else {
            None
        }
    }
}

/// One call with so much room and work memory; what differs is said.
fn call(lent: &mut Lent, dirt: u64, context: u32, policy: &[u8], room: usize, words: usize, wanted: &Answer) -> Result<(), String> {
    lent.work(words, dirt);
    lent.out(room, dirt as u8);
    let mut results = dirty(dirt);
    let number = port::compile(context, policy, &mut lent.out[..room], &mut lent.work[..words], &mut results);
    let case = || format!("context {context}, room {room}, work {words}, policy {}", to_hex(policy));
    let bytes = wanted.output.len();
    let right = results_of(wanted);
    if number != wanted.number || results != right {
        return Err(format!("{}: the Rust gives {}, {}, the port {number}, {}", case(), wanted.number, shown(&right), shown(&results)));
    }
    if lent.out[..bytes] != wanted.output[..] {
        return Err(format!("{}: the Rust writes {}, the port {}", case(), to_hex(&wanted.output), to_hex(&lent.out[..bytes])));
    }
    lent.wrong(dirt as u8, bytes, room, words).map_or(Ok(()), |wrong| Err(format!("{}: {wrong}", case())))
}

/// A choice with work memory of so many words; where it is done the memory holds the tree, and else it is zero.
fn choose(lent: &mut Lent, dirt: u64, context: u32, policy: &[u8], words: usize, wanted: &Answer) -> Result<(), String> {
    lent.work(words, dirt);
    lent.out(0, 0);
    let mut results = dirty(dirt);
    let number = port::choose(context, policy, &mut lent.work[..words], &mut results);
    let case = || format!("choice, context {context}, work {words}, policy {}", to_hex(policy));
    let right = results_of(wanted);
    if number != wanted.number || results != right {
        return Err(format!("{}: the Rust gives {}, {}, the port {number}, {}", case(), wanted.number, shown(&right), shown(&results)));
    }
    let held = if number == 0 { chosen::words(&wanted.output) } else { vec![] };
    for (at, word) in &held {
        if lent.work[*at] != *word {
            return Err(format!("{}: word {at} is {:016X}, not {word:016X}", case(), lent.work[*at]));
        }
        lent.work[*at] = 0;
    }
    let wrong = lent.wrong(0, 0, 0, words);
    held.iter().for_each(|(at, word)| lent.work[*at] = *word);
    wrong.map_or(Ok(()), |wrong| Err(format!("{}: {wrong}, but for the tree", case())))
}

/// A writing of what the memory of so many words holds, with so much room, by the bench's own reading of it. Gives the number.
fn write(lent: &mut Lent, dirt: u8, room: usize, words: usize) -> Result<u32, String> {
    let (wanted, bytes) = match chosen::held(&lent.work[..words]) {
        None => (2, vec![]),
        Some(bytes) if bytes.len() > room => (13, vec![]),
        Some(bytes) => (0, bytes),
    };
    let front = lent.work[..words.min(100)].to_vec();
    lent.out(room, dirt);
    let mut count = u64::from(dirt);
    let number = port::write(&mut lent.out[..room], &mut lent.work[..words], &mut count);
    let case = || format!("writing, room {room}, work {words}, which begins with {front:X?}");
    if (number, count) != (wanted, bytes.len() as u64) || !lent.out.starts_with(&bytes) {
        return Err(format!("{}: wanted {wanted} and {}, the port gives {number} and {count} bytes", case(), to_hex(&bytes)));
    }
    lent.wrong(dirt, bytes.len(), room, words).map_or(Ok(wanted), |wrong| Err(format!("{}: {wrong}", case())))
}

/// Puts bytes into a memory that is all zero, as a choice leaves them.
fn put(lent: &mut Lent, bytes: &[u8]) {
    for (at, word) in chosen::words(bytes) {
        lent.work[at] = word;
    }
}

/// How many writings of each sort gave which number: of what a choice left, of that with a bit, a byte or a word spoiled, and of a random tree.
#[derive(Default)]
struct Writings([[u64; 3]; 5]);

impl Writings {
    fn count(&mut self, sort: usize, number: u32) {
        self.0[sort][[0, 2, 13].iter().position(|&n| n == number).unwrap_or(0)] += 1;
    }

    /// What was given; whether each sort of spoiling was both found out and passed over.
    fn end(&self) -> bool {
        for (sort, [done, refused, small]) in self.0.iter().enumerate() {
            let name = ["a choice", "one with a bit spoiled", "one with a byte spoiled", "one with a word spoiled", "a random tree"][sort];
            println!("writings of {name}: done {done}, 2: {refused}, 13: {small}");
        }
        let seen = self.0[1..].iter().all(|[done, refused, _]| *done > 0 && *refused > 0);
        if !seen {
            println!("some sort of memory was always refused, or never");
        }
        seen
    }
}

/// A case in two calls; the memory between them is spoiled, or another tree is put there.
fn in_two_calls(lent: &mut Lent, random: &mut Random, writings: &mut Writings, context: u32, policy: &[u8], wanted: &Answer) -> Result<(), String> {
    choose(lent, random.next(), context, policy, WORK, wanted)?;
    let length = wanted.output.len();
    if wanted.number == 0 {
        let room = if random.once_in(4) { length - 1 } else { length + random.below(64) };
        writings.count(0, write(lent, random.next() as u8, room, WORK)?);
        for what in 0..3 {
            put(lent, &wanted.output);
            chosen::spoil(random, &mut lent.work[..WORK], length, what);
            writings.count(1 + what, write(lent, random.next() as u8, length + 64, WORK)?);
        }
    }
    let flavour = random.below(3);
    let tree = trees::case(random, context % 2, flavour, 40);
    // What is not damaged is of the form, in the kinds that are written or in both.
    let tree = if flavour < 2 && !random.once_in(4) { in_new_kinds(&tree) } else { tree };
    put(lent, &tree);
    writings.count(4, write(lent, random.next() as u8, tree.len(), WORK)?);
    if random.once_in(8) {
        let words = *random.pick(&[0, 1, WORK - 1, WORK + 1]);
        choose(lent, random.next(), context, policy, words, &Answer::refused(if context > 1 { 1 } else { 2 }))?;
        lent.work(words, random.next());
        write(lent, random.next() as u8, length, words)?;
    }
    Ok(())
}

/// A case with room enough, and now and then with room that just suffices, with one byte too few, and with work memory of another length.
fn differs(lent: &mut Lent, random: &mut Random, context: u32, policy: &[u8], wanted: &Answer) -> Result<(), String> {
    let length = wanted.output.len();
    call(lent, random.next(), context, policy, length + random.below(64), WORK, wanted)?;
    if random.once_in(4) {
        call(lent, random.next(), context, policy, length, WORK, wanted)?;
        if length > 0 {
            call(lent, random.next(), context, policy, length - 1, WORK, &Answer::refused(13))?;
        }
    }
    if random.once_in(8) {
        let words = *random.pick(&[0, 1, WORK - 1, WORK + 1]);
        let number = if context > 1 { 1 } else { 2 };
        call(lent, random.next(), context, policy, length, words, &Answer::refused(number))?;
    }
    Ok(())
}

/// What differs between an answer and the port's, called once with room enough.
pub fn port_gives(context: u32, policy: &[u8], wanted: &Answer) -> Result<(), String> {
    call(&mut Lent::default(), u64::MAX, context, policy, wanted.output.len(), WORK, wanted)
}

/// Counts what is given, and says the first differences.
struct Tally {
    numbers: [u64; 20],
    differences: u64,
}

impl Tally {
    fn new() -> Self {
        Tally { numbers: [0; 20], differences: 0 }
    }

    fn count(&mut self, number: u32, outcome: Result<(), String>) {
        self.numbers[number as usize] += 1;
        if let Err(message) = outcome {
            self.differences += 1;
            if self.differences <= 10 {
                println!("{message}");
            }
        }
    }

    fn end(&self, what: &str, note: &str) -> bool {
        let given: Vec<String> = (0..20).filter(|&n| self.numbers[n] > 0).map(|n| format!("{n}: {}", self.numbers[n])).collect();
        println!("{} {what}, given {}", self.numbers.iter().sum::<u64>(), given.join(", "));
        println!("{} differences{note}", self.differences);
        self.differences == 0
    }
}

fn work_is_right() -> bool {
    let asked = [port::compile_work(), port::choose_work(), port::write_work()];
    if asked != [WORK; 3] {
        println!("the port asks for {asked:?} words of work memory, not {WORK}");
    }
    asked == [WORK; 3]
}

/// A line of the stored list.
fn stored(line: &str) -> Option<(u32, Vec<u8>, Answer)> {
    let words: Vec<&str> = line.split(' ').collect();
    let [context, policy, number, output, cost, nodes] = words[..] else { return None };
    let bytes = |word: &str| if word == "-" { Some(Vec::new()) } else { from_hex(word) };
    let (cost, never) = if cost == "-" { (0, true) } else { (u64::from_str_radix(cost, 16).ok()?, false) };
    let wanted = Answer { number: number.parse().ok()?, output: bytes(output)?, cost, never, nodes: nodes.parse().ok()? };
    Some((context.parse().ok()?, bytes(policy)?, wanted))
}

/// The stored list through the port.
pub fn replay() -> bool {
    if !work_is_right() {
        return false;
    }
    let mut random = Random::new(1);
    let mut lent = Lent::default();
    let mut tally = Tally::new();
    for (at, line) in STORED.lines().enumerate().filter(|(_, line)| !line.starts_with('#')) {
        let Some((context, policy, wanted)) = stored(line) else {
            println!("line {} of the stored list can't be read", at + 1);
            return false;
        };
        let outcome = differs(&mut lent, &mut random, context, &policy, &wanted);
        tally.count(wanted.number, outcome);
    }
    tally.end("stored answers", "")
}

/// COUNT random policies, some of them damaged, through the Rust and the port.
pub fn run(seed: u64, count: u64, records: usize) -> bool {
    if !work_is_right() {
        return false;
    }
    let mut random = Random::new(seed);
    let mut lent = Lent::default();
    let mut tally = Tally::new();
    let (mut infinite, mut met) = (0, BTreeSet::new());
    let mut writings = Writings::default();
    for _ in 0..count {
        let (context, mut policy) = Maker::new(&mut random).any_case(records);
        met.extend(thresholds(&policy));
        if random.once_in(10) {
            policy = damaged_any(&mut random, &policy);
        }
        match oracle::answer(context, &policy) {
            Ok((answer, counts)) => {
                infinite += u64::from(counts.infinite);
                let outcome = differs(&mut lent, &mut random, context, &policy, &answer)
                    .and_then(|()| in_two_calls(&mut lent, &mut random, &mut writings, context, &policy, &answer));
                tally.count(answer.number, outcome);
            }
            Err(message) => {
                println!("context {context}, policy {}: {message}", to_hex(&policy));
                tally.differences += 1;
            }
        }
    }
    println!("{infinite} of them compared an infinite cost; of the 136 pairs of k and n from 1 to 16 their thresholds have {}", met.len());
    writings.end() & tally.end("random policies", &format!(", {}", room::tall_searches()))
}
