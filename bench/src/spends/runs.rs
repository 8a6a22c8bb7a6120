//! Comparison at scale, and time.

use super::cases::Cases;
use super::known;
use super::log::{replay, Entry, Log, Reason, Verdict, BROKEN, NO_ENTRY, OUTPUT_TOO_SMALL, REPORT, WORK};
use super::machine::{Abort, Outcome};
use crate::outline::{random_tables, Tables};
use crate::port;
use crate::random::Random;
use crate::records::{to_hex, u16s, Writer, TREE_RECORDS};
use crate::room::HEIGHT;
use crate::speed::{median, processor, timed as timed_run};

/// Bytes and words behind what is lent, which no call may touch.
const FENCE: usize = 16;
const FENCE_WORD: u64 = 0xFEED_FACE_CAFE_BEEF;
const FENCE_BYTE: u8 = 0xA5;

/// The most bytes of a log that are said where the two differ.
const SAID: usize = 4_000;

/// Contexts that there are not.
const NOWHERE: [u32; 5] = [2, 255, 256, 65_536, u32::MAX];

/// What can decide a verdict, what it is called, and the contexts in which it can: only SegWit v0 has CHECKMULTISIG, only Tapscript is strict about
/// branches, and there every number's operand is the script's own.
const REASONS: [(Reason, &str, [bool; 2]); 23] = {
    const fn aborts(why: Abort, agrees: bool) -> Reason {
        Reason::Aborts { why, agrees }
    }
    const BOTH: [bool; 2] = [true, true];
    [
        (Reason::Ends { recorded_abort: false, agrees: true }, "a stack, as recorded", BOTH),
        (Reason::Ends { recorded_abort: false, agrees: false }, "another stack", BOTH),
        (Reason::Ends { recorded_abort: true, agrees: false }, "a stack where an abort is recorded", BOTH),
        (aborts(Abort::Operand, true), "a missing operand, as recorded", BOTH),
        (aborts(Abort::Operand, false), "a missing operand", BOTH),
        (aborts(Abort::Verify, true), "a failed VERIFY, as recorded", BOTH),
        (aborts(Abort::Verify, false), "a failed VERIFY", BOTH),
        (aborts(Abort::Time, true), "a failed time check, as recorded", BOTH),
        (aborts(Abort::Time, false), "a failed time check", BOTH),
        (aborts(Abort::LongNumber, true), "a long number, as recorded", [true, false]),
        (aborts(Abort::LongNumber, false), "a long number", [true, false]),
        (aborts(Abort::Dummy, true), "a dummy that is not empty, as recorded", [true, false]),
        (aborts(Abort::Dummy, false), "a dummy that is not empty", [true, false]),
        (aborts(Abort::Branch, true), "a branch on another element, as recorded", [false, true]),
        (aborts(Abort::Branch, false), "a branch on another element", [false, true]),
        (Reason::NoOutcome, "an outcome too few", BOTH),
        (Reason::WrongSort, "an outcome of the wrong sort", BOTH),
        (Reason::OutcomeLeft, "an outcome too many", BOTH),
        (Reason::LargeStart, "a large starting stack", BOTH),
        (Reason::LargeEnd, "a large recorded stack", BOTH),
        (Reason::LargeElement, "a large element", BOTH),
        (Reason::LargeDigest, "a large digest", BOTH),
        (Reason::Grown, "stacks that grow too large", BOTH),
    ]
};

/// A refusal, or each entry's number and verdict.
type Answer = Result<Vec<(u32, Verdict)>, u32>;

/// The memory that is lent, and what the calls have given.
#[derive(Default)]
struct Desk {
    work: Vec<u64>,
    reports: Vec<u8>,
    numbers: [u64; 20],
    /// What decided the entries of each context.
    met: [[u64; REASONS.len()]; 2],
    differences: u64,
}

impl Desk {
    fn say(&mut self, message: String) {
        self.differences += 1;
        if self.differences <= 10 {
            println!("{message}");
        }
    }

    /// One call with so much room and work memory; what differs is said.
    fn call(&mut self, dirt: u64, log: &[u8], room: usize, words: usize) -> Answer {
        let answer = replay(log, words, room);
        if let Ok((context, list)) = &answer {
            for (_, reason) in list {
                match REASONS.iter().position(|(known, ..)| known == reason) {
                    Some(place) => self.met[*context as usize][place] += 1,
                    None => self.say(format!("{reason:?} is none of those that there can be")),
                }
            }
        }
        let answer = answer.map(|(_, list)| list.iter().map(|(number, reason)| (*number, reason.verdict())).collect());
        self.numbers[answer.as_ref().err().copied().unwrap_or(0) as usize] += 1;
        if let Err(message) = self.differs(dirt, log, room, words, &answer) {
            let said = to_hex(&log[..log.len().min(SAID)]);
            self.say(format!("room {room}, work {words}, log of {} bytes {said}: {message}", log.len()));
        }
        answer
    }

    fn differs(&mut self, dirt: u64, log: &[u8], room: usize, words: usize, answer: &Answer) -> Result<(), String> {
        self.work.clear();
        self.work.resize(words, dirt);
        self.work.resize(words + FENCE, FENCE_WORD);
        self.reports.clear();
        self.reports.resize(room, dirt as u8);
        self.reports.resize(room + FENCE, FENCE_BYTE);
        let mut entries = dirt;
        let number = port::replay(log, &mut self.reports[..room], &mut self.work[..words], &mut entries);
        let asked = answer.as_ref().err().copied().unwrap_or(0);
        let list: &[(u32, Verdict)] = answer.as_ref().map_or(&[], |list| list);
        if (number, entries) != (asked, list.len() as u64) {
            return Err(format!("wanted {asked} and {} entries, the port gives {number} and {entries}", list.len()));
        }
        for (i, (number, verdict)) in list.iter().enumerate() {
            let wanted = [number.to_le_bytes(), (*verdict as u32).to_le_bytes()].concat();
            let given = &self.reports[REPORT * i..REPORT * (i + 1)];
            if given != wanted {
                return Err(format!("entry {i}: wanted {number} {verdict:?}, the port reports {}", to_hex(given)));
            }
        }
        if self.reports[REPORT * list.len()..room].iter().any(|&byte| byte != dirt as u8) {
            return Err("room past the reports was changed".to_string());
        }
        if self.work[..words].iter().any(|&word| word != 0) {
            return Err("work memory is not all zero".to_string());
        }
        if self.work[words..].iter().any(|&word| word != FENCE_WORD) || self.reports[room..].iter().any(|&byte| byte != FENCE_BYTE) {
            return Err("memory behind what was lent was written".to_string());
        }
        Ok(())
    }

    /// The reports as the last call left them.
    fn given(&self, entries: usize) -> Vec<Vec<u8>> {
        self.reports[..REPORT * entries].chunks(REPORT).map(<[u8]>::to_vec).collect()
    }

    fn refusals(&self) -> String {
        let given: Vec<String> = (0..self.numbers.len()).filter(|&n| self.numbers[n] > 0).map(|n| format!("{n}: {}", self.numbers[n])).collect();
        given.join(", ")
    }
}

/// The numbers below n in a random order.
fn shuffled(random: &mut Random, n: usize) -> Vec<usize> {
    let mut list: Vec<usize> = (0..n).collect();
    for i in (1..n).rev() {
        list.swap(i, random.below(i + 1));
    }
    list
}

/// A log with its entries in another order must have the reports in that order, each the report of its entry alone.
fn reorder(desk: &mut Desk, random: &mut Random, log: &Log) {
    let count = log.entries.len();
    let _ = desk.call(random.next(), &log.bytes(), REPORT * count + random.below(64), WORK);
    let given = desk.given(count);
    let order = shuffled(random, count);
    let other = Log { entries: order.iter().map(|&i| log.entries[i].clone()).collect(), ..log.clone() };
    let _ = desk.call(random.next(), &other.bytes(), REPORT * count, WORK);
    if desk.given(count) != order.iter().map(|&i| given[i].clone()).collect::<Vec<_>>() {
        desk.say(format!("reports are not those of the entries in another order: {}", to_hex(&log.bytes())));
    }
    if count > 0 {
        let alone = random.below(count);
        let one = Log { entries: vec![log.entries[alone].clone()], ..log.clone() };
        let _ = desk.call(random.next(), &one.bytes(), REPORT, WORK);
        if desk.given(1)[0] != given[alone] {
            desk.say(format!("entry {alone} has another report alone: {}", to_hex(&log.bytes())));
        }
    }
}

/// Changes the bytes of a log at one place.
fn broken(random: &mut Random, log: &Log) -> Vec<u8> {
    let mut bytes = log.bytes();
    let places = log.places();
    let at = if random.once_in(2) { random.below(bytes.len()) } else { *random.pick(&places) };
    match random.below(5) {
        0 | 1 => bytes.truncate(at + random.below(2)),
        2 => bytes.push(random.next() as u8),
        _ if at < bytes.len() => bytes[at] = *random.pick(&[0, 1, 2, 3, 4, 5, 127, 128, 255, bytes[at].wrapping_add(1), bytes[at].wrapping_sub(1)]),
        _ => {
            bytes.pop();
        }
    }
    bytes
}

/// One log: in two orders, an entry alone, and now and then with too little room, other work memory, another context, a short table, and broken.
fn run_log(desk: &mut Desk, random: &mut Random, log: &Log) {
    reorder(desk, random, log);
    let bytes = log.bytes();
    let room = REPORT * log.entries.len();
    for _ in 0..2 {
        let damaged = broken(random, log);
        let _ = desk.call(random.next(), &damaged, room + random.below(16), WORK);
    }
    if room > 0 && random.once_in(4) {
        let _ = desk.call(random.next(), &bytes, room - random.between(1, room), WORK);
    }
    if random.once_in(16) {
        let words = *random.pick(&[0, 1, 4_096, WORK - 1, WORK + 1]);
        let _ = desk.call(random.next(), &bytes, room, words);
        let nowhere = Log { context: *random.pick(&NOWHERE), ..log.clone() };
        let _ = desk.call(random.next(), &nowhere.bytes(), room, *random.pick(&[WORK, words]));
        let other = Log { context: 1 - log.context, ..log.clone() };
        let _ = desk.call(random.next(), &other.bytes(), room, WORK);
    }
    if random.once_in(8) {
        let mut short = log.clone();
        let table = &mut short.tables[random.below(4)];
        table.pop();
        let _ = desk.call(random.next(), &short.bytes(), room, WORK);
    }
}

/// A small log cut at every byte, with every wrong byte where an outcome or an end begins, and with each number in it one more and one less.
fn every_place(desk: &mut Desk, random: &mut Random) {
    let log = known::example();
    let bytes = log.bytes();
    for end in 0..bytes.len() {
        let _ = desk.call(random.next(), &bytes[..end], REPORT * log.entries.len(), WORK);
    }
    for place in log.places().into_iter().filter(|&place| place < bytes.len()) {
        for byte in 0..=255 {
            let mut other = bytes.clone();
            other[place] = byte;
            let _ = desk.call(random.next(), &other, REPORT * log.entries.len() + 80, WORK);
        }
        for (at, byte) in (place + 1..bytes.len().min(place + 4)).flat_map(|at| [1, 128, 255].map(|byte| (at, byte))) {
            let mut other = bytes.clone();
            other[at] = byte;
            let _ = desk.call(random.next(), &other, REPORT * log.entries.len(), WORK);
        }
    }
}

fn tree(list: &[(u16, Vec<u8>)]) -> Vec<u8> {
    let mut out = Writer::default();
    for (kind, payload) in list {
        out.record(*kind, payload);
    }
    out.bytes
}

/// Each refusal by its smallest case, in the order in which they come, each case with all that later ones refuse.
fn each_refusal(desk: &mut Desk, random: &mut Random) {
    let key = (34, vec![7, 0, 0, 0]);
    let checked = tree(&[key.clone(), (44, u16s(&[0]))]);
    let ill_typed = tree(&[(33, vec![]), (44, u16s(&[0]))]);
    let long = tree(&vec![(33, vec![]); TREE_RECORDS + 1]);
    let wraps = (0..HEIGHT as u16 - 1).map(|child| (48, u16s(&[child + 1])));
    let tall = tree(&[key, (44, u16s(&[0]))].into_iter().chain(wraps).collect::<Vec<_>>());
    let eight_keys = random_tables(random, 0, [8, 0, 0, 0]);
    let far = |number: u64| tree(&[(84, number.to_le_bytes().to_vec()), (44, u16s(&[0]))]);
    let entry = known::example().entries[0].clone();
    let log = |context: u32, tree: &[u8], tables: &Tables| {
        Log { context, tree: tree.to_vec(), tables: tables.clone(), entries: vec![entry.clone()] }.bytes()
    };
    let none = Tables::default();
    let cut = |bytes: Vec<u8>| bytes[..bytes.len() - 1].to_vec();
    let without = Log { context: 0, tree: checked.clone(), tables: eight_keys.clone(), entries: vec![] }.bytes();
    let list = [
        (0, log(0, &checked, &eight_keys), REPORT, WORK),
        (0, log(0, &far(7), &eight_keys), REPORT, WORK),
        (0, without, 0, WORK),
        (BROKEN, vec![], 0, 0),
        (BROKEN, cut(log(2, &ill_typed, &none)), 0, 0),
        (1, log(2, &ill_typed, &none), 0, 0),
        (2, log(0, &ill_typed, &none), 0, WORK - 1),
        (14, log(0, &[], &none), 0, WORK),
        (14, log(0, &checked[..9], &none), 0, WORK),
        (15, log(0, &ill_typed, &none), 0, WORK),
        (16, log(0, &long, &none), 0, WORK),
        (19, log(0, &tall, &none), 0, WORK),
        (NO_ENTRY, log(0, &checked, &none), 0, WORK),
        (NO_ENTRY, log(1, &checked, &random_tables(random, 1, [7, 9, 9, 9])), 0, WORK),
        (NO_ENTRY, log(0, &far((1 << 32) + 7), &eight_keys), REPORT, WORK),
        (NO_ENTRY, log(0, &far(u64::MAX), &eight_keys), REPORT, WORK),
        (OUTPUT_TOO_SMALL, log(0, &checked, &eight_keys), REPORT - 1, WORK),
    ];
    for (number, bytes, room, words) in list {
        let before = desk.numbers[number as usize];
        let _ = desk.call(random.next(), &bytes, room, words);
        if desk.numbers[number as usize] == before {
            desk.say(format!("the case for {number} asks for another number"));
        }
    }
}

/// Logs that are large in one way: entries, elements, outcomes, the bytes of an element and of a digest.
fn large(desk: &mut Desk, random: &mut Random) {
    const MANY: usize = 70_000;
    let smallest = Entry { number: 7, start: vec![], outcomes: vec![], end: None };
    let list = [
        vec![smallest.clone(); MANY],
        vec![Entry { start: vec![vec![]; MANY], ..smallest.clone() }, smallest.clone()],
        vec![Entry { end: Some(vec![vec![]; MANY]), ..smallest.clone() }, smallest.clone()],
        vec![Entry { outcomes: vec![Outcome::Yes; MANY], ..smallest.clone() }, smallest.clone()],
        vec![Entry { start: vec![vec![0; MANY]], ..smallest.clone() }, smallest.clone()],
        vec![Entry { end: Some(vec![vec![0; MANY]]), ..smallest.clone() }, smallest.clone()],
        vec![Entry { outcomes: vec![Outcome::Digest(vec![0; MANY])], ..smallest.clone() }, smallest],
    ];
    for entries in list {
        let log = Log { entries, ..known::example() };
        let _ = desk.call(random.next(), &log.bytes(), REPORT * log.entries.len(), WORK);
        let _ = desk.call(random.next(), &log.bytes(), REPORT * log.entries.len() - 1, WORK);
    }
}

/// Says how many entries of a context were decided by what; gives how many of those that there can be were not met.
fn say_met(desk: &Desk, context: usize) -> u64 {
    let met = &desk.met[context];
    let verdicts = [Verdict::Agrees, Verdict::Differs, Verdict::Mismatched, Verdict::TooLarge]
        .map(|verdict| REASONS.iter().zip(met).filter(|((reason, ..), _)| reason.verdict() == verdict).map(|(_, count)| count).sum::<u64>());
    let [agree, differ, mismatched, too_large] = verdicts;
    println!(
        "context {context}: {} entries: {agree} agree, {differ} differ, {mismatched} are mismatched, {too_large} are too large",
        met.iter().sum::<u64>()
    );
    let mut missing = 0;
    for ((reason, name, can), &count) in REASONS.iter().zip(met).filter(|((.., can), count)| can[context] || **count > 0) {
        println!("  {:?}, {name}: {count}", reason.verdict());
        missing += u64::from(can[context] && count == 0);
    }
    missing
}

/// At least COUNT entries of each context in random logs; gives whether the port agrees on all of them.
pub fn run(seed: u64, count: u64) -> bool {
    if port::replay_work() != WORK {
        println!("the port asks for {} words of work memory, not {WORK}", port::replay_work());
        return false;
    }
    let mut random = Random::new(seed);
    let mut desk = Desk::default();
    let known = known::judged().unwrap_or_else(|message| {
        desk.say(message);
        0
    });
    println!("{known} spends are judged as they were by hand");
    let cases = Cases::new();
    let mut logs = 0;
    for context in 0..2 {
        let mut entries = 0;
        while entries < count {
            match cases.log(&mut random, context) {
                Ok(log) => {
                    entries += log.entries.len() as u64;
                    logs += 1;
                    run_log(&mut desk, &mut random, &log);
                }
                Err(message) => desk.say(message),
            }
            if desk.differences > 100 {
                return false;
            }
        }
    }
    let missing: u64 = (0..2).map(|context| say_met(&desk, context)).sum();
    println!("{logs} random logs; given {}", desk.refusals());
    desk.numbers = [0; 20];
    every_place(&mut desk, &mut random);
    large(&mut desk, &mut random);
    each_refusal(&mut desk, &mut random);
    println!("a log changed at every place, large logs and each refusal: given {}", desk.refusals());
    if missing > 0 {
        desk.say(format!("{missing} of what can decide a verdict were not met"));
    }
    println!("{} differences", desk.differences);
    desk.differences == 0
}

/// What is timed: so many logs of each context, with so many spends each that BIP 379's table gives.
const TIMED_LOGS: usize = 20;
const TIMED_ENTRIES: usize = 250;
/// How often each log is run by each side; the first time is not counted.
const ROUNDS: u64 = 11;

/// The logs of a context that are timed.
fn timed_logs(context: u32) -> Result<Vec<Vec<u8>>, String> {
    let mut random = Random::new(6);
    let cases = Cases::new();
    let mut list = Vec::new();
    while list.len() < TIMED_LOGS {
        let mut setting = cases.setting(&mut random, context);
        for i in 0..TIMED_ENTRIES {
            if let Some(entry) = setting.real(&mut random, i as u32, i % 4 != 0)?.map_or_else(|| setting.real(&mut random, i as u32, true), |entry| Ok(Some(entry)))? {
                setting.log.entries.push(entry);
            }
        }
        if setting.log.entries.len() == TIMED_ENTRIES {
            list.push(setting.log.bytes());
        }
    }
    Ok(list)
}

fn timed(context: u32) -> Result<(), String> {
    let logs = timed_logs(context)?;
    let (mut work, mut reports) = (vec![0; WORK], vec![0; REPORT * TIMED_ENTRIES]);
    let (mut ours, mut ports) = (0, 0);
    for log in &logs {
        let (mut our, mut port) = (Vec::new(), Vec::new());
        for round in 0..ROUNDS {
            our.push(timed_run(|| replay(log, WORK, reports.len())));
            work.fill(0x0123_4567_89AB_CDEF + round);
            let (mut number, mut entries) = (0, 0);
            port.push(timed_run(|| number = port::replay(log, &mut reports, &mut work, &mut entries)));
            if (number, entries) != (0, TIMED_ENTRIES as u64) || reports.chunks(REPORT).any(|report| report[4..] != [0; 4]) {
                return Err(format!("the port gives {number} and {entries}, or a spend does not agree: {}", to_hex(log)));
            }
        }
        ours += median(our[1..].to_vec());
        ports += median(port[1..].to_vec());
    }
    let (entries, bytes) = (TIMED_LOGS * TIMED_ENTRIES, logs.iter().map(Vec::len).sum::<usize>());
    let each = |nanos: u64| format!("{:.2}", nanos as f64 / 1_000.0 / entries as f64);
    println!("| {context} | {TIMED_LOGS} | {entries} | {bytes} | {} | {} | {:.2} |", each(ours), each(ports), ours as f64 / ports as f64);
    Ok(())
}

/// Times the port and the interpreter by turns over one set of logs.
pub fn speed() -> bool {
    println!("{}; medians of {} runs of each side, by turns\n", processor(), ROUNDS - 1);
    println!("| context | logs | spends | bytes | interpreter, µs a spend | port, µs a spend | interpreter / port |\n|---|---|---|---|---|---|---|");
    match timed(0).and_then(|()| timed(1)) {
        Ok(()) => true,
        Err(message) => {
            println!("{message}");
            false
        }
    }
}
