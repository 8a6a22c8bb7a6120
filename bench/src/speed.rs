//! `bench speed`: processor time of the Rust's unmodified compiler and of the port, alternately in one run, over 200 policies.
//!
//! The Rust is timed from a policy that has been read to the tree that it chooses. The port is timed as a caller has it: from the records of the
//! policy to the records of the tree, with dirty work memory that it clears.

use std::fs;
use std::hint::black_box;
use std::io::{self, IsTerminal, Write};

use crate::keys::Key;
use crate::miniscript::context::{Segwitv0, Tap};
use crate::oracle::{self, Answer};
use crate::policies::{key, or, Maker};
use crate::policy::{compiler, Concrete};
use crate::port::{self, Results};
use crate::random::Random;
use crate::records::{read_policy, to_hex, u16_at};
use crate::room::Counts;
use crate::sync::Arc;

const SEED: u64 = 13;
/// The most records of a policy, and so many policies of each.
const SIZES: [usize; 4] = [4, 8, 16, 32];
const EACH: usize = 50;
/// How often each policy is compiled by each side; the first time is not counted.
const ROUNDS: usize = 11;
/// Output room for any tree.
const ROOM: usize = 294_912;
/// What time grows with, and the bounds of the groups that policies are put in by it: records, accepted candidates, tables that are remembered.
const GROWTH: [(&str, fn(&Case) -> usize, [usize; 6]); 3] = [
    ("records", |case| records(&case.bytes), [2, 5, 9, 17, 33, usize::MAX]),
    ("candidates", |case| case.counts.accepted, [64, 256, 1_024, 2_048, 4_096, usize::MAX]),
    ("tables", |case| case.counts.stored, [2, 8, 32, 64, 128, usize::MAX]),
];

struct Case {
    size: usize,
    context: u32,
    bytes: Vec<u8>,
    policy: Arc<Concrete<Key>>,
    answer: Answer,
    counts: Counts,
}

/// What one policy took: the median of each side, in nanoseconds.
struct Time {
    rust: u64,
    port: u64,
}

impl Time {
    /// How many times as long the Rust took.
    fn ratio(&self) -> f64 {
        self.rust as f64 / self.port as f64
    }
}

/// The middle one of the numbers, the upper of two.
pub fn median<T: Copy + PartialOrd>(mut list: Vec<T>) -> T {
    list.sort_by(|x, y| x.partial_cmp(y).expect("numbers have an order"));
    list[list.len() / 2]
}

fn records(bytes: &[u8]) -> usize {
    let (mut count, mut at) = (0, 0);
    while at < bytes.len() {
        at += u16_at(bytes, at);
        count += 1;
    }
    count
}

/// The 200 policies: of each size the first 50 of a random series that are searched to their end, the desk's two at the front. One that the port
/// refuses for room is left out, since the Rust searches on.
fn cases() -> Result<(Vec<Case>, usize), String> {
    let desk = or(4_294_967_295, key(1), 1, key(2)).bytes();
    let (mut list, mut left_out): (Vec<Case>, _) = (Vec::new(), 0);
    for size in SIZES {
        let mut random = Random::new(SEED);
        let mut given: Vec<(u32, Vec<u8>)> = if size == SIZES[0] { vec![(1, desk.clone()), (0, desk.clone())] } else { vec![] };
        let mut taken = 0;
        while taken < EACH {
            let (context, bytes) = given.pop().unwrap_or_else(|| Maker::old(&mut random).case(size));
            let (answer, counts) = oracle::answer(context, &bytes)?;
            if ![0, 11, 12].contains(&answer.number) {
                left_out += 1;
                continue;
            }
            let policy = read_policy(&bytes).map_err(|number| format!("a policy of the bench is refused with {number}"))?;
            list.push(Case { size, context, bytes, policy, answer, counts });
            taken += 1;
        }
    }
    Ok((list, left_out))
}

/// Nanoseconds that this thread has had a processor, so that other work on the machine hardly shows.
#[cfg(target_os = "linux")]
fn now() -> u64 {
    #[repr(C)]
    struct Timespec {
        seconds: std::ffi::c_long,
        nanos: std::ffi::c_long,
    }
    extern "C" {
        fn clock_gettime(clock: i32, time: *mut Timespec) -> i32;
    }
    const THREAD_CPUTIME: i32 = 3;
    let mut time = Timespec { seconds: 0, nanos: 0 };
    // SAFETY: the pointer is to a timespec as the C library has it.
    let status = unsafe { clock_gettime(THREAD_CPUTIME, &mut time) };
    assert_eq!(status, 0, "the system has no clock for a thread");
    time.seconds as u64 * 1_000_000_000 + time.nanos as u64
}

/// Nanoseconds of the clock, where the system is another.
#[cfg(not(target_os = "linux"))]
fn now() -> u64 {
    std::time::SystemTime::now().duration_since(std::time::UNIX_EPOCH).map_or(0, |time| time.as_nanos() as u64)
}

/// Nanoseconds that something takes.
pub fn timed<T>(run: impl FnOnce() -> T) -> u64 {
    let began = now();
    black_box(run());
    now() - began
}

fn rust(case: &Case) -> u64 {
    match case.context {
        0 => timed(|| compiler::best_compilation::<Key, Segwitv0>(black_box(&case.policy))),
        _ => timed(|| compiler::best_compilation::<Key, Tap>(black_box(&case.policy))),
    }
}

/// Results that no call has written yet.
const NOTHING: Results = Results { bytes: 0, cost: 0, never: 0, nodes: 0 };

/// The memory that the port is lent.
struct Lent {
    work: Vec<u64>,
    out: Vec<u8>,
}

/// Nanoseconds of the port, which must give what the Rust gives.
fn ported(case: &Case, lent: &mut Lent, dirt: u64) -> Result<u64, String> {
    lent.work.fill(dirt);
    let (mut number, mut results) = (0, NOTHING);
    let took = timed(|| number = port::compile(case.context, &case.bytes, &mut lent.out, &mut lent.work, &mut results));
    let wanted = &case.answer;
    let told = Results { bytes: wanted.output.len() as u64, cost: wanted.cost, never: u32::from(wanted.never), nodes: wanted.nodes as u64 };
    if number != wanted.number
        || results != told
        || lent.out[..wanted.output.len()] != wanted.output[..]
    {
        return Err(format!("the port and the Rust differ on context {}, policy {}", case.context, to_hex(&case.bytes)));
    }
    Ok(took)
}

fn time(case: &Case, lent: &mut Lent) -> Result<Time, String> {
    let (mut rusts, mut ports) = (Vec::new(), Vec::new());
    for round in 0..ROUNDS as u64 {
        rusts.push(rust(case));
        ports.push(ported(case, lent, 0x0123_4567_89AB_CDEF + round)?);
    }
    Ok(Time { rust: median(rusts[1..].to_vec()), port: median(ports[1..].to_vec()) })
}

/// Nanoseconds of a call that clears the work memory and does nothing else: one with a context that there is not.
fn clearing(lent: &mut Lent) -> u64 {
    let policy = key(7).bytes();
    let once = |lent: &mut Lent| {
        lent.work.fill(0x0123_4567_89AB_CDEF);
        timed(|| port::compile(2, &policy, &mut lent.out, &mut lent.work, &mut { NOTHING }))
    };
    median((0..5 * ROUNDS).map(|_| once(lent)).collect())
}

/// Nanoseconds as microseconds.
fn micros(nanos: u64) -> String {
    format!("{:.1}", nanos as f64 / 1000.0)
}

/// A row of a table: policies, both medians, then the median, least and greatest ratio.
fn row(name: &str, times: &[&Time]) {
    let ratios: Vec<f64> = times.iter().map(|time| time.ratio()).collect();
    let least = ratios.iter().copied().fold(f64::INFINITY, f64::min);
    let greatest = ratios.iter().copied().fold(0.0, f64::max);
    let (rust, port) = (median(times.iter().map(|t| t.rust).collect()), median(times.iter().map(|t| t.port).collect()));
    println!("| {name} | {} | {} | {} | {:.2} | {least:.2} | {greatest:.2} |", times.len(), micros(rust), micros(port), median(ratios));
}

/// The table by size.
fn by_size(cases: &[Case], times: &[Time]) {
    println!("| records | policies | Rust, µs | port, µs | Rust / port | least | greatest |\n|---|---|---|---|---|---|---|");
    for size in SIZES {
        row(&format!("up to {size}"), &cases.iter().zip(times).filter(|(case, _)| case.size == size).map(|(_, time)| time).collect::<Vec<_>>());
    }
    row("all", &times.iter().collect::<Vec<_>>());
}

/// The tables by what time grows with: medians of the policies of each group, and nanoseconds of each side for an accepted candidate.
fn growth(cases: &[Case], times: &[Time]) {
    for (by, key, bounds) in GROWTH {
        println!("\n| {by} | policies | records | candidates | tables | Rust, µs | port, µs | Rust, ns a candidate | port, ns a candidate |");
        println!("|---|---|---|---|---|---|---|---|---|");
        let mut low = 0;
        for high in bounds {
            let group: Vec<(&Case, &Time)> = cases.iter().zip(times).filter(|(case, _)| (low..high).contains(&key(case))).collect();
            let name = if high == usize::MAX { format!("{low} and more") } else { format!("{low} to {}", high - 1) };
            low = high;
            if !group.is_empty() {
                group_row(&name, &group);
            }
        }
    }
}

fn group_row(name: &str, group: &[(&Case, &Time)]) {
    let of = |f: &dyn Fn(&Case, &Time) -> u64| median(group.iter().map(|(case, time)| f(case, time)).collect());
    let each = |nanos: u64, case: &Case| nanos / case.counts.accepted.max(1) as u64;
    println!(
        "| {name} | {} | {} | {} | {} | {} | {} | {} | {} |",
        group.len(),
        of(&|case, _| records(&case.bytes) as u64),
        of(&|case, _| case.counts.accepted as u64),
        of(&|case, _| case.counts.stored as u64),
        micros(of(&|_, time| time.rust)),
        micros(of(&|_, time| time.port)),
        of(&|case, time| each(time.rust, case)),
        of(&|case, time| each(time.port, case)),
    );
}

/// The processor's own name, where the system tells it.
pub fn processor() -> String {
    let text = fs::read_to_string("/proc/cpuinfo").unwrap_or_default();
    let named = text.lines().find_map(|line| line.strip_prefix("model name")).and_then(|rest| rest.split_once(": "));
    format!("{} ({})", named.map_or("a processor without a name", |(_, name)| name.trim()), std::env::consts::ARCH)
}

/// A line for each policy.
fn each(cases: &[Case], times: &[Time]) {
    println!("size context number records candidates tables rust_ns port_ns policy");
    for (case, time) in cases.iter().zip(times) {
        let (counts, number) = (&case.counts, case.answer.number);
        let (size, records, policy) = (case.size, records(&case.bytes), to_hex(&case.bytes));
        println!("{size} {} {number} {records} {} {} {} {} {policy}", case.context, counts.accepted, counts.stored, time.rust, time.port);
    }
}

/// What is said of the 200 policies.
#[derive(Clone, Copy, PartialEq)]
pub enum Said {
    /// The tables.
    Tables,
    /// A line for each policy.
    Each,
    /// Nothing: the port alone runs, for a profiler to look at.
    Nothing,
}

fn measured(said: Said) -> Result<(), String> {
    let (cases, left_out) = cases()?;
    let mut lent = Lent { work: vec![0; port::compile_work()], out: vec![0; ROOM] };
    if said == Said::Nothing {
        return (0..5 * ROUNDS as u64).try_for_each(|round| cases.iter().try_for_each(|case| ported(case, &mut lent, round).map(|_| ())));
    }
    let terminal = io::stderr().is_terminal();
    let mut times = Vec::new();
    for case in &cases {
        if terminal {
            eprint!("\rspeed: {} of {} policies", times.len(), cases.len());
            io::stderr().flush().map_err(|e| e.to_string())?;
        }
        times.push(time(case, &mut lent)?);
    }
    if terminal {
        eprintln!("\rspeed: {} of {} policies", times.len(), cases.len());
    }
    if said == Said::Each {
        each(&cases, &times);
        return Ok(());
    }
    let clear = clearing(&mut lent);
    let slower = times.iter().filter(|time| time.port > time.rust + clear).count();
    println!("{}; medians of {} runs of each side, by turns; {left_out} policies left out\n", processor(), ROUNDS - 1);
    by_size(&cases, &times);
    println!("\nclearing the work memory, {} bytes, takes {} µs; {slower} policies are slower than the Rust by more", 8 * lent.work.len(), micros(clear));
    growth(&cases, &times);
    Ok(())
}

/// Measures and says.
pub fn run(said: Said) -> bool {
    match measured(said) {
        Ok(()) => true,
        Err(message) => {
            println!("{message}");
            false
        }
    }
}
