//! The Rust beside the port: the oracle, its stored answers, and comparison at scale.
//!
//! The first part of this file is the crate that the Rust's own files are built in; `shims` stands for the files that are not there.

// The Rust's files find the crate `bitcoin` here: what they ask of it stands at the root.
extern crate self as bitcoin;

mod shims;

pub use shims::bitcoin::hashes::hash256;
pub use shims::bitcoin::*;
pub use shims::{iter, keys, script_num_size, Error, MAX_RECURSION_DEPTH};
pub use shims::keys::{AbsLockTime, ForEachKey, MiniscriptKey, RelLockTime, ToPublicKey};
pub use shims::miniscript::Miniscript;
pub use shims::threshold::Threshold;
pub use miniscript::context::SigType;
pub use miniscript::decode::Terminal;

pub mod primitives {
    pub use crate::shims::threshold;
}

pub mod sync {
    pub use std::sync::Arc;
}

pub mod prelude {
    pub use crate::sync;
    pub use std::collections::{BTreeMap, VecDeque};
}

pub mod miniscript {
    pub use crate::Miniscript;
    pub use context::ScriptContext;

    include!(concat!(env!("OUT_DIR"), "/miniscript.rs"));
}

pub mod policy {
    pub use crate::shims::concrete;
    pub use concrete::Policy as Concrete;

    include!(concat!(env!("OUT_DIR"), "/policy.rs"));
}

#[cfg(port)]
mod accept;
mod answers;
#[cfg(port)]
mod check;
#[cfg(port)]
mod chosen;
#[cfg(port)]
mod compile;
mod decode;
#[cfg(port)]
mod differ;
mod encode;
mod figures;
#[cfg(port)]
mod index;
#[cfg(port)]
mod movers;
mod oracle;
mod outline;
mod policies;
#[cfg(port)]
mod port;
mod random;
mod records;
#[cfg(port)]
mod tall;
mod room;
#[cfg(port)]
mod scripts;
#[cfg(port)]
mod speed;
mod spends;
mod tapscript;
mod trees;
mod vectors;
#[cfg(port)]
mod witness;

use std::io::{self, BufWriter, Write};
use std::process::ExitCode;

use policies::{damaged_any, damaged_context, Maker};
use random::Random;
use records::to_hex;

const USAGE: &str = "usage:
  bench oracle                         answers the lines `CONTEXT POLICY` of standard input, a line each
  bench unchanged                      the same by the Rust as it is, where no d:X has u
  bench gen SEED COUNT MAXRECORDS      writes COUNT random lines `CONTEXT POLICY`, of 1 to MAXRECORDS (at most 64) records
  bench damage SEED COUNT MAXRECORDS   writes damaged copies of such lines
  bench answers                        writes the stored list, crates/oracle_replay/data/compile.txt, anew
  bench lower                          writes the list of answers of standard input in the kinds of document 01, without the parts of keys of 64 bits
  bench vectors                        compares the lines of standard input, answers of compile or of the check made elsewhere, with the Rust and the port
  bench figures                        compares the Rust's costs with document 01's figures
  bench decode SEED COUNT MAXRECORDS   writes small, stored and COUNT random trees as scripts and has the Rust's decoder read them back
  bench check SEED COUNT MAXRECORDS    runs COUNT random trees of each flavour and context through the Rust's type rules and the port
  bench compile SEED COUNT MAXRECORDS  runs COUNT random policies, some damaged, through the Rust and the port, in one call and in two
  bench replay                         runs the stored list through the port
  bench movers SEED COUNT MAXRECORDS   runs COUNT random policies, some damaged, through a mover of its own and the port, both ways
  bench script SEED COUNT MAXRECORDS   runs COUNT random trees of each flavour and context, and tables, through the Rust's decoder and the port
  bench speed [all | port]             times the Rust's unmodified compiler and the port over 200 policies; `all` says a line for each policy,
                                       `port` runs the port alone and says nothing, for a profiler
  bench differ SEED COUNT MAXRECORDS   runs COUNT pairs of trees of each sort and context through a walk of its own and the port
  bench spends SEED COUNT              runs logs with COUNT recorded spends of each context through an interpreter of its own and the port
  bench spends-speed                   times that interpreter and the port over 10,000 recorded spends
  bench spends-log                     writes the example log of the program `spends`, crates/spends/data/example.log
  bench index SEED COUNT MAXRECORDS    runs COUNT random trees of each flavour and context through the bench's own encoder, byte by byte, and the port
  bench accept SEED COUNT MAXRECORDS   runs COUNT policies with their trees, changed ones and others through an evaluation of its own and the port
  bench witness SEED COUNT             runs COUNT random trees of each flavour and context, small ones and compiled ones through every way and the port
";

/// The search recurses, so the work is done on a thread with room for it.
const STACK: usize = 512 << 20;

fn number(word: &str) -> Result<u64, String> {
    word.parse::<u64>().map_err(|_| format!("bench: `{word}` is no number\n{USAGE}"))
}

/// SEED, COUNT and MAXRECORDS, the last of them at most `most`.
fn numbers(words: [&str; 3], most: u64) -> Result<(u64, u64, usize), String> {
    let (seed, count, records) = (number(words[0])?, number(words[1])?, number(words[2])?);
    if !(1..=most).contains(&records) {
        return Err(format!("bench: MAXRECORDS is {records}, not 1 to {most}\n"));
    }
    Ok((seed, count, records as usize))
}

/// Answers the lines of standard input.
fn answered() -> Result<bool, String> {
    let bad = oracle::run(io::stdin().lock(), BufWriter::new(io::stdout().lock())).map_err(|e| format!("bench: {e}\n"))?;
    Ok(bad == 0)
}

/// The lines `CONTEXT POLICY` of random policies, damaged or not.
fn generate(words: [&str; 3], damage: bool) -> Result<bool, String> {
    let (seed, count, records) = numbers(words, 64)?;
    let mut random = Random::new(seed);
    let mut out = BufWriter::new(io::stdout().lock());
    for _ in 0..count {
        let (mut context, mut policy) = Maker::new(&mut random).any_case(records);
        if damage {
            context = damaged_context(&mut random, context);
            policy = damaged_any(&mut random, &policy);
        }
        writeln!(out, "{context} {}", to_hex(&policy)).map_err(|e| format!("bench: {e}\n"))?;
    }
    out.flush().map_err(|e| format!("bench: {e}\n"))?;
    Ok(true)
}

#[cfg(port)]
fn check(words: [&str; 3]) -> Result<bool, String> {
    let (seed, count, records) = numbers(words, 4_096)?;
    Ok(check::run(seed, count, records))
}

#[cfg(port)]
fn compile(words: [&str; 3]) -> Result<bool, String> {
    let (seed, count, records) = numbers(words, 64)?;
    Ok(compile::run(seed, count, records))
}

#[cfg(port)]
fn replay() -> Result<bool, String> {
    Ok(compile::replay())
}

#[cfg(port)]
fn movers(words: [&str; 3]) -> Result<bool, String> {
    let (seed, count, records) = numbers(words, 64)?;
    Ok(movers::run(seed, count, records))
}

#[cfg(port)]
fn script(words: [&str; 3]) -> Result<bool, String> {
    let (seed, count, records) = numbers(words, 4_096)?;
    Ok(scripts::run(seed, count, records))
}

#[cfg(port)]
fn speed(word: &str) -> Result<bool, String> {
    match word {
        "" => Ok(speed::run(speed::Said::Tables)),
        "all" => Ok(speed::run(speed::Said::Each)),
        "port" => Ok(speed::run(speed::Said::Nothing)),
        _ => Err(USAGE.to_string()),
    }
}

#[cfg(not(port))]
fn no_port() -> Result<bool, String> {
    Err("bench: built without the port; CLASPWILLOW_LIB names its library when bench is built (docs/BENCH.md)\n".to_string())
}

#[cfg(not(port))]
fn check(_: [&str; 3]) -> Result<bool, String> {
    no_port()
}

#[cfg(not(port))]
fn compile(_: [&str; 3]) -> Result<bool, String> {
    no_port()
}

#[cfg(not(port))]
fn replay() -> Result<bool, String> {
    no_port()
}

#[cfg(not(port))]
fn movers(_: [&str; 3]) -> Result<bool, String> {
    no_port()
}

#[cfg(not(port))]
fn script(_: [&str; 3]) -> Result<bool, String> {
    no_port()
}

#[cfg(not(port))]
fn speed(_: &str) -> Result<bool, String> {
    no_port()
}

#[cfg(port)]
fn differ(words: [&str; 3]) -> Result<bool, String> {
    let (seed, count, records) = numbers(words, 4_096)?;
    Ok(differ::run(seed, count, records))
}

#[cfg(not(port))]
fn differ(_: [&str; 3]) -> Result<bool, String> {
    no_port()
}

#[cfg(port)]
fn index(words: [&str; 3]) -> Result<bool, String> {
    let (seed, count, records) = numbers(words, 4_096)?;
    Ok(index::run(seed, count, records))
}

#[cfg(not(port))]
fn index(_: [&str; 3]) -> Result<bool, String> {
    no_port()
}

#[cfg(port)]
fn accept(words: [&str; 3]) -> Result<bool, String> {
    let (seed, count, records) = numbers(words, 64)?;
    Ok(accept::run(seed, count, records))
}

#[cfg(not(port))]
fn accept(_: [&str; 3]) -> Result<bool, String> {
    no_port()
}

#[cfg(port)]
fn witness(words: [&str; 2]) -> Result<bool, String> {
    Ok(witness::run(number(words[0])?, number(words[1])?))
}

#[cfg(not(port))]
fn witness(_: [&str; 2]) -> Result<bool, String> {
    no_port()
}

#[cfg(port)]
fn spends(words: [&str; 2]) -> Result<bool, String> {
    Ok(spends::run(number(words[0])?, number(words[1])?))
}

#[cfg(not(port))]
fn spends(_: [&str; 2]) -> Result<bool, String> {
    no_port()
}

#[cfg(port)]
fn spends_speed() -> Result<bool, String> {
    Ok(spends::speed())
}

#[cfg(not(port))]
fn spends_speed() -> Result<bool, String> {
    no_port()
}

/// Writes the example log.
fn spends_log() -> Result<bool, String> {
    let bytes = spends::example_bytes().map_err(|message| format!("bench: {message}\n"))?;
    io::stdout().lock().write_all(&bytes).map_err(|e| format!("bench: {e}\n"))?;
    Ok(true)
}

/// Whether all is well; or what is wrong with the words.
fn run(words: &[&str]) -> Result<bool, String> {
    match *words {
        ["oracle"] => answered(),
        ["unchanged"] => tapscript::unchanged(answered),
        ["gen", seed, count, records] => generate([seed, count, records], false),
        ["damage", seed, count, records] => generate([seed, count, records], true),
        ["answers"] => match answers::run(&mut BufWriter::new(io::stdout().lock())) {
            Ok(()) => Ok(true),
            Err(message) => {
                eprintln!("bench: {message}");
                Ok(false)
            }
        },
        ["lower"] => answers::lower(io::stdin().lock(), &mut BufWriter::new(io::stdout().lock())).map(|()| true).map_err(|e| format!("bench: {e}\n")),
        ["vectors"] => vectors::run(io::stdin().lock()).map_err(|e| format!("bench: {e}\n")),
        ["check", seed, count, records] => check([seed, count, records]),
        ["compile", seed, count, records] => compile([seed, count, records]),
        ["replay"] => replay(),
        ["movers", seed, count, records] => movers([seed, count, records]),
        ["script", seed, count, records] => script([seed, count, records]),
        ["speed"] => speed(""),
        ["speed", word] => speed(word),
        ["differ", seed, count, records] => differ([seed, count, records]),
        ["spends", seed, count] => spends([seed, count]),
        ["spends-speed"] => spends_speed(),
        ["spends-log"] => spends_log(),
        ["index", seed, count, records] => index([seed, count, records]),
        ["witness", seed, count] => witness([seed, count]),
        ["accept", seed, count, records] => accept([seed, count, records]),
        ["figures"] => Ok(figures::run()),
        ["decode", seed, count, records] => {
            let (seed, count, records) = numbers([seed, count, records], 4_096)?;
            Ok(decode::run(seed, count, records))
        }
        _ => Err(USAGE.to_string()),
    }
}

fn main() -> ExitCode {
    oracle::hush_answers();
    let work = || {
        let words: Vec<String> = std::env::args().skip(1).collect();
        let words: Vec<&str> = words.iter().map(String::as_str).collect();
        match run(&words) {
            Ok(true) => 0,
            Ok(false) => 1,
            Err(message) => {
                eprint!("{message}");
                2
            }
        }
    };
    let thread = std::thread::Builder::new().stack_size(STACK).spawn(work);
    match thread.map(|t| t.join()) {
        Ok(Ok(code)) => ExitCode::from(code),
        _ => {
            eprintln!("bench: stopped by a fault of its own");
            ExitCode::from(3)
        }
    }
}
