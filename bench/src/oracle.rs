//! The number, output, cost bits, flag of never and nodes that compile must give, as the Rust has them.

use std::any::Any;
use std::cell::Cell;
use std::fmt;
use std::io::{BufRead, Write};
use std::panic::{self, AssertUnwindSafe};

use crate::keys::Key;
use crate::miniscript::context::{Segwitv0, Tap};
use crate::miniscript::ScriptContext;
use crate::policy::{compiler, costed, counted, Concrete};
use crate::records::{from_hex, read_policy, to_hex, write_tree};
use crate::room::{self, Counts, Refusal};
use crate::{tapscript, Miniscript};

const BAD_CONTEXT: u32 = 1;
const NOT_A_COST: u32 = 10;
const LIMITS_EXCEEDED: u32 = 11;
const TOP_LEVEL_NON_SAFE: u32 = 12;

/// What compile gives for unlimited output room and right work memory.
#[derive(Clone, PartialEq, Eq, Debug)]
pub struct Answer {
    pub number: u32,
    pub output: Vec<u8>,
    /// The bits of the cost, 0 where it is never.
    pub cost: u64,
    /// Whether the Rust's cost is infinite.
    pub never: bool,
    pub nodes: usize,
}

impl Answer {
    pub fn refused(number: u32) -> Self {
        Answer { number, output: vec![], cost: 0, never: false, nodes: 0 }
    }
}

impl fmt::Display for Answer {
    fn fmt(&self, f: &mut fmt::Formatter) -> fmt::Result {
        let cost = if self.never { "-".to_string() } else { format!("{:016X}", self.cost) };
        write!(f, "{} {} {cost} {}", self.number, to_hex(&self.output), self.nodes)
    }
}

/// The answer, and what the search did on the way; or how the three copies of the compiler differ.
pub fn answer(context: u32, policy: &[u8]) -> Result<(Answer, Counts), String> {
    room::begin();
    if context > 1 {
        return Ok((Answer::refused(BAD_CONTEXT), room::counts()));
    }
    match read_policy(policy) {
        Err(number) => Ok((Answer::refused(number), room::counts())),
        Ok(policy) if context == 0 => tapscript::typing::<Segwitv0, _>(|| searched::<Segwitv0>(&policy)),
        Ok(policy) => tapscript::typing::<Tap, _>(|| searched::<Tap>(&policy)),
    }
}

/// What one copy of the compiler gave: a tree's records, or document 01's number.
type Chosen = Result<Vec<u8>, u32>;

/// What is told of a cost: its bits and the flag of never.
fn told(cost: f64) -> (u64, bool) {
    if cost == f64::INFINITY {
        (0, true)
    } else {
        (cost.to_bits(), false)
    }
}

/// Runs the three copies. The counted one goes first: where it refuses for room or NotACost, the others might not end and are not run; and where it
/// dropped a candidate for its height, it alone is what document 02 asks for.
fn searched<Ctx: ScriptContext>(policy: &Concrete<Key>) -> Result<(Answer, Counts), String> {
    let counted =
        number_of(guarded(|| counted::best_compilation_with_cost::<Key, Ctx>(policy)).map(|r| r.map_err(|e| counted_error(&e))))?;
    let counts = room::counts();
    let limits = match &counted {
        Err(number) => *number < LIMITS_EXCEEDED,
        Ok(_) => false,
    };
    if limits {
        return Ok((Answer::refused(counted.err().unwrap_or(NOT_A_COST)), counts));
    }
    if counts.tall > 0 {
        let nodes = counts.accepted + 2;
        let answer = match counted.and_then(|(tree, cost)| Ok((write_tree(&tree)?, told(cost)))) {
            Ok((output, (cost, never))) => Answer { number: 0, output, cost, never, nodes },
            Err(number) => Answer::refused(number),
        };
        return Ok((answer, counts));
    }
    let counted = records_of(counted.map(|(tree, _)| tree));
    let plain = records_of(number_of(guarded(|| compiler::best_compilation::<Key, Ctx>(policy)).map(|r| r.map_err(|e| compiler_error(&e))))?);
    let costed =
        number_of(guarded(|| costed::best_compilation_with_cost::<Key, Ctx>(policy)).map(|r| r.map_err(|e| costed_error(&e))))?;
    let (cost, never) = match &costed {
        Ok((_, cost)) => told(*cost),
        Err(_) => (0, false),
    };
    let costed = records_of(costed.map(|(tree, _)| tree));
    if plain != counted || plain != costed {
        return Err(format!(
            "the copies of the Rust differ: unmodified {}, with the accessor {}, counted {}",
            shown(&plain),
            shown(&costed),
            shown(&counted)
        ));
    }
    let answer = match plain {
        Ok(output) => Answer { number: 0, output, cost, never, nodes: counts.accepted + 2 },
        Err(number) => Answer::refused(number),
    };
    Ok((answer, counts))
}

fn records_of<Ctx: ScriptContext>(tree: Result<Miniscript<Key, Ctx>, u32>) -> Chosen {
    tree.and_then(|tree| write_tree(&tree))
}

fn shown(chosen: &Chosen) -> String {
    match chosen {
        Ok(bytes) => to_hex(bytes),
        Err(number) => format!("refusal {number}"),
    }
}

/// Each copy of the compiler has an error type of its own, with the same cases.
macro_rules! error_number {
    ($name:ident, $copy:ident) => {
        fn $name(e: &$copy::CompilerError) -> Option<u32> {
            match e {
                $copy::CompilerError::LimitsExceeded => Some(LIMITS_EXCEEDED),
                $copy::CompilerError::TopLevelNonSafe => Some(TOP_LEVEL_NON_SAFE),
                _ => None,
            }
        }
    };
}

error_number!(compiler_error, compiler);
error_number!(costed_error, costed);
error_number!(counted_error, counted);

thread_local! {
    /// Whether a copy of the compiler is running, whose panics are answers.
    static RUNNING: Cell<bool> = const { Cell::new(false) };
}

/// Lets panics print, but for those of a running copy of the compiler.
pub fn hush_answers() {
    let print = panic::take_hook();
    panic::set_hook(Box::new(move |info| {
        if !RUNNING.with(Cell::get) {
            print(info);
        }
    }));
}

/// Runs something whose panics are answers.
pub fn while_answers<T>(run: impl FnOnce() -> T) -> T {
    RUNNING.with(|running| running.set(true));
    let result = run();
    RUNNING.with(|running| running.set(false));
    result
}

/// Runs code of the Rust; a panic or a refusal of `room` comes back as its payload.
pub fn guarded<T>(run: impl FnOnce() -> T) -> Result<T, Box<dyn Any + Send>> {
    while_answers(|| panic::catch_unwind(AssertUnwindSafe(run)))
}

/// The tree or the number: a missing dissatisfaction cost and an unordered cost are the Rust's panics, and NotACost here.
fn number_of<T>(run: Result<Result<T, Option<u32>>, Box<dyn Any + Send>>) -> Result<Result<T, u32>, String> {
    match run {
        Ok(Ok(tree)) => Ok(Ok(tree)),
        Ok(Err(Some(number))) => Ok(Err(number)),
        Ok(Err(None)) => Err("the Rust gave an error that document 01 has no number for".to_string()),
        Err(payload) => {
            if let Some(Refusal(number)) = payload.downcast_ref() {
                return Ok(Err(*number));
            }
            let text = payload.downcast_ref::<String>().cloned();
            let text = text.or_else(|| payload.downcast_ref::<&str>().map(|s| s.to_string())).unwrap_or_default();
            if text.contains("`Option::unwrap()` on a `None` value") || text.contains("must be dissatisfiable") {
                Ok(Err(NOT_A_COST))
            } else {
                Err(format!("the Rust panicked: {text}"))
            }
        }
    }
}

/// The context and policy of an input line; words after them are ignored, so that a line of answers is one too.
pub fn parse_line(line: &str) -> Result<(u32, Vec<u8>), String> {
    let mut words = line.split_whitespace();
    let context = words.next().ok_or("no context")?;
    let context = context.parse::<u32>().map_err(|_| format!("`{context}` is no context: a number below 2^32 is wanted"))?;
    let policy = words.next().ok_or("no policy")?;
    let policy = from_hex(policy).ok_or("the policy is no even number of hexadecimal digits, nor `-`")?;
    Ok((context, policy))
}

/// Answers each line of the input; gives the number of lines that could not be answered.
pub fn run(input: impl BufRead, mut output: impl Write) -> std::io::Result<usize> {
    let mut bad = 0;
    for (n, line) in input.split(b'\n').enumerate() {
        let line = line?;
        let line = String::from_utf8_lossy(&line);
        if line.trim().is_empty() || line.starts_with('#') {
            continue;
        }
        let result = parse_line(&line).and_then(|(context, policy)| {
            let (answer, _) = answer(context, &policy)?;
            Ok(format!("{context} {} {answer}", to_hex(&policy)))
        });
        match result {
            Ok(line) => writeln!(output, "{line}")?,
            Err(message) => {
                eprintln!("bench: line {}: {message}", n + 1);
                bad += 1;
            }
        }
    }
    output.flush()?;
    Ok(bad)
}
