//! Logs of recorded spends: their form, and the verdict on each entry, from document 02.

use super::machine::{self, Abort, Element, End, Outcome, Outcomes, Question, BYTES, ELEMENTS};
use crate::encode::Word;
use crate::keys::Key;
use crate::miniscript::context::{Segwitv0, Tap};
use crate::miniscript::ScriptContext;
use crate::outline::{Lent, Outline, Tables};
use crate::trees;
use crate::Miniscript;

pub const BAD_CONTEXT: u32 = 1;
pub const BAD_WORK: u32 = 2;
pub const OUTPUT_TOO_SMALL: u32 = 13;
pub const BROKEN: u32 = 14;
pub const NO_ENTRY: u32 = 17;

/// The words of work memory that the entry asks for.
pub const WORK: usize = 20_480;

/// The bytes of a report.
pub const REPORT: usize = 8;

/// One spend: its number, the starting stack, the outcomes in the order asked, and the recorded end, which is an abort or a main stack.
#[derive(Clone, PartialEq, Eq, Debug)]
pub struct Entry {
    pub number: u32,
    pub start: Vec<Element>,
    pub outcomes: Vec<Outcome>,
    pub end: Option<Vec<Element>>,
}

#[derive(Clone)]
pub struct Log {
    pub context: u32,
    pub tree: Vec<u8>,
    pub tables: Tables,
    pub entries: Vec<Entry>,
}

/// Bytes as they are written, and the places at which a part begins.
#[derive(Default)]
struct Writing {
    bytes: Vec<u8>,
    places: Vec<usize>,
}

impl Writing {
    fn number(&mut self, number: usize) {
        self.places.push(self.bytes.len());
        self.bytes.extend((number as u32).to_le_bytes());
    }

    fn bytes(&mut self, bytes: &[u8]) {
        self.places.push(self.bytes.len());
        self.bytes.extend(bytes);
    }

    fn sized(&mut self, bytes: &[u8]) {
        self.number(bytes.len());
        self.bytes(bytes);
    }

    fn stack(&mut self, stack: &[Element]) {
        self.number(stack.len());
        for element in stack {
            self.sized(element);
        }
    }

    fn entry(&mut self, entry: &Entry) {
        self.number(entry.number as usize);
        self.stack(&entry.start);
        self.number(entry.outcomes.len());
        for outcome in &entry.outcomes {
            match outcome {
                Outcome::No => self.bytes(&[0]),
                Outcome::Yes => self.bytes(&[1]),
                Outcome::Digest(digest) => {
                    self.bytes(&[2]);
                    self.sized(digest);
                }
            }
        }
        match &entry.end {
            None => self.bytes(&[0]),
            Some(stack) => {
                self.bytes(&[1]);
                self.stack(stack);
            }
        }
    }
}

/// Bytes as they are read, from the front.
struct Reading<'a>(&'a [u8]);

impl Reading<'_> {
    fn bytes(&mut self, count: usize) -> Option<Vec<u8>> {
        if self.0.len() < count {
            return None;
        }
        let (taken, rest) = self.0.split_at(count);
        self.0 = rest;
        Some(taken.to_vec())
    }

    fn byte(&mut self) -> Option<u8> {
        self.bytes(1).map(|taken| taken[0])
    }

    fn number(&mut self) -> Option<usize> {
        self.bytes(4).map(|taken| u32::from_le_bytes([taken[0], taken[1], taken[2], taken[3]]) as usize)
    }

    fn sized(&mut self) -> Option<Vec<u8>> {
        let size = self.number()?;
        self.bytes(size)
    }

    fn stack(&mut self) -> Option<Vec<Element>> {
        let count = self.number()?;
        (0..count).map(|_| self.sized()).collect()
    }

    fn outcome(&mut self) -> Option<Outcome> {
        match self.byte()? {
            0 => Some(Outcome::No),
            1 => Some(Outcome::Yes),
            2 => Some(Outcome::Digest(self.sized()?)),
            _ => None,
        }
    }

    fn entry(&mut self) -> Option<Entry> {
        let number = self.number()? as u32;
        let start = self.stack()?;
        let asked = self.number()?;
        let outcomes = (0..asked).map(|_| self.outcome()).collect::<Option<_>>()?;
        let end = match self.byte()? {
            0 => None,
            1 => Some(self.stack()?),
            _ => return None,
        };
        Some(Entry { number, start, outcomes, end })
    }
}

impl Log {
    fn written(&self) -> Writing {
        let mut out = Writing::default();
        out.number(self.context as usize);
        out.number(self.tree.len());
        self.tables.iter().for_each(|table| out.number(table.len()));
        out.bytes(&self.tree);
        self.tables.iter().for_each(|table| out.bytes(table));
        self.entries.iter().for_each(|entry| out.entry(entry));
        out
    }

    pub fn bytes(&self) -> Vec<u8> {
        self.written().bytes
    }

    /// Where the parts of the log begin.
    #[cfg(port)]
    pub fn places(&self) -> Vec<usize> {
        self.written().places
    }

    /// The log that the bytes write; none, if it is broken.
    pub fn read(bytes: &[u8]) -> Option<Log> {
        let mut rest = Reading(bytes);
        let context = rest.number()? as u32;
        let tree = rest.number()?;
        let sizes = [rest.number()?, rest.number()?, rest.number()?, rest.number()?];
        let tree = rest.bytes(tree)?;
        let tables = [rest.bytes(sizes[0])?, rest.bytes(sizes[1])?, rest.bytes(sizes[2])?, rest.bytes(sizes[3])?];
        let mut entries = Vec::new();
        while !rest.0.is_empty() {
            entries.push(rest.entry()?);
        }
        Some(Log { context, tree, tables, entries })
    }

    /// The outline of the log's tree with the tables' bytes, or the number of its refusal.
    pub fn outline(&self) -> Result<Outline, u32> {
        fn of<Ctx: ScriptContext>(log: &Log, tree: &Miniscript<Key, Ctx>) -> Result<Outline, u32> {
            Outline::of(&tree.node, &Lent { context: log.context, tables: &log.tables }).ok_or(NO_ENTRY)
        }
        match self.context {
            0 => of::<Segwitv0>(self, &*trees::read_tree(&self.tree)?),
            1 => of::<Tap>(self, &*trees::read_tree(&self.tree)?),
            _ => Err(BAD_CONTEXT),
        }
    }
}

/// A spend's verdict, by its number.
#[derive(Clone, Copy, PartialEq, Eq, Debug)]
pub enum Verdict {
    Agrees = 0,
    Differs = 1,
    Mismatched = 2,
    TooLarge = 3,
}

/// What decides a verdict.
#[derive(Clone, Copy, PartialEq, Eq, Debug)]
pub enum Reason {
    /// A starting stack, a recorded stack, an element or a digest that is too large, or stacks that grow in the run.
    LargeStart,
    LargeEnd,
    LargeElement,
    LargeDigest,
    Grown,
    NoOutcome,
    WrongSort,
    OutcomeLeft,
    /// The run's end, whether the recorded one is an abort, and whether the two agree.
    Aborts { why: Abort, agrees: bool },
    Ends { recorded_abort: bool, agrees: bool },
}

impl Reason {
    pub fn verdict(self) -> Verdict {
        match self {
            Reason::LargeStart | Reason::LargeEnd | Reason::LargeElement | Reason::LargeDigest | Reason::Grown => Verdict::TooLarge,
            Reason::NoOutcome | Reason::WrongSort | Reason::OutcomeLeft => Verdict::Mismatched,
            Reason::Aborts { agrees: true, .. } | Reason::Ends { agrees: true, .. } => Verdict::Agrees,
            Reason::Aborts { .. } | Reason::Ends { .. } => Verdict::Differs,
        }
    }
}

/// The outcomes that a log records, in order.
struct Recorded<'a> {
    left: &'a [Outcome],
}

impl Outcomes for Recorded<'_> {
    fn outcome(&mut self, _: Question) -> Option<Outcome> {
        let (first, left) = self.left.split_first()?;
        self.left = left;
        Some(first.clone())
    }
}

/// What an entry itself has that is too large.
fn too_large(entry: &Entry) -> Option<Reason> {
    let end = entry.end.as_deref().unwrap_or(&[]);
    let digest = |outcome: &Outcome| matches!(outcome, Outcome::Digest(digest) if digest.len() > BYTES);
    if entry.start.len() > ELEMENTS {
        Some(Reason::LargeStart)
    } else if end.len() > ELEMENTS {
        Some(Reason::LargeEnd)
    } else if entry.start.iter().chain(end).any(|element| element.len() > BYTES) {
        Some(Reason::LargeElement)
    } else if entry.outcomes.iter().any(digest) {
        Some(Reason::LargeDigest)
    } else {
        None
    }
}

/// What comes of an entry.
pub fn judge(context: u32, words: &[Word], entry: &Entry) -> Reason {
    if let Some(reason) = too_large(entry) {
        return reason;
    }
    let mut recorded = Recorded { left: &entry.outcomes };
    match machine::run(context, words, &entry.start, &mut recorded) {
        End::TooMany => Reason::Grown,
        End::NoOutcome => Reason::NoOutcome,
        End::WrongSort => Reason::WrongSort,
        _ if !recorded.left.is_empty() => Reason::OutcomeLeft,
        End::Abort(why) => Reason::Aborts { why, agrees: entry.end.is_none() },
        End::Stack(stack) => Reason::Ends { recorded_abort: entry.end.is_none(), agrees: entry.end.as_ref() == Some(&stack) },
    }
}

/// The context and what comes of each entry with its number, or the number of a refusal, for so many words of work memory and so much room.
pub fn replay(bytes: &[u8], work: usize, room: usize) -> Result<(u32, Vec<(u32, Reason)>), u32> {
    let log = Log::read(bytes).ok_or(BROKEN)?;
    if log.context > 1 {
        return Err(BAD_CONTEXT);
    }
    if work != WORK {
        return Err(BAD_WORK);
    }
    let words = machine::words(&log.outline()?);
    if REPORT * log.entries.len() > room {
        return Err(OUTPUT_TOO_SMALL);
    }
    Ok((log.context, log.entries.iter().map(|entry| (entry.number, judge(log.context, &words, entry))).collect()))
}
