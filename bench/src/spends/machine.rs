//! Document 01's machine in both contexts, as document 02 leaves it: words over a main and an alternate stack of byte strings.
//!
//! Written from document 01 ("What a fragment's script does"), document 02 and BIP 342.

use crate::encode::{self as op, Word};
use crate::outline::Outline;

pub type Element = Vec<u8>;

/// The most elements that both stacks may hold together, and the most bytes of an element: the bench's own limits.
pub const ELEMENTS: usize = 4_096;
pub const BYTES: usize = 520;

/// What was found out: a digest for a hash, else yes or no.
#[derive(Clone, PartialEq, Eq, Debug)]
pub enum Outcome {
    No,
    Yes,
    Digest(Vec<u8>),
}

/// What a word asks, with what it has taken; the outcomes of a log need none of it.
#[cfg_attr(not(port), allow(dead_code))]
pub enum Question<'a> {
    Digest { hash: u8, of: &'a [u8] },
    Signature { key: &'a [u8], signature: &'a [u8] },
    Signatures { keys: &'a [Element], signatures: &'a [Element] },
    Time { word: u8, number: &'a [u8] },
}

/// Whoever tells the outcomes, one by one as they are asked for.
pub trait Outcomes {
    /// The outcome, or none where there is none left.
    fn outcome(&mut self, question: Question) -> Option<Outcome>;
}

/// Why a run aborts.
#[derive(Clone, Copy, PartialEq, Eq, Debug)]
pub enum Abort {
    Operand,
    Verify,
    Time,
    LongNumber,
    Dummy,
    Branch,
}

/// How a run ends.
#[derive(Clone, PartialEq, Eq, Debug)]
pub enum End {
    Stack(Vec<Element>),
    Abort(Abort),
    /// There was no outcome left to ask for.
    NoOutcome,
    /// The outcome was a digest where yes or no was asked for, or the other way round.
    WrongSort,
    /// Both stacks together hold more than they may.
    TooMany,
}

/// A tree's words, those with VERIFY in them as two.
pub fn words(tree: &Outline) -> Vec<Word> {
    let split = |word: Word| match word {
        Word::Op(op::EQUALVERIFY) => vec![Word::Op(op::EQUAL), Word::Op(op::VERIFY)],
        Word::Op(op::NUMEQUALVERIFY) => vec![Word::Op(op::NUMEQUAL), Word::Op(op::VERIFY)],
        Word::Op(op::CHECKSIGVERIFY) => vec![Word::Op(op::CHECKSIG), Word::Op(op::VERIFY)],
        Word::Op(op::CHECKMULTISIGVERIFY) => vec![Word::Op(op::CHECKMULTISIG), Word::Op(op::VERIFY)],
        word => vec![word],
    };
    op::words(tree).into_iter().flat_map(split).collect()
}

/// Whether an element is true: some byte is not 0, the last one's 0x80 aside.
pub fn truth(element: &[u8]) -> bool {
    match element.split_last() {
        None => false,
        Some((last, rest)) => rest.iter().any(|&byte| byte != 0) || last & 0x7f != 0,
    }
}

/// The number that an element writes, if it has at most 4 bytes: low byte first, the highest bit the sign.
fn number(element: &[u8]) -> Result<i64, End> {
    if element.len() > 4 {
        return Err(End::Abort(Abort::LongNumber));
    }
    let Some((last, rest)) = element.split_last() else { return Ok(0) };
    let size = rest.iter().rev().fold(i64::from(last & 0x7f), |high, &byte| high * 256 + i64::from(byte));
    Ok(if last & 0x80 == 0 { size } else { -size })
}

/// A number as an element: low byte first, as few as hold it with a free highest bit for the sign, none for 0.
pub fn element(number: i64) -> Element {
    let mut rest = number.unsigned_abs();
    let mut bytes = Vec::new();
    while rest > 0 {
        bytes.push((rest % 256) as u8);
        rest /= 256;
    }
    if bytes.last().is_some_and(|last| last & 0x80 != 0) {
        bytes.push(0);
    }
    if let (true, Some(last)) = (number < 0, bytes.last_mut()) {
        *last |= 0x80;
    }
    bytes
}

fn bool_element(value: bool) -> Element {
    element(i64::from(value))
}

struct Machine<'a, O: Outcomes> {
    tapscript: bool,
    main: Vec<Element>,
    alt: Vec<Element>,
    /// For each IF that is open, whether its branch is taken.
    branches: Vec<bool>,
    outcomes: &'a mut O,
}

impl<O: Outcomes> Machine<'_, O> {
    fn pop(&mut self) -> Result<Element, End> {
        self.main.pop().ok_or(End::Abort(Abort::Operand))
    }

    /// The last so many elements, the deepest first.
    fn take(&mut self, count: usize) -> Result<Vec<Element>, End> {
        match self.main.len().checked_sub(count) {
            Some(left) => Ok(self.main.split_off(left)),
            None => Err(End::Abort(Abort::Operand)),
        }
    }

    fn top(&self) -> Result<&Element, End> {
        self.main.last().ok_or(End::Abort(Abort::Operand))
    }

    fn push(&mut self, element: Element) {
        self.main.push(element);
    }

    fn digest(&mut self, hash: u8, of: &[u8]) -> Result<Element, End> {
        match self.outcomes.outcome(Question::Digest { hash, of }) {
            Some(Outcome::Digest(digest)) => Ok(digest),
            Some(_) => Err(End::WrongSort),
            None => Err(End::NoOutcome),
        }
    }

    fn yes(&mut self, question: Question) -> Result<bool, End> {
        match self.outcomes.outcome(question) {
            Some(Outcome::Yes) => Ok(true),
            Some(Outcome::No) => Ok(false),
            Some(Outcome::Digest(_)) => Err(End::WrongSort),
            None => Err(End::NoOutcome),
        }
    }

    /// The element that IF and NOTIF take; in Tapscript it is empty or the byte 1.
    fn condition(&mut self) -> Result<bool, End> {
        let taken = self.pop()?;
        if self.tapscript && !taken.is_empty() && taken != [1] {
            return Err(End::Abort(Abort::Branch));
        }
        Ok(truth(&taken))
    }

    /// Two numbers, the upper one second; both are there before either is read.
    fn numbers(&mut self) -> Result<(i64, i64), End> {
        let taken = self.take(2)?;
        Ok((number(&taken[0])?, number(&taken[1])?))
    }

    fn checksigadd(&mut self) -> Result<(), End> {
        let taken = self.take(3)?;
        let [signature, count, key] = &taken[..] else { return Err(End::Abort(Abort::Operand)) };
        let count = number(count)?;
        let good = self.yes(Question::Signature { key, signature })?;
        self.push(element(count + i64::from(good)));
        Ok(())
    }

    fn checkmultisig(&mut self) -> Result<(), End> {
        let n = number(&self.pop()?)?;
        let keys = self.take(n as usize)?;
        let k = number(&self.pop()?)?;
        let signatures = self.take(k as usize)?;
        if !self.pop()?.is_empty() {
            return Err(End::Abort(Abort::Dummy));
        }
        let good = self.yes(Question::Signatures { keys: &keys, signatures: &signatures })?;
        self.push(bool_element(good));
        Ok(())
    }

    /// An opcode where every open branch is taken.
    fn opcode(&mut self, opcode: u8) -> Result<(), End> {
        match opcode {
            op::VERIFY => {
                if !truth(&self.pop()?) {
                    return Err(End::Abort(Abort::Verify));
                }
            }
            op::TOALTSTACK => {
                let moved = self.pop()?;
                self.alt.push(moved);
            }
            op::FROMALTSTACK => {
                let moved = self.alt.pop().ok_or(End::Abort(Abort::Operand))?;
                self.push(moved);
            }
            op::IFDUP => {
                if truth(self.top()?) {
                    self.push(self.top()?.clone());
                }
            }
            op::DUP => self.push(self.top()?.clone()),
            op::SWAP => {
                let taken = self.take(2)?;
                self.main.extend(taken.into_iter().rev());
            }
            op::SIZE => self.push(element(self.top()?.len() as i64)),
            op::EQUAL => {
                let taken = self.take(2)?;
                self.push(bool_element(taken[0] == taken[1]));
            }
            op::ZERONOTEQUAL => {
                let taken = self.pop()?;
                self.push(bool_element(number(&taken)? != 0));
            }
            op::ADD => {
                let (x, y) = self.numbers()?;
                self.push(element(x + y));
            }
            op::BOOLAND => {
                let (x, y) = self.numbers()?;
                self.push(bool_element(x != 0 && y != 0));
            }
            op::BOOLOR => {
                let (x, y) = self.numbers()?;
                self.push(bool_element(x != 0 || y != 0));
            }
            op::NUMEQUAL => {
                let (x, y) = self.numbers()?;
                self.push(bool_element(x == y));
            }
            op::RIPEMD160 | op::SHA256 | op::HASH160 | op::HASH256 => {
                let of = self.pop()?;
                let digest = self.digest(opcode, &of)?;
                self.push(digest);
            }
            op::CHECKSIG => {
                let taken = self.take(2)?;
                let good = self.yes(Question::Signature { key: &taken[1], signature: &taken[0] })?;
                self.push(bool_element(good));
            }
            op::CHECKSIGADD => self.checksigadd()?,
            op::CHECKMULTISIG => self.checkmultisig()?,
            op::CHECKLOCKTIMEVERIFY | op::CHECKSEQUENCEVERIFY => {
                let lock = self.top()?.clone();
                number(&lock)?;
                if !self.yes(Question::Time { word: opcode, number: &lock })? {
                    return Err(End::Abort(Abort::Time));
                }
            }
            opcode => unreachable!("{opcode} is no word of a translation"),
        }
        Ok(())
    }

    fn word(&mut self, word: &Word) -> Result<(), End> {
        let taken = self.branches.iter().all(|&taken| taken);
        match word {
            Word::Op(opcode @ (op::IF | op::NOTIF)) => {
                let branch = taken && self.condition()? == (*opcode == op::IF);
                self.branches.push(branch);
            }
            Word::Op(op::ELSE) => {
                if let Some(branch) = self.branches.last_mut() {
                    *branch = !*branch;
                }
            }
            Word::Op(op::ENDIF) => {
                self.branches.pop();
            }
            _ if !taken => {}
            Word::Push(bytes) => self.push(bytes.clone()),
            Word::Op(opcode) => self.opcode(*opcode)?,
        }
        if self.main.len() + self.alt.len() > ELEMENTS {
            return Err(End::TooMany);
        }
        Ok(())
    }
}

/// Runs the words from a starting stack, its top last.
pub fn run(context: u32, words: &[Word], start: &[Element], outcomes: &mut impl Outcomes) -> End {
    let mut machine = Machine { tapscript: context == 1, main: start.to_vec(), alt: vec![], branches: vec![], outcomes };
    match words.iter().try_for_each(|word| machine.word(word)) {
        Ok(()) => End::Stack(machine.main),
        Err(end) => end,
    }
}
