//! Random logs: checked trees with tables, and entries that real ways, damaged ones and believed outcomes give.

use super::log::{Entry, Log};
use super::machine::{self, truth, Element, End, Outcome, Outcomes, Question, BYTES, ELEMENTS};
use super::ways::{Builder, World};
use crate::encode::{self as op, Word};
use crate::miniscript::context::{Segwitv0, Tap};
use crate::miniscript::ScriptContext;
use crate::outline::Outline;
use crate::random::Random;
use crate::records::{u16s, write_tree, Writer};
use crate::scripts::fitting;
use crate::trees::{self, CHECK_WORK};

/// The most records of a random tree.
const RECORDS: usize = 60;
/// Keys and hashes have numbers below this.
const NUMBERS: usize = 6;
/// The most entries of a log.
const ENTRIES: usize = 16;

/// A log's tree, as it is read.
pub struct Setting {
    pub log: Log,
    outline: Outline,
    words: Vec<Word>,
    /// The base of the tree's type: B, K, V, W.
    base: u32,
}

/// Notes the outcomes that another tells.
struct Noted<'a, O: Outcomes> {
    of: &'a mut O,
    told: Vec<Outcome>,
}

impl<O: Outcomes> Outcomes for Noted<'_, O> {
    fn outcome(&mut self, question: Question) -> Option<Outcome> {
        let outcome = self.of.outcome(question)?;
        self.told.push(outcome.clone());
        Some(outcome)
    }
}

/// Outcomes that nobody fixed: any, one by one.
struct Free<'a> {
    random: &'a mut Random,
    digests: Vec<Element>,
}

impl Outcomes for Free<'_> {
    fn outcome(&mut self, question: Question) -> Option<Outcome> {
        Some(match question {
            Question::Digest { .. } if self.random.once_in(4) || self.digests.is_empty() => {
                let size = *self.random.pick(&[0, 1, 4, 5, 20, 32, 33]);
                Outcome::Digest((0..size).map(|_| self.random.next() as u8).collect())
            }
            Question::Digest { .. } => Outcome::Digest(self.random.pick(&self.digests).clone()),
            _ if self.random.once_in(3) => Outcome::No,
            _ => Outcome::Yes,
        })
    }
}

/// Elements at the edges of what a word reads: truth and falsehood, numbers of up to 5 bytes, in more bytes than they need, and negative zero.
fn odd(random: &mut Random) -> Element {
    const ODD: [&[u8]; 22] = [
        &[], &[0], &[0x80], &[1], &[2], &[16], &[0x7f], &[0x81], &[0xff], &[1, 0], &[0, 1], &[0, 0], &[0, 0x80], &[1, 0x80], &[0, 0, 0, 0],
        &[0, 0, 0, 0x80], &[0xff, 0xff, 0xff, 0x7f], &[0xff, 0xff, 0xff, 0xff], &[1, 0, 0, 0], &[0, 0, 0, 0, 0x80], &[1, 0, 0, 0, 0], &[0; 5],
    ];
    if !random.once_in(4) {
        return random.pick(&ODD).to_vec();
    }
    let size = *random.pick(&[1, 2, 3, 4, 5, 20, 32, 33, 72, 255, 256, BYTES]);
    (0..size).map(|_| random.next() as u8).collect()
}

/// Another way to write an element that is as true or false as this one, if one is met soon.
fn respelled(random: &mut Random, element: &Element) -> Element {
    (0..40).map(|_| odd(random)).find(|other| truth(other) == truth(element)).unwrap_or_default()
}

/// Changes a starting stack at one place.
fn damage(random: &mut Random, stack: &mut Vec<Element>) {
    if stack.is_empty() {
        stack.push(odd(random));
        return;
    }
    let at = random.below(stack.len());
    match random.below(6) {
        0 => {
            stack.remove(at);
        }
        1 => stack.insert(at, odd(random)),
        2 => stack[at] = odd(random),
        3 => {
            let other = random.below(stack.len());
            stack.swap(at, other);
        }
        _ => {
            // Elements that a word reads as a number or as a branch.
            let small: Vec<usize> = (0..stack.len()).filter(|&i| stack[i].len() < 2).collect();
            if !small.is_empty() {
                let at = *random.pick(&small);
                stack[at] = respelled(random, &stack[at]);
            }
        }
    }
}

/// The bytes of a small tree by kind and payload.
fn records(list: &[(u16, Vec<u8>)]) -> Vec<u8> {
    let mut out = Writer::default();
    for (kind, payload) in list {
        out.record(*kind, payload);
    }
    out.bytes
}

/// Trees in which an element of the start is a number's operand, where a context lets it: d:v:1 under every word that reads numbers.
fn number_trees() -> Vec<Vec<u8>> {
    let d = |at: u16| [(33, vec![]), (46, u16s(&[at])), (45, u16s(&[at + 1]))];
    let two = |above: &[(u16, Vec<u8>)]| records(&[&d(0)[..], &d(3), &[(42, u16s(&[5]))], above].concat());
    vec![
        records(&[&d(0)[..], &[(48, u16s(&[2]))]].concat()),
        two(&[(49, u16s(&[2, 6]))]),
        two(&[(51, u16s(&[2, 6]))]),
        records(&[&d(0)[..], &[(48, u16s(&[2]))], &d(4), &[(48, u16s(&[6])), (42, u16s(&[7])), (56, u16s(&[1, 2, 3, 8]))]].concat()),
    ]
}

/// Makes settings and entries.
pub struct Cases {
    small: [Vec<Vec<u8>>; 2],
}

impl Cases {
    pub fn new() -> Self {
        fn all<Ctx: ScriptContext>() -> Vec<Vec<u8>> {
            trees::small::<Ctx>(3).iter().filter_map(|tree| write_tree(&**tree).ok()).collect()
        }
        Cases { small: [all::<Segwitv0>(), all::<Tap>()] }
    }

    fn tree(&self, random: &mut Random, context: u32) -> Vec<u8> {
        loop {
            let tree = match random.below(8) {
                0..=1 => random.pick(&self.small[context as usize]).clone(),
                2 => random.pick(&number_trees()).clone(),
                3 => trees::case(random, context, 0, RECORDS),
                _ if context == 0 => write_tree(&*trees::grown::<Segwitv0>(random, RECORDS)).unwrap_or_default(),
                _ => write_tree(&*trees::grown::<Tap>(random, RECORDS)).unwrap_or_default(),
            };
            if trees::check(context, &tree, CHECK_WORK).0 == 0 {
                return trees::renumbered(random, &tree, NUMBERS, usize::MAX);
            }
        }
    }

    /// A log without entries.
    pub fn setting(&self, random: &mut Random, context: u32) -> Setting {
        let tree = self.tree(random, context);
        let tables = fitting(random, context, &tree);
        let base = trees::check(context, &tree, CHECK_WORK).1 / 240;
        let log = Log { context, tree, tables, entries: vec![] };
        let outline = log.outline().expect("the tree is checked and its tables fit");
        let words = machine::words(&outline);
        Setting { log, outline, words, base }
    }

    /// A log with up to so many entries, and what is wrong with the interpreter, where a way does not do what BIP 379 says.
    pub fn log(&self, random: &mut Random, context: u32) -> Result<Log, String> {
        let mut setting = self.setting(random, context);
        let count = random.below(ENTRIES + 1);
        for _ in 0..count {
            let entry = setting.entry(random)?;
            setting.log.entries.push(entry);
        }
        Ok(setting.log)
    }
}

impl Setting {
    /// Every hash that the script compares with.
    fn digests(&self) -> Vec<Element> {
        fn add(tree: &Outline, list: &mut Vec<Element>) {
            if matches!(tree.kind, 35 | 38..=41) {
                list.extend(tree.pushes.iter().cloned());
            }
            tree.children.iter().for_each(|child| add(child, list));
        }
        let mut list = Vec::new();
        add(&self.outline, &mut list);
        list
    }

    /// An entry that a starting stack gives with somebody's outcomes; its end is the run's own, an abort where the run goes over the limit.
    fn run(&self, number: u32, start: Vec<Element>, of: &mut impl Outcomes) -> (Entry, End) {
        let mut noted = Noted { of, told: vec![] };
        let end = machine::run(self.log.context, &self.words, &start, &mut noted);
        let recorded = match &end {
            End::Stack(stack) => Some(stack.clone()),
            _ => None,
        };
        (Entry { number, start, outcomes: noted.told, end: recorded }, end)
    }

    /// A spend that BIP 379's table gives, its time checks passed, and that the machine must end as the table says.
    pub fn real(&self, random: &mut Random, number: u32, satisfied: bool) -> Result<Option<Entry>, String> {
        let mut builder = Builder { random, world: World::default(), context: self.log.context, needless: false };
        let Some(mut start) = builder.any_way(&self.outline, satisfied) else { return Ok(None) };
        let mut world = builder.world;
        if self.base == 3 {
            start.push(odd(random));
        }
        let taken = start.clone();
        let (entry, end) = self.run(number, start, &mut world);
        let right = match (&end, self.base) {
            (End::Stack(stack), 0) => stack.len() == 1 && truth(&stack[0]) == satisfied,
            (End::Stack(stack), 1) => stack.len() == 2 && stack[0].is_empty() != satisfied,
            (End::Stack(stack), 2) => stack.is_empty() && satisfied,
            (End::Stack(stack), _) => stack.len() == 2 && stack.contains(&taken[taken.len() - 1]),
            _ => false,
        };
        if right {
            Ok(Some(entry))
        } else {
            Err(format!("a way to {}satisfy the tree {:02x?} ends as {end:?}", if satisfied { "" } else { "dis" }, self.log.tree))
        }
    }

    /// A starting stack that some way gives, the bracketed ones included, and its world.
    fn any_start(&self, random: &mut Random) -> (Vec<Element>, World) {
        let satisfied = random.once_in(2);
        let mut builder = Builder { random, world: World::default(), context: self.log.context, needless: true };
        let found = builder.any_way(&self.outline, satisfied).or_else(|| builder.any_way(&self.outline, !satisfied));
        let mut world = builder.world;
        let mut start = found.unwrap_or_default();
        if self.base == 3 {
            start.push(odd(random));
        }
        if random.once_in(4) {
            // The number as the script pushes it: the one that stands before the word.
            for pair in self.words.windows(2) {
                if let [Word::Push(number), Word::Op(word @ (op::CHECKLOCKTIMEVERIFY | op::CHECKSEQUENCEVERIFY))] = pair {
                    world.late.insert((*word, number.clone()));
                }
            }
        }
        (start, world)
    }

    /// Puts elements below a starting stack, until it has so many.
    fn fill(random: &mut Random, start: &mut Vec<Element>, count: usize) {
        let mut below: Vec<Element> = (start.len()..count).map(|_| if random.once_in(64) { odd(random) } else { vec![] }).collect();
        below.append(start);
        *start = below;
    }

    /// A random entry.
    pub fn entry(&self, random: &mut Random) -> Result<Entry, String> {
        let number = if random.once_in(3) { random.below(4) as u32 } else { random.next() as u32 };
        let sort = random.below(10);
        if sort < 3 {
            if let Some(mut entry) = self.real(random, number, sort > 0)? {
                self.spoil(random, &mut entry);
                return Ok(entry);
            }
        }
        let (mut start, mut world) = self.any_start(random);
        for _ in 0..[0, 1, 1, 2, 3][random.below(5)] {
            damage(random, &mut start);
        }
        if sort == 9 {
            start = (0..random.below(8)).map(|_| odd(random)).collect();
        }
        match random.below(30) {
            0 => {
                let count = *random.pick(&[ELEMENTS - 3, ELEMENTS - 2, ELEMENTS - 1, ELEMENTS, ELEMENTS, ELEMENTS + 1]);
                Self::fill(random, &mut start, count);
            }
            1 => {
                let at = random.below(start.len() + 1);
                start.insert(at, vec![7; BYTES + random.below(2)]);
            }
            _ if random.once_in(4) => {
                let count = start.len() + random.between(1, 3);
                Self::fill(random, &mut start, count);
            }
            _ => {}
        }
        let mut entry = if sort < 7 {
            self.run(number, start, &mut world).0
        } else {
            let digests = self.digests();
            self.run(number, start, &mut Free { random: &mut *random, digests }).0
        };
        self.spoil(random, &mut entry);
        Ok(entry)
    }

    /// Leaves an entry as it is, or changes an outcome or the end of it.
    fn spoil(&self, random: &mut Random, entry: &mut Entry) {
        match random.below(12) {
            0 => {
                entry.outcomes.pop();
            }
            1 => {
                let left = random.below(entry.outcomes.len() + 1);
                entry.outcomes.truncate(left);
            }
            2 => {
                let more = random.pick(&[Outcome::No, Outcome::Yes, Outcome::Digest(vec![]), Outcome::Digest(vec![1; 20])]).clone();
                let at = if random.once_in(2) { entry.outcomes.len() } else { random.below(entry.outcomes.len() + 1) };
                entry.outcomes.insert(at, more);
            }
            3 if !entry.outcomes.is_empty() => {
                let at = random.below(entry.outcomes.len());
                entry.outcomes[at] = match entry.outcomes[at] {
                    Outcome::Digest(_) => random.pick(&[Outcome::No, Outcome::Yes]).clone(),
                    _ => Outcome::Digest((0..random.below(33)).map(|_| random.next() as u8).collect()),
                };
            }
            4 if !entry.outcomes.is_empty() => {
                let at = random.below(entry.outcomes.len());
                match &mut entry.outcomes[at] {
                    Outcome::Digest(digest) if digest.is_empty() => digest.push(0),
                    Outcome::Digest(digest) => {
                        let bit = random.below(8 * digest.len());
                        digest[bit / 8] ^= 1 << (bit % 8);
                    }
                    outcome => *outcome = if *outcome == Outcome::No { Outcome::Yes } else { Outcome::No },
                }
            }
            5 => entry.end = if entry.end.is_none() { Some(vec![]) } else { None },
            6 | 7 => {
                let end = entry.end.get_or_insert_with(Vec::new);
                match random.below(6) {
                    0 => end.push(vec![]),
                    1 => {
                        end.pop();
                    }
                    2 => end.reverse(),
                    _ if !end.is_empty() => {
                        let at = if random.once_in(2) { end.len() - 1 } else { random.below(end.len()) };
                        end[at] = respelled(random, &end[at]);
                    }
                    _ => end.push(vec![1]),
                }
            }
            8 if random.once_in(8) => match random.below(4) {
                0 => entry.outcomes.push(Outcome::Digest(vec![9; BYTES + random.below(2)])),
                1 => entry.end = Some(vec![vec![3; BYTES + random.below(2)]]),
                2 => entry.end = Some(vec![vec![]; ELEMENTS + random.below(2)]),
                _ => {
                    if let Some(Outcome::Digest(digest)) = entry.outcomes.iter_mut().find(|outcome| matches!(outcome, Outcome::Digest(_))) {
                        digest.resize(BYTES + random.below(2), 0);
                    }
                }
            },
            _ => {}
        }
    }
}
