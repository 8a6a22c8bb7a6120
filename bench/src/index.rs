//! `bench index`: where each fragment stands in the script of the bench's own encoder, beside the port's claspwillow_index and claspwillow_find.
//!
//! A fragment's range is that of the words that its encoder adds; a VERIFY that is merged changes a word that is there already, and one that is not is a
//! word of the Verify's own. The innermost fragment of a byte is found by trying every record.

use crate::encode;
use crate::keys::Key;
use crate::miniscript::context::{Segwitv0, Tap};
use crate::miniscript::ScriptContext;
use crate::outline::{random_tables, Lent, Outline, Tables};
use crate::port;
use crate::random::Random;
use crate::records::{to_hex, u16_at, write_tree, TREE_RECORDS};
use crate::trees::{self, CHECK_WORK};
use crate::Miniscript;

const OUTPUT_TOO_SMALL: u32 = 13;
const NOT_ITS_INDEX: u32 = 20;

/// The words of work memory that both entries ask for: four for each record.
const WORK: usize = 4 * CHECK_WORK;

/// The bytes of an entry.
const ENTRY: usize = 16;

/// Bytes and words behind what is lent, which no call may touch.
const FENCE: usize = 16;
const FENCE_WORD: u64 = 0xFEED_FACE_CAFE_BEEF;
const FENCE_BYTE: u8 = 0xA5;

/// The entries of each table: a tree has no larger number.
const ENTRIES: usize = 24;

/// The children of each record, by their numbers.
fn children(tree: &[u8]) -> Vec<Vec<usize>> {
    let mut all = Vec::new();
    let mut at = 0;
    while at < tree.len() {
        let length = u16_at(tree, at);
        let kind = u16_at(tree, at + 2);
        let numbers = |from: usize, n: usize| (0..n).map(|i| u16_at(tree, at + from + 2 * i)).collect();
        all.push(match kind {
            42..=48 => numbers(4, 1),
            49..=54 => numbers(4, 2),
            55 => numbers(4, 3),
            56 => numbers(8, u16_at(tree, at + 6)),
            _ => Vec::new(),
        });
        at += length;
    }
    all
}

/// What is wanted of a tree: the index and the script, or the number of the refusal.
struct Wanted {
    index: Vec<u8>,
    script: Vec<u8>,
    ranges: Vec<(usize, usize)>,
    children: Vec<Vec<usize>>,
}

/// The types and heights of all fragments of a tree, each behind its children, as the records are told by `number`.
fn walk<Ctx: ScriptContext>(tree: &Miniscript<Key, Ctx>, number: usize, below: &[Vec<usize>], found: &mut [(u32, u32)]) {
    let children = crate::iter::children(&tree.node);
    for (child, &number) in children.iter().zip(&below[number]) {
        walk(child, number, below, found);
    }
    let height = below[number].iter().map(|&child| found[child].1).max().unwrap_or(0) + 1;
    found[number] = (trees::packed(&tree.ty), height);
}

fn wanted(context: u32, tree: &[u8], tables: &Tables) -> Result<Wanted, u32> {
    fn of<Ctx: ScriptContext>(context: u32, bytes: &[u8], tables: &Tables, tree: &Miniscript<Key, Ctx>) -> Wanted {
        let outline = Outline::of(&tree.node, &Lent { context, tables }).expect("the tables have all entries");
        let children = children(bytes);
        let mut told = vec![(0, 0); children.len()];
        walk(tree, children.len() - 1, &children, &mut told);
        let (script, ranges) = encode::ranges(&outline, children.len() - 1, &children);
        let mut index = Vec::new();
        for (record, &(first, length)) in ranges.iter().enumerate() {
            for number in [told[record].0, told[record].1, first as u32, length as u32] {
                index.extend_from_slice(&number.to_le_bytes());
            }
        }
        Wanted { index, script, ranges, children }
    }
    match context {
        0 => trees::read_tree::<Segwitv0>(tree).map(|read| of(context, tree, tables, &read)),
        1 => trees::read_tree::<Tap>(tree).map(|read| of(context, tree, tables, &read)),
        _ => Err(trees::check(context, tree, CHECK_WORK).0),
    }
}

impl Wanted {
    /// The record of the innermost fragment that holds a byte: of all that hold it, the one under which no other does.
    fn innermost(&self, at: usize) -> Option<usize> {
        let holds = |record: &usize| (self.ranges[*record].0..self.ranges[*record].0 + self.ranges[*record].1).contains(&at);
        let mut holding = (0..self.ranges.len()).filter(holds).filter(|&record| !self.children[record].iter().any(holds));
        let found = holding.next();
        assert!(holding.next().is_none(), "two fragments are innermost");
        found
    }
}

/// The memory that is lent, and what the calls have given.
#[derive(Default)]
struct Desk {
    work: Vec<u64>,
    out: Vec<u8>,
    numbers: [u64; 21],
    bytes: u64,
    merged: u64,
    alone: u64,
    differences: u64,
}

impl Desk {
    fn say(&mut self, message: String) {
        self.differences += 1;
        if self.differences <= 10 {
            println!("{message}");
        }
    }

    fn lend(&mut self, dirt: u64, words: usize) {
        self.work.clear();
        self.work.resize(words, dirt);
        self.work.resize(words + FENCE, FENCE_WORD);
    }

    /// What the memory shows after a call.
    fn look(&mut self, words: usize, call: &str) {
        if self.work[..words].iter().any(|&word| word != 0) || self.work[words..].iter().any(|&word| word != FENCE_WORD) {
            self.say(format!("{call}: work memory is not all zero, or was written past"));
        }
    }

    /// One call of claspwillow_index.
    fn index(&mut self, dirt: u64, context: u32, tree: &[u8], room: usize, words: usize, wanted: Result<&[u8], u32>) {
        let call = format!("index, context {context}, room {room}, work {words}, tree {}", to_hex(tree));
        self.lend(dirt, words);
        self.out.clear();
        self.out.resize(room, dirt as u8);
        self.out.resize(room + FENCE, FENCE_BYTE);
        let mut bytes = dirt;
        let number = port::index(context, tree, &mut self.out[..room], &mut self.work[..words], &mut bytes);
        self.look(words, &call);
        let written = wanted.unwrap_or(&[]);
        let wanted = wanted.err().unwrap_or(0);
        self.numbers[wanted as usize] += 1;
        if (number, bytes) != (wanted, written.len() as u64) || !self.out.starts_with(written) {
            self.say(format!("{call}: wanted {wanted} and {}, the port gives {number} and {bytes} bytes", to_hex(written)));
        }
        if self.out[written.len()..room].iter().any(|&byte| byte != dirt as u8) || self.out[room..].iter().any(|&byte| byte != FENCE_BYTE) {
            self.say(format!("{call}: output past the bytes written was changed"));
        }
    }

    /// One call of claspwillow_find.
    fn find(&mut self, dirt: u64, context: u32, tree: &[u8], index: &[u8], at: u64, words: usize, wanted: (u32, Option<usize>)) {
        self.lend(dirt, words);
        let (mut found, mut record) = (dirt as u32, dirt as u32);
        let number = port::find(context, tree, index, at, &mut self.work[..words], &mut found, &mut record);
        self.numbers[wanted.0 as usize] += 1;
        let call = format!("find, context {context}, byte {at}, work {words}, tree {}, index {}", to_hex(tree), to_hex(index));
        self.look(words, &call);
        if (number, found, record) != (wanted.0, u32::from(wanted.1.is_some()), wanted.1.unwrap_or(0) as u32) {
            self.say(format!("{call}: wanted {wanted:?}, the port gives {number}, {found}, {record}"));
        }
    }

    /// All that is asked of one tree.
    fn case(&mut self, random: &mut Random, context: u32, tree: &[u8], tables: &Tables) {
        let dirt = random.next();
        let told = wanted(context, tree, tables);
        let wanted = match told {
            Ok(wanted) => wanted,
            Err(number) => {
                self.index(dirt, context, tree, 64, WORK, Err(number));
                self.find(dirt, context, tree, &[], dirt, WORK, (number, None));
                return;
            }
        };
        let length = wanted.index.len();
        self.index(dirt, context, tree, length + random.below(40), WORK, Ok(&wanted.index));
        self.index(dirt, context, tree, length, WORK, Ok(&wanted.index));
        self.index(dirt, context, tree, length - 1, WORK, Err(OUTPUT_TOO_SMALL));
        self.index(dirt, context, tree, random.below(length), WORK, Err(OUTPUT_TOO_SMALL));
        let mut script = vec![0; wanted.script.len()];
        let mut bytes = 0;
        let number = port::script(context, tree, tables, &mut script, &mut vec![0; CHECK_WORK], &mut bytes);
        if (number, bytes as usize) != (0, script.len()) || script != wanted.script {
            self.say(format!("context {context}, tree {}: the port's script is another", to_hex(tree)));
        }
        for at in 0..wanted.script.len() {
            self.find(dirt, context, tree, &wanted.index, at as u64, WORK, (0, wanted.innermost(at)));
            self.bytes += 1;
        }
        for past in [wanted.script.len() as u64, wanted.script.len() as u64 + 1 + (dirt >> 1), u64::MAX] {
            self.find(dirt, context, tree, &wanted.index, past, WORK, (0, None));
        }
        let mut other = wanted.index.clone();
        let place = random.below(length);
        other[place] ^= 1 << random.below(8);
        for index in [&other[..], &wanted.index[..length - 1], &wanted.index[..length - ENTRY], &[], &[&wanted.index[..], &[0]].concat()] {
            self.find(dirt, context, tree, index, random.below(wanted.script.len() + 2) as u64, WORK, (NOT_ITS_INDEX, None));
        }
        for (record, below) in wanted.children.iter().enumerate() {
            if let ([child], 46) = (&below[..], kind(tree, record)) {
                if wanted.ranges[record] == wanted.ranges[*child] {
                    self.merged += 1;
                } else {
                    self.alone += 1;
                }
            }
        }
        if random.once_in(8) {
            let words = *random.pick(&[0, 1, CHECK_WORK, WORK - 1, WORK + 1]);
            self.index(dirt, context, tree, length, words, Err(2));
            self.find(dirt, context, tree, &wanted.index, 0, words, (2, None));
            let nowhere = *random.pick(&[2, 255, 65_536, u32::MAX]);
            self.index(dirt, nowhere, tree, length, *random.pick(&[WORK, words]), Err(1));
            self.find(dirt, nowhere, tree, &wanted.index, 0, *random.pick(&[WORK, words]), (1, None));
        }
    }
}

/// The kind of a record.
fn kind(tree: &[u8], record: usize) -> usize {
    let mut at = 0;
    for _ in 0..record {
        at += u16_at(tree, at);
    }
    u16_at(tree, at + 2)
}

/// COUNT trees of each flavour in each context; gives whether the port agrees on all of them.
pub fn run(seed: u64, count: u64, records: usize) -> bool {
    if port::index_work() != WORK || port::find_work() != WORK {
        println!("the port asks for {} and {} words of work memory, not {WORK}", port::index_work(), port::find_work());
        return false;
    }
    let mut random = Random::new(seed);
    let mut desk = Desk::default();
    for context in 0..2 {
        for (flavour, name) in trees::FLAVOURS.iter().enumerate() {
            for _ in 0..count {
                let tree = match (flavour, context) {
                    (0, 0) => write_tree(&trees::grown::<Segwitv0>(&mut random, records)).unwrap_or_default(),
                    (0, _) => write_tree(&trees::grown::<Tap>(&mut random, records)).unwrap_or_default(),
                    _ => trees::case(&mut random, context, flavour, records),
                };
                let tree = if flavour == 0 { trees::renumbered(&mut random, &tree, ENTRIES, usize::MAX) } else { tree };
                if flavour > 0 && trees::check(context, &tree, CHECK_WORK).0 == 0 {
                    continue;
                }
                let tables = random_tables(&mut random, context, [ENTRIES; 4]);
                desk.case(&mut random, context, &tree, &tables);
            }
            println!("context {context}, {name}: {count} trees");
        }
    }
    let few = TREE_RECORDS + 1;
    let long: Vec<u8> = [4, 0, 33, 0].repeat(few);
    desk.case(&mut random, 0, &long, &Tables::default());
    let given: Vec<String> = (0..desk.numbers.len()).filter(|&n| desk.numbers[n] > 0).map(|n| format!("{n}: {}", desk.numbers[n])).collect();
    println!("given {}", given.join(", "));
    println!("{} bytes looked up, {} Verifys merged and {} not", desk.bytes, desk.merged, desk.alone);
    for number in [1, 2, 14, 15, 16, OUTPUT_TOO_SMALL, NOT_ITS_INDEX].iter().filter(|&&n| desk.numbers[n as usize] == 0) {
        println!("{number} was not given");
        desk.differences += 1;
    }
    if desk.merged == 0 || desk.alone == 0 {
        println!("no Verify was merged, or every one was");
        desk.differences += 1;
    }
    println!("{} differences", desk.differences);
    desk.differences == 0
}
