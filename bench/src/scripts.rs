//! `bench script`: trees and tables through the bench's own encoder and the Rust's decoder, and through the port's claspwillow_script.

use crate::decode;
use crate::encode;
use crate::keys::Key;
use crate::miniscript::context::{Segwitv0, Tap};
use crate::miniscript::ScriptContext;
use crate::outline::{random_tables, sizes, Lent, Outline, Tables};
use crate::port;
use crate::random::Random;
use crate::records::{to_hex, u16s, write_tree, Writer, TREE_RECORDS};
use crate::room::HEIGHT;
use crate::trees::{self, CHECK_WORK};
use crate::Miniscript;

const OUTPUT_TOO_SMALL: u32 = 13;
const NO_ENTRY: u32 = 17;

/// The refusals that a call can give; each must be seen.
const REFUSALS: [u32; 8] = [1, 2, 14, 15, 16, 19, NO_ENTRY, OUTPUT_TOO_SMALL];

/// Bytes and words behind what is lent, which no call may touch.
const FENCE: usize = 16;
const FENCE_WORD: u64 = 0xFEED_FACE_CAFE_BEEF;
const FENCE_BYTE: u8 = 0xA5;

/// The entries of each table where a tree may hold any number.
const ENTRIES: usize = 24;

/// What is passed beside the memory.
#[derive(Clone)]
struct Case {
    context: u32,
    tree: Vec<u8>,
    tables: Tables,
}

/// A script, with the tree that it must tell and the figure that the cost uses.
struct Script {
    outline: Outline,
    pk_cost: usize,
    bytes: Vec<u8>,
}

/// The script of a case, or the number of its refusal, for right work memory and room enough.
fn script(case: &Case) -> Result<Script, u32> {
    fn of<Ctx: ScriptContext>(case: &Case, tree: &Miniscript<Key, Ctx>) -> Result<Script, u32> {
        let outline = Outline::of(&tree.node, &Lent { context: case.context, tables: &case.tables }).ok_or(NO_ENTRY)?;
        let bytes = encode::script(&outline);
        Ok(Script { outline, pk_cost: tree.ext.pk_cost, bytes })
    }
    match case.context {
        0 => of::<Segwitv0>(case, &*trees::read_tree(&case.tree)?),
        1 => of::<Tap>(case, &*trees::read_tree(&case.tree)?),
        context => Err(trees::check(context, &case.tree, CHECK_WORK).0),
    }
}

/// The memory that is lent, and what the calls have given.
#[derive(Default)]
struct Desk {
    work: Vec<u64>,
    out: Vec<u8>,
    numbers: [u64; 20],
    differences: u64,
}

impl Desk {
    /// One call with so much room and work memory; what differs is said.
    fn call(&mut self, dirt: u64, case: &Case, room: usize, words: usize, script: &Result<Script, u32>) {
        let wanted: Result<&[u8], u32> = match (trees::check(case.context, &[], words).0, script) {
            (number @ (1 | 2), _) => Err(number),
            (_, Err(number)) => Err(*number),
            (_, Ok(script)) if script.bytes.len() > room => Err(OUTPUT_TOO_SMALL),
            (_, Ok(script)) => Ok(&script.bytes),
        };
        self.numbers[wanted.err().unwrap_or(0) as usize] += 1;
        if let Err(message) = self.differs(dirt, case, room, words, wanted) {
            self.differences += 1;
            if self.differences <= 10 {
                let [keys, key_hashes, hashes32, hashes20] = case.tables.each_ref().map(|table| to_hex(table));
                println!(
                    "context {}, room {room}, work {words}, tree {}, keys {keys}, key hashes {key_hashes}, hashes {hashes32} {hashes20}: {message}",
                    case.context,
                    to_hex(&case.tree)
                );
            }
        }
    }

    fn differs(&mut self, dirt: u64, case: &Case, room: usize, words: usize, wanted: Result<&[u8], u32>) -> Result<(), String> {
        self.work.clear();
        self.work.resize(words, dirt);
        self.work.resize(words + FENCE, FENCE_WORD);
        self.out.clear();
        self.out.resize(room, dirt as u8);
        self.out.resize(room + FENCE, FENCE_BYTE);
        let mut bytes = dirt;
        let number = port::script(case.context, &case.tree, &case.tables, &mut self.out[..room], &mut self.work[..words], &mut bytes);
        let written = wanted.unwrap_or(&[]);
        let wanted = wanted.err().unwrap_or(0);
        if (number, bytes) != (wanted, written.len() as u64) {
            return Err(format!("wanted {wanted} and {} bytes, the port gives {number} and {bytes} bytes", written.len()));
        }
        if !self.out.starts_with(written) {
            return Err(format!("wanted {}, the port writes {}", to_hex(written), to_hex(&self.out[..written.len()])));
        }
        if self.out[written.len()..room].iter().any(|&byte| byte != dirt as u8) {
            return Err("output past the bytes written was changed".to_string());
        }
        if self.work[..words].iter().any(|&word| word != 0) {
            return Err("work memory is not all zero".to_string());
        }
        if self.work[words..].iter().any(|&word| word != FENCE_WORD) || self.out[room..].iter().any(|&byte| byte != FENCE_BYTE) {
            return Err("memory behind what was lent was written".to_string());
        }
        Ok(())
    }

    fn given(&self) -> String {
        let given: Vec<String> = (0..self.numbers.len()).filter(|&n| self.numbers[n] > 0).map(|n| format!("{n}: {}", self.numbers[n])).collect();
        given.join(", ")
    }
}

/// A case with room enough, and now and then with other work memory, in no context and in the other one; if it has a script, then with the room
/// that just suffices, with less, and with tables that are short, empty or longer.
fn run_case(desk: &mut Desk, tally: &mut decode::Tally, random: &mut Random, case: &Case) {
    let answer = script(case);
    let length = answer.as_ref().map_or(0, |script| script.bytes.len());
    desk.call(random.next(), case, length + random.below(64), CHECK_WORK, &answer);
    if let Ok(script) = &answer {
        tally.judge(case.context, &case.tree, &script.outline, script.pk_cost, &desk.out[..length]);
    }
    if random.once_in(8) {
        let words = *random.pick(&[0, 1, CHECK_WORK - 1, CHECK_WORK + 1, 2 * CHECK_WORK]);
        desk.call(random.next(), case, length, words, &answer);
        let nowhere = Case { context: *random.pick(&[2, 255, 256, 65_536, u32::MAX]), ..case.clone() };
        desk.call(random.next(), &nowhere, length, *random.pick(&[CHECK_WORK, words]), &script(&nowhere));
        let other = Case { context: 1 - case.context, ..case.clone() };
        desk.call(random.next(), &other, length + 64, CHECK_WORK, &script(&other));
    }
    if answer.is_err() {
        return;
    }
    desk.call(random.next(), case, length, CHECK_WORK, &answer);
    desk.call(random.next(), case, length - 1, CHECK_WORK, &answer);
    desk.call(random.next(), case, random.below(length), CHECK_WORK, &answer);
    let table = random.below(4);
    let size = sizes(case.context)[table];
    let whole = case.tables[table].len();
    for length_of_table in [whole.saturating_sub(1), whole - whole.min(size), 0, whole + random.below(size)] {
        let mut other = case.clone();
        other.tables[table].resize(length_of_table, 0x5A);
        let answer = script(&other);
        desk.call(random.next(), &other, length, CHECK_WORK, &answer);
        desk.call(random.next(), &other, random.below(length), CHECK_WORK, &answer);
    }
}

/// Tables for a well-formed tree: each ends with the last entry that it needs, if there is room for it.
pub fn fitting(random: &mut Random, context: u32, tree: &[u8]) -> Tables {
    let mut entries = [0; 4];
    for (table, number) in trees::numbers(tree) {
        if number < 1_000 {
            entries[table] = entries[table].max(number as usize + 1);
        }
    }
    random_tables(random, context, entries)
}

/// A random case of one flavour; a well-typed tree has tables that just fit it, but for a large number now and then.
fn random_case(random: &mut Random, context: u32, flavour: usize, records: usize) -> Case {
    let grown = |random: &mut Random| match context {
        0 => write_tree(&trees::grown::<Segwitv0>(random, records)),
        _ => write_tree(&trees::grown::<Tap>(random, records)),
    };
    match flavour {
        0 => {
            let tree = if random.once_in(4) { trees::case(random, context, 0, records) } else { grown(random).unwrap_or_default() };
            let large = *random.pick(&[usize::MAX, usize::MAX, usize::MAX, 40]);
            let entries = random.between(1, ENTRIES);
            let tree = trees::renumbered(random, &tree, entries, large);
            Case { context, tables: fitting(random, context, &tree), tree }
        }
        _ => Case { context, tree: trees::case(random, context, flavour, records), tables: random_tables(random, context, [ENTRIES; 4]) },
    }
}

/// The records of a tree by kind and payload.
fn tree(list: &[(u16, Vec<u8>)]) -> Vec<u8> {
    let mut out = Writer::default();
    for (kind, payload) in list {
        out.record(*kind, payload);
    }
    out.bytes
}

/// Each refusal by its smallest case, in the order in which they come, each case with all that later ones refuse.
fn refusals(desk: &mut Desk, random: &mut Random) {
    let key = (34, vec![7, 0, 0, 0]);
    let checked = tree(&[key.clone(), (44, u16s(&[0]))]);
    let ill_typed = tree(&[(33, vec![]), (44, u16s(&[0]))]);
    let broken = [&checked[..], &[0]].concat();
    let long = tree(&vec![(33, vec![]); TREE_RECORDS + 1]);
    let wraps = (0..HEIGHT as u16 - 1).map(|child| (48, u16s(&[child + 1])));
    let tall = tree(&[key, (44, u16s(&[0]))].into_iter().chain(wraps).collect::<Vec<_>>());
    let eight_keys = random_tables(random, 0, [8, 0, 0, 0]);
    let list = [
        (0, 0, checked.clone(), eight_keys.clone(), 35, CHECK_WORK),
        (1, 2, broken.clone(), Tables::default(), 0, 0),
        (2, 0, broken.clone(), Tables::default(), 0, CHECK_WORK - 1),
        (14, 0, Vec::new(), Tables::default(), 0, CHECK_WORK),
        (14, 0, broken, Tables::default(), 0, CHECK_WORK),
        (15, 0, ill_typed, Tables::default(), 0, CHECK_WORK),
        (16, 0, long, Tables::default(), 0, CHECK_WORK),
        (19, 0, tall, Tables::default(), 0, CHECK_WORK),
        (NO_ENTRY, 0, checked.clone(), Tables::default(), 0, CHECK_WORK),
        (OUTPUT_TOO_SMALL, 0, checked, eight_keys, 34, CHECK_WORK),
    ];
    for (number, context, tree, tables, room, words) in list {
        let before = desk.numbers[number as usize];
        let case = Case { context, tree, tables };
        desk.call(random.next(), &case, room, words, &script(&case));
        if desk.numbers[number as usize] == before {
            println!("the case for {number} asks for another number");
            desk.differences += 1;
        }
    }
}

/// A key of 64 bits, in each kind of record, whose entry would lie within the table if its place were counted with fewer bits; all are 17.
fn far_keys(desk: &mut Desk, random: &mut Random) {
    for (context, number) in (0..2).flat_map(|context| trees::FURTHER.map(|number| (context, number))) {
        let key = number.to_le_bytes().to_vec();
        let list = [(84, key.clone()), (85, key.clone()), (107 + context as u16, [u16s(&[1, 2]), vec![0; 8], key].concat())];
        for (kind, payload) in list {
            let tables = random_tables(random, context, [ENTRIES; 4]);
            let case = Case { context, tree: tree(&[(kind, payload)]), tables };
            let answer = script(&case);
            if answer.as_ref().err() != Some(&NO_ENTRY) {
                println!("key {number} has an entry by the bench's own reading");
                desk.differences += 1;
            }
            desk.call(random.next(), &case, 1_000, CHECK_WORK, &answer);
        }
    }
}

/// COUNT trees of each flavour in each context; gives whether the port agrees on all of them.
pub fn run(seed: u64, count: u64, records: usize) -> bool {
    if port::script_work() != CHECK_WORK {
        println!("the port asks for {} words of work memory, not {CHECK_WORK}", port::script_work());
        return false;
    }
    let mut random = Random::new(seed);
    let mut desk = Desk::default();
    let mut read_back = true;
    for context in 0..2 {
        let mut tally = decode::Tally::default();
        for (flavour, name) in trees::FLAVOURS.iter().enumerate() {
            desk.numbers = [0; 20];
            for _ in 0..count {
                let case = random_case(&mut random, context, flavour, records);
                run_case(&mut desk, &mut tally, &mut random, &case);
            }
            println!("context {context}, {name}: {count} trees, given {}", desk.given());
        }
        read_back &= tally.end(&format!("context {context}"));
    }
    desk.numbers = [0; 20];
    refusals(&mut desk, &mut random);
    far_keys(&mut desk, &mut random);
    println!("each refusal: given {}", desk.given());
    for number in REFUSALS.iter().filter(|&&n| desk.numbers[n as usize] == 0) {
        println!("{number} was not given");
        desk.differences += 1;
    }
    println!("{} differences", desk.differences);
    read_back && desk.differences == 0
}
