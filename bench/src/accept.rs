//! `bench accept`: policies and trees through an evaluation of the bench's own, written from document 02, and through the port's claspwillow_accept.

use std::collections::BTreeSet;

use crate::keys::Key;
use crate::miniscript::context::{Segwitv0, Tap};
use crate::miniscript::types::Base;
use crate::miniscript::ScriptContext;
use crate::policies::{damaged_any, Maker, KEY, LONG_KEY};
use crate::policy::Concrete;
use crate::random::Random;
use crate::records::{meant, mixed, number_at, read_policy, to_hex, u16_at, u16s, width, Writer};
use crate::trees::{self, CHECK_WORK};
use crate::{iter, oracle, port, tapscript, Miniscript, Terminal};

const BAD_CONTEXT: u32 = 1;
const BAD_WORK: u32 = 2;
const TOO_MANY_VARIABLES: u32 = 21;
const NOT_B: u32 = 22;
const NOT_SAFE: u32 = 23;
const MALLEABLE: u32 = 24;
const LOCALLY_INVALID: u32 = 25;
const OTHER_MEANING: u32 = 26;

/// The words of work memory that docs/ENTRIES.md states.
const WORK: usize = 65_536;

/// The most variables.
const VARIABLES: usize = 12;

/// Words behind what is lent, which no call may touch.
const FENCE: usize = 16;
const FENCE_WORD: u64 = 0xFEED_FACE_CAFE_BEEF;

/// A key, a lock or a hash by its kind, and its number.
type Variable = (u8, u64);

/// What a policy or a tree means: the places of its variables, and whether it holds where they are given.
enum Meaning {
    Never,
    Always,
    Given(Variable),
    AtLeast(usize, Vec<Meaning>),
}

use Meaning::{Always, AtLeast, Given, Never};

fn and(x: Meaning, y: Meaning) -> Meaning {
    AtLeast(2, vec![x, y])
}

fn or(x: Meaning, y: Meaning) -> Meaning {
    AtLeast(1, vec![x, y])
}

impl Meaning {
    fn variables(&self, found: &mut BTreeSet<Variable>) {
        match self {
            Never | Always => {}
            Given(variable) => {
                found.insert(*variable);
            }
            AtLeast(_, list) => list.iter().for_each(|x| x.variables(found)),
        }
    }

    fn holds(&self, given: &dyn Fn(Variable) -> bool) -> bool {
        match self {
            Never => false,
            Always => true,
            Given(variable) => given(*variable),
            AtLeast(k, list) => list.iter().filter(|x| x.holds(given)).count() >= *k,
        }
    }
}

fn of_policy(policy: &Concrete<Key>) -> Meaning {
    match policy {
        Concrete::Unsatisfiable => Never,
        Concrete::Trivial => Always,
        Concrete::Key(key) => Given((0, key.0)),
        Concrete::After(lock) => Given((1, u64::from(lock.0))),
        Concrete::Older(lock) => Given((2, u64::from(lock.0))),
        Concrete::Sha256(hash) => Given((3, u64::from(*hash))),
        Concrete::Hash256(hash) => Given((4, u64::from(*hash))),
        Concrete::Ripemd160(hash) => Given((5, u64::from(*hash))),
        Concrete::Hash160(hash) => Given((6, u64::from(*hash))),
        Concrete::And(list) => AtLeast(list.len(), list.iter().map(|x| of_policy(x)).collect()),
        Concrete::Or(list) => AtLeast(1, list.iter().map(|(_, x)| of_policy(x)).collect()),
        Concrete::Thresh(t) => AtLeast(t.k(), t.iter().map(|x| of_policy(x)).collect()),
    }
}

fn of_tree<Ctx: ScriptContext>(node: &Terminal<Key, Ctx>) -> Meaning {
    let keys = |k: usize, keys: &[Key]| AtLeast(k, keys.iter().map(|key| Given((0, key.0))).collect());
    let mut children: Vec<Meaning> = iter::children(node).iter().map(|child| of_tree(&child.node)).collect();
    match node {
        Terminal::False => Never,
        Terminal::True => Always,
        Terminal::PkK(key) | Terminal::PkH(key) => Given((0, key.0)),
        Terminal::RawPkH(_) => Never,
        Terminal::After(lock) => Given((1, u64::from(lock.0))),
        Terminal::Older(lock) => Given((2, u64::from(lock.0))),
        Terminal::Sha256(hash) => Given((3, u64::from(*hash))),
        Terminal::Hash256(hash) => Given((4, u64::from(*hash))),
        Terminal::Ripemd160(hash) => Given((5, u64::from(*hash))),
        Terminal::Hash160(hash) => Given((6, u64::from(*hash))),
        Terminal::Multi(t) => keys(t.k(), t.data()),
        Terminal::MultiA(t) => keys(t.k(), t.data()),
        Terminal::Thresh(t) => AtLeast(t.k(), children),
        Terminal::AndV(..) | Terminal::AndB(..) => AtLeast(2, children),
        Terminal::OrB(..) | Terminal::OrD(..) | Terminal::OrC(..) | Terminal::OrI(..) => AtLeast(1, children),
        Terminal::AndOr(..) => {
            let (z, y, x) = (children.pop(), children.pop(), children.pop());
            match (x, y, z) {
                (Some(x), Some(y), Some(z)) => or(and(x, y), z),
                _ => Never,
            }
        }
        _ => children.pop().unwrap_or(Never),
    }
}

/// Whether every fragment is locally valid by the Rust's own test.
fn valid<Ctx: ScriptContext>(tree: &Miniscript<Key, Ctx>) -> bool {
    Ctx::check_local_validity(tree).is_ok() && iter::children(&tree.node).iter().all(|child| valid(child))
}

/// The first condition that fails, 0 where none does.
fn judged<Ctx: ScriptContext>(policy: &Concrete<Key>, tree: &[u8]) -> u32 {
    let tree = match trees::read_tree::<Ctx>(tree) {
        Ok(tree) => tree,
        Err(number) => return number,
    };
    if tree.ty.corr.base != Base::B {
        return NOT_B;
    }
    if !tree.ty.mall.safe {
        return NOT_SAFE;
    }
    if !tree.ty.mall.non_malleable {
        return MALLEABLE;
    }
    if !valid(&tree) {
        return LOCALLY_INVALID;
    }
    let (left, right) = (of_policy(policy), of_tree(&tree.node));
    let mut found = BTreeSet::new();
    left.variables(&mut found);
    right.variables(&mut found);
    if found.len() > VARIABLES {
        return TOO_MANY_VARIABLES;
    }
    let list: Vec<Variable> = found.into_iter().collect();
    let same = (0..1u32 << list.len()).all(|chosen| {
        let given = |variable: Variable| list.iter().position(|&x| x == variable).is_some_and(|at| chosen >> at & 1 == 1);
        left.holds(&given) == right.holds(&given)
    });
    if same {
        0
    } else {
        OTHER_MEANING
    }
}

/// The number that the entry must give.
fn wanted(context: u32, policy: &[u8], tree: &[u8], words: usize) -> u32 {
    if context > 1 {
        return BAD_CONTEXT;
    }
    if words != WORK {
        return BAD_WORK;
    }
    match (read_policy(policy), context) {
        (Err(number), _) => number,
        (Ok(policy), 0) => tapscript::typing::<Segwitv0, _>(|| judged::<Segwitv0>(&policy, tree)),
        (Ok(policy), _) => tapscript::typing::<Tap, _>(|| judged::<Tap>(&policy, tree)),
    }
}

/// The memory that is lent, and what the calls have given.
struct Desk {
    memory: Vec<u64>,
    numbers: [u64; 32],
    pairs: u64,
    differences: u64,
}

impl Desk {
    fn say(&mut self, message: String) {
        self.differences += 1;
        if self.differences <= 10 {
            println!("{message}");
        }
    }

    /// One call with dirty memory of so many words, against what is wanted.
    fn call(&mut self, random: &mut Random, context: u32, policy: &[u8], tree: &[u8], words: usize) -> u32 {
        let wanted = wanted(context, policy, tree, words);
        self.memory.clear();
        self.memory.resize(words, random.next());
        self.memory.resize(words + FENCE, FENCE_WORD);
        let number = port::accept(context, policy, tree, &mut self.memory[..words]);
        let case = || format!("context {context}, work {words}, policy {}, tree {}", to_hex(policy), to_hex(tree));
        if self.memory[..words].iter().any(|&word| word != 0) || self.memory[words..].iter().any(|&word| word != FENCE_WORD) {
            self.say(format!("{}: work memory is not all zero, or was written past", case()));
        }
        if number != wanted {
            self.say(format!("{}: wanted {wanted}, the port gives {number}", case()));
        }
        self.numbers[wanted as usize % 32] += 1;
        wanted
    }

    /// A pair; now and then with other work memory and in no context.
    fn pair(&mut self, random: &mut Random, context: u32, policy: &[u8], tree: &[u8]) -> u32 {
        let number = self.call(random, context, policy, tree, WORK);
        if random.once_in(64) {
            let words = *random.pick(&[0, 1, CHECK_WORK, WORK - 1, WORK + 1]);
            self.call(random, context, policy, tree, words);
            let nowhere = *random.pick(&[2, 255, 65_536, u32::MAX]);
            let any = *random.pick(&[WORK, words]);
            self.call(random, nowhere, policy, tree, any);
        }
        self.pairs += 1;
        number
    }
}

/// Where the records of a tree begin.
fn places(tree: &[u8]) -> Vec<usize> {
    let mut places = Vec::new();
    let mut at = 0;
    while at < tree.len() {
        places.push(at);
        at += u16_at(tree, at);
    }
    places
}

/// What is changed in a tree.
const CHANGES: [&str; 4] = ["a key, a hash or a lock", "a k", "a branch", "a wrapper"];

/// A copy with one thing of that sort changed; the same tree where it has none.
fn changed(random: &mut Random, change: usize, tree: &[u8]) -> Vec<u8> {
    let mut out = tree.to_vec();
    let kind = |at: usize| meant(u16_at(tree, at + 2));
    let fits: Vec<usize> = places(tree)
        .into_iter()
        .filter(|&at| match change {
            0 => (34..=41).contains(&kind(at)) || kind(at) >= 57,
            1 => (56..=58).contains(&kind(at)),
            2 => (49..=56).contains(&kind(at)),
            _ => (42..=54).contains(&kind(at)),
        })
        .collect();
    if fits.is_empty() {
        return out;
    }
    let at = *random.pick(&fits);
    match change {
        0 => {
            let width = width(u16_at(tree, at + 2));
            let place = if kind(at) >= 57 { at + 8 + width * random.below(u16_at(tree, at + 6)) } else { at + 4 };
            let flipped = number_at(tree, place, width) ^ if width == 8 && random.once_in(2) { 1 << 32 } else { 1 };
            let number = if random.once_in(2) { flipped } else { random.below(12) as u64 };
            out[place..place + width].copy_from_slice(&number.max(1).to_le_bytes()[..width]);
        }
        1 => {
            let k = random.between(1, u16_at(tree, at + 6));
            out[at + 4..at + 6].copy_from_slice(&(k as u16).to_le_bytes());
        }
        2 => {
            let (from, n) = if kind(at) == 56 { (at + 8, u16_at(tree, at + 6)) } else { (at + 4, (u16_at(tree, at) - 4) / 2) };
            let (i, j) = (from + 2 * random.below(n), from + 2 * random.below(n));
            out.swap(i, j);
            out.swap(i + 1, j + 1);
        }
        _ => {
            let to = if kind(at) <= 48 { random.between(42, 48) } else { random.between(49, 54) };
            out[at + 2..at + 4].copy_from_slice(&(to as u16).to_le_bytes());
        }
    }
    out
}

/// k of n keys as a policy and as a Multi or MultiA, on both sides of twelve; the same with one key another, and with another k.
fn corners(desk: &mut Desk, random: &mut Random) {
    let policy = |n: usize, k: usize| {
        let mut out = Writer::default();
        let key = |i: usize| if i % 2 == 0 { (KEY, 4) } else { (LONG_KEY, 8) };
        let keys: Vec<u16> = (0..n).map(|i| out.record(key(i).0, &(i as u64).to_le_bytes()[..key(i).1])).collect();
        out.record(12, &[u16s(&[k as u16, n as u16]), u16s(&keys)].concat());
        out.bytes
    };
    let tree = |random: &mut Random, context: u32, keys: &[u64], k: usize| {
        let mut out = Writer::default();
        let list: Vec<u8> = keys.iter().flat_map(|key| key.to_le_bytes()).collect();
        out.record(107 + context as u16, &[u16s(&[k as u16, keys.len() as u16]), list].concat());
        mixed(random, &out.bytes)
    };
    let keys = |n: u32| (0..u64::from(n)).collect::<Vec<u64>>();
    for context in 0..2 {
        for n in 1..=16u32 {
            for k in 1..=n as usize {
                let own = tree(random, context, &keys(n), k);
                let given = desk.pair(random, context, &policy(n as usize, k), &own);
                let right = if n as usize > VARIABLES { TOO_MANY_VARIABLES } else { 0 };
                if given != right {
                    desk.say(format!("{k} of {n} keys in context {context}: {given}, not {right}"));
                }
                let mut other = keys(n);
                let at = random.below(n as usize);
                other[at] = *random.pick(&[12, other[at] | 1 << 32, u64::MAX]);
                let other = tree(random, context, &other, k);
                desk.pair(random, context, &policy(n as usize, k), &other);
                desk.pair(random, context, &policy(n as usize, 1), &own);
            }
        }
    }
}

/// COUNT policies: what the Rust compiles of each, that tree with one thing changed, and the tree of another policy; gives whether the port agrees.
pub fn run(seed: u64, count: u64, records: usize) -> bool {
    if port::accept_work() != WORK {
        println!("the port asks for {} words of work memory, not {WORK}", port::accept_work());
        return false;
    }
    let mut random = Random::new(seed);
    let mut desk = Desk { memory: Vec::new(), numbers: [0; 32], pairs: 0, differences: 0 };
    let (mut own, mut exceptions, mut smallest) = ([0u64; 32], 0u64, None::<Vec<u8>>);
    let mut by_change = [[0u64; 32]; 4];
    let mut last: [Option<Vec<u8>>; 2] = [None, None];
    for _ in 0..count {
        let (context, policy) = Maker::new(&mut random).any_case(records);
        let Ok((answer, _)) = oracle::answer(context, &policy) else { continue };
        if answer.number != 0 {
            let tree = last[context as usize].clone().unwrap_or_default();
            desk.pair(&mut random, context, &policy, &tree);
            continue;
        }
        let tree = mixed(&mut random, &answer.output);
        let number = desk.pair(&mut random, context, &policy, &tree);
        own[number as usize] += 1;
        let holds_false = places(&tree).iter().any(|&at| u16_at(&tree, at + 2) == 32);
        match number {
            0 | TOO_MANY_VARIABLES => {}
            LOCALLY_INVALID if context == 0 && holds_false => {
                exceptions += 1;
                if smallest.as_ref().map_or(true, |least| policy.len() < least.len()) {
                    smallest = Some(policy.clone());
                }
            }
            _ => desk.say(format!("context {context}, policy {}: its own tree is {number}", to_hex(&policy))),
        }
        for (change, by) in by_change.iter_mut().enumerate() {
            let other = changed(&mut random, change, &tree);
            by[desk.pair(&mut random, context, &policy, &other) as usize] += 1;
        }
        if let Some(other) = &last[context as usize] {
            desk.pair(&mut random, context, &policy, other);
        }
        if random.once_in(8) {
            let broken = damaged_any(&mut random, &policy);
            desk.pair(&mut random, context, &broken, &tree);
        }
        last[context as usize] = Some(tree);
    }
    corners(&mut desk, &mut random);
    let shown = |numbers: &[u64]| {
        let given: Vec<String> = (0..numbers.len()).filter(|&n| numbers[n] > 0).map(|n| format!("{n}: {}", numbers[n])).collect();
        given.join(", ")
    };
    println!("of the trees that the Rust compiles {}; {exceptions} of context 0 hold False", shown(&own));
    if let Some(policy) = smallest {
        println!("the smallest policy whose own tree is 25: {}", to_hex(&policy));
    }
    for (change, name) in CHANGES.iter().enumerate() {
        println!("with {name} changed {}", shown(&by_change[change]));
    }
    println!("given {}", shown(&desk.numbers));
    println!("{} differences in {} pairs", desk.differences, desk.pairs);
    desk.differences == 0
}
