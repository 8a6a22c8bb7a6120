//! `bench witness`: every way to satisfy a small tree, one by one, and the figures of extra_props.rs, beside the port's claspwillow_witness.
//!
//! The ways are written from BIP 379's satisfaction table, without those that it marks as malleable or needless: a way is its list of elements,
//! and a threshold tries every choice of its children.

use crate::keys::Key;
use crate::miniscript::context::{Segwitv0, Tap};
use crate::miniscript::ScriptContext;
use crate::random::Random;
use crate::records::to_hex;
use crate::trees::{self, CHECK_WORK};
use crate::{iter, oracle, policies, port, Miniscript, Terminal};

/// The words of work memory that the entry asks for: two for each record.
const WORK: usize = 2 * CHECK_WORK;

/// Words behind the lent memory that no call may touch.
const FENCE: usize = 16;
const FENCE_WORD: u64 = 0xFEED_FACE_CAFE_BEEF;

/// The most ways of one fragment that are written out; a tree with more is passed over.
const MOST_WAYS: usize = 3_000;

/// The most records of a random tree.
const RECORDS: usize = 24;

/// An element of a witness.
#[derive(Clone, Copy)]
enum Element {
    Signature,
    Key,
    Preimage,
    Empty,
    One,
}

use Element::{Empty, One, Preimage, Signature};

type Way = Vec<Element>;

/// The ways to satisfy a fragment, and to dissatisfy it.
struct Ways {
    sat: Vec<Way>,
    dissat: Vec<Way>,
}

fn bytes_of(schnorr: bool, way: &Way) -> u64 {
    let size = |element: &Element| match element {
        Signature => if schnorr { 66 } else { 73 },
        Element::Key => if schnorr { 33 } else { 34 },
        Preimage => 33,
        Empty => 1,
        One => 2,
    };
    way.iter().map(size).sum()
}

/// A way of the second on one of the first, for every two; none where they would be too many.
fn on(below: &[Way], top: &[Way]) -> Option<Vec<Way>> {
    if below.len() * top.len() > MOST_WAYS {
        return None;
    }
    Some(below.iter().flat_map(|b| top.iter().map(move |t| [b.clone(), t.clone()].concat())).collect())
}

fn either(x: Vec<Way>, y: Vec<Way>) -> Vec<Way> {
    x.into_iter().chain(y).collect()
}

/// For every choice of exactly `k` of the children: those satisfied, the others dissatisfied, the first on top.
fn choices(children: &[Ways], k: usize) -> Option<Vec<Way>> {
    let mut all = Vec::new();
    for chosen in (0u32..1 << children.len()).filter(|chosen| chosen.count_ones() as usize == k) {
        let mut ways = vec![vec![]];
        for (i, child) in children.iter().enumerate().rev() {
            ways = on(&ways, if chosen >> i & 1 == 1 { &child.sat } else { &child.dissat })?;
        }
        all.extend(ways);
        if all.len() > MOST_WAYS {
            return None;
        }
    }
    Some(all)
}

/// The signatures of `k` of `n` keys for every choice, with the others' places filled or left out.
fn signatures(k: usize, n: usize, others: &[Element]) -> Option<Vec<Way>> {
    let keys: Vec<Ways> = (0..n).map(|_| Ways { sat: vec![vec![Signature]], dissat: vec![others.to_vec()] }).collect();
    choices(&keys, k)
}

/// The ways of a fragment, row by row of the table; none where they are too many to write out.
fn ways<Ctx: ScriptContext>(node: &Terminal<Key, Ctx>) -> Option<Ways> {
    let children: Vec<Ways> = iter::children(node).iter().map(|child| ways(&child.node)).collect::<Option<_>>()?;
    let one = |way: Way| vec![way];
    let (x, y, z) = (children.first(), children.get(1), children.get(2));
    let found = match (node, x, y, z) {
        (Terminal::False, ..) => Ways { sat: vec![], dissat: one(vec![]) },
        (Terminal::True | Terminal::After(_) | Terminal::Older(_), ..) => Ways { sat: one(vec![]), dissat: vec![] },
        (Terminal::PkK(_), ..) => Ways { sat: one(vec![Signature]), dissat: one(vec![Empty]) },
        (Terminal::PkH(_), ..) => Ways { sat: one(vec![Signature, Element::Key]), dissat: one(vec![Empty, Element::Key]) },
        (Terminal::Sha256(_) | Terminal::Hash256(_) | Terminal::Ripemd160(_) | Terminal::Hash160(_), ..) => {
            Ways { sat: one(vec![Preimage]), dissat: vec![] }
        }
        (Terminal::Multi(t), ..) => Ways {
            sat: on(&[vec![Empty]], &signatures(t.k(), t.data().len(), &[])?)?,
            dissat: one(vec![Empty; t.k() + 1]),
        },
        (Terminal::MultiA(t), ..) => {
            Ways { sat: signatures(t.k(), t.data().len(), &[Empty])?, dissat: one(vec![Empty; t.data().len()]) }
        }
        (Terminal::Thresh(t), ..) => Ways { sat: choices(&children, t.k())?, dissat: choices(&children, 0)? },
        (Terminal::AndOr(..), Some(x), Some(y), Some(z)) => {
            Ways { sat: either(on(&y.sat, &x.sat)?, on(&z.sat, &x.dissat)?), dissat: on(&z.dissat, &x.dissat)? }
        }
        (Terminal::AndV(..), Some(x), Some(y), _) => Ways { sat: on(&y.sat, &x.sat)?, dissat: vec![] },
        (Terminal::AndB(..), Some(x), Some(y), _) => Ways { sat: on(&y.sat, &x.sat)?, dissat: on(&y.dissat, &x.dissat)? },
        (Terminal::OrB(..), Some(x), Some(z), _) => {
            Ways { sat: either(on(&z.dissat, &x.sat)?, on(&z.sat, &x.dissat)?), dissat: on(&z.dissat, &x.dissat)? }
        }
        (Terminal::OrC(..), Some(x), Some(z), _) => Ways { sat: either(x.sat.clone(), on(&z.sat, &x.dissat)?), dissat: vec![] },
        (Terminal::OrD(..), Some(x), Some(z), _) => {
            Ways { sat: either(x.sat.clone(), on(&z.sat, &x.dissat)?), dissat: on(&z.dissat, &x.dissat)? }
        }
        (Terminal::OrI(..), Some(x), Some(z), _) => {
            let branch = |x: &[Way], z: &[Way]| Some(either(on(x, &[vec![One]])?, on(z, &[vec![Empty]])?));
            Ways { sat: branch(&x.sat, &z.sat)?, dissat: branch(&x.dissat, &z.dissat)? }
        }
        (Terminal::DupIf(_), Some(x), ..) => Ways { sat: on(&x.sat, &[vec![One]])?, dissat: one(vec![Empty]) },
        (Terminal::Verify(_), Some(x), ..) => Ways { sat: x.sat.clone(), dissat: vec![] },
        (Terminal::NonZero(_), Some(x), ..) => Ways { sat: x.sat.clone(), dissat: one(vec![Empty]) },
        (_, Some(x), ..) => Ways { sat: x.sat.clone(), dissat: x.dissat.clone() },
        _ => return None,
    };
    Some(found)
}

/// What the entry must give: a number, or whether there is a way with the extremes. The second is missing where they are too many to write out.
fn wanted(context: u32, tree: &[u8]) -> Option<(u32, [u64; 3])> {
    fn of<Ctx: ScriptContext>(schnorr: bool, tree: &Miniscript<Key, Ctx>) -> Option<[u64; 3]> {
        let sizes: Vec<u64> = ways(&tree.node)?.sat.iter().map(|way| bytes_of(schnorr, way)).collect();
        match (sizes.iter().min(), sizes.iter().max()) {
            (Some(&least), Some(&most)) => Some([1, least, most]),
            _ => Some([0, 0, 0]),
        }
    }
    let results = match context {
        0 => trees::read_tree::<Segwitv0>(tree).map(|tree| of(false, &tree)),
        1 => trees::read_tree::<Tap>(tree).map(|tree| of(true, &tree)),
        _ => Err(trees::check(context, tree, CHECK_WORK).0),
    };
    match results {
        Ok(results) => results.map(|results| (0, results)),
        Err(number) => Some((number, [0, 0, 0])),
    }
}

/// Whether the Rust's figure for the largest witness is of the same ways: no Thresh, no DupIf, and every hash under a Verify, so that none of
/// its dissatisfactions counts.
fn same_ways<Ctx: ScriptContext>(node: &Terminal<Key, Ctx>, verified: bool) -> bool {
    let hash = matches!(node, Terminal::Sha256(_) | Terminal::Hash256(_) | Terminal::Ripemd160(_) | Terminal::Hash160(_));
    let below = matches!(node, Terminal::Verify(_));
    !matches!(node, Terminal::Thresh(_) | Terminal::DupIf(_))
        && (!hash || verified)
        && iter::children(node).iter().all(|child| same_ways(&child.node, below))
}

/// The largest witness by extra_props.rs, where it speaks of the same ways.
fn figure(context: u32, tree: &[u8]) -> Option<Option<u64>> {
    fn of<Ctx: ScriptContext>(tree: &Miniscript<Key, Ctx>) -> Option<Option<u64>> {
        same_ways(&tree.node, false).then(|| tree.ext.sat_data.map(|data| data.max_witness_stack_size as u64))
    }
    match context {
        0 => of(&*trees::read_tree::<Segwitv0>(tree).ok()?),
        _ => of(&*trees::read_tree::<Tap>(tree).ok()?),
    }
}

/// The memory that is lent, and what the calls have given.
#[derive(Default)]
struct Desk {
    memory: Vec<u64>,
    compared: u64,
    none: u64,
    refused: u64,
    differences: u64,
}

impl Desk {
    fn say(&mut self, message: String) {
        self.differences += 1;
        if self.differences <= 10 {
            println!("{message}");
        }
    }

    /// One call with dirty memory of so many words; what the memory shows is said.
    fn call(&mut self, dirt: u64, context: u32, tree: &[u8], words: usize) -> (u32, [u64; 3]) {
        self.memory.clear();
        self.memory.resize(words, dirt);
        self.memory.resize(words + FENCE, FENCE_WORD);
        let (mut found, mut smallest, mut largest) = (dirt as u32, dirt, dirt);
        let number = port::witness(context, tree, &mut self.memory[..words], &mut found, &mut smallest, &mut largest);
        if self.memory[..words].iter().any(|&word| word != 0) || self.memory[words..].iter().any(|&word| word != FENCE_WORD) {
            self.say(format!("context {context}, work {words}, tree {}: work memory is not all zero, or was written past", to_hex(tree)));
        }
        (number, [u64::from(found), smallest, largest])
    }

    /// One tree: with right work memory, now and then with work memory of another length, against what is wanted.
    fn case(&mut self, random: &mut Random, context: u32, tree: &[u8], wanted: (u32, [u64; 3])) {
        let dirt = random.next();
        let given = self.call(dirt, context, tree, WORK);
        if given != wanted {
            self.say(format!("context {context}, tree {}: wanted {wanted:?}, the port gives {given:?}", to_hex(tree)));
        }
        if random.once_in(16) {
            let words = *random.pick(&[0, 1, CHECK_WORK, WORK - 1, WORK + 1]);
            let number = if context < 2 { 2 } else { 1 };
            let given = self.call(dirt, context, tree, words);
            if given != (number, [0, 0, 0]) {
                self.say(format!("context {context}, work {words}: wanted {number}, the port gives {given:?}"));
            }
        }
        self.compared += 1;
        self.none += u64::from(wanted.0 == 0 && wanted.1[0] == 0);
        self.refused += u64::from(wanted.0 != 0);
    }
}

/// COUNT random trees of each flavour and context, COUNT trees that the Rust compiles, and every small tree; gives whether all agree.
pub fn run(seed: u64, count: u64) -> bool {
    if port::witness_work() != WORK {
        println!("the port asks for {} words of work memory, not {WORK}", port::witness_work());
        return false;
    }
    let mut random = Random::new(seed);
    let mut desk = Desk::default();
    let mut passed_over = 0;
    for context in 0..2 {
        for (flavour, name) in trees::FLAVOURS.iter().enumerate() {
            let before = desk.compared;
            for _ in 0..count {
                let tree = trees::case(&mut random, context, flavour, RECORDS);
                let asked = if random.once_in(50) { *random.pick(&[2, 255, 65_536, u32::MAX]) } else { context };
                match wanted(asked, &tree) {
                    Some(wanted) => desk.case(&mut random, asked, &tree, wanted),
                    None => passed_over += 1,
                }
            }
            println!("context {context}, {name}: {} trees compared", desk.compared - before);
        }
    }
    let small = |context: u32, trees: Vec<Vec<u8>>, desk: &mut Desk, random: &mut Random| {
        let before = desk.compared;
        for tree in trees {
            if let Some(wanted) = wanted(context, &tree) {
                desk.case(random, context, &tree, wanted);
            }
        }
        println!("context {context}, every tree of up to 4 records over few leaves: {} compared", desk.compared - before);
    };
    let bytes = crate::records::write_tree;
    small(0, trees::small::<Segwitv0>(4).iter().filter_map(|t| bytes(&**t).ok()).collect(), &mut desk, &mut random);
    small(1, trees::small::<Tap>(4).iter().filter_map(|t| crate::records::write_tree(&**t).ok()).collect(), &mut desk, &mut random);
    let mut figures = 0;
    for _ in 0..count {
        let (context, policy) = policies::Maker::new(&mut random).case(24);
        let Ok((answer, _)) = oracle::answer(context, &policy) else { continue };
        let tree = answer.output;
        if let (true, Some(most)) = (answer.number == 0, figure(context, &tree)) {
            let dirt = random.next();
            let given = desk.call(dirt, context, &tree, WORK);
            if given.0 != 0 || (given.1[0] == 1).then_some(given.1[2]) != most {
                desk.say(format!("context {context}, tree {}: extra_props gives {most:?}, the port {given:?}", to_hex(&tree)));
            }
            figures += 1;
        }
    }
    println!("{figures} compiled trees compared with extra_props, {} in all written out, {} of them without a way and {} refused, {passed_over} passed over", desk.compared, desk.none, desk.refused);
    println!("{} differences", desk.differences);
    desk.differences == 0
}
