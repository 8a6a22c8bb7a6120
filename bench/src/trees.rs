//! Fragment trees: the tree check as the Rust's own type rules have it, and random trees, well-typed, ill-typed and damaged.


use crate::keys::Key;
use crate::miniscript::context::{Segwitv0, Tap};
use crate::miniscript::types::{Base, Dissat, ExtData, Input, Type};
use crate::miniscript::ScriptContext;
use crate::policies::LOCKS;
use crate::random::Random;
use crate::records::{long_kind, meant, mixed, number_at, u16_at, u16s, u32_at, width, Writer, LOCK_MAX, THRESH_MAX, TREE_RECORDS};
use crate::room::HEIGHT;
use crate::sync::Arc;
use crate::{tapscript, AbsLockTime, Miniscript, RelLockTime, Terminal, Threshold};

const BAD_CONTEXT: u32 = 1;
const BAD_WORK: u32 = 2;
const BAD_TREE: u32 = 14;
const ILL_TYPED: u32 = 15;
const TREE_TOO_LARGE: u32 = 16;
const TREE_TOO_TALL: u32 = 19;

/// The words of work memory that the check asks for.
pub const CHECK_WORK: usize = 4_096;

/// The number that the check gives, and the root's packed type (0 on a refusal).
pub fn check(context: u32, tree: &[u8], work: usize) -> (u32, u32) {
    let typed = match (context, work) {
        (0, CHECK_WORK) => read_tree::<Segwitv0>(tree).map(|root| root.ty),
        (1, CHECK_WORK) => read_tree::<Tap>(tree).map(|root| root.ty),
        (0 | 1, _) => Err(BAD_WORK),
        _ => Err(BAD_CONTEXT),
    };
    match typed {
        Ok(ty) => (0, packed(&ty)),
        Err(number) => (number, 0),
    }
}

/// A type in its derived order, as docs/ENTRIES.md packs it.
pub fn packed(ty: &Type) -> u32 {
    let base = match ty.corr.base {
        Base::B => 0,
        Base::K => 1,
        Base::V => 2,
        Base::W => 3,
    };
    let input = match ty.corr.input {
        Input::Zero => 0,
        Input::One => 1,
        Input::Any => 2,
        Input::OneNonZero => 3,
        Input::AnyNonZero => 4,
    };
    let dissat = match ty.mall.dissat {
        Dissat::None => 0,
        Dissat::Unique => 1,
        Dissat::Unknown => 2,
    };
    let number = (base * 5 + input) * 2 + u32::from(ty.corr.dissatisfiable);
    let number = (number * 2 + u32::from(ty.corr.unit)) * 3 + dissat;
    (number * 2 + u32::from(ty.mall.safe)) * 2 + u32::from(ty.mall.non_malleable)
}

pub type Child<Ctx> = Arc<Miniscript<Key, Ctx>>;

/// The tree that the bytes write, with its type and figures: per record 16, 14, 15, 19, then unused records.
pub fn read_tree<Ctx: ScriptContext>(bytes: &[u8]) -> Result<Child<Ctx>, u32> {
    let mut slots: Vec<Option<Child<Ctx>>> = Vec::new();
    let mut at = 0;
    while at < bytes.len() {
        if slots.len() == TREE_RECORDS {
            return Err(TREE_TOO_LARGE);
        }
        let rest = &bytes[at..];
        if rest.len() < 4 || u16_at(rest, 0) < 4 || u16_at(rest, 0) > rest.len() {
            return Err(BAD_TREE);
        }
        let length = u16_at(rest, 0);
        let node = read_node::<Ctx>(u16_at(rest, 2), &rest[4..length], &mut slots)?;
        slots.push(Some(made(node)?));
        at += length;
    }
    match slots.pop() {
        Some(Some(root)) if slots.iter().all(Option::is_none) => Ok(root),
        _ => Err(BAD_TREE),
    }
}

/// A fragment with its type and figures, however tall.
pub fn made_any<Ctx: ScriptContext>(node: Terminal<Key, Ctx>) -> Result<Child<Ctx>, u32> {
    let (ty, ext) = (typed(&node)?, ExtData::type_check(&node));
    Ok(Arc::new(Miniscript::from_components_unchecked(node, ty, ext)))
}

/// A fragment with its type and figures, if it is not too tall; the Rust's figure of a leaf is 0.
fn made<Ctx: ScriptContext>(node: Terminal<Key, Ctx>) -> Result<Child<Ctx>, u32> {
    let tree = made_any(node)?;
    if tree.ext.tree_height + 1 > HEIGHT {
        Err(TREE_TOO_TALL)
    } else {
        Ok(tree)
    }
}

/// The Rust's type of a fragment, in the one context that Multi and MultiA have.
fn typed<Ctx: ScriptContext>(node: &Terminal<Key, Ctx>) -> Result<Type, u32> {
    let schnorr = matches!(Ctx::sig_type(), crate::SigType::Schnorr);
    match node {
        Terminal::Multi(_) if schnorr => Err(ILL_TYPED),
        Terminal::MultiA(_) if !schnorr => Err(ILL_TYPED),
        _ => tapscript::typing::<Ctx, _>(|| Type::type_check(node)).map_err(|_| ILL_TYPED),
    }
}

/// One record's fragment over the trees that it takes.
fn read_node<Ctx: ScriptContext>(written: usize, payload: &[u8], slots: &mut [Option<Child<Ctx>>]) -> Result<Terminal<Key, Ctx>, u32> {
    let (kind, width) = (meant(written), width(written));
    let form = |right: bool| if right { Ok(()) } else { Err(BAD_TREE) };
    let mut children = |from: usize, n: usize| -> Result<Vec<Child<Ctx>>, u32> {
        let take = |i| slots.get_mut(u16_at(payload, from + 2 * i)).and_then(Option::take).ok_or(BAD_TREE);
        (0..n).map(take).collect()
    };
    let node = match kind {
        32 | 33 => {
            form(payload.is_empty())?;
            if kind == 32 {
                Terminal::False
            } else {
                Terminal::True
            }
        }
        34..=35 => {
            form(payload.len() == width)?;
            let key = Key(number_at(payload, 0, width));
            if kind == 34 {
                Terminal::PkK(key)
            } else {
                Terminal::PkH(key)
            }
        }
        36..=41 => {
            form(payload.len() == 4)?;
            let number = u32_at(payload, 0);
            form(!(36..=37).contains(&kind) || (1..=LOCK_MAX).contains(&number))?;
            match kind {
                36 => Terminal::After(AbsLockTime(number)),
                37 => Terminal::Older(RelLockTime(number)),
                38 => Terminal::Sha256(number),
                39 => Terminal::Hash256(number),
                40 => Terminal::Ripemd160(number),
                _ => Terminal::Hash160(number),
            }
        }
        42..=55 => {
            let n = arity(kind as u16);
            form(payload.len() == 2 * n)?;
            over(kind, children(0, n)?).ok_or(BAD_TREE)?
        }
        56..=58 => {
            form(payload.len() >= 4)?;
            let (k, n) = (u16_at(payload, 0), u16_at(payload, 2));
            form(payload.len() == 4 + n * if kind == 56 { 2 } else { width })?;
            form(1 <= k && k <= n && n <= THRESH_MAX)?;
            let keys = || (0..n).map(|i| Key(number_at(payload, 4 + width * i, width))).collect();
            match kind {
                56 => Terminal::Thresh(Threshold::new(k, children(4, n)?).map_err(|()| BAD_TREE)?),
                57 => Terminal::Multi(Threshold::new(k, keys()).map_err(|()| BAD_TREE)?),
                _ => Terminal::MultiA(Threshold::new(k, keys()).map_err(|()| BAD_TREE)?),
            }
        }
        _ => return Err(BAD_TREE),
    };
    Ok(node)
}

/// A wrapper, a pair or a triple over its children.
pub fn over<Ctx: ScriptContext>(kind: usize, children: Vec<Child<Ctx>>) -> Option<Terminal<Key, Ctx>> {
    let mut list = children.into_iter();
    let mut next = || list.next();
    Some(match kind {
        42 => Terminal::Alt(next()?),
        43 => Terminal::Swap(next()?),
        44 => Terminal::Check(next()?),
        45 => Terminal::DupIf(next()?),
        46 => Terminal::Verify(next()?),
        47 => Terminal::NonZero(next()?),
        48 => Terminal::ZeroNotEqual(next()?),
        49 => Terminal::AndB(next()?, next()?),
        50 => Terminal::AndV(next()?, next()?),
        51 => Terminal::OrB(next()?, next()?),
        52 => Terminal::OrD(next()?, next()?),
        53 => Terminal::OrC(next()?, next()?),
        54 => Terminal::OrI(next()?, next()?),
        _ => Terminal::AndOr(next()?, next()?, next()?),
    })
}

/// The children of a wrapper, a pair or a triple.
pub fn arity(kind: u16) -> usize {
    match kind {
        42..=48 => 1,
        49..=54 => 2,
        _ => 3,
    }
}

/// A tree before it is written: its written kind, its numbers and its children.
#[derive(Clone)]
struct Tree {
    kind: u16,
    /// What stands in the payload before the children.
    numbers: Vec<u8>,
    children: Vec<Tree>,
    records: usize,
}

impl Tree {
    fn new(kind: u16, numbers: Vec<u8>, children: Vec<Tree>) -> Self {
        let records = 1 + children.iter().map(|c| c.records).sum::<usize>();
        Tree { kind, numbers, children, records }
    }

    fn write(&self, out: &mut Writer) -> u16 {
        let numbers: Vec<u16> = self.children.iter().map(|c| c.write(out)).collect();
        out.record(self.kind, &[self.numbers.clone(), u16s(&numbers)].concat())
    }

    fn bytes(&self) -> Vec<u8> {
        let mut out = Writer::default();
        self.write(&mut out);
        out.bytes
    }

    /// The n-th part in pre-order.
    fn part(&mut self, n: usize) -> &mut Tree {
        if n == 0 {
            return self;
        }
        let mut n = n - 1;
        for child in &mut self.children {
            if n < child.records {
                return child.part(n);
            }
            n -= child.records;
        }
        unreachable!("a part of the tree is asked for")
    }
}

/// The number of a key: few, any of 32 bits, any of 64, and about 2^32 and 2^64.
fn key_number(random: &mut Random) -> u64 {
    match random.below(4) {
        0 => random.below(12) as u64,
        1 => random.below(1 << 32) as u64,
        2 => random.next(),
        _ => *random.pick(&[(1 << 32) - 1, 1 << 32, (1 << 32) + 7, 1 << 63, u64::MAX - 1, u64::MAX]),
    }
}

/// A leaf of keys, in either of its kinds if they fit.
fn of_keys(random: &mut Random, kind: usize, mut front: Vec<u8>, keys: &[u64]) -> Tree {
    let large = keys.iter().any(|&key| key > u64::from(u32::MAX));
    let long = long_kind(kind).filter(|_| large || random.once_in(2));
    match long {
        Some(_) => front.extend(keys.iter().flat_map(|key| key.to_le_bytes())),
        None => front.extend(keys.iter().flat_map(|&key| (key as u32).to_le_bytes())),
    }
    Tree::new(long.unwrap_or(kind) as u16, front, vec![])
}

fn leaf(random: &mut Random, context: u32) -> Tree {
    let kind = random.between(32, 43) as u16;
    let number = |n: usize| Tree::new(kind, (n as u32).to_le_bytes().to_vec(), vec![]);
    match kind {
        32 | 33 => Tree::new(kind, vec![], vec![]),
        36 | 37 => {
            let any = 1 + random.below(LOCK_MAX as usize);
            number(*random.pick(&[1, LOCK_MAX as usize, 500_000_000, any]))
        }
        34 | 35 => {
            let key = key_number(random);
            of_keys(random, usize::from(kind), vec![], &[key])
        }
        38..=41 => number(random.below(1 << 32)),
        _ => {
            let n = random.between(1, 16);
            let front = u16s(&[random.between(1, n) as u16, n as u16]);
            let few = random.once_in(2);
            let keys: Vec<u64> = (0..n as u64).map(|i| if few { i } else { key_number(random) }).collect();
            // Now and then the one that belongs to the other context.
            let other = u32::from(random.once_in(40));
            of_keys(random, 57 + ((context + other) % 2) as usize, front, &keys)
        }
    }
}

/// A fragment over some of the trees made so far, of at most `records` records.
fn above(random: &mut Random, made: &[Tree], records: usize) -> Option<Tree> {
    let kind = random.between(42, 56) as u16;
    let n = if kind == 56 { random.between(1, 5) } else { arity(kind) };
    let children: Vec<Tree> = (0..n).map(|_| random.pick(made).clone()).collect();
    let numbers = if kind == 56 { u16s(&[random.between(1, n) as u16, n as u16]) } else { vec![] };
    let tree = Tree::new(kind, numbers, children);
    (tree.records <= records).then_some(tree)
}

/// A random well-typed tree, and others that were made on the way.
fn well_typed(random: &mut Random, context: u32, records: usize) -> (Tree, Vec<Tree>) {
    let mut made: Vec<Tree> = (0..8).map(|_| leaf(random, context)).filter(|t| typed_in(context, t)).collect();
    made.push(Tree::new(44, vec![], vec![Tree::new(34, vec![7, 0, 0, 0], vec![])]));
    let rounds = random.between(1, 60);
    let mut last = random.below(made.len());
    for _ in 0..rounds {
        if let Some(tree) = above(random, &made, records).filter(|t| typed_in(context, t)) {
            made.push(tree);
            last = made.len() - 1;
        }
    }
    (made[last].clone(), made)
}

fn typed_in(context: u32, tree: &Tree) -> bool {
    check(context, &tree.bytes(), CHECK_WORK).0 == 0
}

/// A tree in which one part is of another kind, or another tree.
fn ill_typed(random: &mut Random, context: u32, records: usize) -> Tree {
    let (mut tree, made) = well_typed(random, context, records);
    let at = random.below(tree.records);
    let other = random.pick(&made).clone();
    let part = tree.part(at);
    match part.kind {
        42..=48 if random.once_in(2) => part.kind = random.between(42, 48) as u16,
        49..=54 if random.once_in(2) => part.kind = random.between(49, 54) as u16,
        49..=56 if random.once_in(2) => part.children.reverse(),
        57..=58 => part.kind = 115 - part.kind,
        107..=108 => part.kind = 215 - part.kind,
        _ => *part = other,
    }
    // The counts of records above the part are made anew.
    fn recount(tree: &mut Tree) -> usize {
        tree.records = 1 + tree.children.iter_mut().map(recount).sum::<usize>();
        tree.records
    }
    recount(&mut tree);
    tree
}

/// Where the records begin, and their kinds.
fn places(bytes: &[u8]) -> Vec<(usize, usize)> {
    let mut places = Vec::new();
    let mut at = 0;
    while at < bytes.len() {
        places.push((at, u16_at(bytes, at + 2)));
        at += u16_at(bytes, at);
    }
    places
}

/// A damaged copy of a tree's bytes.
fn damaged(random: &mut Random, bytes: &[u8]) -> Vec<u8> {
    let places = places(bytes);
    let mut out = bytes.to_vec();
    let number = random.below(places.len());
    let (at, kind) = places[number];
    let first_child = at + if kind == 56 { 8 } else { 4 };
    let threshold = matches!(meant(kind), 56..=58);
    match random.below(12) {
        0 => out.truncate(random.below(bytes.len() + 1)),
        1 => out[at] = out[at].wrapping_add(*random.pick(&[1, 2, 4, 252, 254, 255])),
        2 => out[at + 1] = 1 + random.below(255) as u8,
        3 => out[at + 2] = *random.pick(&[0, 1, 3, 12, 19, 31, 34, 35, 57, 58, 59, 83, 84, 85, 86, 106, 107, 108, 109, 255]),
        4 => out[at + 3] = 1 + random.below(255) as u8,
        5 if (36..=37).contains(&kind) => {
            let lock: u32 = *random.pick(&[0, LOCK_MAX + 1, u32::MAX]);
            out[at + 4..at + 8].copy_from_slice(&lock.to_le_bytes());
        }
        6 if threshold => out[at + 4] = *random.pick(&[0, out[at + 6].wrapping_add(1), 17, 255]),
        7 if threshold => out[at + 6] = *random.pick(&[0, 17, out[at + 6].wrapping_add(1), out[at + 6] - 1]),
        8 if (42..=56).contains(&kind) => {
            // A child taken twice, or one that is not smaller.
            let children = if kind == 56 { usize::from(out[at + 6]) } else { arity(kind as u16) };
            let child = first_child + 2 * random.below(children);
            let earlier = random.below(number + 1) as u16;
            let wrong = *random.pick(&[number as u16, number as u16 + 1, 0, 65_535, earlier]);
            out[child..child + 2].copy_from_slice(&wrong.to_le_bytes());
        }
        9 => out = [&[4, 0, 33, 0], bytes].concat(),
        10 => {
            // Records that nothing takes, at times to the 4,097th and past it.
            let more = if random.once_in(4) { random.between(TREE_RECORDS - 3, TREE_RECORDS + 3) } else { random.between(1, 9) };
            out.extend([4, 0, 33, 0].repeat(more));
        }
        _ if !out.is_empty() => {
            let at = random.below(out.len());
            out[at] ^= 1 << random.below(8);
        }
        _ => {}
    }
    out
}

/// A low tree of exactly this many records.
fn wide(out: &mut Writer, records: usize) -> u16 {
    if records == 1 {
        return out.record(33, &[]);
    }
    if records % 2 == 0 {
        let child = wide(out, records - 1);
        return out.record(48, &u16s(&[child]));
    }
    let left = wide(out, (records - 1) / 2);
    let right = wide(out, records - 1 - (records - 1) / 2);
    out.record(54, &u16s(&[left, right]))
}

/// A tree that is one chain of wrappers, of exactly this many records.
fn long(records: usize) -> Vec<u8> {
    let mut out = Writer::default();
    let mut child = out.record(33, &[]);
    for _ in 1..records {
        child = out.record(48, &u16s(&[child]));
    }
    out.bytes
}

/// A key or a hash of a well-formed tree: where it stands in the bytes, its width, and in which of the tables of docs/ENTRIES.md its entry stands.
struct Entry {
    place: usize,
    width: usize,
    table: usize,
}

fn entries(bytes: &[u8]) -> Vec<Entry> {
    let mut list = Vec::new();
    for (at, kind) in places(bytes) {
        let width = width(kind);
        let mut add = |from: usize, table: usize| {
            list.extend((from..at + u16_at(bytes, at)).step_by(width).map(|place| Entry { place, width, table }));
        };
        match meant(kind) {
            34 => add(at + 4, 0),
            35 => add(at + 4, 1),
            38 | 39 => add(at + 4, 2),
            40 | 41 => add(at + 4, 3),
            57 | 58 => add(at + 8, 0),
            _ => {}
        }
    }
    list
}

/// The keys and hashes of a well-formed tree: the table, and the number in it.
#[cfg(port)]
pub fn numbers(bytes: &[u8]) -> Vec<(usize, u64)> {
    entries(bytes).into_iter().map(|entry| (entry.table, number_at(bytes, entry.place, entry.width))).collect()
}

/// Numbers whose entry, of 32, 20 or 33 bytes, begins or ends about 2^32 bytes into its table, and the last of 32 bits.
const FAR: [u64; 6] = [(1 << 27) - 1, 1 << 27, 214_748_364, 130_150_524, (1 << 32) - 2, (1 << 32) - 1];

/// 33 times this number is one more than a multiple of 2^64.
const PART_33: u64 = 0x0F83_E0F8_3E0F_83E1;

/// Numbers of 64 bits: with a small low half; with an entry, of 32, 20 or 33 bytes, that begins or ends few bytes after a multiple of 2^64; the last.
pub const FURTHER: [u64; 13] = [
    1 << 32, (1 << 32) + 1, (1 << 59) - 1, 1 << 59, (1 << 59) + 1, (1 << 62) - 1, 1 << 62, (1 << 62) + 1, PART_33 - 1, PART_33, 5 * PART_33 - 1,
    u64::MAX - 1, u64::MAX,
];

/// A copy of a well-formed tree with keys in both kinds, in which keys and hashes have numbers below `bound`, but for one number in `large`, which is any.
pub fn renumbered(random: &mut Random, bytes: &[u8], bound: usize, large: usize) -> Vec<u8> {
    let mut out = mixed(random, bytes);
    for Entry { place, width, .. } in entries(&out) {
        let far = if width == 8 && random.once_in(2) { *random.pick(&FURTHER) } else { *random.pick(&FAR) };
        let any = if random.once_in(2) { random.next() } else { far };
        let number = if random.once_in(large) { any } else { random.below(bound) as u64 };
        out[place..place + width].copy_from_slice(&number.to_le_bytes()[..width]);
    }
    out
}

/// Leaves of every kind that a context has, with few numbers; and locks and multisignatures with every size of a number.
pub fn leaves<Ctx: ScriptContext>() -> [Vec<Child<Ctx>>; 2] {
    let multi = |k: usize, n: usize| {
        let keys: Vec<Key> = (0..n as u64).map(Key).collect();
        let nodes = [Threshold::new(k, keys.clone()).map(Terminal::Multi), Threshold::new(k, keys).map(Terminal::MultiA)];
        nodes.into_iter().flatten().collect::<Vec<_>>()
    };
    let locks = |n: u32| vec![Terminal::After(AbsLockTime(n)), Terminal::Older(RelLockTime(n))];
    let few = [
        vec![Terminal::False, Terminal::True, Terminal::PkK(Key(0)), Terminal::PkH(Key(1))],
        vec![Terminal::Sha256(0), Terminal::Hash256(1), Terminal::Ripemd160(0), Terminal::Hash160(1)],
        [locks(16), locks(17), multi(1, 1), multi(2, 3)].concat(),
    ];
    let many = [LOCKS.map(locks).concat(), (1..=THRESH_MAX).flat_map(|n| (1..=n).flat_map(move |k| multi(k, n))).collect()];
    let typed = |nodes: Vec<Terminal<Key, Ctx>>| nodes.into_iter().filter_map(|node| made(node).ok()).collect();
    [typed(few.concat()), typed(many.concat())]
}

/// All ways to take `n` trees with `records` records together.
fn choices<Ctx: ScriptContext>(by_size: &[Vec<Child<Ctx>>], records: usize, n: usize) -> Vec<Vec<Child<Ctx>>> {
    if n == 0 {
        return if records == 0 { vec![vec![]] } else { vec![] };
    }
    let mut all = Vec::new();
    for size in 1..=records.min(by_size.len() - 1) {
        for rest in choices(by_size, records - size, n - 1) {
            all.extend(by_size[size].iter().map(|tree| [std::slice::from_ref(tree), &rest].concat()));
        }
    }
    all
}

/// Every well-typed tree of up to so many records over few leaves, the smaller ones first, and leaves with more numbers.
pub fn small<Ctx: ScriptContext>(records: usize) -> Vec<Child<Ctx>> {
    let [few, many] = leaves();
    let mut by_size = vec![vec![], few];
    for size in 2..=records {
        let mut next = Vec::new();
        for n in 1..size.min(4) {
            for children in choices(&by_size, size - 1, n) {
                let kinds = (42..=55).filter(|&kind| arity(kind as u16) == n).filter_map(|kind| over(kind, children.clone()));
                let thresholds = (1..=n).filter_map(|k| Threshold::new(k, children.clone()).ok().map(Terminal::Thresh));
                next.extend(kinds.chain(thresholds).filter_map(|node| made(node).ok()));
            }
        }
        by_size.push(next);
    }
    many.into_iter().chain(by_size.into_iter().flatten()).collect()
}

/// A random well-typed tree of at most so many records, most often a large one: fragments are put over others, of which the newest are met most.
pub fn grown<Ctx: ScriptContext>(random: &mut Random, records: usize) -> Child<Ctx> {
    let [few, many] = leaves();
    let picked: Vec<Child<Ctx>> = (0..2).map(|_| random.pick(&many).clone()).collect();
    let mut pool: Vec<(usize, Child<Ctx>)> = few.into_iter().chain(picked).map(|leaf| (1, leaf)).collect();
    // Keys are checked, and what can be is verified, so that there is something of every base.
    for wrap in [Terminal::Check, Terminal::Verify] {
        let more: Vec<_> = pool.iter().filter_map(|(size, tree)| Some((size + 1, made(wrap(Arc::clone(tree))).ok()?))).collect();
        pool.extend(more.into_iter().filter(|(size, _)| *size <= records));
    }
    for _ in 0..random.between(20, 1_200) {
        let kind = if random.once_in(3) { random.between(42, 48) } else { random.between(49, 56) };
        let n = if kind == 56 { random.between(1, 5) } else { arity(kind as u16) };
        let newest = if random.once_in(3) { pool.len() } else { 12 };
        let taken: Vec<_> = (0..n).map(|_| random.pick(&pool[pool.len() - newest..]).clone()).collect();
        let size = 1 + taken.iter().map(|(size, _)| size).sum::<usize>();
        let children: Vec<_> = taken.into_iter().map(|(_, tree)| tree).collect();
        let node = if kind == 56 { Threshold::new(random.between(1, n), children).ok().map(Terminal::Thresh) } else { over(kind, children) };
        if let (true, Some(Ok(tree))) = (size <= records, node.map(made)) {
            pool.push((size, tree));
        }
    }
    let largest = pool.iter().max_by_key(|(size, _)| *size);
    let (_, tree) = if random.once_in(4) { pool.last() } else { largest }.expect("the pool has leaves");
    Arc::clone(tree)
}

/// What a random tree is meant to be.
#[cfg(port)]
pub const FLAVOURS: [&str; 3] = ["well-typed", "ill-typed", "damaged"];

/// The bytes of a random tree of one flavour.
pub fn case(random: &mut Random, context: u32, flavour: usize, records: usize) -> Vec<u8> {
    if random.once_in(400) {
        if random.once_in(2) {
            return long(HEIGHT - 2 + random.below(5));
        }
        let mut out = Writer::default();
        wide(&mut out, TREE_RECORDS - 2 + random.below(5));
        return out.bytes;
    }
    match flavour {
        0 => well_typed(random, context, records).0.bytes(),
        1 => {
            let mut bytes = ill_typed(random, context, records).bytes();
            for _ in 0..8 {
                if check(context, &bytes, CHECK_WORK).0 != ILL_TYPED {
                    bytes = ill_typed(random, context, records).bytes();
                }
            }
            bytes
        }
        _ => {
            let bytes = well_typed(random, context, records).0.bytes();
            damaged(random, &bytes)
        }
    }
}
