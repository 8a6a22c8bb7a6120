//! Scripts through the Rust's own lexer and decoder.

use crate::answers::STORED;
use crate::blockdata::script::Script;
use crate::miniscript::context::{NoChecks, ScriptContextError, Segwitv0, Tap};
use crate::miniscript::decode::decode;
use crate::miniscript::lex::{lex, TokenIter};
use crate::miniscript::ScriptContext;
use crate::oracle::guarded;
use crate::outline::{random_tables, Bytes, Lent, Outline, Read};
use crate::random::Random;
use crate::records::{from_hex, to_hex, write_tree};
use crate::{encode, trees, Error};

/// The tree that the Rust reads in all of a script.
fn read<Ctx: ScriptContext>(script: &[u8]) -> Result<Outline, Error>
where
    Read: Bytes<Ctx::Key>,
{
    let mut tokens = TokenIter::new(lex(&Script(script.to_vec()))?);
    let tree = decode::<Ctx>(&mut tokens)?;
    match tokens.next() {
        Some(token) => Err(Error::Trailing(token.to_string())),
        None => Ok(Outline::of(&tree.node, &Read).expect("what was read has its bytes")),
    }
}

/// How a script was read.
pub enum Decoded {
    /// With every check of the context.
    Checked(Outline),
    /// Without the limit of 3,600 bytes that the Rust sets in SegWit v0.
    Unlimited(Outline),
    /// Not at all, for the tree is taller than the Rust takes.
    TooTall,
}

/// The tree that a script of a context tells, or how the Rust refuses it.
pub fn decoded(context: u32, script: &[u8]) -> Result<Decoded, Error> {
    let read_in = if context == 0 { read::<Segwitv0> } else { read::<Tap> };
    let too_tall = |e: Error| if matches!(e, Error::MaxRecursiveDepthExceeded) { Ok(Decoded::TooTall) } else { Err(e) };
    match read_in(script) {
        Ok(tree) => Ok(Decoded::Checked(tree)),
        Err(Error::ContextError(ScriptContextError::MaxWitnessScriptSizeExceeded { .. })) if context == 0 => {
            read::<NoChecks>(script).map(Decoded::Unlimited).or_else(too_tall)
        }
        Err(e) => too_tall(e),
    }
}

/// The script as the Rust reads one: a W stands behind another fragment, here 1 in an and_b.
pub fn readable(tree: &Outline, script: &[u8]) -> (Outline, Vec<u8>) {
    if !tree.is_w() {
        return (tree.clone(), script.to_vec());
    }
    let one = Outline::over(33, vec![]);
    let before = encode::script(&one);
    (Outline::over(49, vec![one, tree.clone()]), [&before, script, &[encode::BOOLAND]].concat())
}

/// The tree that the Rust reads in the script of a tree: of all that have this script, the one in which no and_v stands on the right of an and_v,
/// or first in c:, v:, n: or and_b. (First in or_b, or_c, or_d, andor or thresh none can stand: they want d of it, which no and_v has.)
pub fn normal(tree: Outline) -> Outline {
    let mut parts = sequence(tree).into_iter();
    let first = parts.next().expect("a tree has a part");
    parts.fold(first, |left, right| Outline::over(50, vec![left, right]))
}

/// Fragments whose scripts, one after another, are the script of a tree, and that are no and_v.
fn sequence(tree: Outline) -> Vec<Outline> {
    let Outline { kind, number, pushes, children } = tree;
    let mut children = children.into_iter();
    let mut parts = match kind {
        44 | 46 | 48 | 49 | 50 => sequence(children.next().expect("it has a first child")),
        _ => vec![],
    };
    if kind == 50 {
        parts.extend(children.flat_map(sequence));
        return parts;
    }
    let first = parts.pop();
    let children = first.into_iter().chain(children.map(normal)).collect();
    parts.push(Outline { kind, number, pushes, children });
    parts
}

/// What became of scripts.
#[derive(Default)]
pub struct Tally {
    trees: u64,
    /// Read without the limit of 3,600 bytes.
    unlimited: u64,
    /// Not read.
    too_tall: u64,
    /// Other trees than were written, or refused.
    misread: u64,
    /// Of another length than the Rust's `pk_cost`, the figure that the cost uses; and the first of the smallest of them.
    other_lengths: u64,
    smallest: Option<(usize, String)>,
}

impl Tally {
    /// Has the Rust read the script of a tree, and compares its length with the figure; the first scripts that are misread are said.
    pub fn judge(&mut self, context: u32, records: &[u8], tree: &Outline, pk_cost: usize, script: &[u8]) {
        self.trees += 1;
        let case = || format!("context {context}, tree {}", to_hex(records));
        if script.len() != pk_cost {
            self.other_lengths += 1;
            if self.smallest.as_ref().map_or(true, |(size, _)| records.len() < *size) {
                self.smallest = Some((records.len(), format!("{}: {} bytes, pk_cost {pk_cost}", case(), script.len())));
            }
        }
        if let Err(message) = self.read_back(context, tree, script) {
            self.misread += 1;
            if self.misread <= 10 {
                println!("{}, script {}: {message}", case(), to_hex(script));
            }
        }
    }

    fn read_back(&mut self, context: u32, tree: &Outline, script: &[u8]) -> Result<(), String> {
        let (tree, script) = readable(tree, script);
        let answer = guarded(|| decoded(context, &script)).map_err(|_| "the Rust panics".to_string())?;
        let found = match answer.map_err(|e| format!("the Rust refuses it: {e:?}"))? {
            Decoded::Checked(found) => found,
            Decoded::Unlimited(found) => {
                self.unlimited += 1;
                found
            }
            Decoded::TooTall => {
                self.too_tall += 1;
                return Ok(());
            }
        };
        let wanted = normal(tree);
        if found == wanted {
            Ok(())
        } else {
            Err(format!("the Rust reads\n  {found:?}\n  and not\n  {wanted:?}"))
        }
    }

    /// Prints the counts; gives whether all is well.
    pub fn end(&self, what: &str) -> bool {
        let read_back = self.trees - self.too_tall - self.misread;
        println!(
            "{what}: {} scripts; read back by the Rust {read_back}, {} of them over its 3,600 bytes, not read for height {}; misread {}; \
             lengths other than pk_cost {}",
            self.trees, self.unlimited, self.too_tall, self.misread, self.other_lengths
        );
        if let Some((_, text)) = &self.smallest {
            println!("  the smallest: {text}");
        }
        self.misread == 0 && self.other_lengths == 0
    }
}

/// The trees that the stored list has in a context, as records.
fn stored(context: u32) -> Vec<Vec<u8>> {
    let lines = STORED.lines().map(|line| line.split(' ').collect::<Vec<_>>());
    let chosen = lines.filter(|words| words.len() == 6 && words[0] == context.to_string() && words[2] == "0");
    chosen.filter_map(|words| from_hex(words[3])).collect()
}

/// The entries of each table that a random tree is given.
const ENTRIES: usize = 24;

/// The records of the trees that are all listed.
const SMALL: usize = 5;

/// A random tree whose numbers have entries, or none where it is refused.
fn random_tree<Ctx: ScriptContext>(random: &mut Random, context: u32, records: usize) -> Option<trees::Child<Ctx>> {
    let bytes = if random.once_in(4) { trees::case(random, context, 0, records) } else { write_tree(&trees::grown::<Ctx>(random, records)).ok()? };
    trees::read_tree(&trees::renumbered(random, &bytes, ENTRIES, usize::MAX)).ok()
}

/// Trees through the bench's own encoder and the Rust's decoder.
fn judge_all<Ctx: ScriptContext>(random: &mut Random, context: u32, what: &str, trees: impl Iterator<Item = trees::Child<Ctx>>) -> bool {
    let mut tally = Tally::default();
    for tree in trees {
        let tables = random_tables(random, context, [ENTRIES; 4]);
        let records = write_tree(&tree).expect("a tree of at most 4,096 records");
        let outline = Outline::of(&tree.node, &Lent { context, tables: &tables }).expect("numbers below the entries");
        let script = encode::script(&outline);
        tally.judge(context, &records, &outline, tree.ext.pk_cost, &script);
    }
    tally.end(&format!("context {context}, {what}"))
}

/// The trees of one context: all small ones, those of the stored list, and COUNT random ones.
fn run_in<Ctx: ScriptContext>(random: &mut Random, context: u32, count: u64, records: usize) -> bool {
    let small = trees::small::<Ctx>(SMALL).into_iter();
    let stored: Vec<_> =
        stored(context).iter().filter_map(|bytes| trees::read_tree(&trees::renumbered(random, bytes, ENTRIES, usize::MAX)).ok()).collect();
    let mut own = Random::new(random.next());
    let random_trees = (0..count).filter_map(|_| random_tree(&mut own, context, records));
    judge_all::<Ctx>(random, context, &format!("every tree of up to {SMALL} records"), small)
        & judge_all::<Ctx>(random, context, "the stored list", stored.into_iter())
        & judge_all::<Ctx>(random, context, "random", random_trees)
}

/// Scripts of the bench's own encoder through the Rust's decoder; gives whether it reads the trees back.
pub fn run(seed: u64, count: u64, records: usize) -> bool {
    let mut random = Random::new(seed);
    run_in::<Segwitv0>(&mut random, 0, count, records) & run_in::<Tap>(&mut random, 1, count, records)
}
