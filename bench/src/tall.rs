//! Trees about as tall as a tree may be, of every way to be tall.

use std::collections::BTreeMap;
use std::ops::RangeInclusive;

use crate::keys::Key;
use crate::miniscript::ScriptContext;
use crate::records::write_tree;
use crate::room::HEIGHT;
use crate::trees::{arity, leaves, made_any, over, packed, Child};
use crate::{Terminal, Threshold};

/// One tree of each type.
struct ByType<Ctx: ScriptContext>(BTreeMap<u32, Child<Ctx>>);

impl<Ctx: ScriptContext> ByType<Ctx> {
    fn new() -> Self {
        ByType(BTreeMap::new())
    }

    /// Adds a tree, if it is well-typed and its height is one of these.
    fn add(&mut self, node: Terminal<Key, Ctx>, heights: RangeInclusive<usize>) {
        if let Some(tree) = made_any(node).ok().filter(|tree| heights.contains(&(tree.ext.tree_height + 1))) {
            self.0.entry(packed(&tree.ty)).or_insert(tree);
        }
    }

    fn list(&self) -> Vec<Child<Ctx>> {
        self.0.values().cloned().collect()
    }
}

/// The places in which a kind has a child: the first two of a Thresh stand for all.
fn child_places(kind: usize) -> usize {
    if kind == 56 {
        2
    } else {
        arity(kind as u16)
    }
}

/// A fragment of this kind with `tall` in one place and others in the rest, all ways.
fn around<Ctx: ScriptContext>(kind: usize, place: usize, tall: &Child<Ctx>, others: &[Child<Ctx>]) -> Vec<Terminal<Key, Ctx>> {
    let mut rows = vec![vec![]];
    for at in 0..child_places(kind) {
        let here = if at == place { std::slice::from_ref(tall) } else { others };
        rows = rows.iter().flat_map(|row: &Vec<Child<Ctx>>| here.iter().map(move |child| [&row[..], &[child.clone()]].concat())).collect();
    }
    let node = |row: Vec<Child<Ctx>>| if kind == 56 { Threshold::new(1, row).ok().map(Terminal::Thresh) } else { over(kind, row) };
    rows.into_iter().filter_map(node).collect()
}

/// Well-typed trees that are 127, 128 and 129 high, with each kind of fragment at the top and the tall child in each of its places; and how many of
/// these ways were not found.
pub fn trees<Ctx: ScriptContext>() -> (Vec<(usize, Vec<u8>)>, usize) {
    let [few, _] = leaves::<Ctx>();
    let mut low = ByType::new();
    for leaf in &few {
        low.0.entry(packed(&leaf.ty)).or_insert(leaf.clone());
    }
    for _ in 0..2 {
        for child in low.list() {
            (42..=48).flat_map(|kind| around(kind, 0, &child, &[])).for_each(|node| low.add(node, 1..=3));
        }
    }
    let others = low.list();
    let mut level = others.iter().filter(|tree| tree.ext.tree_height == 0).cloned().collect::<Vec<_>>();
    let (mut cases, mut missing) = (Vec::new(), 0);
    for height in 2..=HEIGHT + 1 {
        if height + 1 >= HEIGHT {
            for (kind, place) in (42..=56).flat_map(|kind| (0..child_places(kind)).map(move |place| (kind, place))) {
                let found = level.iter().flat_map(|tall| around(kind, place, tall, &others)).find_map(|node| made_any(node).ok());
                match found.filter(|tree| tree.ext.tree_height + 1 == height).and_then(|tree| write_tree(&tree).ok()) {
                    Some(bytes) => cases.push((height, bytes)),
                    None => missing += 1,
                }
            }
        }
        let mut next = ByType::new();
        for tall in &level {
            (42..=48).flat_map(|kind| around(kind, 0, tall, &[])).for_each(|node| next.add(node, height..=height));
            for kind in 49..=54 {
                (0..2).flat_map(|place| around(kind, place, tall, &others)).for_each(|node| next.add(node, height..=height));
            }
        }
        level = next.list();
    }
    (cases, missing)
}
