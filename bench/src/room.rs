//! Document 01's counters, room limits and NotACost, and document 02's limit of height, as the counted copy of the compiler asks them.
//!
//! A refusal leaves the search by unwinding, at the very place where document 01 gives it.

use std::cell::Cell;
use std::panic;

/// The most candidates that one call accepts.
const NODES: usize = 65_534;
/// The most entries of one table.
const TABLE: usize = 128;
/// The most tables that are remembered.
const CACHE: usize = 2_048;
/// The most elements that one cast closure pops.
const FUEL: usize = 4_096;
/// How tall a candidate may be, a leaf being 1.
pub const HEIGHT: usize = 128;

/// A refusal on its way out of the search.
pub struct Refusal(pub u32);

/// What one run of the counted copy has done.
#[derive(Clone, Copy, Default)]
pub struct Counts {
    /// Candidates accepted.
    pub accepted: usize,
    /// Tables stored.
    pub stored: usize,
    /// Tables found again.
    pub hits: usize,
    /// The most entries that a table has had.
    pub widest: usize,
    /// The most elements that a closure has popped.
    pub popped: usize,
    /// Whether an infinite cost was compared.
    pub infinite: bool,
    /// Whether a child of a Thresh costs infinity both as E and as W.
    pub never_both: bool,
    /// Candidates dropped because they were too tall.
    pub tall: usize,
}

thread_local! {
    static COUNTS: Cell<Counts> =
        const { Cell::new(Counts { accepted: 0, stored: 0, hits: 0, widest: 0, popped: 0, infinite: false, never_both: false, tall: 0 }) };
    /// The searches, of all runs, that met a candidate over the limit of height.
    static TALL_SEARCHES: Cell<u64> = const { Cell::new(0) };
}

fn refuse(number: u32) -> ! {
    panic::resume_unwind(Box::new(Refusal(number)))
}

fn change(f: impl FnOnce(&mut Counts)) {
    COUNTS.with(|cell| {
        let mut counts = cell.get();
        f(&mut counts);
        cell.set(counts);
    })
}

/// Begins a run.
pub fn begin() {
    COUNTS.with(|cell| cell.set(Counts::default()));
}

/// What the run has done so far.
pub fn counts() -> Counts {
    COUNTS.with(Cell::get)
}

/// NotACost, for a cost that is about to be compared.
pub fn compare(cost: f64) {
    if cost.is_nan() || cost.is_sign_negative() {
        refuse(10);
    }
    change(|counts| counts.infinite |= cost.is_infinite());
}

/// What a child of a Thresh costs as E and as W.
pub fn gain(e: f64, w: f64) {
    change(|counts| counts.never_both |= e.is_infinite() && w.is_infinite());
}

/// Whether a candidate is dropped for its height; the Rust's figure of a leaf is 0.
pub fn too_tall(figure: usize) -> bool {
    let tall = figure + 1 > HEIGHT;
    if tall && counts().tall == 0 {
        TALL_SEARCHES.with(|cell| cell.set(cell.get() + 1));
    }
    change(|counts| counts.tall += usize::from(tall));
    tall
}

/// What to say of the searches so far.
pub fn tall_searches() -> String {
    format!("{} searches met a candidate over {HEIGHT} high", TALL_SEARCHES.with(Cell::get))
}

/// An acceptance into a table that holds `others` entries: TableFull, then NodesFull.
pub fn accept(others: usize) {
    if others + 1 > TABLE {
        refuse(7);
    }
    if counts().accepted + 1 > NODES {
        refuse(6);
    }
    change(|counts| {
        counts.accepted += 1;
        counts.widest = counts.widest.max(others + 1);
    });
}

/// A table found again.
pub fn remembered() {
    change(|counts| counts.hits += 1);
}

/// CacheFull, for a table that is about to be stored beside `others`.
pub fn store(others: usize) {
    if others + 1 > CACHE {
        refuse(8);
    }
    change(|counts| counts.stored += 1);
}

/// What one cast closure has left to pop.
pub struct Fuel(usize);

impl Fuel {
    pub fn full() -> Self {
        Fuel(0)
    }

    /// FuelSpent, for an element that is about to be popped.
    pub fn pop(&mut self) {
        if self.0 + 1 > FUEL {
            refuse(9);
        }
        self.0 += 1;
        let popped = self.0;
        change(|counts| counts.popped = counts.popped.max(popped));
    }
}
