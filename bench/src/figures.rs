//! Document 01's 'Figures to meet', as the Rust computes them.

use crate::miniscript::context::{Segwitv0, Tap};
use crate::policy::costed::{cost_rule, Pair};

const ECDSA: [(&str, Pair); 13] = [
    ("PkK", (73.0, Some(1.0))),
    ("PkH", (107.0, Some(35.0))),
    ("hash", (33.0, Some(33.0))),
    ("Multi 2 of 3", (147.0, Some(3.0))),
    ("MultiA 2 of 3", (133.0, Some(3.0))),
    ("OrB", (74.0, Some(2.0))),
    ("OrD", (73.5, Some(2.0))),
    ("OrI", (74.5, Some(2.0))),
    ("AndOr", (110.0, Some(2.0))),
    ("Thresh 1 of 2", (74.0, Some(2.0))),
    ("likely over True", (1.0, Some(2.0))),
    ("True", (0.0, None)),
    ("False", (f64::MAX, Some(0.0))),
];

const SCHNORR: [(&str, Pair); 2] = [("PkK", (66.0, Some(1.0))), ("PkH", (99.0, Some(34.0)))];

fn bits(pair: Option<Pair>) -> Option<(u64, Option<u64>)> {
    pair.map(|(sat, dissat)| (sat.to_bits(), dissat.map(f64::to_bits)))
}

fn shown(pair: Option<Pair>) -> String {
    match pair {
        None => "no such rule".to_string(),
        Some((sat, None)) => format!("{sat:?}, none"),
        Some((sat, Some(dissat))) => format!("{sat:?}, {dissat:?}"),
    }
}

/// Prints each figure; gives whether the Rust meets all of them, bit for bit.
pub fn run() -> bool {
    let mut met = 0;
    let all = ECDSA
        .iter()
        .map(|(name, pair)| ("ECDSA", name, pair, cost_rule::<Segwitv0>(name)))
        .chain(SCHNORR.iter().map(|(name, pair)| ("Schnorr", name, pair, cost_rule::<Tap>(name))));
    for (signature, name, wanted, found) in all {
        let same = bits(Some(*wanted)) == bits(found);
        met += usize::from(same);
        let verdict = if same { "as document 01 has it" } else { "DIFFERS from document 01" };
        println!("{signature} {name}: {} ({verdict})", shown(found));
    }
    let count = ECDSA.len() + SCHNORR.len();
    println!("{met} of {count} figures met");
    met == count
}
