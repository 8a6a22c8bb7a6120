//! Script bytes, from BIP 379's table of translations and Bitcoin's rules for the shortest push: the bench's own encoder.

use crate::outline::Outline;

/// The most bytes that a push of one length byte holds.
const PUSH_MAX: usize = 75;

pub const IF: u8 = 0x63;
pub const NOTIF: u8 = 0x64;
pub const ELSE: u8 = 0x67;
pub const ENDIF: u8 = 0x68;
pub const VERIFY: u8 = 0x69;
pub const TOALTSTACK: u8 = 0x6b;
pub const FROMALTSTACK: u8 = 0x6c;
pub const IFDUP: u8 = 0x73;
pub const DUP: u8 = 0x76;
pub const SWAP: u8 = 0x7c;
pub const SIZE: u8 = 0x82;
pub const EQUAL: u8 = 0x87;
pub const EQUALVERIFY: u8 = 0x88;
pub const ZERONOTEQUAL: u8 = 0x92;
pub const ADD: u8 = 0x93;
pub const BOOLAND: u8 = 0x9a;
pub const BOOLOR: u8 = 0x9b;
pub const NUMEQUAL: u8 = 0x9c;
pub const NUMEQUALVERIFY: u8 = 0x9d;
pub const RIPEMD160: u8 = 0xa6;
pub const SHA256: u8 = 0xa8;
pub const HASH160: u8 = 0xa9;
pub const HASH256: u8 = 0xaa;
pub const CHECKSIG: u8 = 0xac;
pub const CHECKSIGVERIFY: u8 = 0xad;
pub const CHECKMULTISIG: u8 = 0xae;
pub const CHECKMULTISIGVERIFY: u8 = 0xaf;
pub const CHECKLOCKTIMEVERIFY: u8 = 0xb1;
pub const CHECKSEQUENCEVERIFY: u8 = 0xb2;
pub const CHECKSIGADD: u8 = 0xba;

/// One word of a script.
pub enum Word {
    Op(u8),
    Push(Vec<u8>),
}

use Word::{Op, Push};

/// A number in Script's form: low byte first, as few as hold it with a free highest bit, none for 0.
fn number(n: u32) -> Word {
    let mut bytes: Vec<u8> = n.to_le_bytes().to_vec();
    bytes.push(0);
    while let [.., below, 0] = bytes[..] {
        if below >= 0x80 {
            break;
        }
        bytes.pop();
    }
    if bytes == [0] {
        bytes.clear();
    }
    Push(bytes)
}

/// A part of a line of BIP 379's table: a child's script, an opcode, a number, or bytes that the fragment holds.
enum Part {
    Child(usize),
    Opcode(u8),
    Number(u32),
    Bytes(usize),
}

/// BIP 379's table, but for v:X.
fn line(tree: &Outline) -> Vec<Part> {
    use Part::{Bytes as B, Child, Number as N, Opcode as O};
    const X: Part = Child(0);
    const Y: Part = Child(1);
    const Z: Part = Child(2);
    let k = tree.number;
    let hash = |hash: u8| vec![O(SIZE), N(32), O(EQUALVERIFY), O(hash), B(0), O(EQUAL)];
    match tree.kind {
        32 => vec![N(0)],
        33 => vec![N(1)],
        34 => vec![B(0)],
        35 => vec![O(DUP), O(HASH160), B(0), O(EQUALVERIFY)],
        36 => vec![N(tree.number), O(CHECKLOCKTIMEVERIFY)],
        37 => vec![N(tree.number), O(CHECKSEQUENCEVERIFY)],
        38 => hash(SHA256),
        39 => hash(HASH256),
        40 => hash(RIPEMD160),
        41 => hash(HASH160),
        42 => vec![O(TOALTSTACK), X, O(FROMALTSTACK)],
        43 => vec![O(SWAP), X],
        44 => vec![X, O(CHECKSIG)],
        45 => vec![O(DUP), O(IF), X, O(ENDIF)],
        47 => vec![O(SIZE), O(ZERONOTEQUAL), O(IF), X, O(ENDIF)],
        48 => vec![X, O(ZERONOTEQUAL)],
        49 => vec![X, Y, O(BOOLAND)],
        50 => vec![X, Y],
        51 => vec![X, Y, O(BOOLOR)],
        52 => vec![X, O(IFDUP), O(NOTIF), Y, O(ENDIF)],
        53 => vec![X, O(NOTIF), Y, O(ENDIF)],
        54 => vec![O(IF), X, O(ELSE), Y, O(ENDIF)],
        55 => vec![X, O(NOTIF), Z, O(ELSE), Y, O(ENDIF)],
        56 => {
            let others = (1..tree.children.len()).flat_map(|i| [Child(i), O(ADD)]);
            [X].into_iter().chain(others).chain([N(k), O(EQUAL)]).collect()
        }
        57 => {
            let n = tree.pushes.len();
            [N(k)].into_iter().chain((0..n).map(B)).chain([N(n as u32), O(CHECKMULTISIG)]).collect()
        }
        58 => {
            let others = (1..tree.pushes.len()).flat_map(|i| [B(i), O(CHECKSIGADD)]);
            [B(0), O(CHECKSIG)].into_iter().chain(others).chain([N(k), O(NUMEQUAL)]).collect()
        }
        kind => unreachable!("{kind} has no line of its own"),
    }
}

/// The words that a fragment added, from one place to another, and those of its children. A word that v:X changes stays X's.
struct Span {
    from: usize,
    to: usize,
    children: Vec<Span>,
}

/// Adds the words of a tree; v:X is the VERIFY form of the last opcode of X, if it has one, and else X and VERIFY.
fn add(tree: &Outline, words: &mut Vec<Word>) -> Span {
    let from = words.len();
    if tree.kind == 46 {
        let child = add(&tree.children[0], words);
        match words.last_mut() {
            Some(last @ Op(EQUAL)) => *last = Op(EQUALVERIFY),
            Some(last @ Op(NUMEQUAL)) => *last = Op(NUMEQUALVERIFY),
            Some(last @ Op(CHECKSIG)) => *last = Op(CHECKSIGVERIFY),
            Some(last @ Op(CHECKMULTISIG)) => *last = Op(CHECKMULTISIGVERIFY),
            _ => words.push(Op(VERIFY)),
        }
        return Span { from, to: words.len(), children: vec![child] };
    }
    let mut children = Vec::new();
    for part in line(tree) {
        match part {
            Part::Child(i) => children.push((i, add(&tree.children[i], words))),
            Part::Opcode(op) => words.push(Op(op)),
            Part::Number(n) => words.push(number(n)),
            Part::Bytes(i) => words.push(Push(tree.pushes[i].clone())),
        }
    }
    children.sort_by_key(|&(i, _)| i);
    Span { from, to: words.len(), children: children.into_iter().map(|(_, child)| child).collect() }
}

/// A word's bytes: an opcode is one; the shortest push is an opcode for the empty string, 1 to 16 and 0x81, and else the length and the bytes.
fn write(word: &Word, out: &mut Vec<u8>) {
    match word {
        Op(op) => out.push(*op),
        Push(bytes) => match bytes[..] {
            [] => out.push(0x00),
            [n @ 1..=16] => out.push(0x50 + n),
            [0x81] => out.push(0x4f),
            _ => {
                assert!(bytes.len() <= PUSH_MAX, "no table has such an entry");
                out.push(bytes.len() as u8);
                out.extend_from_slice(bytes);
            }
        },
    }
}

/// The words of a tree's script.
pub fn words(tree: &Outline) -> Vec<Word> {
    let mut words = Vec::new();
    add(tree, &mut words);
    words
}

/// The script of a tree.
pub fn script(tree: &Outline) -> Vec<u8> {
    let mut out = Vec::new();
    for word in &words(tree) {
        write(word, &mut out);
    }
    out
}

/// The script of a tree, and the first byte and the length of each fragment by the number of its record: the root's, and for each record its children's.
pub fn ranges(tree: &Outline, root: usize, children: &[Vec<usize>]) -> (Vec<u8>, Vec<(usize, usize)>) {
    fn tell(span: &Span, record: usize, children: &[Vec<usize>], starts: &[usize], ranges: &mut [(usize, usize)]) {
        ranges[record] = (starts[span.from], starts[span.to] - starts[span.from]);
        for (child, &number) in span.children.iter().zip(&children[record]) {
            tell(child, number, children, starts, ranges);
        }
    }
    let mut words = Vec::new();
    let span = add(tree, &mut words);
    let mut out = Vec::new();
    let mut starts = vec![0];
    for word in &words {
        write(word, &mut out);
        starts.push(out.len());
    }
    let mut ranges = vec![(0, 0); children.len()];
    tell(&span, root, children, &starts, &mut ranges);
    (out, ranges)
}
