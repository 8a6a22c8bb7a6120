//! Bitcoin's scripts as lex.rs reads them: instructions, opcodes and numbers. A push of more than 75 bytes is read as an opcode, which lex.rs
//! refuses; Miniscript has none.

use std::fmt;

/// An opcode by its number.
#[derive(Clone, Copy, PartialEq, Eq, Debug)]
pub struct Opcode(pub u8);

impl fmt::Display for Opcode {
    fn fmt(&self, f: &mut fmt::Formatter) -> fmt::Result {
        write!(f, "{:02X}", self.0)
    }
}

pub mod opcodes {
    pub mod all {
        use super::super::Opcode;

        macro_rules! opcodes {
            ($($name:ident $number:literal,)*) => { $(pub const $name: Opcode = Opcode($number);)* };
        }

        opcodes! {
            OP_PUSHBYTES_0 0x00,
            OP_PUSHNUM_1 0x51, OP_PUSHNUM_2 0x52, OP_PUSHNUM_3 0x53, OP_PUSHNUM_4 0x54, OP_PUSHNUM_5 0x55, OP_PUSHNUM_6 0x56,
            OP_PUSHNUM_7 0x57, OP_PUSHNUM_8 0x58, OP_PUSHNUM_9 0x59, OP_PUSHNUM_10 0x5a, OP_PUSHNUM_11 0x5b, OP_PUSHNUM_12 0x5c,
            OP_PUSHNUM_13 0x5d, OP_PUSHNUM_14 0x5e, OP_PUSHNUM_15 0x5f, OP_PUSHNUM_16 0x60,
            OP_IF 0x63, OP_NOTIF 0x64, OP_ELSE 0x67, OP_ENDIF 0x68, OP_VERIFY 0x69,
            OP_TOALTSTACK 0x6b, OP_FROMALTSTACK 0x6c, OP_IFDUP 0x73, OP_DROP 0x75, OP_DUP 0x76, OP_SWAP 0x7c, OP_SIZE 0x82,
            OP_EQUAL 0x87, OP_EQUALVERIFY 0x88, OP_0NOTEQUAL 0x92, OP_ADD 0x93, OP_BOOLAND 0x9a, OP_BOOLOR 0x9b,
            OP_NUMEQUAL 0x9c, OP_NUMEQUALVERIFY 0x9d,
            OP_RIPEMD160 0xa6, OP_SHA256 0xa8, OP_HASH160 0xa9, OP_HASH256 0xaa,
            OP_CHECKSIG 0xac, OP_CHECKSIGVERIFY 0xad, OP_CHECKMULTISIG 0xae, OP_CHECKMULTISIGVERIFY 0xaf,
            OP_CLTV 0xb1, OP_CSV 0xb2, OP_CHECKSIGADD 0xba,
        }
    }
}

/// What is wrong with a script.
#[derive(Clone, Copy, PartialEq, Eq, Debug)]
pub enum Error {
    EarlyEndOfScript,
    NonMinimalPush,
    NumericOverflow,
}

impl fmt::Display for Error {
    fn fmt(&self, f: &mut fmt::Formatter) -> fmt::Result {
        write!(f, "{self:?}")
    }
}

impl std::error::Error for Error {}

/// The bytes of a push, where they stand.
#[derive(Clone, Copy)]
pub struct PushBytes<'a>(&'a [u8]);

impl<'a> PushBytes<'a> {
    pub fn as_bytes(&self) -> &'a [u8] {
        self.0
    }

    pub fn to_owned(self) -> PushBytesBuf {
        PushBytesBuf(self.0.to_vec())
    }
}

/// The bytes of a push.
#[derive(Clone, PartialEq, Eq, Debug)]
pub struct PushBytesBuf(Vec<u8>);

impl PushBytesBuf {
    pub fn as_bytes(&self) -> &[u8] {
        &self.0
    }

    pub fn len(&self) -> usize {
        self.0.len()
    }
}

pub enum Instruction<'a> {
    PushBytes(PushBytes<'a>),
    Op(Opcode),
}

pub struct Script(pub Vec<u8>);

impl Script {
    pub fn len(&self) -> usize {
        self.0.len()
    }

    /// The instructions in order, an error for a push that is cut short or that has an opcode of its own.
    pub fn instructions_minimal(&self) -> Instructions<'_> {
        Instructions(&self.0)
    }
}

pub struct Instructions<'a>(&'a [u8]);

impl<'a> Iterator for Instructions<'a> {
    type Item = Result<Instruction<'a>, Error>;

    fn next(&mut self) -> Option<Self::Item> {
        let (&byte, rest) = self.0.split_first()?;
        self.0 = rest;
        let length = usize::from(byte);
        if length > 75 {
            return Some(Ok(Instruction::Op(Opcode(byte))));
        }
        if length > rest.len() {
            return Some(Err(Error::EarlyEndOfScript));
        }
        let (push, rest) = rest.split_at(length);
        self.0 = rest;
        match push {
            [1..=16] | [0x81] => Some(Err(Error::NonMinimalPush)),
            _ => Some(Ok(Instruction::PushBytes(PushBytes(push)))),
        }
    }
}

/// A number of at most four bytes in its shortest form: low byte first, the highest bit its sign.
pub fn read_scriptint(bytes: &[u8]) -> Result<i64, Error> {
    let Some((&last, lower)) = bytes.split_last() else { return Ok(0) };
    if bytes.len() > 4 {
        return Err(Error::NumericOverflow);
    }
    if last & 0x7f == 0 && lower.last().map_or(true, |b| b & 0x80 == 0) {
        return Err(Error::NonMinimalPush);
    }
    let size = lower.iter().rev().fold(i64::from(last & 0x7f), |n, &b| n * 256 + i64::from(b));
    Ok(if last & 0x80 == 0 { size } else { -size })
}
