//! What the Rust's own files ask of the rest of their crate, and no more.
//!
//! docs/DIFFERENCES.md lists each shim and what could therefore not be compared.

pub mod bitcoin;
pub mod concrete;
pub mod iter;
pub mod keys;
pub mod miniscript;
pub mod script;
pub mod threshold;

use crate::miniscript::context::ScriptContextError;
use crate::miniscript::{decode, lex, types};

/// The errors of the crate that the files built here can give.
#[derive(Debug)]
pub enum Error {
    NonTopLevel(String),
    MultipathDescLenMismatch,
    NonStandardBareScript,
    ImpossibleSatisfaction,
    MaxRecursiveDepthExceeded,
    TypeCheck(types::ErrorKind),
    ContextError(ScriptContextError),
    Script(lex::Error),
    Unexpected(String),
    UnexpectedStart,
    Trailing(String),
    PubKeyCtxError(decode::KeyError, &'static str),
    AbsoluteLockTime(keys::LockError),
    RelativeLockTime(keys::LockError),
    Threshold(()),
}

impl From<types::Error> for Error {
    fn from(e: types::Error) -> Error {
        Error::TypeCheck(e.error)
    }
}

impl From<ScriptContextError> for Error {
    fn from(e: ScriptContextError) -> Error {
        Error::ContextError(e)
    }
}

impl From<lex::Error> for Error {
    fn from(e: lex::Error) -> Error {
        Error::Script(e)
    }
}

/// The height of a tree that `from_ast` still takes.
pub const MAX_RECURSION_DEPTH: u32 = 402;

/// The bytes of a number in a script, its push included.
pub const fn script_num_size(n: usize) -> usize {
    match n {
        n if n <= 0x10 => 1,
        n if n < 0x80 => 2,
        n if n < 0x8000 => 3,
        n if n < 0x80_0000 => 4,
        n if n < 0x8000_0000 => 5,
        _ => 6,
    }
}
