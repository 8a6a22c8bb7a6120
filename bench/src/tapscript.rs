//! u for d:X in Tapscript, the one rule of the Rust that is changed: document 02, R-5.
//!
//! In build.rs's copy of types/correctness.rs `unit()` stands in the place of the rule's `false`. The rule is not told a context, so
//! whoever has the Rust type fragments says which one they are of.

use std::cell::Cell;

use crate::miniscript::ScriptContext;
use crate::SigType;

thread_local! {
    /// Whether fragments of Tapscript are being typed.
    static TAPSCRIPT: Cell<bool> = const { Cell::new(false) };
    /// Whether the Rust is to answer as it is, with no u.
    static UNCHANGED: Cell<bool> = const { Cell::new(false) };
}

/// Whether d:X has u.
pub fn unit() -> bool {
    TAPSCRIPT.get() && !UNCHANGED.get()
}

/// Runs what types fragments of a context. What it runs must catch its own panics.
pub fn typing<Ctx: ScriptContext, T>(run: impl FnOnce() -> T) -> T {
    let before = TAPSCRIPT.replace(matches!(Ctx::sig_type(), SigType::Schnorr));
    let result = run();
    TAPSCRIPT.set(before);
    result
}

/// Runs something with the Rust as it is.
pub fn unchanged<T>(run: impl FnOnce() -> T) -> T {
    UNCHANGED.set(true);
    let result = run();
    UNCHANGED.set(false);
    result
}
