//! `bench spends`: logs of recorded spends through an interpreter of the bench's own and through the port's claspwillow_replay.
//!
//! The interpreter is written from document 01, document 02 and BIP 342 and knows nothing of the port's code.

#[cfg(port)]
mod cases;
mod known;
mod log;
mod machine;
#[cfg(port)]
mod runs;
#[cfg(port)]
mod ways;

pub use known::example_bytes;
#[cfg(port)]
pub use runs::{run, speed};
