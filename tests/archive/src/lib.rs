//! The proved archive through its C interface, and the listing program.
//!
//! The calls are made by a small C program that links the archive and is asked over pipes. The
//! archive, the program and the kit that builds them are for x86-64 alone.

mod caller;
mod program;
mod shares;

pub use caller::Caller;
pub use program::{Program, asked_for, compiled_by_cc, repository};
pub use shares::in_shares;
