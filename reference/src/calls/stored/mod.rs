//! The stored stream of calls, one idea each. What must come of them stands in
//! `crates/calls/stdout`; lines worked out by hand in `tests/listing.rs` and
//! `tests/unlist.rs`, saved machines in `tests/snapshot.rs`.

mod files;
mod lines;
pub mod machines;
pub mod restores;
mod saves;

use super::Call;

/// A call and what it is about.
pub type Named = (String, Call);

/// All of them, in their order.
pub fn all() -> Vec<Named> {
    [files::calls(), lines::calls(), saves::calls(), restores::calls()].concat()
}

/// Operands at the edges.
const IMMS: [i32; 5] = [0, 1, -1, 0x7f_ffff, -0x80_0000];
