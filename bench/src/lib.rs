//! Side-by-side measurements of the emulator and a plain Rust interpreter of the same rules.

pub mod case;
pub mod measure;
pub mod opcode;
pub mod plain;
pub mod program;
pub mod workload;
