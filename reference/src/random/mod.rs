//! Random cases. Everything follows from a seed and a case's number.

pub mod calls;
pub mod doubles;
pub mod executables;
pub mod files;
mod interrupts;
pub mod keys;
pub mod machines;
pub mod program;
pub mod record;
pub mod rng;
pub mod scene;
pub mod space;
pub mod trim;
pub mod values;
