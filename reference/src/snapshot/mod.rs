//! A machine in a file: saving it and reading it back. Document 02, item 5.

pub mod families;
pub mod layout;
pub mod mistake;
pub mod read;
pub mod save;

/// The lengths of what a save or a read is lent, and of the file.
#[derive(Clone, Copy, Debug)]
pub struct Lent {
    pub memory: usize,
    pub console: usize,
    pub file: usize,
}
