//! The low eight bits of an instruction word: the source's table, the sets
//! derived from it, and the decoder the machine uses.

pub mod decode;
pub mod floats;
pub mod kinds;
pub mod sets;
pub mod table;
