//! An independent second program for the rules of the v9 machine: clarity
//! over speed, no crates, nothing shared with the product.

#![forbid(unsafe_code)]

pub mod access;
pub mod broken;
pub mod buffer;
pub mod calls;
pub mod case;
pub mod causes;
pub mod clock;
pub mod compare;
pub mod coverage;
pub mod digest;
pub mod directed;
pub mod double;
pub mod doubles;
pub mod exec;
pub mod expect;
pub mod families;
pub mod line;
pub mod line_files;
pub mod listing;
pub mod load;
pub mod machine;
pub mod mistake;
pub mod mutants;
pub mod opcodes;
pub mod random;
pub mod refusals;
pub mod run;
pub mod snapshot;
pub mod step;
pub mod stored;
pub mod stream;
pub mod table_reader;
pub mod translate;
pub mod trap;
pub mod types;
pub mod walks;
pub mod words;
pub mod worked;
