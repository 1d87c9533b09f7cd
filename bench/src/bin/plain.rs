//! The plain interpreter: cases on standard input, their lines on standard output.

use std::io::{self, Read};

fn main() -> io::Result<()> {
    let mut bytes = Vec::new();
    io::stdin().read_to_end(&mut bytes)?;
    print!("{}", bench::case::result_lines(&bytes));
    Ok(())
}
