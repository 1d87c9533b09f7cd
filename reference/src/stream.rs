//! What streams of cases (FORMAT.md) and of calls (CALLS.md) share: items that
//! begin with their length, and the ways in which a stream can be broken.

use std::fmt;

/// How a stream is broken.
#[derive(Clone, Copy, Debug, PartialEq, Eq)]
pub enum Broken {
    /// It ends within an item.
    Cut,
    /// An item is beyond the format's bounds.
    Bounds,
    /// An item's parts don't fit its length, or contradict each other.
    Malformed,
}

impl fmt::Display for Broken {
    fn fmt(&self, f: &mut fmt::Formatter) -> fmt::Result {
        f.write_str(match self {
            Broken::Cut => "cut",
            Broken::Bounds => "bounds",
            Broken::Malformed => "malformed",
        })
    }
}

/// The items of a stream. Nothing comes after a broken one.
pub struct Stream<'a, T> {
    pub bytes: &'a [u8],
    /// The length of the longest item.
    pub longest: usize,
    /// Reads an item from its bytes after the length.
    pub decode: fn(&[u8]) -> Result<T, Broken>,
}

impl<T> Iterator for Stream<'_, T> {
    type Item = Result<T, Broken>;

    fn next(&mut self) -> Option<Self::Item> {
        let item = match split(self.bytes, self.longest) {
            Ok(None) => return None,
            Ok(Some((bytes, rest))) => {
                self.bytes = rest;
                (self.decode)(bytes)
            }
            Err(broken) => Err(broken),
        };
        if item.is_err() {
            self.bytes = &[];
        }
        Some(item)
    }
}

/// An item's bytes after its length, and what follows them.
type Parts<'a> = (&'a [u8], &'a [u8]);

/// `None` at the stream's end.
fn split(bytes: &[u8], longest: usize) -> Result<Option<Parts<'_>>, Broken> {
    if bytes.is_empty() {
        return Ok(None);
    }
    let (prefix, rest) = bytes.split_at_checked(4).ok_or(Broken::Cut)?;
    let length = Cursor(prefix).size()?;
    if length == 0 {
        return Ok(None);
    }
    if length > longest {
        return Err(Broken::Bounds);
    }
    if length > bytes.len() {
        return Err(Broken::Cut);
    }
    let after_prefix = length.checked_sub(4).ok_or(Broken::Malformed)?;
    Ok(Some(rest.split_at(after_prefix)))
}

pub fn well_formed(holds: bool) -> Result<(), Broken> {
    if holds {
        Ok(())
    } else {
        Err(Broken::Malformed)
    }
}

pub fn within(holds: bool) -> Result<(), Broken> {
    if holds {
        Ok(())
    } else {
        Err(Broken::Bounds)
    }
}

/// The bytes of an item that are not yet read.
pub struct Cursor<'a>(pub &'a [u8]);

impl<'a> Cursor<'a> {
    pub fn take(&mut self, length: usize) -> Result<&'a [u8], Broken> {
        let (taken, rest) = self.0.split_at_checked(length).ok_or(Broken::Malformed)?;
        self.0 = rest;
        Ok(taken)
    }

    pub fn number(&mut self, size: usize) -> Result<u64, Broken> {
        let bytes = self.take(size)?;
        Ok(bytes.iter().rev().fold(0, |number, byte| (number << 8) | u64::from(*byte)))
    }

    pub fn get32(&mut self) -> Result<u32, Broken> {
        Ok(self.number(4)? as u32)
    }

    pub fn get64(&mut self) -> Result<u64, Broken> {
        self.number(8)
    }

    pub fn size(&mut self) -> Result<usize, Broken> {
        Ok(self.get32()? as usize)
    }

    pub fn sizes<const N: usize>(&mut self) -> Result<[usize; N], Broken> {
        let mut sizes = [0; N];
        for size in &mut sizes {
            *size = self.size()?;
        }
        Ok(sizes)
    }

    /// Nothing is left.
    pub fn end(&self) -> Result<(), Broken> {
        well_formed(self.0.is_empty())
    }
}
