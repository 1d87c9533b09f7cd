//! Writing and reading calls in the format of CALLS.md.

use super::machines::{put_restore, put_save};
use super::{Call, KIND_LINES, KIND_READ, KIND_RESTORE, KIND_SAVE, MAX_CALL, MAX_LINES};
use crate::case::parts::put32;
use crate::stream::{within, Broken, Cursor, Stream};

/// The bytes of a call. Panics on one beyond the format's bounds.
pub fn encode(call: &Call) -> Vec<u8> {
    let mut bytes = vec![0; 4];
    put32(&mut bytes, call.kind());
    match call {
        Call::Lines { first, count, file } => {
            assert!(*count as usize <= MAX_LINES, "{count} lines");
            bytes.extend(first.to_le_bytes());
            put32(&mut bytes, *count);
            put_bytes(&mut bytes, file);
        }
        Call::Read(line) => put_bytes(&mut bytes, line),
        Call::Save(save) => put_save(&mut bytes, save),
        Call::Restore(restore) => put_restore(&mut bytes, restore),
    }
    assert!(bytes.len() <= MAX_CALL, "a call of {} bytes", bytes.len());
    let length = bytes.len() as u32;
    bytes[..4].copy_from_slice(&length.to_le_bytes());
    bytes
}

fn put_bytes(bytes: &mut Vec<u8>, list: &[u8]) {
    put32(bytes, list.len() as u32);
    bytes.extend_from_slice(list);
}

/// The calls of a stream.
pub fn calls(bytes: &[u8]) -> Stream<'_, Call> {
    Stream { bytes, longest: MAX_CALL, decode }
}

/// All of them.
pub fn read_all(bytes: &[u8]) -> Result<Vec<Call>, Broken> {
    calls(bytes).collect()
}

/// A call from its bytes after the length.
fn decode(bytes: &[u8]) -> Result<Call, Broken> {
    let mut cursor = Cursor(bytes);
    let call = match cursor.get32()? {
        KIND_LINES => lines(&mut cursor)?,
        KIND_READ => {
            let length = cursor.size()?;
            Call::read(cursor.take(length)?)
        }
        KIND_SAVE => cursor.save()?.into(),
        KIND_RESTORE => cursor.restore()?.into(),
        _ => return Err(Broken::Malformed),
    };
    cursor.end()?;
    Ok(call)
}

/// All fields must be there before a bound is judged.
fn lines(cursor: &mut Cursor) -> Result<Call, Broken> {
    let first = cursor.get64()?;
    let [count, length] = cursor.sizes()?;
    within(count <= MAX_LINES)?;
    Ok(Call::Lines { first, count: count as u32, file: cursor.take(length)?.to_vec() })
}
