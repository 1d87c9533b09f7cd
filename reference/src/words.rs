//! Little-endian numbers in byte slices, and the extension of narrow values.

/// A little-endian number of `size` bytes (1, 2 or 4) at `at`.
pub fn get(bytes: &[u8], at: u32, size: u32) -> u32 {
    let at = at as usize;
    let field = &bytes[at..at + size as usize];
    field.iter().rev().fold(0, |number, byte| (number << 8) | u32::from(*byte))
}

/// Stores the low `size` bytes of `value` at `at`, low byte first.
pub fn put(bytes: &mut [u8], at: u32, size: u32, value: u32) {
    put_double(bytes, at, size, value.into());
}

/// A little-endian number of eight bytes at `at`.
pub fn get_double(bytes: &[u8], at: u32) -> u64 {
    u64::from(get(bytes, at, 4)) | u64::from(get(bytes, at + 4, 4)) << 32
}

/// Stores the low `size` bytes of `value`, up to eight, at `at`, low byte first.
pub fn put_double(bytes: &mut [u8], at: u32, size: u32, value: u64) {
    let at = at as usize;
    bytes[at..at + size as usize].copy_from_slice(&value.to_le_bytes()[..size as usize]);
}

/// The low byte of a number, its sign extended over 32 bits.
pub fn extend_byte(value: u32) -> u32 {
    value as u8 as i8 as i32 as u32
}

/// The low half of a number, its sign extended over 32 bits.
pub fn extend_half(value: u32) -> u32 {
    value as u16 as i16 as i32 as u32
}

/// The upper 24 bits of an instruction word as a signed number ("imm").
pub fn immediate(word: u32) -> u32 {
    ((word as i32) >> 8) as u32
}

/// The upper 24 bits of an instruction word as an unsigned field.
pub fn field(word: u32) -> u32 {
    word >> 8
}

/// An instruction word from its opcode byte and the low 24 bits of `imm`.
pub fn instruction(code: u8, imm: u32) -> u32 {
    (imm << 8) | u32::from(code)
}

#[cfg(test)]
mod tests {
    use super::*;

    #[test]
    fn numbers_are_little_endian() {
        let mut bytes = [0; 8];
        put(&mut bytes, 2, 4, 0x1122_3344);
        assert_eq!(bytes, [0, 0, 0x44, 0x33, 0x22, 0x11, 0, 0]);
        assert_eq!(get(&bytes, 2, 4), 0x1122_3344);
        assert_eq!(get(&bytes, 3, 2), 0x2233);
        assert_eq!(get_double(&bytes, 0), 0x1122_3344_0000);
        put_double(&mut bytes, 0, 8, 0x0102_0304_0506_0708);
        assert_eq!(bytes, [8, 7, 6, 5, 4, 3, 2, 1]);
    }

    #[test]
    fn signs_are_extended() {
        assert_eq!(extend_byte(0x180), 0xffff_ff80);
        assert_eq!(extend_half(0x1_7fff), 0x7fff);
        assert_eq!(immediate(0xffff_e805), (-24i32) as u32);
        assert_eq!(field(0xffff_e805), 0x00ff_ffe8);
        assert_eq!(instruction(5, (-24i32) as u32), 0xffff_e805);
    }
}
