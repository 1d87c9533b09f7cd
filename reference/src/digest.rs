//! The digest of memory and console in the expected output: two polynomials
//! over all bytes, taken as little-endian words, modulo primes above 2^32.
//! Together they have more than 2^64 values, and no step exceeds 2^63, so it
//! can be computed where overflow is an error. See FORMAT.md.

pub const MODULI: [u64; 2] = [4_294_967_311, 4_294_967_357];
pub const FACTORS: [u64; 2] = [1_000_003, 998_244_353];

/// Starts from the length; a short last word is filled up with zero bytes.
pub fn digest(bytes: &[u8]) -> [u64; 2] {
    let mut state = [bytes.len() as u64; 2];
    for chunk in bytes.chunks(4) {
        let word = chunk.iter().rev().fold(0, |word, byte| word * 256 + u64::from(*byte));
        for half in 0..2 {
            state[half] = (state[half] * FACTORS[half] + word) % MODULI[half];
        }
    }
    state
}

#[cfg(test)]
mod tests {
    use super::*;

    fn is_prime(number: u64) -> bool {
        (2..).take_while(|divisor| divisor * divisor <= number).all(|divisor| number % divisor != 0)
    }

    #[test]
    fn moduli_are_primes_and_products_stay_below_two_to_63() {
        for half in 0..2 {
            assert!(is_prime(MODULI[half]));
            let largest = u128::from(MODULI[half] - 1) * u128::from(FACTORS[half]);
            assert!(largest + (1 << 32) < 1 << 63);
        }
        assert!(u128::from(MODULI[0]) * u128::from(MODULI[1]) > 1 << 64);
    }

    #[test]
    fn sees_each_byte_the_order_and_the_length() {
        let base = vec![7; 64];
        for at in 0..64 {
            let mut changed = base.clone();
            changed[at] ^= 0x80;
            assert_ne!(digest(&base), digest(&changed));
        }
        assert_ne!(digest(&[1, 0, 0, 0, 2, 0, 0, 0]), digest(&[2, 0, 0, 0, 1, 0, 0, 0]));
        assert_ne!(digest(&[0; 4]), digest(&[0; 8]));
        assert_ne!(digest(&[1]), digest(&[1, 0]));
    }

    /// The examples of FORMAT.md.
    #[test]
    fn documented_values() {
        assert_eq!(digest(&[]), [0, 0]);
        assert_eq!(digest(&[1, 2, 3, 4, 5]), [442_237_320, 3_754_041_539]);
        assert_eq!(digest(&[0; 4096]), [2_341_782_240, 3_243_274_468]);
    }
}
