//! What must come of signed division, worked out by hand: the quotient is cut
//! toward zero and the remainder takes the sign of the dividend.

mod common;
use common::after;
use reference::directed::division::{SIGNED, SIGNED_DIVISION};

const MAX: i32 = i32::MAX;
const MIN: i32 = i32::MIN;

/// By dividend; the divisors are 1, 2, 7, 2^31 - 1, -2^31, -7 and -1.
#[rustfmt::skip]
const QUOTIENTS: [(i32, [i32; 7]); 8] = [
    (0, [0, 0, 0, 0, 0, 0, 0]),
    (1, [1, 0, 0, 0, 0, 0, -1]),
    (2, [2, 1, 0, 0, 0, 0, -2]),
    (7, [7, 3, 1, 0, 0, -1, -7]),
    (MAX, [MAX, 1_073_741_823, 306_783_378, 1, 0, -306_783_378, -MAX]),
    (MIN, [MIN, -1_073_741_824, -306_783_378, -1, 1, 306_783_378, MIN]),
    (-7, [-7, -3, -1, 0, 0, 1, 7]),
    (-1, [-1, 0, 0, 0, 0, 0, 1]),
];
#[rustfmt::skip]
const REMAINDERS: [(i32, [i32; 7]); 8] = [
    (0, [0, 0, 0, 0, 0, 0, 0]),
    (1, [0, 1, 1, 1, 1, 1, 0]),
    (2, [0, 0, 2, 2, 2, 2, 0]),
    (7, [0, 1, 0, 7, 7, 0, 0]),
    (MAX, [0, 1, 1, 0, MAX, 1, 0]),
    (MIN, [0, 0, -2, -1, 0, -2, 0]),
    (-7, [0, -1, 0, -7, -7, 0, 0]),
    (-1, [0, -1, -1, -1, -1, -1, 0]),
];

#[test]
fn every_two_signed_words() {
    assert_eq!(SIGNED[1..], [1, 2, 7, MAX, MIN, -7, -1].map(|divisor| divisor as u32));
    for (name, results) in SIGNED_DIVISION.iter().zip([QUOTIENTS, REMAINDERS]) {
        assert_eq!(SIGNED, results.map(|row| row.0 as u32));
        let expected = results.map(|row| row.1).concat();
        let after = after(&format!("{name} of every two signed words"));
        let rows: Vec<i32> = after.rows(expected.len()).iter().map(|row| *row as i32).collect();
        assert_eq!(rows, expected, "{name}");
    }
}

#[test]
fn every_dividend_by_zero_faults() {
    for name in SIGNED_DIVISION {
        for a in SIGNED {
            let after = after(&format!("{name} of {a:#x} by 0"));
            after.delivered(0xf00, 6, 0x104);
            assert_eq!((after.regs().a, after.regs().vadr), (a, 0), "{name} of {a:#x}");
        }
    }
}
