//! What comes of the directed cases on doubles. Document 02, item 7.

mod common;
use common::{after, after_runs};
use reference::directed::double_moves::{DATA, SIGNALLING};
use reference::directed::double_values::{FAULTED, INTEGERS, NUMBERS, ROW, SINGLES};
use reference::directed::doubles::{Table, SPECIAL, TABLE};
use reference::double::{self, NAN};
use reference::opcodes::floats::FloatArith::{Addf, Divf, Mulf, Subf};
use reference::opcodes::floats::FloatCond::{Eq, Ge, Lt, Ne, NotZero, Zero};
use reference::opcodes::floats::Unary::{Ceil, Fabs, Flor};
use reference::types::{Cause, Stop};
use reference::words::{get, get_double};

const MINUS_INFINITY: u64 = 0xfff0_0000_0000_0000;
const MINUS_ZERO: u64 = 0x8000_0000_0000_0000;
const ONE: u64 = 0x3ff0_0000_0000_0000;

/// The results of a loop: row `nth` of so many bytes.
fn row(name: &str, table: &Table, width: u32) -> impl Fn(usize) -> Vec<u8> {
    let memory = after(name).machine.memory;
    let start = table.results() as usize;
    move |nth| memory[start + width as usize * nth..start + width as usize * (nth + 1)].to_vec()
}

#[test]
fn loops_go_over_every_two() {
    let rows = row("doubles: arithmetic on every two", &Table::doubles(&SPECIAL), 32);
    let compared = row("doubles: comparisons of every two", &Table::doubles(&SPECIAL), 10);
    for (i, f) in SPECIAL.iter().enumerate() {
        for (j, g) in SPECIAL.iter().enumerate() {
            let found = rows(SPECIAL.len() * i + j);
            for (nth, arith) in (0..).zip([Addf, Subf, Mulf, Divf]) {
                assert_eq!(get_double(&found, 8 * nth), double::arithmetic(arith, *f, *g));
            }
            let list = [Eq, Ne, Lt, Ge, Zero, NotZero, Eq, Ne, Lt, Ge];
            let holds = list.map(|cond| u8::from(double::holds(cond, *f, *g)));
            assert_eq!(compared(SPECIAL.len() * i + j), holds, "{f:#x} {g:#x}");
        }
    }
}

#[test]
fn loops_go_over_each() {
    let lists = [
        ("doubles: each special value", SPECIAL.to_vec()),
        ("doubles: numbers at edges", NUMBERS.map(f64::to_bits).to_vec()),
    ];
    for (name, values) in lists {
        let rows = row(name, &Table::doubles(&values), ROW);
        for (nth, x) in values.iter().enumerate() {
            let found = rows(nth);
            for (at, unary) in (0..).zip([Fabs, Flor, Ceil]) {
                assert_eq!(get_double(&found, 8 * at), double::unary(unary, *x), "{x:#x}");
            }
            assert_eq!(get(&found, 24, 4), double::narrowed(*x));
            let faulted = FAULTED as u32;
            assert_eq!(get(&found, 28, 4), double::cut_signed(*x).unwrap_or(faulted), "{x:#x}");
            assert_eq!(get(&found, 32, 4), double::cut_unsigned(*x).unwrap_or(faulted), "{x:#x}");
        }
    }
    let widened = row("doubles: singles widened", &Table::words(&SINGLES), 16);
    for (nth, single) in SINGLES.iter().enumerate() {
        let both = [0, 8].map(|at| get_double(&widened(nth), at));
        assert_eq!(both, [double::widened(*single); 2]);
    }
    let converted = row("doubles: integers converted", &Table::words(&INTEGERS), 16);
    for (nth, word) in INTEGERS.iter().enumerate() {
        let both = [0, 8].map(|at| get_double(&converted(nth), at));
        assert_eq!(both, [f64::from(*word as i32).to_bits(), f64::from(*word).to_bits()]);
    }
    assert_eq!(after("doubles: singles widened").machine.regs.stop, Stop::Halted);
    assert_eq!(TABLE, 0x1000);
}

/// Three stores at DATA; five pushes; the lowest two popped.
#[test]
fn a_nan_is_moved_with_its_bits() {
    let after = after("a NaN moved");
    let memory = &after.machine.memory;
    assert_eq!([0, 8, 16].map(|at| get_double(memory, DATA + at)), [SIGNALLING; 3]);
    let pushed = [0xef8, 0xef0, 0xee8, 0xee0, 0xed8].map(|at| get_double(memory, at));
    assert_eq!(pushed, [SIGNALLING; 5]);
    assert_eq!((after.regs().f, after.regs().g), (SIGNALLING, SIGNALLING));
    assert_eq!(after.regs().sp, 0xee8);
}

/// Eight bytes at addresses from 0x400 to 0x407, and at 0x500 + 17 * n.
#[test]
fn three_address_bits_drop() {
    let after = after("doubles at each address modulo 8");
    let first = get_double(&after.machine.memory, DATA);
    assert_eq!(first, 0x4847_4645_4443_4241);
    for nth in 0..8 {
        let at = DATA + 0x100 + 16 * nth;
        assert_eq!(get_double(&after.machine.memory, at), first, "{nth}");
        assert_eq!(get_double(&after.machine.memory, at + 8), 0, "{nth}");
    }
}

/// vadr is the address asked, at each address modulo 8.
#[test]
fn vadr_keeps_its_low_bits() {
    let cases = [
        ("doubles read from M on", 0x1000, Cause::AddressBeyond),
        ("doubles written from M on", 0x1000, Cause::AddressBeyond),
        ("doubles read in an absent page", 0x7ff8, Cause::TableAbsent),
        ("doubles written without W", 0x3ff8, Cause::NoWriteRight),
    ];
    for (name, first, cause) in cases {
        for nth in 0..8 {
            let after = after_runs(name, nth + 1);
            assert_eq!(
                (after.regs().vadr, after.regs().cause),
                (first + nth as u32, cause),
                "{name}"
            );
            assert_eq!(after.regs().f, after.given.record.regs.f);
        }
    }
    let whole = after("doubles read up to M");
    assert_eq!((whole.regs().vadr, whole.regs().cause), (0, Cause::None));
    assert_eq!(whole.regs().f, 0x605f_5e5d_5c5b_5a59);
}

#[test]
fn pushes_and_pops() {
    let pushed = after_runs("pushes and pops of doubles", 1);
    assert_eq!(pushed.regs().sp, 0xef0);
    assert_eq!(get_double(&pushed.machine.memory, 0xef8), SIGNALLING);
    assert_eq!(get_double(&pushed.machine.memory, 0xef0), 0x0102_0304_0506_0708);
    assert_eq!(pushed.word(0xee8), 0xeeee_eeee);
    let popped = after("pushes and pops of doubles");
    let regs = popped.regs();
    assert_eq!((regs.f, regs.g, regs.sp), (0x0102_0304_0506_0708, SIGNALLING, 0xf00));
    let refused = after("a double pushed from sp 0");
    assert_eq!((refused.regs().sp, refused.regs().vadr), (0, 0xffff_fff8));
    assert_eq!(refused.regs().stop, Stop::Masked);
    let beyond = after("a double popped at M");
    assert_eq!(
        (beyond.regs().sp, beyond.regs().vadr, beyond.regs().g),
        (0x1000, 0x1000, 0x0102_0304_0506_0708)
    );
}

/// Code 6, from user mode 22; the pc stored is the next instruction's.
#[test]
fn farith_changes_no_register() {
    after("CDI of 2^31").delivered(0xf00, 6, 0x104);
    after("CDI of a NaN").delivered(0xf00, 6, 0x104);
    after("CDU of -1, user").delivered(0xe00, 22, 0x104);
    for name in ["CDI of 2^31", "CDI of a NaN", "CDU of -1, user", "CDU of 2^32, no frame"] {
        let after = after(name);
        let given = &after.given.record.regs;
        let regs = after.regs();
        assert_eq!((regs.a, regs.f, regs.g), (0x77, given.f, given.g), "{name}");
    }
    for (name, stop) in [
        ("CDI of 2^31, masked", Stop::Masked),
        ("CDU of a NaN, masked", Stop::Masked),
        ("CDU of an infinity, masked", Stop::Masked),
        ("CDU of 2^32, no frame", Stop::NoFrame),
    ] {
        let after = after(name);
        assert_eq!((after.regs().stop, after.regs().pc, after.regs().a), (stop, 0x100, 0x77));
    }
    assert_eq!(after("DIVF by zero").regs().f, MINUS_INFINITY);
    assert_eq!(
        (after("DIVF of zeros, masked").regs().f, after("DIVF of zeros, masked").regs().a),
        (NAN, 0)
    );
}

/// In the old mode all 46 are illegal, and f and g stay.
#[test]
fn the_old_mode_keeps_f_and_g() {
    for name in ["f and g in the old mode", "floating opcodes in the old mode"] {
        let after = after(name);
        let given = &after.given.record.regs;
        assert_eq!((after.regs().f, after.regs().g, after.regs().mode), (given.f, given.g, false));
    }
    let illegal = after("floating opcodes in the old mode");
    assert_eq!((illegal.regs().pc, illegal.regs().count), (0x100 + 4 * 46, 92));
    assert_eq!(illegal.machine.coverage.traps[4][0], 46);
}

/// A handler that saves f and g: what the loop computes is what it is without a
/// timer, step by step of its own.
#[test]
fn interrupts_keep_f_and_g() {
    let (mut f, mut g) = (0.1f64, 1.5f64);
    let quiet = after("doubles under a timer");
    // Every fourth step is an interrupt's and every fifth of the rest RTI's.
    let interrupts = quiet.machine.coverage.traps[1][0];
    assert!(interrupts > 5);
    let own = 40 - interrupts - quiet.machine.coverage.ended(0x98, false);
    for nth in 0..own {
        match nth % 6 {
            0 => f += g,
            1 => g = f,
            2 => f *= g,
            3 => f = 3.0,
            4 => f -= g,
            _ => {}
        }
    }
    assert_eq!((quiet.regs().f, quiet.regs().g), (f.to_bits(), g.to_bits()));
}

#[test]
fn immediates_and_branches() {
    let regs = after("LIF and LBIF").machine.regs;
    // 2^23 - 1 and -2^23.
    assert_eq!((regs.f, regs.g), (0x415f_ffff_c000_0000, 0xc160_0000_0000_0000));
    let regs = after("LIF and LBIF of -1 and 0").machine.regs;
    assert_eq!((regs.f, regs.g), (ONE | MINUS_ZERO, 0));
    let regs = after("FABS of f alone").machine.regs;
    assert_eq!((regs.f, regs.g), (0x4000_0000_0000_0000, 0xc01e_0000_0000_0000));
    assert_eq!(after("CEIL of -0.5").machine.regs.f, MINUS_ZERO);
    assert_eq!(after("0.1 + 0.2").machine.regs.f, 0x3fd3_3333_3333_3334);
    // 0x104 + 3, then 0x108 + 6.
    assert_eq!(after("branches to odd targets").machine.regs.pc, 0x10c);
    assert_eq!(after("-0 is 0").machine.regs.a, 1);
}
