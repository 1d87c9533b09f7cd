//! What must come of the cases that every opcode has.

mod common;
use common::{after, runs, After};
use reference::directed::every::{DATA, FAR, FLOATS};
use reference::opcodes::decode::decode_in;
use reference::opcodes::decode::{Arith, Base, Op, Reg, Source, Width};
use reference::opcodes::floats::{Float, FloatReg, Precision};
use reference::opcodes::kinds::{base_of, can_fault_in_kernel, reads, takes_imm, writes};
use reference::opcodes::sets::{is_floating, is_privileged, name_of};
use reference::opcodes::sets::{ILLEGAL, ILLEGAL_WITH_DOUBLES, LEGAL_WITH_DOUBLES, PRIVILEGED};
use reference::types::{Cause, Registers, Stop};

#[test]
fn every_privileged_opcode_traps_in_user_mode() {
    for code in PRIVILEGED.iter() {
        let after = after(&format!("user {}", name_of(*code)));
        after.delivered(0xe00, 19, 0x104);
        assert_eq!((after.regs().vadr, after.regs().cause), (6, Cause::TableAbsent));
    }
}

/// The handler adds up the codes, 4 or 20, and returns to the next byte.
#[test]
fn every_illegal_byte_traps() {
    let both = [("", &ILLEGAL), (", doubles", &ILLEGAL_WITH_DOUBLES)];
    for (mode, code) in [("kernel", 4), ("user", 20)] {
        for (table, illegal) in both {
            for (nth, codes) in illegal.chunks(60).enumerate() {
                let after = after(&format!("illegal {nth}, {mode}{table}"));
                let count = codes.len() as u32;
                assert_eq!((after.regs().pc, after.regs().a), (0x100 + 4 * count, code * count));
            }
        }
    }
}

/// vadr and cause are an older fault's, and stay.
#[test]
fn every_legal_opcode_completes() {
    for code in LEGAL_WITH_DOUBLES.iter() {
        let name = name_of(*code);
        let after = after(&format!("opcode {name}"));
        assert_eq!(after.regs().mode, is_floating(*code));
        let stop = match name {
            "HALT" => Stop::Halted,
            "TRAP" => Stop::Masked,
            _ => Stop::Running,
        };
        assert_eq!((after.regs().stop, after.regs().count), (stop, 1), "{name}");
        assert_eq!((after.regs().vadr, after.regs().cause), (6, Cause::TableAbsent), "{name}");
    }
}

/// Loads and stores of the single cases, by the bytes of memory alone.
#[test]
fn every_load_and_store() {
    for code in LEGAL_WITH_DOUBLES.iter() {
        let Some(op) = decode_in(*code, false) else { continue };
        let (Op::Load(_, base, width) | Op::Store(base, width)) = op else { continue };
        let name = format!("opcode {}", name_of(*code));
        let given = runs(&name);
        let regs = &given.record.regs;
        let start = match base {
            Base::Sp => regs.sp,
            Base::Pc => 0x104,
            Base::RegA => regs.a,
            Base::RegB => regs.b,
        } as usize;
        let at = start + 12;
        let after = after(&name);
        let memory = if matches!(op, Op::Load(..)) { &given.memory } else { &after.machine.memory };
        let half = u16::from_le_bytes([memory[at & !1], memory[at | 1]]);
        let word = u32::from_le_bytes(memory[at & !3..(at & !3) + 4].try_into().unwrap());
        let value = match width {
            Width::Word => word,
            Width::SignedHalf => half as i16 as u32,
            Width::Half => u32::from(half),
            Width::SignedByte => memory[at] as i8 as u32,
            Width::Byte => u32::from(memory[at]),
        };
        let mask = match width {
            Width::Half => 0xffff,
            Width::Byte => 0xff,
            _ => u32::MAX,
        };
        match op {
            Op::Load(Reg::A, ..) => assert_eq!(after.regs().a, value, "{name}"),
            Op::Load(Reg::B, ..) => assert_eq!(after.regs().b, value, "{name}"),
            Op::Load(Reg::C, ..) => assert_eq!(after.regs().c, value, "{name}"),
            _ => assert_eq!(value, regs.a & mask, "{name}"),
        }
    }
}

/// Floating loads and stores of the single cases, by the bytes of memory alone.
#[test]
fn every_floating_load_and_store() {
    for code in LEGAL_WITH_DOUBLES.iter().filter(|code| is_floating(**code)) {
        let Some(Op::Float(float)) = decode_in(*code, true) else { continue };
        let (Float::Load(_, base, precision) | Float::Store(base, precision)) = float else {
            continue;
        };
        let name = format!("opcode {}", name_of(*code));
        let given = runs(&name);
        let start = match base {
            Base::Sp => given.record.regs.sp,
            Base::Pc => 0x104,
            Base::RegA => given.record.regs.a,
            Base::RegB => given.record.regs.b,
        };
        let at = start as usize + 12;
        let after = after(&name);
        let load = matches!(float, Float::Load(..));
        let memory = if load { &given.memory } else { &after.machine.memory };
        let double = u64::from_le_bytes(memory[at & !7..(at & !7) + 8].try_into().unwrap());
        let single = f32::from_le_bytes(memory[at & !3..(at & !3) + 4].try_into().unwrap());
        let found =
            if precision == Precision::Double { double } else { f64::from(single).to_bits() };
        let rounded = f64::from(FLOATS[0] as f32).to_bits();
        let stored = if precision == Precision::Double { FLOATS[0].to_bits() } else { rounded };
        match float {
            Float::Load(FloatReg::F, ..) => assert_eq!(after.regs().f, found, "{name}"),
            Float::Load(FloatReg::G, ..) => assert_eq!(after.regs().g, found, "{name}"),
            _ => assert_eq!(found, stored, "{name}"),
        }
        let other = matches!(float, Float::Load(FloatReg::G, ..));
        let kept = if other {
            after.regs().f == FLOATS[0].to_bits()
        } else {
            after.regs().g == FLOATS[1].to_bits()
        };
        assert!(kept, "{name}");
    }
}

#[test]
fn every_opcode_that_can_fault_does() {
    let faulting: Vec<u8> =
        (0..=255).filter(|code| decode_in(*code, true).is_some_and(can_fault_in_kernel)).collect();
    for (nth, codes) in faulting.chunks(48).enumerate() {
        let after = after(&format!("faults {nth}"));
        assert_eq!(after.regs().pc, 0x100 + 4 * codes.len() as u32);
        for code in codes {
            assert_eq!(after.machine.coverage.ended(*code, true), 1);
        }
    }
}

/// Legal opcodes of which something holds, with their names.
fn legal_with(holds: impl Fn(Op) -> bool) -> Vec<(&'static str, Op)> {
    let named = |code: &u8| decode_in(*code, true).map(|op| (name_of(*code), op));
    LEGAL_WITH_DOUBLES.iter().filter_map(named).filter(|(_, op)| holds(*op)).collect()
}

/// A far operand is signed and has all its bits: what is not an access.
#[test]
fn far_operands_of_registers_and_targets() {
    let far = FAR as u32;
    let target = 0x104u32.wrapping_add(far) & !3;
    for (name, op) in legal_with(takes_imm) {
        let after = after(&format!("far {name}"));
        let given = after.given.record.regs.clone();
        let next = Registers { pc: 0x104, count: 1, ..given.clone() };
        let expected = match op {
            Op::LoadImm(Reg::A) => Registers { a: far, ..next },
            Op::LoadImm(_) => Registers { b: far, ..next },
            Op::Lea => Registers { a: 0x260u32.wrapping_add(far), ..next },
            Op::Leag => Registers { a: 0x104u32.wrapping_add(far), ..next },
            Op::Ent => Registers { sp: 0x260u32.wrapping_add(far) & !7, ..next },
            Op::Branch(_) | Op::Jmp => Registers { pc: target, ..next },
            Op::Float(Float::Branch(_)) => Registers { pc: target, ..next },
            // -336,709, 0x52345 with its sign: eighteen digits after the first.
            Op::Float(Float::LoadImm(FloatReg::F)) => Registers { f: FAR_DOUBLE, ..next },
            Op::Float(Float::LoadImm(FloatReg::G)) => Registers { g: FAR_DOUBLE, ..next },
            Op::Jsr => Registers { pc: target, sp: 0x258, ..next },
            // a shifted right by two is 0x10004090.
            Op::Jmpi => Registers { pc: target.wrapping_add(0x1000_4090), ..next },
            Op::Lev => Registers {
                pc: after.word(0x260) & !3,
                sp: 0x268u32.wrapping_add(far) & !7,
                ..next
            },
            Op::Pshi => Registers { sp: 0x258, ..next },
            Op::Arith(arith, Source::Immediate) => Registers { a: far_result(arith), ..next },
            _ => continue,
        };
        assert_eq!(*after.regs(), expected, "{name}");
    }
    assert_eq!(after("far PSHI").word(0x258), far);
    assert_eq!(after("far JSR").word(0x258), 0x104);
}

/// -336,709 = -1.0100100011010001 01 (binary) times 2^18.
const FAR_DOUBLE: u64 = 0xc114_8d14_0000_0000;

/// 0x40010240 with 0xfffadcbb: 1,073,807,936 with -336,709, or 4,294,630,587.
fn far_result(arith: Arith) -> u32 {
    match arith {
        Arith::Add => 0x3ffb_defb,
        Arith::Sub => 0x4006_2585,
        Arith::Mul => 0x912b_a4c0,
        // 3,189 times 336,709 is 1,073,765,001, which leaves 42,935.
        Arith::Div => -3_189i32 as u32,
        Arith::Mod => 42_935,
        Arith::Dvu => 0,
        Arith::Mdu => 0x4001_0240,
        Arith::And => 0x4000_0000,
        Arith::Or => 0xfffb_defb,
        Arith::Xor => 0xbffb_defb,
        Arith::Shl | Arith::Shr | Arith::Sru => unreachable!("no far operand"),
    }
}

/// What reaches memory by a far operand faults, with the whole address.
#[test]
fn far_operands_of_accesses() {
    for (name, op) in legal_with(takes_imm) {
        let base = match (op, base_of(op)) {
            (_, Some(Base::Sp)) | (Op::Arith(_, Source::Stack), _) => 0x260,
            (_, Some(Base::Pc)) => 0x104,
            (_, Some(Base::RegA)) => 0x4001_0240,
            (_, Some(Base::RegB)) => 0x250,
            _ => continue,
        };
        let after = after(&format!("far {name}"));
        let given = after.given.record.regs.clone();
        let vadr = (base as u32).wrapping_add(FAR as u32);
        let stopped = Registers { vadr, stop: Stop::Masked, count: 1, ..given };
        let expected = Registers { cause: Cause::AddressBeyond, ..stopped };
        assert_eq!(*after.regs(), expected, "{name}");
        assert!(vadr % 2 == 1 && after.memory_is_unchanged(), "{name}");
    }
}

fn page_3(after: &After) -> (u32, Option<(u32, u32, bool, bool)>) {
    (after.word(0x200c), after.entries().iter().copied().find(|entry| entry.0 == 3))
}

/// In user mode with paging each completes; a read marks A and keeps an entry
/// for reading, a write marks D too and keeps one for writing.
#[test]
fn every_opcode_in_user_mode_with_paging() {
    for code in LEGAL_WITH_DOUBLES.iter().filter(|code| !is_privileged(**code)) {
        let (name, op) = (name_of(*code), decode_in(*code, true).unwrap());
        let after = after(&format!("user, paged {name}"));
        if name == "TRAP" {
            after.delivered(0xe00, 21, 0x104);
            continue;
        }
        assert_eq!(
            (after.regs().stop, after.regs().user, after.regs().iena),
            (Stop::Running, true, true),
            "{name}"
        );
        let expected = match (reads(op), writes(op)) {
            (_, true) => (0x3067, Some((3, 3, true, true))),
            (true, false) => (0x3027, Some((3, 3, true, false))),
            (false, false) => (0x3007, None),
        };
        assert_eq!(page_3(&after), expected, "{name}");
        assert_eq!(after.entries()[0], (0, 0, true, false), "{name}");
    }
}

/// Where page 3 lacks U each is refused: by a read FRPAGE, by a write FWPAGE.
/// MCPY reads first. Nothing changes but vadr, the cause and the marks.
#[test]
fn every_access_in_user_mode_without_right() {
    for (name, op) in legal_with(|op| reads(op) || writes(op)) {
        let after = after(&format!("without right {name}"));
        after.delivered(0xe00, if reads(op) { 25 } else { 24 }, 0x104);
        let given = &after.given.record.regs;
        let regs = after.regs();
        assert_eq!((regs.a, regs.b, regs.c), (given.a, given.b, given.c), "{name}");
        assert_eq!(page_3(&after), (0x3003, None), "{name}");
        assert_eq!((regs.vadr, regs.cause), (address(name, op), Cause::NoUserRight), "{name}");
    }
}

/// The address that an opcode with imm 4 asks for first.
fn address(name: &str, op: Op) -> u32 {
    let (a, b, sp) = (DATA, DATA + 0x20, DATA + 0x40);
    if let Some(base) = base_of(op) {
        return match base {
            Base::Sp => sp + 4,
            Base::Pc => DATA,
            Base::RegA => a + 4,
            Base::RegB => b + 4,
        };
    }
    match op {
        Op::Arith(..) => sp + 4,
        Op::Pop(_) | Op::Lev | Op::Float(Float::Pop(_)) => sp,
        Op::Push(_) | Op::Pshi | Op::Jsr | Op::Jsra | Op::Float(Float::Push(_)) => sp - 8,
        Op::Block(_) if ["MCPY", "MCMP"].contains(&name) => b,
        Op::Block(_) => a,
        _ => unreachable!("{name} reaches no memory"),
    }
}
