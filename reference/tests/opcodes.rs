//! The decoder against the table of 000: the sets, and what each family's
//! lines say.

use reference::opcodes::decode::{decode, decode_in, Base, Op, Reg, Source, Width};
use reference::opcodes::floats::{decode_float, Float, FloatCond, FloatReg, Precision};
use reference::opcodes::sets::{is_floating, is_legal, is_legal_in, is_privileged};
use reference::opcodes::sets::{line_of, name_of};

#[test]
fn decoder_and_table_agree_on_all_256_bytes() {
    for code in 0..=255 {
        assert_eq!(decode(code).is_some(), is_legal(code), "{code:#x}");
        let system = matches!(decode(code), Some(Op::System(_)));
        assert_eq!(system, is_privileged(code), "{code:#x}");
    }
    for (mode, count) in [(false, 137), (true, 183)] {
        let legal: Vec<u8> = (0..=255).filter(|code| decode_in(*code, mode).is_some()).collect();
        assert_eq!(legal.len(), count);
        assert!((0..=255).all(|code| legal.contains(&code) == is_legal_in(code, mode)));
    }
    let named: Vec<u8> = (0xb3..=0xbb).chain([0xbf]).chain(0xd2..=0xff).collect();
    let without: Vec<u8> = (0..=255).filter(|code| line_of(*code).is_none()).collect();
    assert_eq!(named, without);
}

fn meaning(code: u8) -> String {
    line_of(code).unwrap().meaning.replace(' ', "")
}

fn address(base: Base) -> &'static str {
    match base {
        Base::Sp => "(sp+imme)",
        Base::Pc => "(pc+imme)",
        Base::RegA => "global_addr(ra+imme)",
        Base::RegB => "global_addr(rb+imme)",
    }
}

fn c_type(width: Width) -> &'static str {
    match width {
        Width::Word => "uint",
        Width::SignedHalf => "short",
        Width::Half => "ushort",
        Width::SignedByte => "char",
        Width::Byte => "uchar",
    }
}

#[test]
fn loads_and_stores_are_what_their_lines_say() {
    for code in 0..=255 {
        match decode(code) {
            Some(Op::Load(Reg::C, ..)) => assert_eq!(meaning(code), "c=*(uint*)(sp+imme)"),
            Some(Op::Load(reg, base, width)) => {
                let register = if reg == Reg::A { "ra" } else { "rb" };
                let text = format!("{register}=*(*{}){}", c_type(width), address(base));
                assert_eq!(meaning(code), text);
            }
            Some(Op::Store(base, width)) => {
                let text = format!("*(*{}){}=", c_type(width), address(base));
                assert!(meaning(code).starts_with(&text));
            }
            _ => {}
        }
    }
}

#[test]
fn arithmetic_takes_its_operand_from_where_its_line_says() {
    let mut seen = 0;
    for code in 0..=255 {
        let Some(Op::Arith(arith, source)) = decode(code) else { continue };
        let name = format!("{arith:?}").to_uppercase();
        let (suffix, operand) = match source {
            Source::Register => ("", "rb"),
            Source::Immediate => ("I", "imme"),
            Source::Stack => ("L", "sp+imme"),
        };
        assert_eq!(name_of(code), name + suffix);
        assert!(meaning(code).contains(operand));
        seen += 1;
    }
    assert_eq!(seen, 39);
}

#[test]
fn the_other_operations_have_their_mnemonics() {
    for code in 0..=255 {
        let name = match decode(code) {
            None | Some(Op::Load(..) | Op::Store(..) | Op::Arith(..)) => continue,
            Some(Op::Compare(cond)) => format!("{cond:?}"),
            Some(Op::Branch(cond)) => branch_name(&format!("{cond:?}")),
            Some(Op::Block(block)) => format!("{block:?}"),
            Some(Op::System(system)) => format!("{system:?}"),
            Some(Op::Push(reg)) => format!("psh{reg:?}"),
            Some(Op::Pop(reg)) => format!("pop{reg:?}"),
            Some(Op::LoadImm(reg)) => if reg == Reg::A { "li" } else { "lbi" }.to_string(),
            Some(Op::LoadHigh(reg)) => if reg == Reg::A { "lhi" } else { "lbhi" }.to_string(),
            Some(op) => format!("{op:?}"),
        };
        assert_eq!(name_of(code), name.to_uppercase());
    }
}

fn branch_name(cond: &str) -> String {
    match cond {
        "Zero" => "bz".to_string(),
        "NotZero" => "bnz".to_string(),
        "Eq" => "be".to_string(),
        other => format!("b{other}"),
    }
}

/// Of the lines with f, g, double or float all but 17 of the section "math".
#[test]
fn the_floating_opcodes_are_these_46() {
    let lists = [
        "LLD LLF LGD LGF LXD LXF LBLD LBLF LBGD LBGF LBXD LBXF SLD SLF SGD SGF SXD SXF",
        "PSHF PSHG POPF POPG LIF LBIF LBAD ADDF SUBF MULF DIVF EQF NEF LTF GEF",
        "BZF BNZF BEF BNEF BLTF BGEF CID CUD CDI CDU FABS FLOR CEIL",
    ];
    let mut asked: Vec<&str> = lists.iter().flat_map(|list| list.split(' ')).collect();
    let named = |code: &u8| is_floating(*code).then(|| name_of(*code));
    let mut found: Vec<&str> = (0..=255).collect::<Vec<u8>>().iter().filter_map(named).collect();
    asked.sort_unstable();
    found.sort_unstable();
    assert_eq!((asked.len(), asked), (46, found));
    let decoded = |code: &u8| decode_float(*code).is_some();
    assert!((0..=255).all(|code| decoded(&code) == is_floating(code)));
    assert!((0..=255).all(|code| !(is_floating(code) && is_privileged(code))));
}

#[test]
fn floating_loads_and_stores_are_what_their_lines_say() {
    let c_type = |precision| if precision == Precision::Double { "double" } else { "float" };
    for code in 0..=255 {
        match decode_float(code) {
            Some(Float::Load(reg, base, precision)) => {
                // "Loads to a mean f; loads to b mean g."
                let register = if reg == FloatReg::F { "ra" } else { "rb" };
                let text = format!("{register}=*(*{}){}", c_type(precision), address(base));
                assert_eq!(meaning(code), text);
            }
            Some(Float::Store(base, precision)) => {
                let text = format!("*(*{}){}=", c_type(precision), address(base));
                assert!(meaning(code).starts_with(&text));
            }
            _ => {}
        }
    }
}

#[test]
fn the_other_floating_operations_have_their_mnemonics() {
    let cond = |cond: FloatCond| format!("{cond:?}");
    for code in 0..=255 {
        let name = match decode_float(code) {
            None | Some(Float::Load(..) | Float::Store(..)) => continue,
            Some(Float::Compare(of)) => cond(of) + "f",
            Some(Float::Branch(of)) => branch_name(&cond(of)) + "f",
            Some(Float::Push(reg)) => format!("psh{reg:?}"),
            Some(Float::Pop(reg)) => format!("pop{reg:?}"),
            Some(Float::LoadImm(reg)) => {
                if reg == FloatReg::F { "lif" } else { "lbif" }.to_string()
            }
            Some(Float::Arith(arith)) => format!("{arith:?}"),
            Some(Float::Unary(unary)) => format!("{unary:?}"),
            Some(float) => format!("{float:?}"),
        };
        assert_eq!(name_of(code), name.to_uppercase());
    }
}
