//! What an operation does, as far as cases and planted mistakes ask.

use super::decode::{Arith, Base, Block, Op, Source, System, Width};
use super::floats::Float;

/// Whether an operation can fault in execution in kernel mode: it reaches
/// memory, divides, sets pdir, or is TRAP. (A privileged one can in user mode.)
pub fn can_fault_in_kernel(op: Op) -> bool {
    match op {
        Op::Trap => true,
        Op::Arith(Arith::Div | Arith::Dvu | Arith::Mod | Arith::Mdu, _) => true,
        Op::System(system) => matches!(system, System::Rti | System::Pdir),
        Op::Float(Float::Cdi | Float::Cdu) => true,
        _ => reads(op) || writes(op),
    }
}

/// Whether it reads memory, RTI apart.
pub fn reads(op: Op) -> bool {
    match op {
        Op::Load(..) | Op::Pop(_) | Op::Lev => true,
        Op::Float(float) => matches!(float, Float::Load(..) | Float::Pop(_)),
        Op::Arith(_, source) => source == Source::Stack,
        Op::Block(block) => block != Block::Mset,
        _ => false,
    }
}

pub fn writes(op: Op) -> bool {
    match op {
        Op::Store(..) | Op::Push(_) | Op::Pshi | Op::Jsr | Op::Jsra => true,
        Op::Float(float) => matches!(float, Float::Store(..) | Float::Push(_)),
        Op::Block(block) => matches!(block, Block::Mcpy | Block::Mset),
        _ => false,
    }
}

/// Whether low bits of its address can drop: bytes have none, nor has sp.
pub fn drops_bits(op: Op) -> bool {
    match op {
        Op::Load(_, _, width) | Op::Store(_, width) => {
            !matches!(width, Width::Byte | Width::SignedByte)
        }
        Op::Arith(_, source) => source == Source::Stack,
        Op::Float(float) => matches!(float, Float::Load(..) | Float::Store(..)),
        _ => false,
    }
}

/// Whether it takes a number from its upper 24 bits. LHI and LBHI take the
/// field; TIME asks only whether it is 0; a shift count's upper bits mean
/// nothing.
pub fn takes_imm(op: Op) -> bool {
    match op {
        Op::Load(..) | Op::Store(..) | Op::LoadImm(_) | Op::Branch(_) => true,
        Op::Ent | Op::Lev | Op::Jmp | Op::Jmpi | Op::Jsr | Op::Lea | Op::Leag | Op::Pshi => true,
        Op::Arith(Arith::Shl | Arith::Shr | Arith::Sru, source) => source == Source::Stack,
        Op::Arith(_, source) => source != Source::Register,
        Op::Float(Float::LoadImm(_) | Float::Branch(_)) => true,
        Op::Float(_) => base_of(op).is_some(),
        _ => false,
    }
}

/// Whether it sets pc or ivec to a number whose low two bits drop.
pub fn sets_target(op: Op) -> bool {
    match op {
        Op::Branch(_) | Op::Jmp | Op::Jmpi | Op::Jsr | Op::Jsra | Op::Lev => true,
        Op::Float(Float::Branch(_)) => true,
        Op::System(system) => matches!(system, System::Rti | System::Ivec),
        _ => false,
    }
}

/// Whether it sets a stack to a number whose low three bits drop.
pub fn sets_stack(op: Op) -> bool {
    match op {
        Op::Ent | Op::Lev => true,
        Op::System(system) => matches!(system, System::Ssp | System::Susp),
        _ => false,
    }
}

/// What a load's or store's immediate is added to.
pub fn base_of(op: Op) -> Option<Base> {
    match op {
        Op::Load(_, base, _) | Op::Store(base, _) => Some(base),
        Op::Float(Float::Load(_, base, _) | Float::Store(base, _)) => Some(base),
        _ => None,
    }
}
