//! Families of planted mistakes: one for each opcode, refusal, trap, bit or
//! field that a slip could be made in.

mod doubles;

use crate::coverage::Emptied;
use crate::mistake::Mistake;
use crate::opcodes::decode::{decode_in, Op};
use crate::opcodes::kinds::{can_fault_in_kernel, drops_bits, reads};
use crate::opcodes::kinds::{sets_stack, sets_target, takes_imm, writes};
use crate::opcodes::sets::{is_privileged, ILLEGAL, ILLEGAL_WITH_DOUBLES};
use crate::opcodes::sets::{LEGAL, LEGAL_WITH_DOUBLES, PRIVILEGED};
use crate::types::{Access, Cause, Stop, Trap};
use doubles::doubles;

/// Mistakes of one kind.
pub struct Family<M> {
    /// What the planted code does, with the family's numbers in brackets.
    pub text: &'static str,
    pub members: Vec<M>,
}

pub fn family<M>(text: &'static str, members: impl IntoIterator<Item = M>) -> Family<M> {
    Family { text, members: members.into_iter().collect() }
}

/// A mistake for each opcode that is legal with doubles and of which something
/// holds.
fn by_opcode(
    text: &'static str,
    holds: fn(Op) -> bool,
    mistake: fn(u8) -> Mistake,
) -> Family<Mistake> {
    let holds = |code: &&u8| decode_in(**code, true).is_some_and(holds);
    family(text, LEGAL_WITH_DOUBLES.iter().filter(holds).map(|code| mistake(*code)))
}

pub fn families() -> Vec<Family<Mistake>> {
    let lists = [opcodes(), operands(), accesses(), causes(), walks(), doubles(), numbers()];
    lists.into_iter().flatten().collect()
}

/// Each of these bytes, in a mode, as each other that is legal with doubles.
fn taken_as(codes: &[u8], mode: bool) -> Vec<Mistake> {
    let others = |code: u8| LEGAL_WITH_DOUBLES.iter().map(move |other| (code, *other));
    let pairs = codes.iter().flat_map(|code| others(*code));
    // A floating opcode is illegal in the old mode, and taken as itself there.
    let told = |(code, other): &(u8, u8)| code != other || (!mode && !LEGAL.contains(code));
    pairs.filter(told).map(|(code, other)| Mistake::As(code, other, mode)).collect()
}

fn opcodes() -> Vec<Family<Mistake>> {
    let illegal = |codes: &[u8], mode: bool| -> Vec<Mistake> {
        codes.iter().map(|code| Mistake::As(*code, 0xff, mode)).collect()
    };
    let closed = LEGAL_WITH_DOUBLES.iter().filter(|code| !is_privileged(**code));
    vec![
        family("in the old mode legal opcode [0] is executed as [1]", taken_as(&LEGAL, false)),
        family(
            "with doubles legal opcode [0] is executed as [1]",
            taken_as(&LEGAL_WITH_DOUBLES, true),
        ),
        family("in the old mode illegal byte [0] is executed as [1]", taken_as(&ILLEGAL, false)),
        family(
            "with doubles illegal byte [0] is executed as [1]",
            taken_as(&ILLEGAL_WITH_DOUBLES, true),
        ),
        family("in the old mode opcode [0] is illegal", illegal(&LEGAL, false)),
        family("with doubles opcode [0] is illegal", illegal(&LEGAL_WITH_DOUBLES, true)),
        family("opcode [0] is privileged", closed.map(|code| Mistake::Privileged(*code))),
        family("opcode [0] is open", PRIVILEGED.iter().map(|code| Mistake::Open(*code))),
    ]
}

fn operands() -> Vec<Family<Mistake>> {
    use Mistake::{ImmediateIsShort, ImmediateIsUnsigned, StackKeepsLowBits, TargetKeepsLowBits};
    vec![
        by_opcode("opcode [0] takes imm as an unsigned number", takes_imm, ImmediateIsUnsigned),
        by_opcode("opcode [0] takes imm's low 16 bits, signed", takes_imm, ImmediateIsShort),
        by_opcode("opcode [0] keeps a target's low bits", sets_target, TargetKeepsLowBits),
        by_opcode("opcode [0] keeps a stack's low bits", sets_stack, StackKeepsLowBits),
    ]
}

/// TRAP never does.
fn completes(op: Op) -> bool {
    op != Op::Trap
}

fn accesses() -> Vec<Family<Mistake>> {
    use Mistake::{AsKernel, FaultOwnPc, ForgetsCause, ReadsAsWrite, VadrDropped, WritesAsRead};
    let either = |op: Op| reads(op) || writes(op);
    vec![
        by_opcode("opcode [0] keeps vadr after low bits drop", drops_bits, VadrDropped),
        by_opcode("opcode [0] reads as if it wrote", reads, ReadsAsWrite),
        by_opcode("opcode [0] writes as if it read", writes, WritesAsRead),
        by_opcode("opcode [0] reaches memory as the kernel", either, AsKernel),
        by_opcode("opcode [0]'s fault stores its own address", can_fault_in_kernel, FaultOwnPc),
        by_opcode("opcode [0], completed, sets the cause back", completes, ForgetsCause),
    ]
}

/// Causes that can hold at once, the first of which is named. A table beyond
/// memory has no word.
const AT_ONCE: [(Cause, &[Cause]); 5] = {
    use Cause::*;
    [
        (DirectoryAbsent, &[DirectoryBeyond, TableAbsent, NoUserRight, NoWriteRight, FrameBeyond]),
        (DirectoryBeyond, &[NoUserRight, NoWriteRight]),
        (TableAbsent, &[NoUserRight, NoWriteRight, FrameBeyond]),
        (NoUserRight, &[NoWriteRight, FrameBeyond]),
        (NoWriteRight, &[FrameBeyond]),
    ]
};

fn causes() -> Vec<Family<Mistake>> {
    let all = &Cause::ALL[1..];
    let at_once = AT_ONCE.iter().flat_map(|(low, list)| list.iter().map(|high| (*low, *high)));
    let pdir = Cause::ALL.into_iter().filter(|cause| *cause != Cause::AddressBeyond);
    let stops = [Stop::Masked, Stop::NoFrame];
    let stopped = stops.iter().flat_map(|stop| all.iter().map(|cause| (*stop, *cause)));
    vec![
        family("cause [0] is named [1] ([2], user mode: [3])", misnamed()),
        family(
            "of two causes at once [1] is named, not [0]",
            at_once.map(|(low, high)| Mistake::CauseOrder(low, high)),
        ),
        family("PDIR's own fault names [0]", pdir.map(Mistake::PdirCause)),
        family("slot [0] of a frame, refused, sets the cause", (0..2).map(Mistake::SlotSetsCause)),
        family(
            "a stop ([0]) undoes the cause [1]",
            stopped.map(|(stop, cause)| Mistake::StopForgetsCause(stop, cause)),
        ),
        family("trap [0] sets the cause back (stop reason then: [1])", forgetting()),
    ]
}

/// Each access in kernel mode and in user mode.
fn by_mode() -> impl Iterator<Item = (Access, bool)> {
    Access::ALL.into_iter().flat_map(|access| [(access, false), (access, true)])
}

/// Each cause, where it can come, as each other and as none.
fn misnamed() -> Vec<Mistake> {
    let mut list = Vec::new();
    for cause in Cause::ALL {
        for (access, user) in by_mode() {
            let others = Cause::ALL.into_iter().filter(|other| *other != cause);
            let named = others.map(|other| Mistake::CauseNamed(cause, other, access, user));
            list.extend(named.filter(|_| cause.comes(access, user)));
        }
    }
    list
}

/// Each trap without a cause, by what comes of it; an interrupt is never masked.
fn forgetting() -> Vec<Mistake> {
    let ends = [Stop::Running, Stop::Masked, Stop::NoFrame];
    let traps = [Trap::Ftimer, Trap::Fkeybd, Trap::Fpriv, Trap::Finst, Trap::Fsys, Trap::Farith];
    let pairs = traps.into_iter().flat_map(|trap| ends.map(|stop| (trap, stop)));
    let comes = |pair: &(Trap, Stop)| !(pair.0.is_interrupt() && pair.1 == Stop::Masked);
    pairs.filter(comes).map(|(trap, stop)| Mistake::TrapForgetsCause(trap, stop)).collect()
}

fn walks() -> Vec<Family<Mistake>> {
    use Mistake::{
        CauseUncounted, EmptyingRestartsWalks, SlotUncounted, StopUncounted, WalksInBits,
    };
    let uncounted = |(access, user)| Mistake::WalksUncounted(access, user);
    // With paging on an address is never beyond memory by itself.
    let causes = Cause::ALL.into_iter().skip(1).filter(|cause| *cause != Cause::AddressBeyond);
    let stops = [Stop::Halted, Stop::Masked, Stop::NoFrame];
    let emptied = [Emptied::Full, Emptied::Pdir, Emptied::Spag];
    vec![
        family("a walk ([0], user mode: [1]) is not counted", by_mode().map(uncounted)),
        family("a walk refused for [0] is not counted", causes.map(CauseUncounted)),
        family("the walk of a frame's slot [0] is not counted", (0..2).map(SlotUncounted)),
        family("a step that stops ([0]) counts no walk", stops.map(StopUncounted)),
        family(
            "the count starts again where the buffer is emptied ([0])",
            emptied.map(EmptyingRestartsWalks),
        ),
        family("the count of walks has [0] bits", [8, 16].map(WalksInBits)),
    ]
}

/// All i < j of a list.
fn pairs(numbers: &[u32]) -> Vec<Mistake> {
    let from = |at: usize| numbers[at + 1..].iter().map(move |high| (numbers[at], *high));
    (0..numbers.len()).flat_map(from).map(|(low, high)| Mistake::Order(low, high)).collect()
}

fn numbers() -> Vec<Family<Mistake>> {
    let codes = (0..10).flat_map(|code| [(code, false), (code, true)]);
    // FPRIV comes from user mode only.
    let codes = codes.filter(|code| *code != (3, false));
    // A file too short for a header has no body, data start or entry.
    let judged = |mistake: &Mistake| !matches!(mistake, Mistake::Order(7, 9..));
    let load_pairs = pairs(&[1, 7, 8, 9, 10, 11]).into_iter().filter(judged);
    vec![
        family("of a run's refusals [1] is given before [0]", pairs(&[1, 2, 3, 4, 5, 6])),
        family("of a load's refusals [1] is given before [0]", load_pairs),
        family(
            "trap [0] has the next code (user mode: [1])",
            codes.map(|(code, user)| Mistake::TrapCode(code, user)),
        ),
        family("a walk leaves bit [0] of the page out", (0..20).map(Mistake::WalkDropsBit)),
        family("the buffer leaves bit [0] of the page out", (0..20).map(Mistake::HitDropsBit)),
        family("a walk leaves bit [0] of the frame out", (0..20).map(Mistake::FrameDropsBit)),
        family("byte [0] of the magic is not compared", (0..4).map(Mistake::MagicByte)),
        family(
            "pc, ivec, sp, usp, ksp, pdir ([0]): half of what it must be a multiple of",
            (0..6).map(Mistake::LooseField),
        ),
        family(
            "pc, ivec, sp, usp, ksp, step count ([0]) is not judged",
            (0..6).map(Mistake::UnjudgedField),
        ),
    ]
}

/// The opcode byte that a mistake is about, and the mode if it is about one; it
/// shows only where that is executed.
pub fn opcode_of(mistake: Mistake) -> Option<(u8, Option<bool>)> {
    if let Mistake::As(code, _, mode) = mistake {
        return Some((code, Some(mode)));
    }
    opcode_alone(mistake).map(|code| (code, None))
}

fn opcode_alone(mistake: Mistake) -> Option<u8> {
    use Mistake::*;
    match mistake {
        Privileged(code) | Open(code) | MoveCanonical(code) | MoveQuiet(code) => Some(code),
        ImmediateIsUnsigned(code) | ImmediateIsShort(code) => Some(code),
        TargetKeepsLowBits(code) | StackKeepsLowBits(code) | VadrDropped(code) => Some(code),
        ReadsAsWrite(code) | WritesAsRead(code) | AsKernel(code) | FaultOwnPc(code) => Some(code),
        ForgetsCause(code) => Some(code),
        _ => None,
    }
}

/// The cause that a mistake is about; it shows only where it is named.
pub fn cause_of(mistake: Mistake) -> Option<Cause> {
    use Mistake::*;
    match mistake {
        CauseNamed(cause, ..) | CauseOrder(cause, _) | StopForgetsCause(_, cause) => Some(cause),
        PdirCause(_) => Some(Cause::AddressBeyond),
        _ => None,
    }
}

#[cfg(test)]
mod tests {
    use super::*;
    use crate::opcodes::sets::is_legal_in;

    #[test]
    fn members_are_about_legal_opcodes_where_they_should_be() {
        for family in families() {
            assert!(!family.members.is_empty(), "{}", family.text);
            for mistake in family.members {
                let Some((code, _)) = opcode_of(mistake) else { continue };
                let legal = is_legal_in(code, true);
                assert!(legal || matches!(mistake, Mistake::As(..)), "{mistake:?}");
            }
        }
    }
}
