//! A machine before a step, and the accesses of the step worked out a second
//! time from its record and memory: where they lead, why one is refused, how
//! many are sent to the tables. Document 02's checks are a list here.

use reference::machine::Machine;
use reference::opcodes::decode::{decode_in, Base, Block, Op, Source, System};
use reference::opcodes::floats::Float;
use reference::opcodes::sets::is_privileged;
use reference::types::{Access, Cause, Entry, Key, Registers, CAPACITY, PAGE};
use reference::words::{get, immediate};

/// No check looks at the marks that walks set, and what stores a step makes come
/// after its accesses, so that all of these find this memory.
pub struct Scene<'a> {
    regs: &'a Registers,
    memory: &'a [u8],
    /// `None` is the table reader.
    entries: Option<Vec<Entry>>,
    /// Accesses so far with paging on and no usable entry.
    pub walks: u64,
}

impl Scene<'_> {
    pub fn of(machine: &Machine) -> Scene<'_> {
        let entries = machine.buffer.as_ref().map(|buffer| buffer.entries().to_vec());
        Scene { regs: &machine.regs, memory: &machine.memory, entries, walks: 0 }
    }

    /// Where the directory word and the table word of an address stand.
    fn words_at(&self, address: u32) -> [u32; 2] {
        let directory_at = self.regs.pdir + 4 * (address >> 22);
        let table = get(self.memory, directory_at, 4) & 0xffff_f000;
        [directory_at, table + 4 * ((address >> 12) & 0x3ff)]
    }

    /// The seven checks in document 02's order, and the frame that is led to.
    fn checks(&self, address: u32, write: bool, user: bool) -> ([bool; 7], u32) {
        let beyond = |frame: u32| frame as usize >= self.memory.len();
        if !self.regs.paging {
            let frame = address & 0xffff_f000;
            return ([beyond(frame), false, false, false, false, false, false], frame);
        }
        let [directory_at, table_at] = self.words_at(address);
        let directory = get(self.memory, directory_at, 4);
        // Of a table beyond memory no word is asked: an earlier check fails.
        let table = if beyond(table_at) { 0 } else { get(self.memory, table_at, 4) };
        let lacks = |bit: u32| directory & bit == 0 || table & bit == 0;
        let frame = table & 0xffff_f000;
        let fails = [
            false,
            directory & 1 == 0,
            beyond(directory & 0xffff_f000),
            table & 1 == 0,
            user && lacks(4),
            write && lacks(2),
            beyond(frame),
        ];
        (fails, frame)
    }

    /// The physical address, or the cause of the first check that fails.
    fn access(&mut self, address: u32, write: bool, user: bool) -> Result<u32, Cause> {
        let offset = address % PAGE;
        if let Some(frame) = self.held(address / PAGE, write, user) {
            return Ok(frame * PAGE + offset);
        }
        self.walks += u64::from(self.regs.paging);
        let (fails, frame) = self.checks(address, write, user);
        if let Some(nth) = fails.iter().position(|fails| *fails) {
            return Err(Cause::ALL[nth + 1]);
        }
        if self.regs.paging {
            self.keep(address, frame / PAGE, write);
        }
        Ok(frame + offset)
    }

    /// The frame of an entry that serves.
    fn held(&self, page: u32, write: bool, user: bool) -> Option<u32> {
        let entry = self.entries.iter().flatten().find(|entry| entry.page == page)?;
        let serves = (!user || entry.user) && (!write || entry.write);
        (self.regs.paging && serves).then_some(entry.frame)
    }

    /// A step writes after all that it reads, so that the D of an earlier walk
    /// matters to none of its reads.
    fn keep(&mut self, address: u32, frame: u32, write: bool) {
        let [directory, table] = self.words_at(address).map(|at| get(self.memory, at, 4));
        let both = directory & table;
        let (user, write) = (both & 4 != 0, both & 2 != 0 && (write || table & 0x40 != 0));
        let kept = Entry { page: address / PAGE, frame, user, write, origin: None };
        let Some(entries) = &mut self.entries else { return };
        if let Some(held) = entries.iter_mut().find(|entry| entry.page == kept.page) {
            *held = kept;
            return;
        }
        if entries.len() == CAPACITY {
            entries.clear();
        }
        entries.push(kept);
    }

    /// The word at pc. Its own walk may have marked it.
    fn fetch(&mut self) -> Result<u32, Cause> {
        let (pc, user) = (self.regs.pc, self.regs.user);
        let walks = self.regs.paging && self.held(pc / PAGE, false, user).is_none();
        let at = self.access(pc, false, user)?;
        let mark = if walks && self.words_at(pc).contains(&at) { 0x20 } else { 0 };
        Ok(get(self.memory, at, 4) | mark)
    }

    /// The first access of the instruction at pc that is refused: where, what
    /// it is and why. PDIR counts as a read.
    pub fn refused(&mut self) -> Option<(u32, Access, Cause)> {
        let word = match self.fetch() {
            Ok(word) => word,
            Err(cause) => return Some((self.regs.pc, Access::Fetch, cause)),
        };
        let closed = self.regs.user && is_privileged(word as u8);
        let op = decode_in(word as u8, self.regs.mode).filter(|_| !closed)?;
        if op == Op::System(System::Pdir) {
            let beyond = self.regs.a as usize >= self.memory.len();
            return beyond.then_some((self.regs.a, Access::Read, Cause::AddressBeyond));
        }
        self.operands(op, immediate(word)).into_iter().find_map(|(address, access)| {
            let cause = self.access(address, access == Access::Write, self.regs.user).err()?;
            Some((address, access, cause))
        })
    }

    /// The two slots of a frame, for kernel writing; the second only after the
    /// first.
    pub fn frame(&mut self) {
        let top = if self.regs.user { self.regs.ksp } else { self.regs.sp };
        if self.access(top.wrapping_sub(8), true, false).is_ok() {
            let _ = self.access(top.wrapping_sub(16), true, false);
        }
    }

    /// The accesses of an instruction after its fetch, in their order.
    fn operands(&self, op: Op, imm: u32) -> Vec<(u32, Access)> {
        use Access::{Read, Write};
        let Registers { a, b, c, sp, pc, .. } = *self.regs;
        let from = |base: Base| match base {
            Base::Sp => sp.wrapping_add(imm),
            Base::Pc => pc.wrapping_add(4).wrapping_add(imm),
            Base::RegA => a.wrapping_add(imm),
            Base::RegB => b.wrapping_add(imm),
        };
        match op {
            Op::Load(_, base, _) => vec![(from(base), Read)],
            Op::Store(base, _) => vec![(from(base), Write)],
            Op::Float(float) => match float {
                Float::Load(_, base, _) => vec![(from(base), Read)],
                Float::Store(base, _) => vec![(from(base), Write)],
                Float::Push(_) => vec![(sp.wrapping_sub(8), Write)],
                Float::Pop(_) => vec![(sp, Read)],
                _ => vec![],
            },
            Op::Arith(_, Source::Stack) => vec![(sp.wrapping_add(imm), Read)],
            Op::Push(_) | Op::Pshi | Op::Jsr | Op::Jsra => vec![(sp.wrapping_sub(8), Write)],
            Op::Pop(_) | Op::Lev => vec![(sp, Read)],
            Op::System(System::Rti) => vec![(sp, Read), (sp.wrapping_add(8), Read)],
            Op::Block(_) if c == 0 => vec![],
            Op::Block(Block::Mcpy) => vec![(b, Read), (a, Write)],
            Op::Block(Block::Mcmp) => vec![(b, Read), (a, Read)],
            Op::Block(Block::Mchr) => vec![(a, Read)],
            Op::Block(Block::Mset) => vec![(a, Write)],
            _ => vec![],
        }
    }
}

/// Whether the step from these registers takes an interrupt.
pub fn is_interrupted(before: &Registers, keys: &[Key]) -> bool {
    let key = keys.get(before.keys as usize).is_some_and(|key| key.step <= before.count + 1);
    let out = before.timeout != 0 && u64::from(before.timer) + 1 > u64::from(before.timeout);
    before.iena && (key || out || before.key_pending || before.timer_pending)
}
