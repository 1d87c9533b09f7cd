//! Machines that are saved and read: each number with a value of its own, each
//! count at its edges, each stop reason, cause, flag and mark.

use crate::calls::Save;
use crate::snapshot::layout::saved_length;
use crate::types::{Cause, Entry, Registers, Stop, CAPACITY, NO_KEY};
use crate::words;

/// What a lent file, memory or console is full of before a call.
pub const FILL: u8 = 0xa5;

/// A machine with an idea of its own.
pub type NamedMachine = (String, Save);

/// Building machines by hand.
impl Save {
    /// A machine without console or entries, and a file of its length.
    pub fn new(memory_length: usize, regs: Registers) -> Save {
        let mut save = Save {
            record: Default::default(),
            memory: vec![0; memory_length],
            console: Vec::new(),
            file_length: 0,
            fill: FILL,
        };
        save.record.regs = regs;
        save.exact()
    }

    /// A file as long as what is saved.
    pub fn exact(mut self) -> Save {
        self.file_length = saved_length(&self.record, self.memory.len());
        self
    }

    pub fn with(mut self, change: impl FnOnce(&mut Save)) -> Save {
        change(&mut self);
        self
    }

    pub fn words(mut self, at: u32, list: &[u32]) -> Save {
        for (nth, word) in list.iter().enumerate() {
            words::put(&mut self.memory, at + 4 * nth as u32, 4, *word);
        }
        self
    }

    /// These bytes in the console, of which `written` are.
    pub fn console(mut self, bytes: &[u8], written: u64) -> Save {
        self.console = bytes.to_vec();
        self.record.regs.written = written;
        self.exact()
    }

    pub fn entry(mut self, page: u32, frame: u32, user: bool, write: bool) -> Save {
        let buffer = &mut self.record.buffer;
        buffer.slots[buffer.count as usize] = Entry { page, frame, user, write, origin: None };
        buffer.count += 1;
        self.exact()
    }
}

fn named(name: impl Into<String>, machine: Save) -> NamedMachine {
    (name.into(), machine)
}

/// All of them.
pub fn machines() -> Vec<NamedMachine> {
    [numbers(), consoles(), entries(), states(), odd()].concat()
}

/// As a load gives it, but for the program.
pub fn fresh() -> Save {
    Save::new(4096, Registers { sp: 4096, kbchar: NO_KEY, ..Registers::default() })
}

/// Two entries, three of five console bytes, a word at each end of memory.
pub fn plain() -> Save {
    let regs = Registers { sp: 4096, count: 3, cause: Cause::TableAbsent, ..Registers::default() };
    Save::new(4096, regs)
        .words(0, &[0x723])
        .words(4092, &[0x8000_0001])
        .console(b"abcde", 3)
        .entry(5, 0, true, false)
        .entry(2, 0, false, true)
}

/// No two numbers alike, and no two halves of one.
fn distinct() -> Registers {
    Registers {
        a: 0x0101_a1a2,
        b: 0x0202_b1b2,
        c: 0x0303_c1c2,
        sp: 0x0404_d1d8,
        usp: 0x0505_e1e0,
        ksp: 0x0606_f1f8,
        pc: 0x0707_1114,
        ivec: 0x0808_2124,
        pdir: 0x1000,
        vadr: 0x0909_3133,
        timer: 0x0a0a_4142,
        timeout: 0x0b0b_5152,
        kbchar: 0x0c0c_6162,
        user: true,
        iena: false,
        paging: true,
        waiting: false,
        key_pending: true,
        timer_pending: false,
        stop: Stop::Masked,
        cause: Cause::NoUserRight,
        count: 0x0d0e_0f10_1112_1314,
        keys: 0x1516_1718_191a_1b1c,
        written: 0,
        mode: true,
        f: 0x1d1e_1f20_2122_2324,
        g: 0xfff4_2526_2728_292a,
    }
}

fn numbers() -> Vec<NamedMachine> {
    let other = Registers {
        user: false,
        iena: true,
        paging: false,
        waiting: true,
        key_pending: false,
        timer_pending: true,
        stop: Stop::NoFrame,
        cause: Cause::FrameBeyond,
        mode: false,
        ..distinct()
    };
    let ones = Registers { a: u32::MAX, c: u32::MAX, pc: !3, ksp: !7, ..distinct() };
    let last = Registers { count: (1 << 63) - 1, pdir: 0x1_f000, ..distinct() };
    vec![
        named("each number, flags 1 0 1 0", Save::new(8192, distinct()).words(4096, &[7, 8])),
        named("each number, flags 0 1 0 1", Save::new(8192, other).words(8188, &[9])),
        named("all bits", Save::new(8192, ones).words(0, &[u32::MAX])),
        named("32 pages", Save::new(131_072, last).words(131_068, &[0x0102_0304])),
        named("all zero", Save::new(4096, Registers::default())),
        named("fresh", fresh()),
        named("plain", plain()),
    ]
}

/// The written bytes are saved, whatever follows them.
fn consoles() -> Vec<NamedMachine> {
    let lent = |length: usize, written: u64| {
        let bytes: Vec<u8> = (0..length).map(|nth| 0x41 + nth as u8).collect();
        named(format!("{written} of {length} console bytes"), fresh().console(&bytes, written))
    };
    let counts = [(1, 0), (1, 1), (8, 0), (8, 1), (8, 2), (8, 3), (8, 7), (8, 8)];
    let mut list: Vec<NamedMachine> = counts.map(|(length, written)| lent(length, written)).into();
    let mut full = [0; 4096];
    full[..2].fill(0x2e);
    list.push(named("a full console of 4,096", fresh().console(&full, 4096)));
    list.push(named("zeros in the console", fresh().console(&[0, 1, 0, 0, 2, 0], 4)));
    list
}

/// Entries in their order, and slots past the count that hold something.
fn entries() -> Vec<NamedMachine> {
    let one = fresh().entry(0xf_ffff, 0, true, true);
    let beyond = Entry { page: u32::MAX, frame: u32::MAX, user: true, write: true, origin: None };
    let three = Save { memory: vec![0; 8192], ..fresh() }
        .entry(0x1_0003, 1, true, false)
        .entry(0x1_0001, 0, false, true)
        .entry(0x1_0002, 1, false, false);
    let full = (0..CAPACITY as u32).fold(fresh(), |machine, nth| {
        machine.entry(0xa_0000 + 97 * nth, 0, nth % 2 == 0, nth % 3 == 0)
    });
    vec![
        named("one entry", one.clone()),
        named("no entry, a slot past the count", {
            fresh().with(|machine| machine.record.buffer.slots[0] = beyond)
        }),
        named("one entry, a slot past the count", {
            one.with(|machine| machine.record.buffer.slots[1] = beyond)
        }),
        named("three entries in no order of pages", three),
        named("64 entries", full),
    ]
}

/// Each stop reason and cause; waiting; a frame just stored.
fn states() -> Vec<NamedMachine> {
    let stopped = |nth: usize| {
        let (stop, cause) = (Stop::ALL[nth % 4], Cause::ALL[nth]);
        let regs = Registers { stop, cause, vadr: nth as u32, count: 5, ..fresh().record.regs };
        named(format!("stop reason {}, cause {}", stop as u32, nth), Save::new(4096, regs))
    };
    let mut list: Vec<NamedMachine> = (0..Cause::ALL.len()).map(stopped).collect();
    let idle = Registers { waiting: true, iena: true, timeout: 9, timer: 4, ..fresh().record.regs };
    let trapped = Registers {
        sp: 0xff0,
        usp: 0x800,
        ksp: 0x1000,
        pc: 0xb00,
        ivec: 0xb00,
        timer_pending: true,
        kbchar: 0x41,
        keys: 1,
        count: 1 << 32,
        ..Registers::default()
    };
    list.push(named("waiting", Save::new(4096, idle)));
    list.push(named(
        "a frame just stored",
        Save::new(4096, trapped).words(0xff0, &[18, 0, 0x404]).words(0xb00, &[0x98]),
    ));
    list
}

/// What no run comes to and nothing refuses.
#[rustfmt::skip]
fn odd() -> Vec<NamedMachine> {
    let regs = || fresh().record.regs;
    let list = [
        ("a kbchar that no key gives", Registers { kbchar: 0x1234_5678, ..regs() }),
        ("timer above timeout", Registers { timer: u32::MAX, timeout: 1, ..regs() }),
        ("timer without timeout", Registers { timer: 7, ..regs() }),
        ("vadr without a cause", Registers { vadr: 0x2000, ..regs() }),
        ("a cause with vadr 0", Registers { cause: Cause::AddressBeyond, ..regs() }),
        ("waiting, stopped", Registers { waiting: true, iena: true, stop: Stop::Halted, ..regs() }),
        ("waiting with iena = 0", Registers { waiting: true, ..regs() }),
        ("both marks with iena = 1", Registers { iena: true, key_pending: true, timer_pending: true, ..regs() }),
        ("both marks, stopped", Registers { key_pending: true, timer_pending: true, stop: Stop::Masked, ..regs() }),
        ("user mode, paging", Registers { user: true, paging: true, ..regs() }),
        ("step count 2^63 - 1", Registers { count: (1 << 63) - 1, ..regs() }),
        ("step count 2^32 - 1", Registers { count: (1 << 32) - 1, ..regs() }),
        ("keys taken", Registers { keys: u64::MAX, ..regs() }),
        ("doubles", Registers { mode: true, f: 0x3fb9_9999_9999_999a, g: 1 << 63, ..regs() }),
        ("NaNs", Registers { mode: true, f: u64::MAX, g: 0x7ff0_0000_0000_0001, ..regs() }),
        ("f and g in the old mode", Registers { f: 0x7ff8_0000_0000_0000, g: 1, ..regs() }),
    ];
    list.into_iter().map(|(name, regs)| named(name, Save::new(4096, regs))).collect()
}
