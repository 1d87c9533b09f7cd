//! The record of document 01, "The record and the loaded program", with what
//! document 02 adds to it.

/// Bytes of a page, the unit of M, pdir and frames.
pub const PAGE: u32 = 4096;
/// The largest M a run or load accepts.
pub const MAX_MEMORY: usize = 134_217_728;
/// The largest budget a run accepts.
pub const MAX_BUDGET: u64 = 1_000_000;
/// The page buffer's capacity.
pub const CAPACITY: usize = 64;
/// kbchar when no key is there.
pub const NO_KEY: u32 = 0xffff_ffff;

/// Stop reasons, by their numbers.
#[derive(Clone, Copy, Debug, Default, PartialEq, Eq)]
pub enum Stop {
    #[default]
    Running = 0,
    Halted = 1,
    /// A trap while iena = 0.
    Masked = 2,
    /// A trap frame that cannot be stored.
    NoFrame = 3,
}

impl Stop {
    pub const ALL: [Stop; 4] = [Stop::Running, Stop::Halted, Stop::Masked, Stop::NoFrame];
}

/// Trap codes, by their numbers.
#[derive(Clone, Copy, Debug, PartialEq, Eq)]
pub enum Trap {
    Fmem = 0,
    Ftimer = 1,
    Fkeybd = 2,
    Fpriv = 3,
    Finst = 4,
    Fsys = 5,
    Farith = 6,
    Fipage = 7,
    Fwpage = 8,
    Frpage = 9,
}

impl Trap {
    pub fn is_interrupt(self) -> bool {
        matches!(self, Trap::Ftimer | Trap::Fkeybd)
    }
}

/// What an address is asked for.
#[derive(Clone, Copy, Debug, PartialEq, Eq)]
pub enum Access {
    Fetch = 0,
    Read = 1,
    Write = 2,
}

impl Access {
    pub const ALL: [Access; 3] = [Access::Fetch, Access::Read, Access::Write];
}

/// Why an access was refused, in the order of the checks: of several the first
/// is named. The names in quotes are document 02's, item 4; its item 5 has the
/// numbers.
#[derive(Clone, Copy, Debug, Default, PartialEq, Eq)]
pub enum Cause {
    /// Nothing was refused so far: "none at first".
    #[default]
    None = 0,
    /// "Address beyond memory": with paging off, and PDIR's own fault.
    AddressBeyond = 1,
    /// "Directory absent": the directory word lacks P.
    DirectoryAbsent = 2,
    /// "Directory beyond memory": the directory word's frame is not below M.
    DirectoryBeyond = 3,
    /// "Table absent": the table word lacks P.
    TableAbsent = 4,
    /// "No user right": in user mode, U is missing in either word.
    NoUserRight = 5,
    /// "No write right": in a write, W is missing in either word.
    NoWriteRight = 6,
    /// "Frame beyond memory": the table word's frame is not below M.
    FrameBeyond = 7,
}

impl Cause {
    pub const ALL: [Cause; 8] = [
        Cause::None,
        Cause::AddressBeyond,
        Cause::DirectoryAbsent,
        Cause::DirectoryBeyond,
        Cause::TableAbsent,
        Cause::NoUserRight,
        Cause::NoWriteRight,
        Cause::FrameBeyond,
    ];

    /// Whether such an access, in this mode, can be refused for it.
    pub fn comes(self, access: Access, user: bool) -> bool {
        match self {
            Cause::None => false,
            Cause::NoUserRight => user,
            Cause::NoWriteRight => access == Access::Write,
            _ => true,
        }
    }
}

/// What translation answers where it refuses: a trap, never without a cause.
#[derive(Clone, Copy, Debug, PartialEq, Eq)]
pub struct Fault {
    pub trap: Trap,
    pub cause: Cause,
}

/// A key of the list lent to a run.
#[derive(Clone, Copy, Debug, PartialEq, Eq)]
pub struct Key {
    pub step: u64,
    pub byte: u8,
}

/// Everything of the record but the page buffer: what demand 3 compares.
#[derive(Clone, Debug, Default, PartialEq, Eq)]
pub struct Registers {
    pub a: u32,
    pub b: u32,
    pub c: u32,
    pub sp: u32,
    pub usp: u32,
    pub ksp: u32,
    pub pc: u32,
    pub ivec: u32,
    pub pdir: u32,
    pub vadr: u32,
    pub timer: u32,
    pub timeout: u32,
    pub kbchar: u32,
    pub user: bool,
    pub iena: bool,
    pub paging: bool,
    pub waiting: bool,
    pub stop: Stop,
    /// Step count.
    pub count: u64,
    /// Keys taken.
    pub keys: u64,
    /// Console bytes written.
    pub written: u64,
    /// Interrupts that await delivery: document 02, item 1, calls them marks.
    pub key_pending: bool,
    pub timer_pending: bool,
    /// Why the access at vadr was refused; set with vadr and never without it.
    /// No program can read it.
    pub cause: Cause,
    /// Document 02, item 7: whether the machine has doubles. No instruction sets it.
    pub mode: bool,
    /// The floating registers, as bit patterns. In the old mode they stand and
    /// nothing reads or writes them.
    pub f: u64,
    pub g: u64,
}

/// The physical addresses of the two words a walk read.
#[derive(Clone, Copy, Debug, PartialEq, Eq)]
pub struct Origin {
    pub directory: u32,
    pub table: u32,
}

/// An entry of the page buffer.
#[derive(Clone, Copy, Debug, Default, PartialEq, Eq)]
pub struct Entry {
    pub page: u32,
    pub frame: u32,
    pub user: bool,
    pub write: bool,
    /// Not part of the record: the words this entry was read from, for
    /// demand 3. `None` in an entry that was given and not walked for.
    pub origin: Option<Origin>,
}

/// The page buffer: 64 slots, of which the first `count` mean something.
#[derive(Clone, Debug, PartialEq, Eq)]
pub struct Buffer {
    pub count: u32,
    pub slots: [Entry; CAPACITY],
}

impl Default for Buffer {
    fn default() -> Self {
        Buffer { count: 0, slots: [Entry::default(); CAPACITY] }
    }
}

/// The whole record, as a run takes and returns it.
#[derive(Clone, Debug, Default, PartialEq, Eq)]
pub struct Record {
    pub regs: Registers,
    pub buffer: Buffer,
}
