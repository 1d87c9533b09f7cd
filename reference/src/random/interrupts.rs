//! Gestures on traps and interrupts: what traps, what returns, what masks.

use super::program::Writer;
use crate::opcodes::sets::ILLEGAL;

impl Writer<'_> {
    pub fn trapping(&mut self) {
        match self.rng.below(5) {
            0 => {
                let code = self.rng.pick(&ILLEGAL);
                self.suited(code);
            }
            1 => self.pick_op(&["DIV", "MOD", "DVUI", "MDUL", "DIVL"]),
            _ => self.pick_op(&["TRAP", "STI", "STI", "CLI", "IDLE"]),
        }
    }

    /// Pushes a pc and a code, as a trap would, and returns from it.
    pub fn return_from_trap(&mut self) {
        let near = self.space.code as i32 + 0x400 + 4 * self.rng.between(0, 40);
        let target = if self.rng.percent(85) { near } else { self.space.address(self.rng) as i32 };
        if self.rng.percent(20) {
            return self.op("RTI", 0);
        }
        self.op("PSHI", target);
        let code = self.rng.pick(&[0, 3, 9, 16, 16, 19, 25, 0x37, -1]);
        self.op("PSHI", code);
        self.op("RTI", 0);
    }

    /// A stretch with interrupts masked, in which a key or the timer may come,
    /// and one of the ways out of it.
    pub fn masked_stretch(&mut self) {
        self.op("CLI", 0);
        for _ in 0..1 + self.rng.below(5) {
            self.pick_op(&["NOP", "BIN", "CYC", "ADDI", "PSHB", "POPB", "IDLE", "TIME"]);
        }
        match self.rng.below(5) {
            0 => self.return_from_trap(),
            1 => self.pick_op(&["TRAP", "HALT"]),
            _ => self.op("STI", 0),
        }
        if self.rng.percent(30) {
            self.pick_op(&["IDLE", "TRAP", "CLI"]);
        }
    }
}
