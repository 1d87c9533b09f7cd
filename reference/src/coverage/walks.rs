//! What came of table walks, counted by runs and frames. Document 02, item 6.

use super::Due;
use crate::types::Stop;
use crate::walks::Walks;
use std::fmt::Arguments;

const RUNS: [&str; 5] = [
    "that walk",
    "with faulting walks alone",
    "with hits alone",
    "below the second bound",
    "at the second bound",
];
/// Why the second bound is not claimed of a run.
const LACKING: [&str; 4] =
    ["given entries", "PDIR or SPAG", "a store of demand 3's kind", "more than 64 pages"];
/// What comes of a frame.
const FRAMES: [&str; 2] = ["delivered", "stopped with 3"];

#[derive(Clone, Debug, Default)]
pub struct Walked {
    made: u64,
    /// Runs by kind.
    runs: [u64; 5],
    /// Runs with more walks than the second bound's number, by why it is not
    /// claimed of them, if by one thing alone.
    above: [u64; 4],
    /// Frames with walked slots, by what came of them.
    frames: [u64; 2],
}

impl Walked {
    pub fn step(&mut self, walks: &Walks, stop: Stop) {
        if walks.by_slots > 0 {
            self.frames[usize::from(stop == Stop::NoFrame)] += 1;
        }
    }

    pub fn run(&mut self, walks: &Walks) {
        self.made += walks.made;
        let lacking = walks.lacking();
        let (made, bound, bounded) = (walks.made, walks.bound(), lacking == [false; 4]);
        let came = [
            made > 0,
            made > 0 && made == walks.faulted,
            made == 0 && walks.hits > 0,
            bounded && made > 0 && made < bound,
            bounded && made > 0 && made == bound,
        ];
        let counts = self.runs.iter_mut().zip(came);
        counts.for_each(|(count, came)| *count += u64::from(came));
        let alone = lacking.iter().filter(|lacks| **lacks).count() == 1;
        for (count, lacks) in self.above.iter_mut().zip(lacking) {
            *count += u64::from(alone && lacks && made > bound);
        }
    }

    pub fn add(&mut self, other: &Walked) {
        self.made += other.made;
        super::sum(&mut self.runs, &other.runs);
        super::sum(&mut self.above, &other.above);
        super::sum(&mut self.frames, &other.frames);
    }

    /// Visits every count with its name.
    pub fn visit(&self, visit: &mut impl FnMut(Arguments, u64, Due)) {
        visit(format_args!("table walks"), self.made, Due::Always);
        for (kind, count) in RUNS.iter().zip(self.runs) {
            visit(format_args!("runs {kind}"), count, Due::Always);
        }
        for (nth, (why, count)) in LACKING.iter().zip(self.above).enumerate() {
            // The others come to directed cases: no random run is made for them.
            let due = if nth == 1 { Due::InBulk } else { Due::Never };
            visit(format_args!("runs above the second bound by {why}"), count, due);
        }
        for (end, count) in FRAMES.iter().zip(self.frames) {
            visit(format_args!("frame with walked slots, {end}"), count, Due::Always);
        }
    }
}
