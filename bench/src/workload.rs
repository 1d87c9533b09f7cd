//! The workloads: a program, and the machine that it starts in.

use crate::case::{Case, Run, RUN_PACKED, SINGLE_STEP};
use crate::opcode::{op, RTI};
use crate::plain::Machine;
use crate::program::{
    arithmetic, copy_16_kib, divisions, flow_meter, flow_meter_apart, flow_meter_data, mixed,
    pages, repeated, touched, transfers, FAR_PAGE,
};

pub struct Workload {
    pub name: &'static str,
    pub program: Vec<u32>,
    pub memory: usize,
    pub paged: bool,
    pub timeout: u32,
    /// Made in calls of budget 1.
    pub by_step: bool,
    /// In the mode with doubles, over the flow meter's data.
    pub doubles: bool,
}

/// Two measurements whose costs a step should be the same.
pub struct Growth {
    pub what: &'static str,
    pub few: Workload,
    pub many: Workload,
}

const USUAL: usize = 65536;
/// As much as a case may lend.
const LARGEST: usize = 1 << 21;
const DIRECTORY: u32 = 0x1000;
const TABLE: u32 = 0x2000;
pub const HANDLER: u32 = 0x800;

fn unpaged(name: &'static str, program: Vec<u32>) -> Workload {
    Workload {
        name,
        program,
        memory: USUAL,
        paged: false,
        timeout: 0,
        by_step: false,
        doubles: false,
    }
}

fn paged(name: &'static str, program: Vec<u32>) -> Workload {
    Workload { paged: true, ..unpaged(name, program) }
}

fn twenty_pages() -> Vec<u32> {
    repeated([transfers(), pages(20)].concat())
}

pub fn all() -> Vec<Workload> {
    vec![
        unpaged("arithmetic", repeated(arithmetic())),
        unpaged("signed division", repeated(divisions())),
        unpaged("loads, stores, calls", repeated(transfers())),
        paged("loads, stores, calls on 20 pages", twenty_pages()),
        unpaged("all families", repeated(mixed())),
        paged("all families, paged", repeated(mixed())),
        Workload { timeout: 49, ..unpaged("timer trap every 50 steps", repeated(arithmetic())) },
        unpaged("MCPY of 16 KiB", repeated(copy_16_kib())),
        paged("70 pages in rotation", repeated(pages(70))),
        Workload { doubles: true, ..unpaged("doubles", repeated(flow_meter())) },
        Workload { doubles: true, ..paged("doubles, paged", repeated(flow_meter())) },
        Workload { doubles: true, ..unpaged("doubles, each alone", repeated(flow_meter_apart())) },
        Workload {
            doubles: true,
            ..paged("doubles, each alone, paged", repeated(flow_meter_apart()))
        },
        Workload { by_step: true, ..unpaged("calls of budget 1", repeated(mixed())) },
        Workload { by_step: true, ..paged("calls of budget 1, 20 pages", twenty_pages()) },
    ]
}

pub fn growths() -> [Growth; 2] {
    let of_size = |name, memory| Workload { memory, ..unpaged(name, repeated(transfers())) };
    let filled = [touched(58), repeated(transfers())].concat();
    [
        Growth {
            what: "the size of memory",
            few: of_size("M = 4 KiB", 4096),
            many: of_size("M = 2 MiB", LARGEST),
        },
        Growth {
            what: "the entries held",
            few: paged("2 entries held", repeated(transfers())),
            many: paged("60 entries held", filled),
        },
    ]
}

/// The case of a workload: so many runs of one budget.
pub fn case(workload: &Workload, runs: usize, budget: u64) -> Case {
    let runs = (0..runs).map(|_| Run { keys: Vec::new(), budget }).collect();
    let entries = if workload.by_step { SINGLE_STEP } else { RUN_PACKED };
    Case { entries, machine: machine(workload), runs }
}

fn machine(workload: &Workload) -> Machine {
    let mut memory = vec![0; workload.memory];
    put(&mut memory, 0, &workload.program);
    put(&mut memory, HANDLER, &[op(RTI, 0)]);
    if workload.paged {
        put(&mut memory, DIRECTORY, &[TABLE | 7]);
        put(&mut memory, TABLE, &(0..96).map(|page| frame(page) << 12 | 7).collect::<Vec<u32>>());
    }
    let sp = workload.memory as u32 - 256;
    if workload.doubles {
        flow_meter_data(sp).iter().for_each(|(at, words)| put(&mut memory, *at, words));
    }
    Machine {
        a: 1,
        b: 2,
        sp,
        mode: workload.doubles,
        ivec: HANDLER,
        pdir: if workload.paged { DIRECTORY } else { 0 },
        timeout: workload.timeout,
        kbchar: !0,
        iena: true,
        paging: workload.paged,
        ..Machine::zero(memory, Vec::new())
    }
}

/// The frames of far pages are those between the tables and the stack, shared in turn.
fn frame(page: u32) -> u32 {
    if page < FAR_PAGE as u32 {
        page
    } else {
        4 + page % 8
    }
}

fn put(memory: &mut [u8], at: u32, words: &[u32]) {
    for (word, place) in words.iter().zip(memory[at as usize..].chunks_exact_mut(4)) {
        place.copy_from_slice(&word.to_le_bytes());
    }
}
