//! The v9 programs of the workloads, each to be loaded at address 0.

use crate::opcode::*;

/// The first page that the page table does not map to the frame of its own number.
pub const FAR_PAGE: i32 = 16;

/// A loop: the body, then a jump back to its first word.
pub fn repeated(mut body: Vec<u32>) -> Vec<u32> {
    body.push(op(JMP, -4 * (body.len() as i32 + 1)));
    body
}

pub fn arithmetic() -> Vec<u32> {
    vec![
        op(ADDI, 3),
        op(MULI, 5),
        op(XORI, 0x55),
        op(ADD, 0),
        op(SHLI, 1),
        op(SRUI, 3),
        op(LBA, 0),
        op(LTU, 0),
        op(BNZ, 0),
    ]
}

/// Signed quotients and remainders, of every two signs.
pub fn divisions() -> Vec<u32> {
    let divided = |(a, b): (i32, i32)| {
        let with_b = [op(LI, a), op(LBI, b), op(DIV, 0), op(LI, a), op(MOD, 0)];
        let with_imm = [op(LI, a), op(DIVI, b), op(LI, a), op(MODI, b)];
        [&with_b[..], &with_imm[..]].concat()
    };
    let (a, b) = (8_000_001, 7);
    [(a, b), (-a, b), (a, -b), (-a, -b)].map(divided).concat()
}

/// Where the flow meter's numbers stand, by sp: the factor, the total, its single, the limit, a quotient.
const FACTOR: i32 = -96;
const TOTAL: i32 = -88;
const SINGLE: i32 = -80;
const LIMIT: i32 = -72;
const MEAN: i32 = -64;

/// A flow meter: pulses counted, made litres by a factor, added up until a limit, a mean taken. Of about 44 steps a round fifteen are floating.
pub fn flow_meter() -> Vec<u32> {
    vec![
        // the next count of pulses, by a table of sixteen words
        op(LCA, 0),
        op(LL, -40),
        op(ADDI, 4),
        op(ANDI, 0x3c),
        op(SL, -40),
        op(LX, 0x4000),
        op(ADDI, 17),
        op(ANDI, 0xff),
        // its litres, added to the total
        op(CUD, 0),
        op(LBLD, FACTOR),
        op(MULF, 0),
        op(LBLD, TOTAL),
        op(ADDF, 0),
        op(SLD, TOTAL),
        op(SLF, SINGLE),
        op(LL, SINGLE),
        op(SL, -44),
        op(LL, -36),
        op(ADDI, 1),
        op(SL, -36),
        op(LBA, 0),
        // beyond the limit the total starts again with what CDI leaves of it
        op(LBLD, LIMIT),
        op(BLTF, 12),
        op(CDI, 0),
        op(ANDI, 7),
        op(CID, 0),
        op(SLD, TOTAL),
        op(LL, -36),
        op(ORI, 1),
        op(CID, 0),
        op(LBAD, 0),
        op(LLD, TOTAL),
        op(DIVF, 0),
        op(SLD, MEAN),
        op(LL, -44),
        op(XORI, 0x55),
        op(SHRI, 3),
        op(SL, -48),
        op(LBL, -36),
        op(MULI, 3),
        op(ADDL, -36),
        op(SRUI, 2),
        op(XOR, 0),
        op(LTU, 0),
        op(BNZ, 4),
        op(NOP, 0),
    ]
}

/// The litres of a flow meter, floating and other instructions in turn: no two floating ones follow each other. Of 17 steps a round eight are floating.
pub fn flow_meter_apart() -> Vec<u32> {
    [
        [op(CUD, 0), op(LL, -36)],
        [op(LBLD, FACTOR), op(ADDI, 1)],
        [op(MULF, 0), op(SL, -36)],
        [op(LBLD, TOTAL), op(LL, -40)],
        [op(ADDF, 0), op(ADDI, 4)],
        [op(SLD, TOTAL), op(ANDI, 0x3c)],
        [op(SLF, SINGLE), op(SL, -40)],
        [op(LBLD, LIMIT), op(LX, 0x4000)],
    ]
    .concat()
}

/// The flow meter's factor and limit, and its pulses at 0x4000: the words that its memory has at the start.
pub fn flow_meter_data(sp: u32) -> Vec<(u32, Vec<u32>)> {
    let double = |value: f64| vec![value.to_bits() as u32, (value.to_bits() >> 32) as u32];
    let at = |place: i32| sp.wrapping_add(place as u32);
    let pulses = (0..16).map(|nth| 40 + nth * 13 % 29).collect();
    vec![(at(FACTOR), double(0.0125)), (at(LIMIT), double(1000.0)), (0x4000, pulses)]
}

/// Loads, stores, a push, a pop, and a call whose target is the return that follows it.
pub fn transfers() -> Vec<u32> {
    let mut body = vec![
        op(SL, -64),
        op(LL, -64),
        op(SLH, -32),
        op(LLS, -32),
        op(LBL, -64),
        op(PSHA, 0),
        op(POPB, 0),
        op(ADDI, 1),
    ];
    body.extend(call(op(JSR, 4)));
    body
}

/// A call of the return that stands after the jump over it.
fn call(instruction: u32) -> [u32; 3] {
    [instruction, op(JMP, 4), op(LEV, 0)]
}

/// A store to each page and a load from it.
pub fn pages(count: i32) -> Vec<u32> {
    (0..count)
        .flat_map(|page| [op(LBI, (FAR_PAGE + page) * 4096 + 64), op(SX, 0), op(LBX, 8)])
        .collect()
}

/// A load from each page.
pub fn touched(count: i32) -> Vec<u32> {
    (0..count).flat_map(|page| [op(LBI, (FAR_PAGE + page) * 4096), op(LBX, 0)]).collect()
}

/// A block instruction over `count` bytes at a, with b.
fn block(code: u32, count: i32, a: i32, b: i32) -> [u32; 5] {
    [op(LI, count), op(LCA, 0), op(LBI, b), op(LI, a), op(code, 0)]
}

pub fn copy_16_kib() -> Vec<u32> {
    block(MCPY, 16384, 0x4000, 0x8000).to_vec()
}

/// Every family of instructions, with data on several pages.
pub fn mixed() -> Vec<u32> {
    [operations(), tests(), memory_accesses(), stack(), blocks(), rare()].concat()
}

fn operations() -> Vec<u32> {
    vec![
        op(LI, 12345),
        op(LBI, 77),
        op(SL, -16),
        op(ADD, 0),
        op(ADDI, 3),
        op(MULI, -3),
        op(DIV, 0),
        op(SUBL, -16),
        op(MOD, 0),
        op(MUL, 0),
        op(LHI, 0x927c00),
        op(DIVI, -7),
        op(MODI, 1001),
        op(ADDL, -16),
        op(DVUI, 10),
        op(MDUI, 1000),
        op(ANDI, 0xff),
        op(ORL, -16),
        op(XOR, 0),
        op(SHLI, 4),
        op(SHRI, 2),
        op(SRUI, 1),
        op(SUB, 0),
    ]
}

/// Comparisons, and branches over a further instruction, taken and not taken.
fn tests() -> Vec<u32> {
    let compared = [EQ, NE, LT, LTU, GE, GEU].map(|code| op(code, 0));
    let [below, above] = [[op(LI, -5), op(LBI, 5)], [op(LI, 9), op(LBI, 5)]];
    let branches = [BZ, BNZ, BE, BNE, BLT, BLTU, BGE, BGEU].map(|code| [op(code, 4), op(NOP, 0)]);
    let branches = branches.concat();
    [&compared[..3], &below[..], &branches[..], &above[..], &branches[..], &compared[3..]].concat()
}

/// Loads and stores at sp, pc, a and b, of every size.
fn memory_accesses() -> Vec<u32> {
    vec![
        op(SL, -24),
        op(SLH, -32),
        op(SLB, -40),
        op(LL, -24),
        op(LLS, -32),
        op(LLH, -32),
        op(LLC, -40),
        op(LLB, -40),
        op(LBL, -24),
        op(LCL, -24),
        op(LG, 0),
        op(LBG, 0),
        op(SG, 0xa00),
        op(LBI, 0x4010),
        op(SX, 0),
        op(SXH, 4),
        op(SXB, 6),
        op(LBX, 8),
        op(LBI, 0x5010),
        op(LBXB, 1),
        op(LI, 0x6010),
        op(LXH, 2),
        op(LI, 0x7010),
        op(LX, 0),
        op(LBHI, 1),
    ]
}

/// Pushes, pops, calls and jumps.
fn stack() -> Vec<u32> {
    let mut body = vec![
        op(ENT, -32),
        op(PSHA, 0),
        op(PSHB, 0),
        op(PSHC, 0),
        op(PSHI, -7),
        op(POPA, 0),
        op(POPC, 0),
        op(POPB, 0),
        op(POPA, 0),
        op(ENT, 32),
        op(LEA, 8),
        op(LEAG, 8),
    ];
    body.extend(call(op(JSR, 4)));
    body.push(op(LI, 4));
    body.extend(call(op(JSRA, 0)));
    body.extend([op(LI, 16), op(JMPI, 0), op(NOP, 0), op(CYC, 0), op(LBA, 0)]);
    body
}

/// The block instructions over eight bytes each: MCMP finds no difference, MCHR no such byte.
fn blocks() -> Vec<u32> {
    [
        block(MSET, 8, 0x8000, 3),
        block(MCPY, 8, 0x9000, 0x8000),
        block(MCMP, 8, 0x9000, 0x8000),
        block(MCHR, 8, 0x9000, 4),
    ]
    .concat()
}

/// Two privileged instructions, and a trap whose handler returns.
fn rare() -> Vec<u32> {
    vec![op(MSIZ, 0), op(LUSP, 0), op(TRAP, 0)]
}
