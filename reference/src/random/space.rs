//! Address spaces: page tables plain, self-mapped and aliased, with words that
//! lack rights or lead beyond memory; or no paging at all.

use super::rng::Rng;
use super::values::offset;
use crate::translate::{A, D, P, U, W};
use crate::types::PAGE;
use crate::words;

/// Where the program, its trap handler and the stack's top stand in their
/// pages. Table words are put below the program, so all fit in one frame.
pub const PROGRAM: u32 = 0x400;
pub const HANDLER: u32 = 0xb00;
pub const STACK_TOP: u32 = 0xf80;

/// Table indices used for plain and aliased pages, and for sweeps over many.
const ALIASES: [u32; 5] = [16, 17, 18, 19, 1023];
const WIDE_FIRST: u32 = 32;
const WIDE_COUNT: u32 = 96;

pub struct Space {
    pub memory_size: u32,
    pub pdir: u32,
    /// The addresses of the pages with program and stack.
    pub code: u32,
    pub stack: u32,
    /// The frame the program stands in.
    pub code_frame: u32,
    /// Pages worth asking for, with the frame they lead to if they do.
    pub pages: Vec<(u32, Option<u32>)>,
    /// The table under the first directory word.
    pub table: u32,
    /// The physical addresses of the words in use.
    pub words: Vec<u32>,
    /// The first of many pages in a row, if there are.
    pub wide: Option<u32>,
}

impl Space {
    /// The addresses are the physical ones; there may be tables all the same.
    pub fn unpaged(rng: &mut Rng, memory_size: u32) -> Space {
        let frames = memory_size / PAGE;
        let code_frame = rng.below(frames);
        Space {
            memory_size,
            pdir: PAGE * rng.below(frames),
            code: PAGE * code_frame,
            stack: PAGE * rng.below(frames),
            code_frame,
            pages: (0..=frames).map(|page| (page, Some(page))).collect(),
            table: 0,
            words: Vec::new(),
            wide: None,
        }
    }

    /// An address in a page worth asking for, or right beside one.
    pub fn address(&self, rng: &mut Rng) -> u32 {
        if !self.words.is_empty() && rng.percent(20) {
            return self.view(rng).unwrap_or(0).wrapping_add(rng.below(4));
        }
        let page = rng.pick(&self.pages).0;
        let beside = if rng.percent(5) { rng.between(-1, 1) as u32 } else { 0 };
        page.wrapping_add(beside).wrapping_mul(PAGE).wrapping_add(offset(rng))
    }

    /// An address through which a word of the tables is seen.
    pub fn view(&self, rng: &mut Rng) -> Option<u32> {
        if self.words.is_empty() {
            return None;
        }
        let word = rng.pick(&self.words);
        self.view_of(rng, word)
    }

    /// A page under the first directory word, and an address through which its
    /// table word is seen.
    pub fn word_of_page(&self, rng: &mut Rng) -> Option<(u32, u32)> {
        if self.words.is_empty() {
            return None;
        }
        let page = rng.pick(&self.pages).0 % 1024;
        let view = self.view_of(rng, self.table + 4 * page)?;
        Some((page, view))
    }

    fn view_of(&self, rng: &mut Rng, word: u32) -> Option<u32> {
        let through: Vec<u32> = self
            .pages
            .iter()
            .filter(|page| page.1 == Some(word / PAGE))
            .map(|page| page.0 * PAGE + word % PAGE)
            .collect();
        (!through.is_empty()).then(|| rng.pick(&through))
    }
}

/// Bits of a word: mostly all rights, at times one fewer, marks at random.
pub fn bits(rng: &mut Rng, lacking: u32) -> u32 {
    let mut bits = P | W | U;
    if rng.percent(lacking) {
        bits &= !rng.pick(&[P, W, U, W | U]);
    }
    if rng.percent(30) {
        bits |= rng.pick(&[A, A | D, D]);
    }
    if rng.percent(10) {
        bits |= rng.word() & 0xf98;
    }
    bits
}

struct Builder<'a> {
    rng: &'a mut Rng,
    memory: &'a mut [u8],
    frames: u32,
    words: Vec<u32>,
}

impl Builder<'_> {
    fn frame(&mut self) -> u32 {
        self.rng.below(self.frames)
    }

    fn put(&mut self, table: u32, index: u32, frame: u32, bits: u32) {
        let at = table * PAGE + 4 * index;
        words::put(self.memory, at, 4, frame * PAGE + bits);
        self.words.push(at);
    }

    /// A frame mostly in memory, at times just or far beyond it.
    fn any_frame(&mut self) -> u32 {
        match self.rng.weighted(&[12, 1, 1]) {
            0 => self.frame(),
            1 => self.frames,
            _ => self.rng.below(1 << 20),
        }
    }

    /// The first word leads to the table; the others there too, to a second
    /// one, to the directory itself, or anywhere.
    fn fill_directory(&mut self, directory: u32, table: u32) {
        let second = self.frame();
        if second != table && second != directory && self.rng.percent(50) {
            self.fill_table(second, false);
        }
        for top in [1, 2, 1023] {
            let frame = match self.rng.weighted(&[3, 3, 3, 2]) {
                0 => table,
                1 => second,
                2 => directory,
                _ => self.any_frame(),
            };
            let bits = bits(self.rng, 15);
            self.put(directory, top, frame, bits);
        }
        let bits = bits(self.rng, 4);
        self.put(directory, 0, table, bits);
    }

    /// Page i leads to frame i, the aliases anywhere.
    fn fill_table(&mut self, table: u32, wide: bool) {
        for index in 0..self.frames {
            let bits = bits(self.rng, 12);
            self.put(table, index, index, bits);
        }
        for index in ALIASES {
            let (frame, bits) = (self.any_frame(), bits(self.rng, 30));
            self.put(table, index, frame, bits);
        }
        if wide {
            for index in WIDE_FIRST..WIDE_FIRST + WIDE_COUNT {
                let (frame, bits) = (self.frame(), bits(self.rng, 3));
                self.put(table, index, frame, bits);
            }
        }
    }
}

/// Builds a directory and its tables in memory. The directory may be its own
/// table, the tables may be shared, and any of them may share the program's
/// frame.
pub fn build(rng: &mut Rng, memory: &mut [u8]) -> Space {
    let memory_size = memory.len() as u32;
    let wide = rng.percent(15);
    let mut builder = Builder { rng, memory, frames: memory_size / PAGE, words: Vec::new() };
    let directory = builder.frame();
    let self_mapped = builder.rng.percent(20);
    let table = if self_mapped { directory } else { builder.frame() };
    builder.fill_table(table, wide);
    builder.fill_directory(directory, table);
    let code_frame = builder.frame();
    let stack_frame = builder.frame();
    // The program's own page mostly has its rights.
    let open = bits(builder.rng, 3);
    if !(self_mapped && code_frame == 0) {
        builder.put(table, code_frame, code_frame, open);
    }
    let words = builder.words;
    let wide = wide.then_some(WIDE_FIRST * PAGE);
    Space {
        memory_size,
        pdir: directory * PAGE,
        code: code_frame * PAGE,
        stack: stack_frame * PAGE,
        code_frame,
        pages: pages(memory, directory * PAGE, wide),
        table: table * PAGE,
        words,
        wide,
    }
}

/// The pages under the used directory words, followed as a walk would,
/// whatever the rights.
fn pages(memory: &[u8], pdir: u32, wide: Option<u32>) -> Vec<(u32, Option<u32>)> {
    let memory_size = memory.len() as u32;
    // The last frames of a large memory, and the first beyond it.
    let frames = memory_size / PAGE;
    let last = frames.max(23) - 2..(frames + 1).max(21);
    let mut pages = Vec::new();
    for top in [0, 1, 2, 1023] {
        let directory = words::get(memory, pdir + 4 * top, 4) & !(PAGE - 1);
        let wide = wide.map_or(0..0, |_| 32..40);
        for index in (0..=20).chain([1023]).chain(wide).chain(last.clone()) {
            let page = top * 1024 + index;
            if directory >= memory_size {
                pages.push((page, None));
                continue;
            }
            let table = words::get(memory, directory + 4 * index, 4);
            let present = table & P != 0 && table < memory_size;
            if table != 0 || index == 20 {
                pages.push((page, present.then_some(table / PAGE)));
            }
        }
    }
    pages
}
