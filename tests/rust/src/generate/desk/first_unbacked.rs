//! Random questions for the first unbacked page: mostly on hosts that back every page, or all but those behind a few
//! entries that are spoiled, so that the answer is in any segment and behind any sort of entry.

use super::{Case, Desk, Rng};
use crate::desk;
use crate::model::{self, FRAME};

/// All that is handed in to a question. The pages asked about are those from the first number on below the second.
#[derive(Clone)]
pub struct Question {
    pub case: Case,
    pub from: u32,
    pub to: u32,
}

pub fn question(rng: &mut Rng) -> Question {
    let mut desk = Desk::new(rng);
    if desk.rng.percent(80) {
        desk.back_all();
        for _ in 0..desk.rng.pick(&[0, 0, 1, 1, 1, 1, 2, 3]) {
            desk.spoil();
        }
    }
    let (mut from, mut to) = if desk.rng.percent(8) { desk.pages_refused() } else { desk.pages_asked() };
    match desk.rng.below(100) {
        0..=7 => desk.damage(),
        8..=15 => {
            let first = desk.rng.below(FAULTS);
            let second = (first + desk.rng.range(1, FAULTS - 1)) % FAULTS;
            for fault in [first, second] {
                desk.fault(fault, &mut from, &mut to);
            }
        }
        _ => {}
    }
    Question { case: desk.case, from, to }
}

/// A question for the tables as they are, whose pages may be refused.
pub fn next_question(rng: &mut Rng, pages: u32) -> (u32, u32) {
    let page = rng.below(pages);
    match rng.below(20) {
        0 => (page, pages + 1),
        1 => (page + 1, page),
        2 => (page, page),
        3..=9 => (0, pages),
        10..=14 => (page, pages),
        _ => (page, rng.range(page, pages)),
    }
}

/// The kinds of fault(): refusals 1, 2, 3, 4 and 7, an entry that fails, refusal 16.
const FAULTS: u32 = 7;

impl Desk<'_> {
    // -----------------------------------------------------------------------------------------------------------
    // Hosts that back every page.

    fn last_host_page(&self) -> u32 {
        16 * self.origin + self.pages() - 1
    }

    /// Lays tables anew, the page tables about where they were, so that every page is valid; but for pages whose entry
    /// is a segment entry, and where the storage is too small for the segment table.
    fn back_all(&mut self) {
        let needed = self.last_segment() >> 4;
        let length = self.rng.pick(&[needed, needed, 127]);
        self.case.designation = self.case.designation & !0x7F | length;
        let frames = self.last_segment() >> 10;
        if (self.segment_table >> 12) + frames >= self.frames {
            self.move_segment_table(self.frames.saturating_sub(frames + 1));
        }
        let end = self.frames << 12;
        // Under this mask a segment entry is well formed and valid as a page entry too.
        let mask = if self.rng.percent(25) { !0xD00 } else { !0 };
        let tables = self.page_tables.iter().map(|&table| table.min(end - 1024) & mask).collect();
        self.page_tables = tables;
        self.lay_valid_pages();
        for segment in self.first_segment()..=self.last_segment() {
            let table = self.rng.pick(&self.page_tables.clone());
            let last = if segment == self.last_segment() { self.last_host_page() & 0xFF } else { 0xFF };
            let length = if self.rng.percent(50) { 15 } else { last >> 4 };
            // Bit 27 is ignored.
            let entry = table | length | self.rng.word() & 0x10;
            self.put_word(self.segment_table + 4 * segment, entry);
        }
    }

    /// Page tables of valid entries, in some hosts with frames past the storage.
    fn lay_valid_pages(&mut self) {
        let past = self.rng.pick(&[0, 0, 0, 2, 100]);
        for table in self.page_tables.clone() {
            for index in 0..256 {
                let entry = self.valid_entry(past);
                self.put_word(table + 4 * index, entry);
            }
        }
    }

    fn valid_entry(&mut self, past: u32) -> u32 {
        let frame = if self.rng.percent(past) {
            self.frames + self.rng.pick(&[0, 1, 100, 0x7_0000])
        } else if self.free_frames.is_empty() || self.rng.per_mille(1) {
            self.rng.below(self.frames)
        } else {
            self.free_frames[self.rng.below(self.free_frames.len() as u32) as usize]
        };
        // Bit 22 protects, bits 24-31 are ignored.
        frame << 12 | self.rng.word() & 0x2FF
    }

    /// The designation of a segment table at a frame, which need not be in the storage. Its entries are not laid.
    fn move_segment_table(&mut self, frame: u32) {
        self.segment_table = frame << 12;
        self.case.designation = self.case.designation & 0x8000_0FFF | self.segment_table;
    }

    // -----------------------------------------------------------------------------------------------------------
    // What takes the backing of a page away.

    /// A page of the extent, often the first or the last of it or of a segment.
    fn boundary_page(&mut self) -> u32 {
        let first = 16 * self.origin;
        let segment = self.rng.range(self.first_segment(), self.last_segment());
        match self.rng.below(10) {
            0 => 0,
            1 => self.pages() - 1,
            2..=4 => (segment << 8).max(first) - first,
            5..=6 => (segment << 8 | 0xFF).min(self.last_host_page()) - first,
            _ => self.rng.below(self.pages()),
        }
    }

    fn spoil(&mut self) {
        let page = self.boundary_page();
        let across = self.first_segment() < 1024 && self.last_segment() >= 1024;
        if across && self.rng.percent(30) {
            self.cut_segment_table();
            return;
        }
        match self.rng.below(100) {
            0..=39 => self.spoil_page_entry(page),
            40..=91 => self.spoil_segment_entry(page),
            92..=97 => self.shorten_segment_table(page),
            _ => {
                let past = self.rng.pick(&[0, 0, 1, 0x7_0000]);
                self.move_segment_table(self.frames + past);
            }
        }
    }

    fn spoil_page_entry(&mut self, page: u32) {
        let Some(at) = self.tables().page_entry(page) else { return };
        let entry = model::word(&self.case.storage, at);
        let flags = self.rng.pick(&[0x400, 0x400, 0x400, 0x8000_0000, 0x800, 0x100, 0x8000_0400, 0xC00, 0x500]);
        model::set_word(&mut self.case.storage, at, entry | flags);
    }

    fn spoil_segment_entry(&mut self, page: u32) {
        let host_page = 16 * self.origin + page;
        let Some(at) = self.tables().segment_entry(host_page >> 8) else { return };
        let entry = model::word(&self.case.storage, at);
        let block = host_page >> 4 & 15;
        let end = self.frames << 12;
        let spoiled = match self.rng.below(10) {
            0..=1 => entry | 0x20,
            2..=3 => entry | 0x8000_0000,
            4 => entry | 0x8000_0020,
            5..=6 => entry & !15 | block.saturating_sub(1),
            // A page table with the entries of the blocks below in the storage.
            7..=8 => {
                let table = end - 64 * block;
                for at in (table..end).step_by(4) {
                    let entry = self.valid_entry(0);
                    self.put_word(at, entry);
                }
                table | 15
            }
            _ => self.rng.pick(&[end, end + 0x1000, 0x7FFF_FFC0]) | 15,
        };
        model::set_word(&mut self.case.storage, at, spoiled);
    }

    fn shorten_segment_table(&mut self, page: u32) {
        let length = self.segment_of(page) >> 4;
        self.case.designation = self.case.designation & !0x7F | length.saturating_sub(1);
    }

    /// Moves the segment table into the last frame, so that entries from 1,024 on are past the storage.
    fn cut_segment_table(&mut self) {
        let (first, last) = (self.first_segment(), self.last_segment().min(1023));
        let from = (self.segment_table + 4 * first) as usize..(self.segment_table + 4 * last + 4) as usize;
        self.move_segment_table(self.frames - 1);
        let to = (self.segment_table + 4 * first) as usize;
        if from.end <= self.case.storage.len() {
            self.case.storage.copy_within(from, to);
        }
    }

    // -----------------------------------------------------------------------------------------------------------
    // The pages asked about.

    fn pages_asked(&mut self) -> (u32, u32) {
        let pages = self.pages();
        let unbacked = desk::survey(self.tables(), 0, pages);
        let page = if unbacked.is_empty() || self.rng.percent(30) {
            self.boundary_page()
        } else if self.rng.percent(50) {
            unbacked[0]
        } else {
            self.rng.pick(&unbacked)
        };
        let near = [page, page + 1, page.saturating_sub(1)];
        let other = self.boundary_page();
        let (first, second) = match self.rng.below(100) {
            0..=29 => (0, pages),
            30..=39 => (self.rng.pick(&near), pages),
            40..=49 => (0, self.rng.pick(&near)),
            50..=59 => (self.rng.pick(&near), self.rng.pick(&near)),
            60..=69 => (other, self.rng.pick(&near)),
            70..=79 => (other, pages),
            80..=84 => (page, page),
            85..=87 => self.rng.pick(&[(0, 0), (pages, pages)]),
            88..=93 => (other, self.boundary_page() + 1),
            _ => (self.rng.below(pages), self.rng.below(pages + 1)),
        };
        (first.min(second), first.max(second))
    }

    /// For refusal 16.
    fn pages_refused(&mut self) -> (u32, u32) {
        let pages = self.pages();
        let page = self.boundary_page();
        let far = self.rng.pick(&[0x8_0001, 0x10_0000, 0x8000_0000, 0x8000_0000 + pages, u32::MAX - 1, u32::MAX]);
        match self.rng.below(12) {
            0 => (0, pages + 1),
            1 => (page, pages + 1),
            2 => (pages, pages + 1),
            3 => (pages + 1, pages + 1),
            4 => (page, far),
            5 => (far, far),
            6..=7 => (page + 1, page),
            8 => (pages, self.rng.below(pages)),
            9 => (pages + 1, pages),
            10 => (far, page),
            _ => (far, self.rng.range(pages + 1, far)),
        }
    }

    // -----------------------------------------------------------------------------------------------------------
    // Two faults at once, for the order of the refusals.

    fn fault(&mut self, kind: u32, from: &mut u32, to: &mut u32) {
        let bit = 1 << self.rng.below(8);
        let Case { record, storage, keys, .. } = &mut self.case;
        match kind {
            0 => record[1] ^= bit,
            1 => record[2] ^= bit,
            2 => storage.resize(storage.len() + self.rng.pick(&[4, 2048, 4095]), 0),
            3 => keys.resize(keys.len() + self.rng.pick(&[1, 2, FRAME]), 0),
            4 => record[66 + self.rng.below(6) as usize] = bit,
            5 => match self.rng.below(3) {
                0 => record[4] |= 0x02,
                1 => record[4] &= 0xF3,
                _ => record[12] |= 0x80,
            },
            _ => (*from, *to) = self.pages_refused(),
        }
    }
}
