//! Random calls at the page desk: hosts whose tables are shared, overlap, lie in guest frames or across the end of the
//! storage, laid so that each refusal and each part of refusal 14 occurs often, alone and with others.

use super::{Builder, Case, Machine, Rng};
use crate::desk::{Call, Tables};
use crate::model::{self, FRAME};

pub mod first_unbacked;

/// All that is handed in to a call.
#[derive(Clone)]
pub struct DeskCase {
    pub case: Case,
    pub call: Call,
    /// The number of valid pages, true or not.
    pub number: u32,
    /// The workspace.
    pub words: Vec<u32>,
}

pub fn desk_case(rng: &mut Rng) -> DeskCase {
    let mut desk = Desk::new(rng);
    let call = desk.call();
    let number = desk.number();
    let words = desk.workspace();
    if desk.rng.percent(14) {
        desk.damage();
    }
    DeskCase { case: desk.case, call, number, words }
}

/// A host whose tables are mostly good, with a guest that loads and stores all over its extent, to be run and changed
/// in turn.
pub fn desk_host(rng: &mut Rng) -> Case {
    let mut desk = Desk::new(rng);
    desk.lay_guest();
    desk.case
}

/// A call for the tables as they are. The frames are those that may be added.
pub fn next_call(rng: &mut Rng, tables: Tables, frames: &[u32]) -> Call {
    let page = choose_page(rng, tables, 25);
    match rng.below(20) {
        0..=8 => Call::Add { page: choose_page(rng, tables, 75), frame: rng.pick(frames) },
        9..=14 => Call::Remove { page },
        15..=18 => Call::Protect { page },
        _ => Call::List,
    }
}

/// A page of the extent or past it; one in reach that is not valid with the chance given.
fn choose_page(rng: &mut Rng, tables: Tables, not_valid: u32) -> u32 {
    let pages = tables.pages();
    match rng.below(100) {
        0..=2 => pages,
        3 => pages.wrapping_add(rng.pick(&[1, 15, 16, 255, 0x10_0000, 0x8000_0000, 0xFFFF_FFFF])),
        4 => rng.pick(&[0xFFFF_FFFF, 0x0008_0000, 0x000F_FFFF, 0x0010_0000]),
        5..=9 => rng.pick(&[0, pages - 1]),
        10..=15 => rng.below(pages),
        _ => {
            // A page of the sort wanted, among some tried.
            let valid = !rng.percent(not_valid);
            let mut page = rng.below(pages);
            for _ in 0..40 {
                if tables.page_entry(page).is_some() && tables.is_valid(page) == valid {
                    break;
                }
                page = rng.below(pages);
            }
            page
        }
    }
}

/// The states of a host.
#[derive(Clone, Copy, PartialEq, Eq)]
enum Shape {
    /// A page table for each segment, no table in a guest frame.
    Clean,
    /// The same, with one page in a frame of a table.
    OnePageInTable,
    /// Tables shared by segments, or overlapping.
    Shared,
    /// A page table over the entries of the segment table.
    OverSegments,
    /// Anything.
    Wild,
}

struct Desk<'a> {
    rng: &'a mut Rng,
    shape: Shape,
    case: Case,
    frames: u32,
    /// Origin and extent in 64 KiB blocks.
    origin: u32,
    extent: u32,
    segment_table: u32,
    page_tables: Vec<u32>,
    /// Frames with no table in them, and those with one.
    free_frames: Vec<u32>,
    table_frames: Vec<u32>,
    /// A page whose entry is laid over a segment entry.
    over: Option<u32>,
}

impl<'a> Desk<'a> {
    fn new(rng: &'a mut Rng) -> Desk<'a> {
        let frames = match rng.below(10_000) {
            0..=399 => rng.range(1, 2),
            400..=799 => rng.range(9, 40),
            800..=802 => 4096,
            _ => rng.range(3, 8),
        };
        let shape = match rng.below(100) {
            0..=34 => Shape::Clean,
            35..=49 => Shape::OnePageInTable,
            50..=67 => Shape::Shared,
            68..=84 => Shape::OverSegments,
            _ => Shape::Wild,
        };
        let mut storage = vec![0; frames as usize * FRAME];
        if rng.percent(60) && frames < 4096 {
            rng.fill(&mut storage);
        }
        let (keys, record, addresses) = (vec![0; frames as usize], Vec::new(), Vec::new());
        let case = Case { record, storage, keys, designation: 0, clock: 0, time: 1, budget: 0, addresses };
        let mut desk = Desk {
            rng,
            shape,
            case,
            frames,
            origin: 0,
            extent: 1,
            segment_table: 0,
            page_tables: Vec::new(),
            free_frames: Vec::new(),
            table_frames: Vec::new(),
            over: None,
        };
        desk.rng.fill(&mut desk.case.keys);
        desk.choose_extent();
        desk.make_record();
        desk.place_tables();
        desk.lay_pages();
        desk.lay_segments();
        desk.disturb();
        desk
    }

    // -----------------------------------------------------------------------------------------------------------
    // The record.

    fn choose_extent(&mut self) {
        // Most of those over segments touch two at least.
        let least = if self.shape == Shape::OverSegments { self.rng.pick(&[0, 5000, 7000]) } else { 0 };
        self.extent = match self.rng.range(least, 9999) {
            0..=2999 => self.rng.range(1, 2),
            3000..=4499 => self.rng.range(3, 14),
            4500..=6499 => self.rng.range(15, 18),
            6500..=8999 => self.rng.range(19, 36),
            9000..=9899 => self.rng.range(37, 70),
            9900..=9997 => self.rng.range(71, 300),
            _ => self.rng.pick(&[32_767, 32_768]),
        };
        let most = 32_768 - self.extent;
        let back = self.rng.below(self.extent + 1);
        self.origin = match self.rng.below(100) {
            0..=24 => 0,
            25..=49 => self.rng.below(40),
            // Across the end of a segment, of a unit of the segment table's length, and of the table's first frame.
            50..=69 => (16 * self.rng.range(1, 20)).saturating_sub(back),
            70..=84 => (256 * self.rng.pick(&[1, 1, 2, 3, 63, 126, 127u32])).saturating_sub(back),
            85..=92 => 16_384u32.saturating_sub(back),
            93..=95 => most,
            _ => self.rng.below(32_768),
        };
        self.origin = self.origin.min(most);
    }

    fn pages(&self) -> u32 {
        16 * self.extent
    }

    fn first_segment(&self) -> u32 {
        self.origin >> 4
    }

    fn last_segment(&self) -> u32 {
        (self.origin + self.extent - 1) >> 4
    }

    /// A good record, 200 or 208 bytes. All that plays no part is random.
    fn make_record(&mut self) {
        let larger = self.rng.percent(50);
        let mut record = vec![0; if larger { 208 } else { 200 }];
        self.rng.fill(&mut record);
        let length = record.len() as u16;
        record[..2].copy_from_slice(&length.to_be_bytes());
        record[2] = if larger { 2 } else { 1 };
        let system_370 = larger && self.rng.percent(50);
        record[4] = record[4] & 0xF1 | if system_370 { 0x04 } else { 0x08 };
        let prefix = if self.rng.percent(20) { self.pages() - 1 } else { self.rng.below(self.pages()) };
        let prefix = if system_370 { prefix.min(0xFFF) } else { prefix };
        model::set_word(&mut record, 8, prefix << 12 | self.rng.word() & 0x8000_0FFF);
        record[12..14].copy_from_slice(&(self.origin as u16).to_be_bytes());
        record[14..16].copy_from_slice(&(self.extent as u16).to_be_bytes());
        record[66..72].fill(0);
        if larger {
            record[201..204].fill(0);
            model::set_word(&mut record, 204, self.rng.below(40_960_000));
        }
        self.case.record = record;
    }

    // -----------------------------------------------------------------------------------------------------------
    // The tables.

    fn place_tables(&mut self) {
        // Entries from 1,024 on are in the table's second frame.
        let (first, last) = (self.first_segment() >> 10, self.last_segment() >> 10);
        let at = match self.rng.below(100) {
            0..=4 => self.rng.pick(&[self.frames - 1, self.frames, self.frames.saturating_sub(2)]),
            _ if self.frames > last => self.rng.below(self.frames - last),
            _ => 0,
        };
        self.segment_table = at << 12;
        let needed = self.last_segment() >> 4;
        let length = match self.rng.below(100) {
            0..=59 => needed,
            60..=69 => 127,
            70..=91 => self.rng.range(needed, 127),
            _ => needed.saturating_sub(self.rng.range(1, 2)),
        };
        // Bits 0 and 20-24 are ignored.
        self.case.designation = self.segment_table | length | self.rng.word() & 0x8000_0F80;
        self.table_frames = (at + first..=at + last).filter(|&frame| frame < self.frames).collect();
        self.place_page_tables();
        let tables = self.table_frames.clone();
        self.free_frames = (0..self.frames).filter(|frame| !tables.contains(frame)).collect();
    }

    /// One for each segment where the shape asks for it and they are not too many, else some few.
    fn place_page_tables(&mut self) {
        let segments = self.last_segment() - self.first_segment() + 1;
        let apart = matches!(self.shape, Shape::Clean | Shape::OnePageInTable);
        let count = if apart || self.rng.percent(30) { segments.min(8) } else { self.rng.range(1, 4) };
        let mut frame = self.rng.below(self.frames);
        let mut offset = 64 * self.rng.pick(&[0, 0, 1, 4, 8]);
        for _ in 0..count {
            // Room for a whole table in this frame, else in another.
            if offset + 1024 > 4096 {
                frame = self.rng.below(self.frames);
                offset = 0;
            }
            let plain = frame << 12 | offset;
            offset += 1024 + 64 * self.rng.pick(&[0, 0, 1, 3]);
            let table = self.page_table(plain, apart);
            self.page_tables.push(table);
            for at in [table, table + 1020] {
                let frame = at >> 12;
                if frame < self.frames && !self.table_frames.contains(&frame) {
                    self.table_frames.push(frame);
                }
            }
        }
    }

    /// The place of a page table: the plain one, or over another table or the end of the storage.
    fn page_table(&mut self, plain: u32, apart: bool) -> u32 {
        let last = self.page_tables.last().copied();
        if self.shape == Shape::OverSegments && last.is_none() {
            return self.table_over_segments();
        }
        let end = self.frames << 12;
        let choice = self.rng.below(100);
        match (choice, last) {
            (0..=2, _) => end - (64 * self.rng.range(0, 15)).min(end),
            (3..=6, _) if !apart => end - (64 * self.rng.range(0, 15)).min(end),
            (7..=46, Some(last)) if !apart => {
                let by = 64 * self.rng.range(1, 16);
                if self.rng.percent(50) {
                    last + by
                } else {
                    last.saturating_sub(by)
                }
            }
            (47..=52, _) if !apart => self.segment_table + 64 * self.rng.below(64),
            (53..=54, _) if !apart => self.table_over_segments(),
            _ => plain,
        }
    }

    /// A table in which the entry of a page of the extent stands at a segment entry of the extent, mostly that of
    /// another segment.
    fn table_over_segments(&mut self) -> u32 {
        let segment = self.rng.range(self.first_segment(), self.last_segment());
        let at = self.segment_table + 4 * segment;
        // Tables start at multiples of 64 bytes.
        let table = at.saturating_sub(4 * self.rng.below(256)) & !63;
        let index = (at - table) / 4;
        let host_pages = 16 * self.origin..16 * self.origin + self.pages();
        let mut fitting: Vec<u32> = host_pages.filter(|page| page & 0xFF == index).take(8).collect();
        if fitting.len() > 1 && self.rng.percent(80) {
            fitting.retain(|page| page >> 8 != segment);
        }
        if !fitting.is_empty() && index < 256 {
            self.over = Some(self.rng.pick(&fitting) - 16 * self.origin);
        }
        table
    }

    fn put_word(&mut self, at: u32, value: u32) {
        if at as usize + 4 <= self.case.storage.len() {
            model::set_word(&mut self.case.storage, at as usize, value);
        }
    }

    fn lay_pages(&mut self) {
        let valid = self.rng.pick(&[20, 50, 50, 80, 95]);
        for table in self.page_tables.clone() {
            for index in 0..256 {
                let entry = self.page_entry(valid);
                self.put_word(table + 4 * index, entry);
            }
        }
    }

    /// A frame for a page: mostly one without tables.
    fn frame(&mut self) -> u32 {
        if self.free_frames.is_empty() || self.shape == Shape::Wild && self.rng.per_mille(5) {
            return self.frames + self.rng.pick(&[0, 0, 1, 100]);
        }
        self.rng.pick(&self.free_frames.clone())
    }

    fn page_entry(&mut self, valid: u32) -> u32 {
        let frame = self.frame();
        // Bit 22 protects, bits 24-31 are ignored.
        let entry = frame << 12 | self.rng.word() & 0xFF | if self.rng.percent(15) { 0x200 } else { 0 };
        if self.rng.percent(valid) {
            return entry;
        }
        match self.rng.below(20) {
            0..=10 => entry | 0x400,
            11..=12 => entry | self.rng.pick(&[0x8000_0400, 0xC00, 0x500]),
            13..=16 => entry | self.rng.pick(&[0x8000_0000, 0x800, 0x100]),
            17..=18 => (self.frames + self.rng.pick(&[0, 0, 1, 100, 0x7_0000])) << 12 & 0x7FFF_F000 | entry & 0x2FF,
            _ => self.rng.word(),
        }
    }

    fn lay_segments(&mut self) {
        let mut next = 0;
        for segment in self.first_segment()..=self.last_segment() {
            let apart = matches!(self.shape, Shape::Clean | Shape::OnePageInTable);
            let table = if apart { self.page_tables[next] } else { self.rng.pick(&self.page_tables.clone()) };
            next = (next + 1) % self.page_tables.len();
            let mut entry = self.segment_entry(table);
            if self.shape == Shape::OverSegments && self.over.is_some_and(|page| self.segment_of(page) == segment) {
                entry = self.page_tables[0] | 15;
            }
            self.put_word(self.segment_table + 4 * segment, entry);
        }
    }

    fn segment_of(&self, page: u32) -> u32 {
        (16 * self.origin + page) >> 8
    }

    fn segment_entry(&mut self, table: u32) -> u32 {
        // Bit 27 is ignored.
        let entry = table & 0x7FFF_FFC0 | 15 | self.rng.word() & 0x10;
        match self.rng.below(100) {
            0..=1 => entry | 0x20,
            2..=4 => entry | 0x8000_0000,
            5 => entry | 0x8000_0020,
            6..=11 => entry & !15 | self.rng.below(16),
            12..=13 => entry & !15 | (self.origin & 15).wrapping_sub(self.rng.below(2)) & 15,
            14 => (self.frames << 12).wrapping_add(64 * self.rng.below(4)) & 0x7FFF_FFC0 | 15,
            _ => entry,
        }
    }

    /// What the shape asks for after the tables are laid.
    fn disturb(&mut self) {
        if self.shape == Shape::OverSegments && self.rng.percent(70) {
            self.disturb_segment_entry();
        }
        let pages = match self.shape {
            Shape::OnePageInTable => 1,
            Shape::Wild => self.rng.below(4),
            _ => 0,
        };
        for _ in 0..pages {
            let page = self.rng.below(self.pages());
            let frame = if self.table_frames.is_empty() { 0 } else { self.rng.pick(&self.table_frames.clone()) };
            if let Some(at) = self.tables().page_entry(page) {
                let flags = self.rng.pick(&[0, 0, 0, 0x200]);
                model::set_word(&mut self.case.storage, at, frame << 12 | flags);
            }
        }
    }

    /// Gives a segment entry under a page's entry another value: one that names no tables, or tables past the storage.
    fn disturb_segment_entry(&mut self) {
        let Some(page) = self.over else { return };
        let Some(at) = self.tables().page_entry(page) else { return };
        // Its own segment's entry stays.
        if at as u32 == self.segment_table + 4 * self.segment_of(page) {
            return;
        }
        let frame = self.frame() << 12;
        let flags = self.rng.pick(&[0, 0, 0, 0x200, 0x400, 0x400, 0x600, 0x100, 0x800]);
        let entry = match self.rng.below(10) {
            0..=4 => frame | flags | 0x20,
            5..=7 => (self.frames + self.rng.below(3)) << 12 | flags & 0x7FF,
            8 => 0x8000_0000 | frame | flags,
            _ => frame | flags | self.rng.below(16),
        };
        model::set_word(&mut self.case.storage, at, entry);
    }

    fn tables(&self) -> Tables<'_> {
        Tables { record: &self.case.record, storage: &self.case.storage, designation: self.case.designation }
    }

    // -----------------------------------------------------------------------------------------------------------
    // The call.

    fn call(&mut self) -> Call {
        let kind = self.rng.below(100);
        let not_valid = if kind < 34 { 85 } else { 12 };
        let case = &self.case;
        let tables = Tables { record: &case.record, storage: &case.storage, designation: case.designation };
        let mut page = choose_page(self.rng, tables, not_valid);
        // The page over a segment entry, and one in the frame of a table.
        if let Some(over) = self.over.filter(|_| self.rng.percent(60)) {
            page = over;
        } else if self.shape == Shape::OnePageInTable && self.rng.percent(40) {
            page = self.page_in_table().unwrap_or(page);
        }
        match kind {
            0..=33 => Call::Add { page, frame: self.added_frame() },
            34..=58 => Call::Remove { page },
            59..=83 => Call::Protect { page },
            _ => Call::List,
        }
    }

    fn page_in_table(&self) -> Option<u32> {
        let tables = self.tables();
        (0..self.pages()).find(|&page| tables.frame_of(page).is_some_and(|frame| self.table_frames.contains(&frame)))
    }

    fn added_frame(&mut self) -> u32 {
        match self.rng.below(100) {
            0..=4 => self.frames,
            5..=6 => self.frames + 1,
            7 => self.rng.pick(&[0x7_FFFF, 0x8_0000, 0xF_FFFF, 0x10_0000, 0x8000_0000, u32::MAX]),
            // A good frame but for bits that the entry has no room for.
            8 => self.rng.below(self.frames) | self.rng.pick(&[0x8_0000, 0x10_0000, 0x8000_0000]),
            9..=12 => self.frames - 1,
            13..=35 if !self.table_frames.is_empty() => self.rng.pick(&self.table_frames.clone()),
            36..=45 => self.rng.below(self.frames),
            _ if self.free_frames.is_empty() => self.rng.below(self.frames),
            _ => self.rng.pick(&self.free_frames.clone()),
        }
    }

    fn number(&mut self) -> u32 {
        match self.rng.below(10) {
            0..=1 => 0,
            2..=3 => u32::MAX,
            4 => self.rng.pick(&[1, 0x7FFF_FFFF, 0x8000_0000, u32::MAX - 1]),
            5..=7 => self.tables().valid_pages(),
            _ => self.rng.word(),
        }
    }

    fn workspace(&mut self) -> Vec<u32> {
        let pages = self.pages() as usize;
        let length = match self.rng.below(20) {
            0..=7 => pages,
            8..=11 => pages - 1,
            12..=13 => pages + 1,
            14..=16 => pages + self.rng.range(2, 20) as usize,
            17 => 0,
            18 => self.rng.below(self.pages()) as usize,
            _ => 2 * pages,
        };
        (0..length).map(|_| self.rng.word()).collect()
    }

    /// Refusals 1 to 4 and 7, and entries that fail.
    fn damage(&mut self) {
        let machine = if self.case.record.len() == 208 { Machine::XaLarger } else { Machine::Xa };
        let case = self.case.clone();
        let mut builder = Builder::new(self.rng, machine);
        builder.case = case;
        builder.origin = self.origin;
        builder.extent = self.extent;
        for _ in 0..builder.rng.pick(&[1, 1, 1, 2]) {
            let kind = builder.rng.pick(&[0, 1, 2, 3, 4, 4, 7, 7, 8, 9, 10, 11]);
            if machine == Machine::XaLarger && builder.rng.percent(40) {
                builder.damage_larger_record();
            } else {
                builder.damage_one(kind);
            }
        }
        self.case = builder.case;
    }

    // -----------------------------------------------------------------------------------------------------------
    // A guest to be run.

    /// DAT off, key 0 and a PSW that goes on in a page of the extent; instructions in every frame without tables;
    /// registers that point into the extent.
    fn lay_guest(&mut self) {
        for frame in self.free_frames.clone() {
            let first = frame as usize * FRAME;
            let text = self.text(FRAME);
            self.case.storage[first..first + FRAME].copy_from_slice(&text);
        }
        let pages = self.pages();
        let tables = self.tables();
        let start = (0..pages).find(|&page| tables.is_valid(page)).unwrap_or(0);
        let address = start << 12 | 4 * self.rng.below(1000);
        let record = &mut self.case.record;
        // No requests, no interception controls; system/370 or 31-bit addressing by the mode.
        record[3] = 0;
        record[5..8].fill(0);
        record[48] = 0;
        let psw = if record[4] & 0x04 != 0 { 0x0008_0000_0000_0000 } else { 0x0008_0000_8000_0000 };
        model::set_doubleword(record, 16, psw | address as u64);
        record[72..136].fill(0);
        for register in 0..16 {
            let address = self.rng.below(pages) << 12 | self.rng.below(4096);
            model::set_word(&mut self.case.record, 136 + 4 * register, address);
        }
        self.case.clock = self.rng.next();
        // Few of the runs are refused.
        self.case.time = if self.rng.percent(2) { 0 } else { self.rng.range(1, 1000) };
        self.case.budget = self.rng.range(1, 30);
    }

    /// ST, L, AR, LR and LA.
    fn text(&mut self, length: usize) -> Vec<u8> {
        let mut text = Vec::with_capacity(length + 4);
        while text.len() < length {
            let registers = self.rng.byte();
            let base = self.rng.byte() & 0xF0 | self.rng.byte() & 0x0F;
            match self.rng.below(8) {
                0..=2 => text.extend([0x50, registers & 0xF0, base, registers]),
                3..=4 => text.extend([0x58, registers & 0xF0, base, registers]),
                5 => text.extend([0x1A, registers]),
                6 => text.extend([0x18, registers]),
                _ => text.extend([0x41, registers, base, registers]),
            }
        }
        text.truncate(length);
        text
    }
}
