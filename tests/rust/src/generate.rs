//! Random cases with a structure: host tables, guest tables, a few blocks of instructions and their operands, laid so
//! that most runs complete several units and many meet a boundary of document 01, or of request 1/12, on the way; some
//! tables are spoiled, so that walks end at each stage.

use crate::model::{self, Answer, FRAME};

pub mod desk;
pub mod laps;
pub mod store_clock;

/// splitmix64.
pub struct Rng(u64);

impl Rng {
    /// The numbers of one case depend on the seed and the case's number alone.
    pub fn new(seed: u64, number: u64) -> Rng {
        let mut rng = Rng(seed ^ number.wrapping_mul(0xD1B5_4A32_D192_ED03));
        rng.next();
        rng
    }

    pub fn next(&mut self) -> u64 {
        self.0 = self.0.wrapping_add(0x9E37_79B9_7F4A_7C15);
        let mut z = self.0;
        z = (z ^ z >> 30).wrapping_mul(0xBF58_476D_1CE4_E5B9);
        z = (z ^ z >> 27).wrapping_mul(0x94D0_49BB_1331_11EB);
        z ^ z >> 31
    }

    pub fn word(&mut self) -> u32 {
        (self.next() >> 32) as u32
    }

    pub fn byte(&mut self) -> u8 {
        (self.next() >> 56) as u8
    }

    /// 0 to limit - 1.
    pub fn below(&mut self, limit: u32) -> u32 {
        ((self.next() >> 32) * limit as u64 >> 32) as u32
    }

    /// first to last, both included.
    pub fn range(&mut self, first: u32, last: u32) -> u32 {
        first + self.below(last - first + 1)
    }

    pub fn percent(&mut self, chance: u32) -> bool {
        self.below(100) < chance
    }

    pub fn per_mille(&mut self, chance: u32) -> bool {
        self.below(1000) < chance
    }

    pub fn pick<T: Copy>(&mut self, list: &[T]) -> T {
        list[self.below(list.len() as u32) as usize]
    }

    pub fn fill(&mut self, bytes: &mut [u8]) {
        for part in bytes.chunks_mut(8) {
            let random = self.next().to_be_bytes();
            part.copy_from_slice(&random[..part.len()]);
        }
    }
}

/// All that is handed in to a run.
#[derive(Clone)]
pub struct Case {
    pub record: Vec<u8>,
    pub storage: Vec<u8>,
    pub keys: Vec<u8>,
    pub designation: u32,
    pub clock: u64,
    pub time: u32,
    pub budget: u32,
    /// Guest logical addresses worth a look by translate.
    pub addresses: Vec<u32>,
}

/// The machine of a case.
#[derive(Clone, Copy, PartialEq, Eq, PartialOrd, Ord, Debug)]
pub enum Machine {
    /// 370-XA in the record of 200 bytes.
    Xa,
    /// System/370 in the record of 208 bytes.
    System370,
    /// 370-XA in the record of 208 bytes.
    XaLarger,
}

impl Machine {
    /// The numbers of one case of this machine. Fewer cases are made of the third.
    pub fn rng(self, seed: u64, number: u64) -> Option<Rng> {
        match self {
            Machine::Xa => Some(Rng::new(seed, number)),
            Machine::System370 => Some(Rng::new(seed ^ 0x0370_0000_0000, number)),
            Machine::XaLarger => (number % 8 == 0).then(|| Rng::new(seed ^ 0x0208_0000_0000, number)),
        }
    }

    /// A record that has length, version and mode, and else zeros.
    fn record(self) -> Vec<u8> {
        let mut record = vec![0; if self == Machine::Xa { 200 } else { 208 }];
        record[1] = record.len() as u8;
        record[2] = if self == Machine::Xa { 1 } else { 2 };
        record[4] = if self == Machine::System370 { 0x04 } else { 0x08 };
        record
    }

    /// A time per unit: the least ones, the greatest, any between.
    fn time(self, rng: &mut Rng) -> u32 {
        let time = match rng.below(100) {
            0..=21 => 1,
            22..=26 => 2,
            27..=54 => rng.range(2, 100),
            55..=64 => 4096,
            65..=72 => 1_048_576,
            73..=76 => 1_048_575,
            _ => rng.range(1, 1_048_576),
        };
        // With the greatest time the word of the interval timer falls every 13 units or 14.
        if self == Machine::System370 && rng.percent(35) {
            1_048_576
        } else {
            time
        }
    }
}

/// How a guest's PSWs have storage addressed: DAT, addresses of 31 bits, the access key.
#[derive(Clone, Copy, PartialEq, Eq)]
struct Modes {
    dat: bool,
    wide: bool,
    key: u8,
}

/// What cases the caller wants.
#[derive(Clone, Copy)]
pub struct Wishes {
    pub machine: Machine,
    /// Some cases are to be refused or to fail at entry.
    pub damage: bool,
    /// Some extents reach up to 2^31.
    pub large_extents: bool,
}

pub fn case(rng: &mut Rng, wishes: Wishes) -> Case {
    build(Builder::new(rng, wishes.machine), wishes)
}

/// The same with many an STCK among the instructions.
pub fn case_with_readings(rng: &mut Rng, wishes: Wishes) -> Case {
    let mut builder = Builder::new(rng, wishes.machine);
    builder.readings = true;
    build(builder, wishes)
}

fn build(mut builder: Builder, wishes: Wishes) -> Case {
    builder.choose_extent(wishes.large_extents);
    builder.lay_host_tables();
    builder.choose_prefix();
    if builder.system_370() {
        builder.choose_control_registers();
    } else {
        builder.lay_guest_tables();
    }
    builder.choose_state();
    builder.choose_controls();
    builder.choose_time();
    builder.choose_interval_timer();
    builder.choose_operands();
    builder.lay_blocks();
    builder.lay_new_psws();
    builder.set_keys();
    builder.disturb_prefix_page();
    builder.spoil_a_table();
    if wishes.damage && builder.rng.percent(7) {
        builder.damage();
    }
    builder.case
}

/// One block of instructions.
#[derive(Clone)]
struct Block {
    address: u32,
    /// Offsets of its instructions.
    starts: Vec<u32>,
}

struct Builder<'a> {
    rng: &'a mut Rng,
    machine: Machine,
    case: Case,
    frames: u32,
    /// Origin and extent in 64 KiB blocks.
    origin: u32,
    extent: u32,
    /// The 64 KiB block of host virtual storage from which on there are no segment entries.
    table_end: Option<u32>,
    prefix: u32,
    host_page_tables: Vec<u32>,
    host_table_frames: Vec<u32>,
    guest_frames: Vec<u32>,
    /// The frame for guest tables.
    table_frame: u32,
    host_clean: bool,
    guest_clean: bool,
    /// Translation on and 31-bit addressing in the first PSW.
    dat: bool,
    wide: bool,
    key: u8,
    /// Virtual segments with an entry.
    segments: Vec<u32>,
    guest_segment_table: u32,
    guest_page_tables: Vec<u32>,
    /// The first page table is not next to the segment table.
    tables_apart: bool,
    blocks: Vec<Block>,
    /// Host absolute places of table entries, first and last byte: instructions and operands are not laid there.
    reserved: Vec<(usize, usize)>,
    /// Nor is that heeded.
    careless: bool,
    /// Registers that point at operands, with their values.
    bases: Vec<(usize, u32)>,
    /// Registers that point at blocks.
    targets: Vec<(usize, usize)>,
    /// Registers that point at a page in the frame of the prefix page, and at the host page entry of the prefix page.
    twin: Option<usize>,
    prefix_entry: Option<usize>,
    /// Many instructions are STCK.
    readings: bool,
}

const CR: usize = 72;
const GR: usize = 136;

impl<'a> Builder<'a> {
    fn new(rng: &'a mut Rng, machine: Machine) -> Builder<'a> {
        let frames = match rng.below(100) {
            0..=2 => rng.range(1, 2),
            3..=9 => rng.range(3, 5),
            10..=17 => rng.range(9, 20),
            _ => rng.range(6, 8),
        };
        let mut storage = vec![0; frames as usize * FRAME];
        if rng.percent(50) {
            rng.fill(&mut storage);
        }
        let record = machine.record();
        let dat = rng.percent(55) && machine != Machine::System370;
        let wide = rng.percent(60) && machine != Machine::System370;
        let host_clean = rng.percent(70);
        let guest_clean = rng.percent(70);
        let careless = rng.percent(6);
        Builder {
            machine,
            case: Case {
                record,
                storage,
                keys: vec![0; frames as usize],
                designation: 0,
                clock: 0,
                time: 1,
                budget: 0,
                addresses: Vec::new(),
            },
            frames,
            origin: 0,
            extent: 1,
            table_end: None,
            prefix: 0,
            host_page_tables: Vec::new(),
            host_table_frames: Vec::new(),
            guest_frames: Vec::new(),
            table_frame: 0,
            host_clean,
            guest_clean,
            dat,
            wide,
            key: 0,
            segments: Vec::new(),
            guest_segment_table: 0,
            guest_page_tables: Vec::new(),
            tables_apart: false,
            blocks: Vec::new(),
            reserved: Vec::new(),
            careless,
            bases: Vec::new(),
            targets: Vec::new(),
            twin: None,
            prefix_entry: None,
            readings: false,
            rng,
        }
    }

    fn system_370(&self) -> bool {
        self.machine == Machine::System370
    }

    fn choose_extent(&mut self, large: bool) {
        self.extent = match self.rng.below(100) {
            0..=34 => 1,
            35..=49 => self.rng.range(2, 4),
            50..=64 => self.rng.range(15, 18),
            65..=79 => self.rng.range(255, 257),
            80..=85 if large => 32_768,
            80..=85 => 256,
            86..=92 => self.rng.range(5, 32),
            _ => self.rng.range(1, 512),
        };
        let most = 32_768 - self.extent;
        self.origin = match self.rng.below(100) {
            0..=29 => 0,
            30..=59 => self.rng.range(0, 40),
            60..=74 => self.rng.below(2048) * 16,
            75..=84 => most,
            _ => self.rng.below(32_768),
        };
        self.origin = self.origin.min(most);
        // Some extents lie across the end of the host's segment table.
        if self.rng.percent(5) {
            let end = if self.rng.percent(60) { 16_384 } else { 256 * self.rng.range(1, 127) };
            self.extent = self.rng.range(2, 40);
            self.origin = end - self.rng.range(1, self.extent - 1);
            self.table_end = Some(end);
        }
        self.case.record[12..14].copy_from_slice(&(self.origin as u16).to_be_bytes());
        self.case.record[14..16].copy_from_slice(&(self.extent as u16).to_be_bytes());
        // Mode: bits 4-6 are 100, the others are ignored.
        self.case.record[4] = self.rng.byte() & 0xF1 | 0x08;
        if self.system_370() {
            // Bits 4-6 are 010, and bit 7 one stops the interval timer.
            self.case.record[4] = self.rng.byte() & 0xF0 | 0x04 | self.rng.percent(12) as u8;
        }
    }

    fn extent_pages(&self) -> u32 {
        self.extent * 16
    }

    /// A guest absolute page past the end of the host's segment table.
    fn page_past_table(&mut self) -> Option<u32> {
        let first = 16 * (self.table_end? - self.origin);
        Some(self.rng.range(first, self.extent_pages() - 1))
    }

    // -----------------------------------------------------------------------------------------------------------
    // Host tables.

    fn lay_host_tables(&mut self) {
        let first_segment = self.origin >> 4;
        let last_segment = (self.origin + self.extent - 1) >> 4;
        // A segment table of 2,048 entries takes two frames; only those with entries of the extent must be there.
        let first_part = first_segment >> 10;
        let parts = (last_segment >> 10) - first_part + 1;
        let at = if self.frames > first_part + parts {
            self.rng.range(first_part, self.frames - parts)
        } else {
            first_part.min(self.frames - 1)
        };
        // Past 2^30 the entries are in the table's second frame, which the storage may lack.
        let cut_by_storage = self.table_end == Some(16_384) && self.rng.percent(60);
        let at = if cut_by_storage { self.frames - 1 } else { at };
        let table = at.saturating_sub(first_part) * 4096;
        self.host_table_frames = (at..at + parts).collect();

        // Page tables: mostly in a frame of their own.
        let mut page_frame = if self.rng.percent(8) { 0 } else { self.rng.below(self.frames) };
        for _ in 0..4 {
            if self.host_table_frames.contains(&page_frame) {
                page_frame = self.rng.below(self.frames);
            }
        }
        let mut offset = self.rng.pick(&[0, 0, 64, 1024]);
        for _ in 0..self.rng.range(1, 2) {
            self.host_page_tables.push(page_frame * 4096 + offset);
            offset += 1024 + 64 * self.rng.below(8);
        }
        if !self.host_table_frames.contains(&page_frame) {
            self.host_table_frames.push(page_frame);
        }

        let within = self.rng.percent(7);
        self.guest_frames =
            (0..self.frames).filter(|frame| within || !self.host_table_frames.contains(frame)).collect();
        if self.guest_frames.is_empty() {
            self.guest_frames = (0..self.frames).collect();
        }
        self.table_frame = self.rng.pick(&self.guest_frames.clone());
        if self.guest_frames.len() >= 3 && self.rng.percent(85) {
            let table_frame = self.table_frame;
            self.guest_frames.retain(|&frame| frame != table_frame);
        }

        for table in self.host_page_tables.clone() {
            for page in 0..256 {
                let frame = self.rng.pick(&self.guest_frames.clone());
                let entry = self.host_page_entry(frame);
                self.put_word(table + 4 * page, entry);
            }
            self.reserved.push((table as usize, table as usize + 1023));
        }
        for segment in first_segment..=last_segment {
            let page_table = self.rng.pick(&self.host_page_tables.clone());
            let entry = self.host_segment_entry(page_table);
            self.put_word(table + 4 * segment, entry);
        }
        self.reserved.push(((table + 4 * first_segment) as usize, (table + 4 * last_segment + 3) as usize));
        let needed = last_segment >> 4;
        let length = match self.rng.below(100) {
            0..=59 => needed,
            60..=98 => self.rng.range(needed, 127),
            _ => needed.saturating_sub(1),
        };
        let length = match self.table_end {
            Some(end) if !cut_by_storage => end / 256 - 1,
            _ => length,
        };
        // Bits 0 and 20-24 are ignored.
        self.case.designation = table | length | self.rng.word() & 0x8000_0F80;
    }

    fn put_word(&mut self, at: u32, value: u32) {
        if at as usize + 4 <= self.case.storage.len() {
            model::set_word(&mut self.case.storage, at as usize, value);
        }
    }

    fn host_segment_entry(&mut self, page_table: u32) -> u32 {
        let mut entry = page_table | 15 | self.rng.word() & 0x10;
        if !self.host_clean {
            match self.rng.below(100) {
                0..=1 => entry |= 0x20,
                2 => entry |= 0x8000_0000,
                3 => entry |= 0x8000_0020,
                4..=9 => entry = entry & !15 | self.rng.below(16),
                10 => entry = self.rng.word() & 0x7FFF_FFDF,
                _ => {}
            }
        }
        entry
    }

    fn host_page_entry(&mut self, frame: u32) -> u32 {
        let mut entry = frame << 12 | self.rng.word() & 0xFF;
        if !self.host_clean {
            match self.rng.below(200) {
                0..=5 => entry |= 0x400,
                6 => entry |= self.rng.pick(&[0x8000_0400, 0xC00, 0x500]),
                7..=8 => entry |= self.rng.pick(&[0x8000_0000, 0x800, 0x100]),
                9..=18 => entry |= 0x200,
                19 => entry |= self.rng.pick(&[0x8000_0200, 0xA00, 0x300, 0x600]),
                20..=22 => entry = (self.frames + self.rng.pick(&[0, 0, 1, 100])) << 12,
                23 => entry = self.rng.word() & 0x7FFF_F2FF,
                _ => {}
            }
        } else if self.rng.per_mille(8) {
            entry |= 0x200;
        }
        entry
    }

    /// The host absolute address of the page entry for a guest absolute page, if it is there.
    fn host_page_entry_at(&self, page: u32) -> Option<u32> {
        let host_page = self.origin * 16 + page;
        let segment_at = (self.case.designation & 0x7FFF_F000) + 4 * (host_page >> 8);
        if segment_at as usize + 4 > self.case.storage.len() {
            return None;
        }
        let entry = model::word(&self.case.storage, segment_at as usize);
        let page_at = (entry & 0x7FFF_FFC0) + 4 * (host_page & 0xFF);
        (page_at as usize + 4 <= self.case.storage.len()).then_some(page_at)
    }

    /// Gives a guest absolute page a frame.
    fn set_host_page(&mut self, page: u32, frame: u32) {
        let entry = self.host_page_entry(frame);
        if let Some(at) = self.host_page_entry_at(page) {
            self.put_word(at, entry);
        }
    }

    // -----------------------------------------------------------------------------------------------------------
    // The guest's storage.

    fn choose_prefix(&mut self) {
        let last = self.extent_pages() - 1;
        let page = match self.rng.below(100) {
            0..=39 => 0,
            40..=64 => self.rng.range(0, last.min(15)),
            65..=84 => self.rng.below(last + 1),
            85..=89 => last,
            _ => self.rng.range(0, last.min(300)),
        };
        let page = match self.page_past_table() {
            Some(past) if self.rng.percent(60) => past,
            _ => page,
        };
        // In System/370 mode prefix bits 1-7 are zero.
        let page = if self.system_370() { page & 0xFFF } else { page };
        self.prefix = page << 12;
        // Bits 0 and 20-31 are ignored.
        let ignored = if self.rng.percent(30) { self.rng.word() & 0x8000_0FFF } else { 0 };
        model::set_word(&mut self.case.record, 8, self.prefix | ignored);
    }

    /// The absolute address: real block 0 and the prefix block are exchanged.
    fn prefixed(&self, real: u32) -> u32 {
        match real & 0x7FFF_F000 {
            0 => self.prefix | real,
            block if block == self.prefix => real & 0xFFF,
            _ => real,
        }
    }

    /// The record with a PSW of key 0 and these modes; in System/370 mode there are none.
    fn record_for(&self, dat: bool, wide: bool) -> Vec<u8> {
        let mut record = self.case.record.clone();
        record[16..24].fill(0);
        record[17] = 0x08;
        if !self.system_370() {
            record[16] = if dat { 0x04 } else { 0 };
            record[20] = if wide { 0x80 } else { 0 };
        }
        record
    }

    /// Writes bytes at a guest logical address as far as the tables allow.
    fn poke(&mut self, dat: bool, wide: bool, address: u32, bytes: &[u8], reserve: bool) {
        let record = self.record_for(dat, wide);
        let mut address = address;
        let mut rest = bytes;
        while !rest.is_empty() {
            let length = rest.len().min(4096 - (address & 0xFFF) as usize);
            let answer =
                model::translate(&record, &self.case.storage, &self.case.keys, self.case.designation, address, 0);
            if let Answer::Good(absolute) = answer {
                let absolute = absolute as usize;
                let free = |&(first, last): &(usize, usize)| absolute > last || absolute + length <= first;
                if self.careless || self.reserved.iter().all(free) {
                    self.case.storage[absolute..absolute + length].copy_from_slice(&rest[..length]);
                }
                if reserve {
                    self.reserved.push((absolute, absolute + length - 1));
                }
            }
            address = address.wrapping_add(length as u32) & if wide { 0x7FFF_FFFF } else { 0x00FF_FFFF };
            rest = &rest[length..];
        }
    }

    fn poke_real(&mut self, address: u32, bytes: &[u8]) {
        self.poke(false, true, address, bytes, true);
    }

    fn lay_guest_tables(&mut self) {
        let pages = self.extent_pages();
        // The frame of the tables; sometimes the tables stand in block 0 or in the prefix block.
        let table_page = match self.rng.below(100) {
            0..=9 => 0,
            10..=19 => self.prefix >> 12,
            20..=59 => self.rng.below(pages.min(16)),
            60..=62 => pages - 1,
            _ => self.rng.below(pages),
        };
        self.guest_segment_table = table_page << 12;
        if self.rng.percent(90) {
            let frame = self.table_frame;
            self.set_host_page(self.prefixed(table_page << 12) >> 12, frame);
            if table_page + 1 < pages {
                self.set_host_page(table_page + 1, frame);
            }
        }
        let mut page_table = self.guest_segment_table + self.rng.pick(&[1024, 1024, 1088, 2048]);
        match self.rng.below(100) {
            0..=7 => page_table = self.rng.below(pages) * 4096 + 4096 - 64 * self.rng.range(1, 8),
            8..=9 => page_table = self.rng.word() & 0x7FFF_FFC0,
            10..=11 => page_table = (self.extent << 16).wrapping_sub(64 * self.rng.range(0, 4)) & 0x7FFF_FFC0,
            12..=14 => page_table = 0,
            15..=39 => {
                // In another segment of the host, where the extent has more than one.
                let segment = |page: u32| self.origin * 16 + page >> 8;
                let mut page = self.rng.below(pages);
                for _ in 0..4 {
                    if segment(page) == segment(table_page) {
                        page = self.rng.below(pages);
                    }
                }
                self.set_host_page(self.prefixed(page << 12) >> 12, self.table_frame);
                page_table = page << 12 | self.rng.pick(&[0, 1024, 2048]);
                self.tables_apart = true;
            }
            _ => {}
        }
        if let Some(past) = self.page_past_table() {
            if self.rng.percent(35) {
                page_table = past << 12;
            }
        }
        self.guest_page_tables.push(page_table);
        if self.rng.percent(40) {
            self.guest_page_tables.push(self.guest_segment_table + self.rng.pick(&[1024, 2112, 2816]));
        }
        let identity = self.rng.percent(45);
        for table in self.guest_page_tables.clone() {
            let mut bytes = Vec::new();
            for index in 0..256 {
                let page = if identity && index < pages { index } else { self.rng.below(pages) };
                bytes.extend(self.guest_page_entry(page).to_be_bytes());
            }
            self.poke_real(table, &bytes);
        }
        // Segments that have an entry. Wraps go from 15 or 2,047 to 0.
        self.segments = vec![0, 0, 15, self.rng.below(16)];
        if self.wide {
            self.segments.push(2047);
            self.segments.push(self.rng.pick(&[1, 16, 17, 1023, 1024, 2046]));
        }
        for segment in self.segments.clone() {
            let table = self.rng.pick(&self.guest_page_tables.clone());
            let entry = self.guest_segment_entry(table);
            self.poke_real(self.guest_segment_table + 4 * segment, &entry.to_be_bytes());
        }
        let needed = self.segments.iter().max().unwrap() >> 4;
        let length = match self.rng.below(100) {
            0..=49 => needed,
            50..=94 => self.rng.range(needed, 127),
            _ => self.rng.below(needed + 1),
        };
        let mut table = self.guest_segment_table;
        if self.rng.per_mille(15) {
            table = (self.extent << 16).wrapping_sub(4096 * self.rng.below(2)) & 0x7FFF_F000;
        }
        let designation = table | length | self.rng.word() & 0x8000_0F80;
        model::set_word(&mut self.case.record, CR + 4, designation);
        let control = self.control_register_0();
        model::set_word(&mut self.case.record, CR, control);
    }

    /// In System/370 mode there are no guest tables; operands may lie where they would.
    fn choose_control_registers(&mut self) {
        self.guest_segment_table = self.rng.below(self.extent_pages().min(16)) << 12;
        self.guest_page_tables.push(self.guest_segment_table + 1024);
        self.segments.push(0);
        let control = self.control_register_0();
        model::set_word(&mut self.case.record, CR, control);
        let control = self.rng.word();
        model::set_word(&mut self.case.record, CR + 4, control);
    }

    fn guest_segment_entry(&mut self, page_table: u32) -> u32 {
        let mut entry = page_table | 15 | self.rng.word() & 0x10;
        if !self.guest_clean {
            match self.rng.below(100) {
                0..=3 => entry |= 0x20,
                4..=5 => entry |= 0x8000_0000,
                6 => entry |= 0x8000_0020,
                7..=13 => entry = entry & !15 | self.rng.below(16),
                14 => entry = self.rng.word() & 0x7FFF_FFDF,
                _ => {}
            }
        }
        entry
    }

    fn guest_page_entry(&mut self, page: u32) -> u32 {
        let mut entry = page << 12 | self.rng.word() & 0xFF;
        if !self.guest_clean {
            match self.rng.below(200) {
                0..=7 => entry |= 0x400,
                8 => entry |= self.rng.pick(&[0x8000_0400, 0xC00, 0x500]),
                9..=13 => entry |= self.rng.pick(&[0x8000_0000, 0x800, 0x100]),
                14..=30 => entry |= 0x200,
                31..=33 => entry = self.extent_pages() << 12 & 0x7FFF_F000,
                34 => entry = self.rng.word() & 0x7FFF_F2FF,
                _ => {}
            }
        } else if self.rng.per_mille(20) {
            entry |= 0x200;
        }
        entry
    }

    /// Format of DAT, low-address protection, and the masks of comparator and timer.
    fn control_register_0(&mut self) -> u32 {
        let mut control = self.rng.word() & 0xEF07_F3FF;
        control |= if self.rng.per_mille(985) { 0b10110 << 19 } else { self.rng.word() & 0x00F8_0000 };
        if self.rng.percent(25) {
            control |= 0x1000_0000;
        }
        if self.rng.percent(35) {
            control |= 0x800;
        }
        if self.rng.percent(35) {
            control |= 0x400;
        }
        if self.system_370() && self.rng.percent(50) {
            // The interval timer's mask oftener than not, and the others seldom.
            control = control & 0xEFFF_F3FF | 0x80;
        }
        control
    }

    // -----------------------------------------------------------------------------------------------------------
    // PSWs, registers, operands.

    fn choose_state(&mut self) {
        self.key = if self.rng.percent(55) { 0 } else { self.rng.below(16) as u8 };
        for register in 2..16 {
            let value = self.rng.word();
            model::set_word(&mut self.case.record, CR + 4 * register, value);
        }
        for register in 0..16 {
            let mut value = self.register_value();
            if self.system_370() && self.rng.percent(30) {
                value = self.interval_timer_word();
            }
            model::set_word(&mut self.case.record, GR + 4 * register, value);
        }
    }

    fn register_value(&mut self) -> u32 {
        match self.rng.below(10) {
            0 => self.rng.below(4),
            1 => 0u32.wrapping_sub(self.rng.below(4)),
            2 => 0x7FFF_FFFFu32.wrapping_add(self.rng.below(4)).wrapping_sub(1),
            3 => 0x00FF_FFFEu32 + self.rng.below(4),
            4 => 0x4000_0000u32.wrapping_add(self.rng.below(3)).wrapping_sub(1),
            5 => {
                // A page entry, host's or guest's.
                let flags = self.rng.pick(&[0, 0, 0, 0x100, 0x200, 0x400, 0x800, 0x8000_0000]);
                self.rng.below(self.frames + 1) << 12 | flags
            }
            _ => self.rng.word(),
        }
    }

    /// A logical page for the first PSW's modes.
    fn page(&mut self) -> u32 {
        let pages = self.extent_pages();
        let page = if self.dat {
            let segment = self.rng.pick(&self.segments.clone());
            let index = match self.rng.below(4) {
                0 => 0,
                1 => 255,
                _ => self.rng.below(256),
            };
            segment << 8 | index
        } else {
            match self.rng.below(100) {
                0..=9 => 0,
                10..=19 => self.prefix >> 12,
                20..=49 => self.rng.below(pages.min(16)),
                50..=69 => self.rng.below(pages.min(300)),
                70..=79 => self.rng.below(pages),
                80..=84 => pages - 1,
                85..=86 => pages,
                87..=93 if !self.wide => 0xFFF.min(pages - 1),
                _ => 0x7_FFFF.min(pages - 1),
            }
        };
        if self.wide {
            page & 0x7_FFFF
        } else {
            page & 0xFFF
        }
    }

    /// A logical address, mostly at or near a page's end, and mostly one that the tables let be reached.
    fn address(&mut self, align: u32) -> u32 {
        let mut address = self.any_address(align);
        for _ in 0..6 {
            let near_end = self.rng.percent(8) || self.is_reached(address.wrapping_add(40));
            if self.is_reached(address) && near_end || self.rng.percent(2) {
                break;
            }
            address = self.any_address(align);
        }
        address
    }

    /// Whether a fetch with key 0 in the first PSW's modes reaches the byte.
    fn is_reached(&self, address: u32) -> bool {
        self.place(address).is_some()
    }

    /// Its host absolute address.
    fn place(&self, address: u32) -> Option<usize> {
        self.place_for(self.dat, self.wide, address)
    }

    /// The same of a guest real address.
    fn real_place(&self, address: u32) -> Option<usize> {
        self.place_for(false, true, address)
    }

    fn place_for(&self, dat: bool, wide: bool, address: u32) -> Option<usize> {
        let record = self.record_for(dat, wide);
        let case = &self.case;
        match model::translate(&record, &case.storage, &case.keys, case.designation, address, 0) {
            Answer::Good(absolute) => Some(absolute as usize),
            _ => None,
        }
    }

    /// Whether some instructions can be laid there.
    fn is_free(&self, address: u32) -> bool {
        for offset in [0, 16, 32, 48] {
            let Some(place) = self.place(address.wrapping_add(offset)) else { return false };
            if self.reserved.iter().any(|&(first, last)| place + 16 > first && place <= last) {
                return false;
            }
        }
        true
    }

    fn any_address(&mut self, align: u32) -> u32 {
        let page = self.page();
        let offset = match self.rng.below(100) {
            0..=39 => 4096 - self.rng.range(1, 24),
            40..=54 => self.rng.below(64),
            _ => self.rng.below(4096),
        };
        page << 12 | offset / align * align
    }

    /// A PSW that goes on at one of the blocks.
    fn psw(&mut self) -> [u8; 8] {
        if self.system_370() {
            return self.psw_370();
        }
        let block = self.rng.below(self.blocks.len() as u32) as usize;
        let start = match self.rng.below(4) {
            0 => self.rng.pick(&self.blocks[block].starts.clone()),
            _ => 0,
        };
        let address = self.blocks[block].address.wrapping_add(start) & 0x7FFF_FFFF;
        let mut wide = self.wide;
        if address < 0x0100_0000 && self.rng.percent(8) {
            wide = !wide;
        }
        let dat = self.dat != self.rng.percent(6);
        let key = if self.rng.percent(88) { self.key } else { self.rng.below(16) as u8 };
        let mut psw = [0; 8];
        psw[0] = if dat { 0x04 } else { 0 };
        psw[0] |= if self.rng.percent(45) { 0x01 } else { 0 };
        psw[0] |= if self.rng.percent(45) { 0x02 } else { 0 };
        psw[1] = key << 4 | 0x08 | self.rng.byte() & 0x04;
        psw[1] |= if self.rng.percent(15) { 0x01 } else { 0 };
        psw[2] = self.rng.byte() & 0x3F;
        model::set_word(&mut psw, 4, address | if wide { 0x8000_0000 } else { 0 });
        match self.rng.below(200) {
            0..=2 => psw[1] |= 0x02,
            3 => psw[0] |= 0x40,
            4 => psw[2] |= 0x80,
            5 => psw[0] |= self.rng.pick(&[0x80, 0x20, 0x10, 0x08]),
            6 => psw[1] &= !0x08,
            7 => psw[2] |= 0x40,
            8 => psw[3] |= 1 << self.rng.below(8),
            9 => psw[4] = psw[4] & 0x80 | 1 << self.rng.below(7),
            10 => psw[7] |= 1,
            _ => {}
        }
        psw
    }

    /// The same in System/370 mode: BC or EC.
    fn psw_370(&mut self) -> [u8; 8] {
        let block = self.rng.below(self.blocks.len() as u32) as usize;
        let start = match self.rng.below(4) {
            0 => self.rng.pick(&self.blocks[block].starts.clone()),
            _ => 0,
        };
        let address = self.blocks[block].address.wrapping_add(start) & 0x00FF_FFFF;
        let key = if self.rng.percent(88) { self.key } else { self.rng.below(16) as u8 };
        let mut psw = [0; 8];
        psw[1] = key << 4 | self.rng.byte() & 0x04;
        psw[1] |= if self.rng.percent(20) { 0x01 } else { 0 };
        if self.rng.percent(50) {
            psw[0] = self.rng.pick(&[0, 0, 0x02]);
            psw[1] |= 0x08;
            psw[2] = self.rng.byte() & 0x3F;
        } else {
            // Masks of no channel, of one, or of any; interruption code and ILC as the last interruption left them.
            psw[0] = match self.rng.below(4) {
                0 => 0,
                1 | 2 => 0x80 >> self.rng.below(7),
                _ => self.rng.byte() & 0xFE,
            };
            self.rng.fill(&mut psw[2..5]);
            if self.rng.percent(20) {
                psw[2..4].fill(0);
                psw[4] &= 0x3F;
            }
        }
        psw[0] |= if self.rng.percent(50) { 0x01 } else { 0 };
        psw[5..8].copy_from_slice(&address.to_be_bytes()[1..]);
        match self.rng.below(250) {
            0..=3 => psw[1] |= 0x02,
            4 => psw[0] |= 0x40,
            5 => psw[2] |= 0x80,
            6 => psw[0] |= 0x04,
            7 => psw[0] |= self.rng.pick(&[0x80, 0x20, 0x10, 0x08]),
            8 => psw[2] |= 0x40,
            9 => psw[3] |= 1 << self.rng.below(8),
            10 => psw[4] |= 1 << self.rng.below(8),
            11 => psw[7] |= 1,
            12 => {
                psw[0] |= self.rng.pick(&[0x80, 0x20, 0x08]);
                psw[2] |= 0x80;
            }
            13 => psw[1] ^= 0x08,
            _ => {}
        }
        psw
    }

    /// Registers that point at operands.
    fn choose_operands(&mut self) {
        let mut registers: Vec<usize> = (1..16).collect();
        for _ in 0..4 {
            let at = self.rng.below(registers.len() as u32) as usize;
            let register = registers.remove(at);
            let mut value = match self.rng.below(100) {
                0..=4 => self.rng.below(520),
                5..=8 => 4096 - 8 * self.rng.below(3),
                9..=14 => {
                    let table = self.rng.pick(&self.guest_page_tables.clone());
                    table + 4 * self.rng.below(256)
                }
                15..=18 => self.guest_segment_table + 4 * self.rng.pick(&self.segments.clone()),
                19..=33 if self.is_reached(0xFFFF_FFFF) => {
                    (if self.wide { 0x8000_0000u32 } else { 0x0100_0000 }) - self.rng.range(1, 16)
                }
                19..=21 => (self.extent << 16).wrapping_sub(self.rng.below(12)),
                22..=59 => self.address(8),
                60..=84 => self.address(4),
                _ => self.address(1),
            };
            if self.rng.percent(60) && self.rng.percent(60) {
                value &= !7;
            }
            self.bases.push((register, value));
        }
        // A page of the guest that holds host tables, and a pointer to an entry there.
        if self.rng.percent(9) {
            let page = self.rng.below(self.extent_pages().min(16));
            let frame = self.rng.pick(&self.host_table_frames.clone());
            self.set_host_page(page, frame);
            let entry = self.host_page_entry_at(page).unwrap_or(0);
            self.bases[0].1 = page << 12 | (entry & 0xFFF).wrapping_add(4 * self.rng.below(4)) & 0xFFF;
        }
        if self.system_370() {
            self.point_at_prefix_page();
        }
        for at in 0..3 {
            let register = registers.remove(self.rng.below(registers.len() as u32) as usize);
            self.targets.push((register, at));
        }
        // The bits that do not count in an address may be anything.
        for (register, value) in self.bases.clone() {
            let high = self.high_bits();
            model::set_word(&mut self.case.record, GR + 4 * register, value & 0x7FFF_FFFF | high);
            self.case.addresses.push(value);
        }
    }

    /// Lets a second page share the frame of the prefix page, and a third hold its host page entry.
    fn point_at_prefix_page(&mut self) {
        let pages = self.extent_pages().min(4096);
        let Some(entry_at) = self.host_page_entry_at(self.prefix >> 12) else { return };
        let entry = model::word(&self.case.storage, entry_at as usize);
        // Neither real block 0 nor the prefix block: there real and absolute are the same.
        let page = self.rng.range(1, pages.min(16) - 1);
        if self.rng.percent(35) && page != self.prefix >> 12 {
            self.set_host_page(page, entry >> 12 & 0x7_FFFF);
            self.bases[2].1 = page << 12;
            self.twin = Some(self.bases[2].0);
        }
        let page = self.rng.range(1, pages.min(16) - 1);
        if self.rng.percent(20) && page != self.prefix >> 12 {
            self.set_host_page(page, entry_at >> 12);
            self.bases[0].1 = page << 12 | entry_at & 0xFFF;
            self.prefix_entry = Some(self.bases[0].0);
            // Something to store there.
            for register in 0..16 {
                if self.rng.percent(40) {
                    let flags = self.rng.pick(&[0, 0, 0x100, 0x200, 0x200, 0x400, 0x400, 0x800]);
                    let frame = self.rng.pick(&self.guest_frames.clone());
                    let value = self.rng.pick(&[entry, frame << 12]) & 0x7FFF_F0FF | flags;
                    model::set_word(&mut self.case.record, GR + 4 * register, value);
                }
            }
        }
    }

    fn high_bits(&mut self) -> u32 {
        if self.rng.percent(70) {
            return 0;
        }
        if self.wide {
            0x8000_0000
        } else {
            self.rng.word() & 0xFF00_0000
        }
    }

    // -----------------------------------------------------------------------------------------------------------
    // Instructions.

    fn lay_blocks(&mut self) {
        for _ in 0..4 {
            let mut address = self.address(2);
            for _ in 0..12 {
                if self.is_free(address) {
                    break;
                }
                address = self.address(2);
            }
            match self.rng.below(100) {
                0..=24 if self.is_reached(0xFFFF_FFFF) && self.is_reached(0) => {
                    address = (if self.wide { 0x8000_0000 } else { 0x0100_0000 }) - 2 * self.rng.range(1, 8);
                }
                25 => address |= 1,
                _ => {}
            }
            self.blocks.push(Block { address, starts: vec![0] });
                    }
        for (register, block) in self.targets.clone() {
            let high = self.high_bits();
            let value = self.blocks[block].address;
            model::set_word(&mut self.case.record, GR + 4 * register, value | high);
        }
        for block in 0..4 {
            let address = self.blocks[block].address;
            let mut text = Vec::new();
            let mut starts = Vec::new();
            let count = self.rng.range(4, 14);
            for _ in 0..count {
                starts.push(text.len() as u32);
                // At a page's end sometimes one of three halfwords.
                let to_end = 4096 - (address.wrapping_add(text.len() as u32) & 0xFFF);
                if to_end < 6 && self.rng.percent(15) {
                    text.extend([0xD2, 0, 0, 0, 0, 0]);
                } else {
                    text.extend(self.instruction());
                }
            }
            starts.push(text.len() as u32);
            text.extend(self.branch_always());
            self.blocks[block].starts = starts;
            let (dat, wide) = (self.dat, self.wide);
            // Also where the other setting of translation finds it.
            if self.rng.percent(50) {
                self.poke(!dat, wide, address, &text, false);
            }
            self.poke(dat, wide, address, &text, true);
            self.case.addresses.push(address);
        }
        let mut psw = self.psw();
        if self.system_370() {
            psw[5..8].copy_from_slice(&self.blocks[0].address.to_be_bytes()[1..]);
        } else {
            model::set_word(&mut psw, 4, self.blocks[0].address | if self.wide { 0x8000_0000 } else { 0 });
            psw[0] = psw[0] & !0x04 | if self.dat { 0x04 } else { 0 };
        }
        self.case.record[16..24].copy_from_slice(&psw);
    }

    fn branch_always(&mut self) -> Vec<u8> {
        let (register, _) = self.rng.pick(&self.targets.clone());
        if self.rng.percent(50) {
            vec![0x07, 0xF0 | register as u8]
        } else {
            vec![0x47, 0xF0, (register as u8) << 4, 0]
        }
    }

    /// A register that no address stands on, mostly.
    fn free_register(&mut self) -> usize {
        for _ in 0..8 {
            let register = self.rng.below(16) as usize;
            let used = self.bases.iter().any(|&(base, _)| base == register)
                || self.targets.iter().any(|&(target, _)| target == register);
            if !used || self.rng.percent(2) {
                return register;
            }
        }
        0
    }

    /// Base, displacement and the logical address they give.
    fn base(&mut self, align: u32) -> (u8, u32, u32) {
        let (register, value) =
            if self.rng.percent(4) { (0, 0) } else { self.rng.pick(&self.bases.clone()) };
        let mut displacement = match self.rng.below(100) {
            0..=44 => self.rng.below(24),
            45..=54 => 4095 - self.rng.below(24),
            55..=64 => (4096 - (value & 0xFFF)).saturating_sub(self.rng.below(9)) & 0xFFF,
            65..=69 => 512u32.wrapping_sub(value & 0xFFF).wrapping_sub(self.rng.below(9)) & 0xFFF,
            _ => self.rng.below(4096),
        };
        if align > 1 && !self.rng.percent(6) {
            // Aligned as a sum.
            let over = value.wrapping_add(displacement) % align;
            displacement = if displacement >= over { displacement - over } else { displacement + align - over };
        }
        (register as u8, displacement, value.wrapping_add(displacement) & 0x7FFF_FFFF)
    }

    fn rx(&mut self, operation: u8, register: usize) -> Vec<u8> {
        let align = if self.rng.percent(50) { 4 } else { 1 };
        let (base, displacement, _) = self.base(align);
        let index = match self.rng.below(100) {
            0..=84 => 0,
            _ => self.rng.below(16) as u8,
        };
        let mut text = vec![operation, (register as u8) << 4 | index];
        text.extend(((base as u16) << 12 | displacement as u16).to_be_bytes());
        text
    }

    fn rs(&mut self, operation: u8, second: u8, align: u32) -> (Vec<u8>, u32) {
        let (base, displacement, address) = self.base(align);
        let mut text = vec![operation, second];
        text.extend(((base as u16) << 12 | displacement as u16).to_be_bytes());
        (text, address)
    }

    /// Puts the bytes of an operand where the instruction will look for them.
    fn poke_operand(&mut self, address: u32, bytes: &[u8]) {
        let (dat, wide) = (self.dat, self.wide);
        self.poke(dat, wide, address, bytes, false);
    }

    /// An operand at or about the word of the interval timer, by real 80 or by the page that shares its frame; or a
    /// store into the host page entry of the prefix page.
    fn at_interval_timer(&mut self) -> Vec<u8> {
        let first = self.free_register() as u8;
        if let (Some(base), true) = (self.prefix_entry, self.rng.percent(40)) {
            return vec![0x50, (self.rng.below(16) as u8) << 4, (base as u8) << 4, 0];
        }
        let base = match self.twin {
            Some(register) if self.rng.percent(60) => register as u8,
            _ => 0,
        };
        let displacement = self.rng.pick(&[72, 76, 77, 78, 79, 80, 80, 80, 80, 80, 81, 83, 84]);
        let (operation, second) = match self.rng.below(10) {
            0..=4 => (0x50, (self.rng.below(16) as u8) << 4),
            5..=7 => (0x58, first << 4),
            8 => (0xB2, self.rng.pick(&[0x05, 0x09])),
            _ => (0xB6, self.rng.below(16) as u8 * 0x11),
        };
        vec![operation, second, base << 4, displacement]
    }

    fn instruction(&mut self) -> Vec<u8> {
        if self.readings && self.rng.percent(35) {
            return self.rs(0xB2, 0x05, 1).0;
        }
        if self.system_370() {
            match self.rng.below(100) {
                0..=7 => return self.at_interval_timer(),
                8 => {
                    // Code 4 in this mode, operation exceptions, and their neighbours.
                    let operation = self.rng.pick(&[0x9B, 0x9C, 0x9D, 0x9E, 0x9F, 0xA0, 0xB2, 0xB2, 0xB2]);
                    let second = if operation == 0xB2 { self.rng.range(0x2F, 0x3D) as u8 } else { self.rng.byte() };
                    return self.rs(operation, second, 1).0;
                }
                _ => {}
            }
        }
        let first = self.free_register();
        let second = self.rng.below(16) as usize;
        let registers = (first as u8) << 4 | second as u8;
        match self.rng.below(1000) {
            0..=39 => vec![0x18, registers],
            40..=139 => vec![0x1A, registers],
            140..=219 => vec![0x1B, registers],
            220..=279 => {
                let target = if self.rng.percent(85) { self.rng.pick(&self.targets.clone()).0 } else { second };
                let target = if self.rng.percent(20) { 0 } else { target };
                vec![0x07, self.rng.byte() & 0xF0 | target as u8]
            }
            280..=349 => vec![0x0A, self.svc_number()],
            350..=429 => self.rx(0x41, first),
            430..=489 => {
                let (register, block) = self.rng.pick(&self.targets.clone());
                let displacement = self.rng.pick(&self.blocks[block].starts.clone());
                let high = (displacement >> 8) as u8;
                vec![0x47, self.rng.byte() & 0xF0, (register as u8) << 4 | high, displacement as u8]
            }
            490..=619 => self.rx(0x50, second),
            620..=729 => self.rx(0x58, first),
            730..=779 => {
                let (text, address) = self.rs(0x82, 0, 8);
                let psw = self.psw();
                self.poke_operand(address, &psw);
                text
            }
            780..=819 => {
                let range = self.control_range(false);
                self.rs(0xB6, range, 4).0
            }
            820..=864 => {
                let range = self.control_range(true);
                let (text, address) = self.rs(0xB7, range, 4);
                let values = self.control_values(range);
                self.poke_operand(address, &values);
                text
            }
            865..=914 => {
                let mut text = self.rs(0xB2, 0x05, 1).0;
                text[1] = 0x05;
                text
            }
            915..=939 => {
                let (text, address) = self.rs(0xB2, 0x08, 8);
                let timer = self.timer_value(self.case.time, 4);
                self.poke_operand(address, &timer.to_be_bytes());
                text
            }
            940..=964 => self.rs(0xB2, 0x09, 8).0,
            965..=974 => {
                let operation = self.rng.pick(&[0x83, 0xAE, 0xB2, 0xB2]);
                let second = if operation == 0xB2 { self.rng.range(0x30, 0x3C) as u8 } else { registers };
                self.rs(operation, second, 1).0
            }
            _ => self.unassigned(),
        }
    }

    fn svc_number(&mut self) -> u8 {
        self.rng.pick(&[0, 1, 2, 3, 0x80, 0xFF])
    }

    /// R1 and R3 of LCTL and STCTL.
    fn control_range(&mut self, load: bool) -> u8 {
        let first = if load && self.rng.percent(70) { self.rng.range(2, 15) } else { self.rng.below(16) };
        let count = match self.rng.below(10) {
            0..=5 => self.rng.below(3),
            6..=8 => self.rng.below(8),
            _ => self.rng.below(16),
        };
        let mut last = (first + count) % 16;
        if load && last < first && self.rng.percent(50) {
            last = 15;
        }
        (first << 4 | last) as u8
    }

    fn control_values(&mut self, range: u8) -> Vec<u8> {
        let mut values = Vec::new();
        let mut register = (range >> 4) as usize;
        loop {
            let now = model::word(&self.case.record, CR + 4 * register);
            let value = match register {
                0 if self.rng.percent(60) => self.control_register_0(),
                1 if self.rng.percent(15) => now & 0x7FFF_FF80 | self.rng.below(128),
                0 | 1 => now,
                _ => self.rng.word(),
            };
            values.extend(value.to_be_bytes());
            if register == (range & 0xF) as usize {
                return values;
            }
            register = (register + 1) % 16;
        }
    }

    /// Operation codes next to listed ones, and any, of each length.
    fn unassigned(&mut self) -> Vec<u8> {
        let mut text = vec![0; 6];
        self.rng.fill(&mut text);
        match self.rng.below(10) {
            0..=2 => text[0] = self.rng.pick(&[0x00, 0x04, 0x0B, 0x19, 0x1C, 0x1E]),
            3..=4 => text[0] = self.rng.pick(&[0x40, 0x42, 0x46, 0x51, 0x57, 0x59, 0x80, 0x84, 0xAD, 0xAF, 0xB5, 0xB8]),
            5..=6 => {
                text[0] = 0xB2;
                text[1] = self.rng.pick(&[0x00, 0x04, 0x06, 0x07, 0x0A, 0x2F, 0x3D, 0xFF]);
            }
            7..=8 => text[0] |= 0xC0,
            _ => {}
        }
        let length = match text[0] >> 6 {
            0 => 2,
            1 | 2 => 4,
            _ => 6,
        };
        text.truncate(length);
        text
    }

    fn lay_new_psws(&mut self) {
        for address in [96, 104] {
            let psw = self.psw();
            self.poke_real(address, &psw);
        }
    }

    // -----------------------------------------------------------------------------------------------------------
    // Controls, time and keys.

    fn choose_controls(&mut self) {
        let mut requests = 0;
        if self.rng.percent(8) {
            requests = self.rng.byte() & 0xFB;
        }
        if self.rng.percent(1) {
            requests |= 0x04;
        }
        if self.system_370() && self.rng.percent(12) {
            requests |= self.rng.pick(&[0x02, 0x02, 0x03]);
        }
        let mut controls = self.rng.byte() & 0x1F;
        for (bit, chance) in [(0x80, 15), (0x40, 22), (0x20, 12)] {
            if self.rng.percent(chance) {
                controls |= bit;
            }
        }
        let load = match self.rng.below(100) {
            0..=79 => 0u16,
            80..=94 => 1 << self.rng.below(16),
            _ => self.rng.word() as u16,
        };
        let flags = match self.rng.below(100) {
            0..=59 => self.rng.byte() & 0x0F,
            60..=64 => self.rng.byte() | 0x80,
            _ => self.rng.byte() & 0x7F,
        };
        self.case.record[3] = requests;
        self.case.record[5] = controls;
        self.case.record[6..8].copy_from_slice(&load.to_be_bytes());
        self.case.record[48] = flags;
        for at in 49..52 {
            self.case.record[at] = if self.rng.percent(60) { self.svc_number() } else { self.rng.byte() };
        }
        // Whatever the last run left.
        if self.rng.percent(50) {
            self.rng.fill(&mut self.case.record[52..66]);
        }
        self.case.budget = match self.rng.below(1000) {
            0..=19 => 0,
            20..=79 => 1,
            80..=399 => self.rng.range(2, 10),
            400..=979 => self.rng.range(11, 40),
            980..=997 => self.rng.range(41, 300),
            _ => {
                // Few of the longest runs are let go on.
                if self.rng.percent(97) {
                    self.case.record[3] |= 0x04;
                }
                65_535
            }
        };
    }

    /// A value of the CPU timer that falls to about zero within so many units.
    fn timer_value(&mut self, time: u32, units: u32) -> u64 {
        match self.rng.below(10) {
            0 => self.rng.next(),
            1 => (1 << 63) + self.rng.below(3) as u64 - 1,
            2 => self.rng.next() >> 1,
            _ => {
                let units = self.rng.below(units + 2) as u64;
                (units * time as u64).wrapping_add(self.rng.below(3) as u64).wrapping_sub(1)
            }
        }
    }

    fn choose_time(&mut self) {
        let time = self.machine.time(self.rng);
        self.case.time = time;
        let units = self.case.budget.min(20);
        let timer = self.timer_value(time, units);
        let guest_clock = match self.rng.below(100) {
            0..=19 => self.rng.below(1000) as u64,
            20..=39 => 0u64.wrapping_sub(self.rng.below(1000) as u64 + time as u64 * 3),
            40..=59 => (1u64 << 63).wrapping_add(self.rng.below(1000) as u64).wrapping_sub(500),
            _ => self.rng.next(),
        };
        let comparator = match self.rng.below(100) {
            0..=59 => {
                let step = self.rng.below(units + 2) as u64 * time as u64;
                guest_clock.wrapping_add(step).wrapping_add(self.rng.below(3) as u64).wrapping_sub(1)
            }
            60..=84 => u64::MAX - self.rng.below(3) as u64,
            85..=94 => guest_clock ^ 1 << 63,
            _ => self.rng.next(),
        };
        let epoch = match self.rng.below(4) {
            0 => 0,
            1 => self.rng.below(1000) as u64,
            _ => self.rng.next(),
        };
        self.case.clock = guest_clock.wrapping_sub(epoch);
        model::set_doubleword(&mut self.case.record, 24, timer);
        model::set_doubleword(&mut self.case.record, 32, comparator);
        model::set_doubleword(&mut self.case.record, 40, epoch);
    }

    /// Request byte and residue, in every mode; in System/370 mode also the word at real 80.
    fn choose_interval_timer(&mut self) {
        if self.machine == Machine::Xa {
            return;
        }
        self.case.record[200] = self.rng.byte() & 0x7F | if self.rng.percent(20) { 0x80 } else { 0 };
        let residue = match self.rng.below(100) {
            0..=3 => 0,
            4..=11 => 40_959_999,
            12..=84 => {
                // The word falls after some units, or one unit before or after.
                let units = self.rng.below(self.case.budget.min(12) + 2);
                let left = 3 * self.case.time * units;
                40_960_000u32.saturating_sub(left).saturating_sub(self.rng.below(4)).wrapping_add(self.rng.below(4))
            }
            _ => self.rng.below(40_960_000),
        };
        model::set_word(&mut self.case.record, 204, residue.min(40_959_999));
        if self.system_370() {
            let word = self.interval_timer_word();
            self.poke_real(80, &word.to_be_bytes());
        }
    }

    /// A word at real 80 near the ends of its range.
    fn interval_timer_word(&mut self) -> u32 {
        match self.rng.below(100) {
            0..=29 => self.rng.below(256),
            30..=34 => self.rng.pick(&[0, 1, 254, 255, 256, 257]),
            35..=44 => 256 + self.rng.below(512),
            45..=59 => 0x8000_0000 + self.rng.below(256),
            60..=64 => 0x8000_0000 + self.rng.pick(&[0, 1, 255, 256, 257]),
            65..=74 => 0xFFFF_FF00 + self.rng.below(256),
            75..=79 => 0x7FFF_FF00 + self.rng.below(256),
            _ => self.rng.word(),
        }
    }

    /// Takes the host page of the prefix block away, or protects it, after all has been laid.
    fn disturb_prefix_page(&mut self) {
        if !self.system_370() || !self.rng.percent(8) {
            return;
        }
        let Some(at) = self.host_page_entry_at(self.prefix >> 12) else { return };
        let mut entry = model::word(&self.case.storage, at as usize);
        match self.rng.below(10) {
            0..=2 => entry |= 0x200,
            3..=4 => entry |= 0x400,
            5 => entry |= self.rng.pick(&[0x8000_0000, 0x800, 0x100]),
            6 => entry = (self.frames + self.rng.pick(&[0, 0, 1, 100])) << 12 | self.rng.pick(&[0, 0x200]),
            7 => entry |= self.rng.pick(&[0x300, 0x600, 0xA00]),
            _ => {
                // The segment entry: no table, a malformed one, or a length too short.
                let host_page = self.origin * 16 + (self.prefix >> 12);
                let segment_at = (self.case.designation & 0x7FFF_F000) + 4 * (host_page >> 8);
                let segment_entry = model::word(&self.case.storage, segment_at as usize);
                let changed = match self.rng.below(3) {
                    0 => segment_entry | 0x20,
                    1 => segment_entry | 0x8000_0000,
                    _ => segment_entry & !15 | (host_page >> 4 & 15).saturating_sub(1),
                };
                self.put_word(segment_at, changed);
            }
        }
        self.put_word(at, entry);
    }

    /// Spoils a table on the way to some address, after all has been laid: the guest's tables, or the host's for the
    /// guest's segment entry, for its page entry or for the byte.
    fn spoil_a_table(&mut self) {
        let chance = if self.tables_apart && self.dat { 45 } else { 10 };
        if !self.rng.percent(chance) {
            return;
        }
        let (dat, logical) = match self.rng.below(100) {
            0..=24 => (self.dat, self.blocks[0].address),
            25..=34 => (self.dat, self.rng.pick(&self.bases.clone()).1),
            35..=54 => (self.dat, self.blocks[self.rng.below(4) as usize].address),
            // The first page of a segment: its entry is the one at zero where a table stands there.
            55..=69 => (self.dat, self.rng.pick(&self.segments.clone()) << 20),
            // The interruption areas and the interval timer's word.
            _ => (false, self.rng.pick(&[32, 40, 80, 96, 104, 136])),
        };
        let logical = logical & if self.wide { 0x7FFF_FFFF } else { 0x00FF_FFFF };
        self.case.addresses.extend([logical; 4]);
        // What the host is asked for, as far as it can be had: the guest's segment entry, its page entry and the byte.
        let mut reals = vec![logical];
        if dat {
            reals[0] = (model::word(&self.case.record, CR + 4) & 0x7FFF_F000) + 4 * (logical >> 20);
            if let Some(entry) = self.real_word(reals[0]) {
                reals.push((entry & 0x7FFF_FFC0) + 4 * (logical >> 12 & 0xFF));
            }
            if let Some(entry) = reals.get(1).and_then(|&real| self.real_word(real)) {
                reals.push(entry & 0x7FFF_F000 | logical & 0xFFF);
            }
            if self.rng.percent(40) {
                self.spoil_guest_tables(logical, &reals);
                return;
            }
        }
        let chance = if self.tables_apart { 75 } else { 25 };
        let real = if reals.len() > 1 && self.rng.percent(chance) { reals[1] } else { self.rng.pick(&reals) };
        self.spoil_host_tables(real);
    }

    /// The word at a guest real address.
    fn real_word(&self, address: u32) -> Option<u32> {
        self.real_place(address).map(|place| model::word(&self.case.storage, place))
    }

    /// The entries of both tables, by their real addresses as far as they can be had.
    fn spoil_guest_tables(&mut self, logical: u32, entries: &[u32]) {
        let places = [0, 1].map(|table| entries.get(table).and_then(|&real| self.real_place(real)));
        let mut words = [model::word(&self.case.record, CR + 4), 0, 0];
        for (table, place) in places.into_iter().enumerate() {
            words[table + 1] = place.map_or(0, |place| model::word(&self.case.storage, place));
        }
        let words = self.spoil(words, logical, self.extent << 16);
        model::set_word(&mut self.case.record, CR + 4, words[0]);
        for (table, place) in places.into_iter().enumerate() {
            if let Some(place) = place {
                model::set_word(&mut self.case.storage, place, words[table + 1]);
            }
        }
    }

    fn spoil_host_tables(&mut self, real: u32) {
        let address = (self.origin << 16).wrapping_add(self.prefixed(real)) & 0x7FFF_FFFF;
        let segment_at = (self.case.designation & 0x7FFF_F000) + 4 * (address >> 20);
        if segment_at as usize >= self.case.storage.len() {
            return;
        }
        let segment_entry = model::word(&self.case.storage, segment_at as usize);
        let page_at = (segment_entry & 0x7FFF_FFC0) + 4 * (address >> 12 & 0xFF);
        if page_at as usize >= self.case.storage.len() {
            return;
        }
        let page_entry = model::word(&self.case.storage, page_at as usize);
        let words = self.spoil([self.case.designation, segment_entry, page_entry], address, self.frames << 12);
        self.case.designation = words[0];
        self.put_word(segment_at, words[1]);
        self.put_word(page_at, words[2]);
    }

    /// Designation, segment entry and page entry, with one of them spoiled for the address. The limit is the extent of
    /// the guest or the storage.
    fn spoil(&mut self, words: [u32; 3], address: u32, limit: u32) -> [u32; 3] {
        let [mut designation, mut segment, mut page] = words;
        let (segment_index, page_index) = (address >> 20 & 0x7FF, address >> 12 & 0xFF);
        match self.rng.below(20) {
            0 if segment_index >= 16 => designation = designation & !0x7F | self.rng.below(segment_index >> 4),
            0..=1 => designation = designation & 0x8000_0FFF | limit & 0x7FFF_F000,
            2..=3 if page_index >= 16 => segment = segment & !15 | self.rng.below(page_index >> 4),
            2..=7 => {
                // Seldom just before the end.
                let groups = (page_index >> 4) + 1 + self.rng.percent(15) as u32;
                let before = 64 * self.rng.below(groups);
                segment = segment & 0x8000_003F | limit - before & 0x7FFF_FFC0;
            }
            8..=9 => segment |= self.rng.pick(&[0x20, 0x20, 0x8000_0020]),
            10..=12 => segment |= 0x8000_0000,
            13..=14 => page |= self.rng.pick(&[0x400, 0x400, 0x8000_0400, 0xC00, 0x500]),
            15..=16 => page |= self.rng.pick(&[0x8000_0000, 0x800, 0x100]),
            17..=18 => page = page & 0xFFF | limit.wrapping_add(self.rng.pick(&[0, 0, 1, 100]) << 12) & 0x7FFF_F000,
            _ => page |= 0x200,
        }
        [designation, segment, page]
    }

    fn set_keys(&mut self) {
        let strange = self.rng.pick(&[0, 0, 8, 40]);
        for frame in 0..self.frames as usize {
            let mut key = self.rng.byte() & 0x0F;
            if self.rng.percent(60) {
                key &= !0x08;
            }
            let access = if self.rng.percent(strange) { self.rng.byte() & 0xF0 } else { self.key << 4 };
            self.case.keys[frame] = access | key;
        }
    }

    // -----------------------------------------------------------------------------------------------------------
    // Refusals and entries that fail.

    fn damage(&mut self) {
        let times = if self.rng.percent(25) { 2 } else { 1 };
        for _ in 0..times {
            if self.machine != Machine::Xa && self.rng.percent(60) {
                self.damage_larger_record();
                continue;
            }
            let kind = self.rng.below(15);
            self.damage_one(kind);
        }
    }

    fn damage_larger_record(&mut self) {
        let record = &mut self.case.record;
        if record.len() != 208 {
            return;
        }
        match self.rng.below(12) {
            // The length field of one record and the bytes or the version of the other.
            0 => record[1] = 200,
            1 => {
                record[1] = 200;
                record[2] = 1;
            }
            2 => record.truncate(200),
            3 => record[2] = 1,
            4 => record[2] = self.rng.pick(&[0, 3, 0x82, 0xFF]),
            5 => {
                record.truncate(200);
                record[1] = 200;
            }
            // System/370 in the record of 200 bytes.
            6 => {
                record.truncate(200);
                record[1] = 200;
                record[2] = 1;
            }
            7 => {
                let length = self.rng.pick(&[200, 204, 207, 209, 408]);
                record.resize(length, 0);
            }
            8 => record[self.rng.range(201, 203) as usize] = 1 << self.rng.below(8),
            9 => {
                let residue = self.rng.pick(&[40_959_999, 40_960_000, 40_960_000, 40_960_001, 1 << 31, u32::MAX]);
                model::set_word(record, 204, residue);
            }
            // One of prefix bits 1-7, with an extent that leaves room for it or not.
            10 => {
                record[8] |= 1 << self.rng.below(7);
                if self.rng.percent(60) {
                    record[12..16].copy_from_slice(&[0, 0, 0x80, 0]);
                }
            }
            _ => record[4] = record[4] & 0xF1 | self.rng.pick(&[0x00, 0x02, 0x06, 0x0A, 0x0C, 0x0E]),
        }
    }

    fn damage_one(&mut self, kind: u32) {
        let length = self.case.record.len();
        match kind {
            0 => {
                let at = self.rng.below(2) as usize;
                if length > at {
                    self.case.record[at] ^= 1 << self.rng.below(8);
                }
            }
            1 => {
                let length = self.rng.pick(&[0, 1, 2, 3, 66, 72, 199, 201, 400]);
                self.case.record.resize(length, 0);
            }
            2 if length > 2 => self.case.record[2] = self.rng.byte(),
            3 => {
                let length = self.case.storage.len();
                let length = match self.rng.below(100) {
                    0..=29 => 0,
                    30..=59 => length + self.rng.range(1, 4095) as usize,
                    60..=96 => length.saturating_sub(self.rng.range(1, 4095) as usize),
                    _ => 4097 * FRAME,
                };
                self.case.storage.resize(length, 0);
                if length == 4097 * FRAME {
                    self.case.keys.resize(4097, 0);
                }
            }
            4 => {
                let length = (self.case.keys.len() + 1).saturating_sub(2 * self.rng.below(2) as usize);
                self.case.keys.resize(length, 0);
            }
            5 => self.case.budget = self.rng.pick(&[65_536, 65_537, 0x8000_0000, 0xFFFF_FFFF]),
            6 => self.case.time = self.rng.pick(&[0, 1_048_577, 0x0020_0000, 0x8000_0000, 0xFFFF_FFFF]),
            7 if length > 71 => {
                let at = self.rng.range(66, 71) as usize;
                self.case.record[at] = 1 << self.rng.below(8);
            }
            8 if length > 4 => self.case.record[4] ^= self.rng.pick(&[0x08, 0x04, 0x02, 0x0C]),
            9 if length > 15 => {
                let origin = self.rng.pick(&[32_767, 32_768, 0xFFFF, 32_769 - self.extent as u16]);
                self.case.record[12..14].copy_from_slice(&origin.to_be_bytes());
            }
            10 if length > 15 => {
                let extent = self.rng.pick(&[0, 32_769, 0xFFFF, 32_769 - self.origin as u16]);
                self.case.record[14..16].copy_from_slice(&extent.to_be_bytes());
            }
            11 | 12 if length > 11 => {
                let over = self.extent_pages() + self.rng.pick(&[0, 0, 1, 16]);
                let prefix = over << 12 & 0x7FFF_F000;
                model::set_word(&mut self.case.record, 8, prefix | self.rng.word() & 0x8000_0FFF);
            }
            13 => {
                // A full storage of 4,096 frames is allowed; it is costly, so few are made.
                if self.rng.percent(4) {
                    self.case.storage.resize(4096 * FRAME, 0);
                    self.case.keys.resize(4096, 0);
                } else {
                    self.case.time = 1_048_576;
                }
            }
            14 => {
                self.case.time = 0;
                if self.rng.percent(20) {
                    self.case.budget = self.rng.pick(&[0, 1, 65_535]);
                }
            }
            _ => {}
        }
    }
}

/// An address and an access kind for translate.
pub fn translation(rng: &mut Rng, case: &Case) -> (u32, u32) {
    let address = match rng.below(10) {
        0 => rng.word(),
        1 => rng.below(520),
        2 => 0x7FFF_FFF0u32.wrapping_add(rng.below(32)),
        3 => 0x00FF_FFF0 + rng.below(32),
        _ if case.addresses.is_empty() => rng.below(65_536),
        _ => {
            let near = rng.pick(&[0, 0, 1, 8, 4096, 8192, 0x10000, 0x100000]);
            rng.pick(&case.addresses).wrapping_add(near).wrapping_add(rng.below(16)).wrapping_sub(8)
        }
    };
    let access = if rng.per_mille(15) { rng.pick(&[3, 4, 256, 0x8000_0001, u32::MAX]) } else { rng.below(3) };
    (address, access)
}
