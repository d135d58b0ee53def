//! Guests for a run that does many units at a time on kept translations of blocks of 2,048 bytes, eight for fetches and
//! eight for stores, the block of an address in entry address / 2,048 % 8: loops over the ends of blocks and pages, by
//! blocks that share an entry and by pages that share a frame, and in the loops what changes a kept translation, the
//! text, the PSW, control registers or the timers, or interrupts. More than half are programs under a supervisor: loops
//! of SVC, exceptions and privileged instructions, with handlers that mostly go back.

use super::{Case, Machine, Modes, Rng, CR, GR};
use crate::model::{self, Answer, FRAME};

pub fn case(rng: &mut Rng, machine: Machine) -> Case {
    let mut guest = Guest::new(rng, machine);
    guest.choose_frames();
    guest.choose_extent();
    guest.lay_host_tables();
    guest.lay_guest_tables();
    guest.choose_numbers();
    guest.choose_fragments();
    guest.choose_states();
    guest.choose_values();
    guest.choose_registers();
    guest.choose_controls();
    guest.choose_requests();
    guest.lay_fragments();
    guest.lay_areas();
    guest.lay_values();
    guest.set_interval_timer();
    guest.copy_areas();
    guest.set_keys();
    guest.case
}

// Frames, by what they are for: the first two have the host's tables.
const SEGMENTS: usize = 0;
const PAGES: usize = 1;
const AREAS: usize = 2;
const TEXT: usize = 3;
const OTHER_TEXT: usize = 4;
const DATA: usize = 5;
const OTHER_DATA: usize = 6;
const TABLES: usize = 7;

/// The frames of the guest's real pages 0-15, and so on by 16. Four pages apart, which is eight blocks, is another frame;
/// text and operands have their frames behind two pages or more.
const ROLES: [usize; 16] = [
    AREAS, TEXT, OTHER_TEXT, DATA, OTHER_DATA, OTHER_TEXT, TEXT, OTHER_DATA, TABLES, TEXT, DATA, OTHER_DATA, DATA,
    PAGES, SEGMENTS, TEXT,
];
/// Protected, and lacking, in the host's page table.
const HOST_PROTECTED: u32 = 11;
const HOST_INVALID: u32 = 12;
/// The host's page tables.
const HOST_PAGES: u32 = 0x1000;
const OTHER_HOST_PAGES: u32 = 0x1400;

// The guest's tables: a segment table with page tables behind it, and another segment table in a page of operands.
const GUEST_SEGMENTS: u32 = 0x8000;
const GUEST_PAGES: u32 = 0x8400;
const OTHER_GUEST_PAGES: u32 = 0x8800;
const OTHER_GUEST_SEGMENTS: u32 = 0x4000;

/// Page tables of a second segment, guest's and host's, in a frame of operands, by real page 10.
const FAR_GUEST_PAGES: u32 = 0xA400;
const FAR_HOST_PAGES: u32 = 0xAC00;

// Of a supervised guest with DAT on: pages whose entries fail an access, those between them being of operands, and
// segments. The short one has entries for sixteen pages; two are like the first of all, one of them past the entries of
// the shortest table.
const PROTECTED: u32 = 0x20;
const INVALID: u32 = 0x22;
const MALFORMED: u32 = 0x24;
const PAST_EXTENT: u32 = 0x26;
const INVALID_SEGMENT: u32 = 1;
const MALFORMED_SEGMENT: u32 = 2;
const PAST_EXTENT_SEGMENT: u32 = 3;
const SHORT_SEGMENT: u32 = 4;
const LIKE_SEGMENT: u32 = 5;
const LATE_SEGMENT: u32 = 16;

// Where the values to load stand, from the first on: PSWs, values of the CPU timer, values of all control registers
// twice in a row, and two of these.
const PSWS: u32 = 0;
const TIMERS: u32 = 0x40;
const CONTROLS: u32 = 0x80;
const OTHER_CONTROLS: u32 = 0x100;
/// The two last of the PSWs are saved and loaded in turn where a handler changes tasks.
const TASKS: u32 = PSWS + 48;

/// In logical page 0: behind the areas of interruptions, or among low addresses.
const VALUES: [u32; 2] = [0x300, 0x98];

/// The page whose entry is the interval timer's word where page entries are areas.
const TIMER_PAGE: u32 = 20;

/// The page by which a supervised guest may have the frame of the areas.
const ALIAS: u32 = 15;

// What registers are for.
const WORK: usize = 0;
const OPERAND: usize = 4;
const OTHER_OPERAND: usize = 5;
const START: usize = 6;
const OTHER_START: usize = 7;
/// The first fragment's page by another page of its frame; of a supervised guest the values or the alias.
const TWIN: usize = 8;
/// Two words of text, and where a table's entry stands with two values for it.
const WORD: usize = 9;
const OTHER_WORD: usize = 10;
const ENTRY: usize = 11;
const VALUE: usize = 12;
const OTHER_VALUE: usize = 13;
const INDEX: usize = 14;
const COUNT: usize = 15;

/// What the loops of a guest have beside sums, branches and operands.
#[derive(Clone, Copy, PartialEq, Eq)]
enum Theme {
    Text,
    Tables,
    Low,
    Psws,
    Clocks,
    Controls,
    Branches,
    Exceptions,
    /// SVC.
    Calls,
    /// Unassigned operations, privileged ones, operands off their boundaries, odd addresses.
    Operations,
    /// Operands that cannot be accessed, texts, and operands that move until they cannot.
    Operands,
    Targets,
    Walks,
    /// Stores into what the next interruption uses.
    Areas,
    /// A page that the program takes away and the handler gives back.
    Paging,
    /// A prefix page that gets another frame.
    Prefix,
}

const THEMES: [Theme; 12] = [
    Theme::Text,
    Theme::Tables,
    Theme::Psws,
    Theme::Controls,
    Theme::Text,
    Theme::Tables,
    Theme::Low,
    Theme::Psws,
    Theme::Clocks,
    Theme::Controls,
    Theme::Branches,
    Theme::Exceptions,
];

/// Of programs under a supervisor: stores into areas and tables, accesses that fail, and the rest.
const STORES: [Theme; 8] = [
    Theme::Areas,
    Theme::Areas,
    Theme::Areas,
    Theme::Paging,
    Theme::Paging,
    Theme::Prefix,
    Theme::Prefix,
    Theme::Tables,
];
const ACCESSES: [Theme; 5] = [Theme::Operands, Theme::Operands, Theme::Operands, Theme::Targets, Theme::Walks];
const OTHER_THEMES: [Theme; 11] = [
    Theme::Calls,
    Theme::Operations,
    Theme::Operations,
    Theme::Clocks,
    Theme::Clocks,
    Theme::Clocks,
    Theme::Controls,
    Theme::Controls,
    Theme::Controls,
    Theme::Psws,
    Theme::Low,
];

/// Why an operand or a text cannot be accessed.
#[derive(Clone, Copy, PartialEq, Eq)]
enum Fault {
    Low,
    Key,
    Protected,
    Past,
    Segment,
    Page,
    Format,
    Host,
}

/// With DAT off, and on.
const FAULTS: [Fault; 10] = [
    Fault::Low,
    Fault::Low,
    Fault::Key,
    Fault::Key,
    Fault::Key,
    Fault::Past,
    Fault::Past,
    Fault::Past,
    Fault::Past,
    Fault::Host,
];
const FAULTS_OF_TABLES: [Fault; 14] = [
    Fault::Low,
    Fault::Key,
    Fault::Protected,
    Fault::Protected,
    Fault::Past,
    Fault::Segment,
    Fault::Segment,
    Fault::Segment,
    Fault::Page,
    Fault::Page,
    Fault::Page,
    Fault::Format,
    Fault::Format,
    Fault::Host,
];

/// What a PSW has beside address, condition code and program mask.
#[derive(Clone, Copy)]
struct State {
    modes: Modes,
    /// Of System/370: a BC PSW.
    basic: bool,
    problem: bool,
    /// Of input and output and of external interruptions, and of machine checks.
    masks: [u8; 2],
}

fn themes_of_loops(rng: &mut Rng) -> Vec<Theme> {
    let mut themes = Vec::new();
    while rng.percent(70) && themes.len() < 3 {
        themes.push(rng.pick(&THEMES));
    }
    themes
}

/// Of stores and of accesses that fail at most one theme: each has its registers.
fn themes_of_programs(rng: &mut Rng, dat: bool) -> Vec<Theme> {
    let mut themes = Vec::new();
    if rng.percent(55) {
        themes.push(Theme::Calls);
    }
    if rng.percent(40) {
        let theme = rng.pick(&STORES);
        themes.extend([if theme == Theme::Paging && !dat { Theme::Areas } else { theme }; 2]);
    }
    if rng.percent(40) {
        themes.extend([rng.pick(&ACCESSES); 2]);
    }
    while themes.is_empty() || themes.len() < 6 && rng.percent(55) {
        themes.push(rng.pick(&OTHER_THEMES));
    }
    themes
}

struct Fragment {
    /// Logical.
    address: u32,
    /// Offsets of its instructions.
    starts: Vec<u32>,
}

struct Guest<'a> {
    rng: &'a mut Rng,
    machine: Machine,
    case: Case,
    modes: Modes,
    /// Programs under a supervisor.
    supervised: bool,
    /// Where the themes need one.
    fault: Option<Fault>,
    /// A fragment or an operand stands at the end of the addresses.
    wraps: bool,
    /// A second segment has its page table where operands are.
    far: bool,
    /// The first segment has its page table in real page 0, among the areas.
    low_tables: bool,
    origin: u32,
    extent: u32,
    prefix: u32,
    frames: [u32; 8],
    themes: Vec<Theme>,
    /// The loop, another one, and the handlers of SVC and of program interruptions.
    fragments: Vec<Fragment>,
    /// Of the fragments' PSWs, where the guest is supervised.
    states: Vec<State>,
    /// The logical address of the values to load, and whether TWIN has it.
    values: u32,
    values_by_register: bool,
    /// How far a walk goes in a round.
    step: u32,
    /// The registers by what they are for.
    registers: [u8; 16],
    /// The budget, which the timers are aimed at.
    units: u32,
}

impl<'a> Guest<'a> {
    fn new(rng: &'a mut Rng, machine: Machine) -> Guest<'a> {
        let xa = machine != Machine::System370;
        let (dat, wide) = (xa && rng.percent(50), xa && rng.percent(55));
        let supervised = rng.percent(60);
        let themes = if supervised { themes_of_programs(rng, dat) } else { themes_of_loops(rng) };
        let fault = ACCESSES.iter().any(|theme| themes.contains(theme)).then(|| match dat {
            true => rng.pick(&FAULTS_OF_TABLES),
            false => rng.pick(&FAULTS),
        });
        let key = if rng.percent(50) && fault != Some(Fault::Key) { 0 } else { rng.range(1, 15) as u8 };
        let modes = Modes { dat, wide, key };
        let wraps = rng.percent(if supervised { 8 } else { 18 }) && fault != Some(Fault::Past);
        let far = !supervised && themes.contains(&Theme::Tables) && !wraps && rng.percent(35);
        let low_tables = supervised && dat && !themes.contains(&Theme::Paging) && rng.percent(8);
        let mut record = machine.record();
        record[4] |= (!xa && rng.percent(10)) as u8;
        let (storage, keys, addresses) = (Vec::new(), Vec::new(), Vec::new());
        let case = Case { record, storage, keys, designation: 127, clock: 0, time: 1, budget: 1, addresses };
        let mut registers: [u8; 16] = std::array::from_fn(|role| role as u8);
        for role in 1..16 {
            registers.swap(role, rng.range(1, role as u32) as usize);
        }
        let frames = [0, 1, 2, 3, 4, 5, 6, 7];
        let (fragments, states) = (Vec::new(), Vec::new());
        let (origin, extent, prefix, units, step) = (0, 1, 0, 1, 8);
        let (values, values_by_register) = (VALUES[0], false);
        #[rustfmt::skip]
        let guest = Guest {
            rng, machine, case, modes, supervised, fault, wraps, far, low_tables, origin, extent, prefix, frames, themes,
            fragments, states, values, values_by_register, step, registers, units,
        };
        guest
    }

    /// Of a large storage frames are 64 apart, which is what a guard of 64 frames may take for one.
    fn choose_frames(&mut self) {
        let count = if self.rng.per_mille(12) { 72 } else { 8 };
        if count > 8 {
            for frame in &mut self.frames[2..] {
                *frame += if self.rng.percent(40) { 64 } else { 0 };
            }
            // The frames of operands are like those of tables or text.
            let [text, tables] = [self.frames[TEXT], self.frames[TABLES]];
            self.frames[OTHER_DATA] = self.rng.pick(&[65, 66, 67, 71, text ^ 64, tables ^ 64]);
        }
        self.case.storage = vec![0; count * FRAME];
        self.case.keys = vec![0; count];
        if self.supervised && self.rng.percent(6) {
            // The areas of interruptions are among texts or operands.
            self.frames[AREAS] = self.frames[self.rng.pick(&[TEXT, OTHER_TEXT, DATA, OTHER_DATA])];
        }
    }

    fn choose_extent(&mut self) {
        self.extent = match (self.wraps && !self.modes.dat, self.modes.wide) {
            (true, true) => 32_768,
            (true, false) => 256,
            _ => self.rng.pick(&[1, 1, 1, 2, 4, 17]),
        };
        self.origin = if self.extent == 32_768 { 0 } else { self.rng.pick(&[0, 0, 1, 15, 16, 0x777]) };
        if self.far && !self.modes.dat {
            (self.origin, self.extent) = (15, 2);
        }
        self.prefix = if self.rng.percent(60) { 0 } else { self.rng.pick(&[0x3000, 0x7000, 0xA000, 0xF000]) };
        if !self.far && !self.low_tables && self.rng.percent(4) {
            // The areas of interruptions are entries of the host's page table, perhaps that of the prefix page.
            self.frames[AREAS] = self.frames[PAGES];
            (self.origin, self.extent) = (0, self.extent.max(2));
            if self.rng.percent(50) {
                self.prefix = self.rng.pick(&[0x8000, 0x9000, 0xA000, 0xB000, TIMER_PAGE << 12]);
            }
        }
        let record = &mut self.case.record;
        record[12..14].copy_from_slice(&(self.origin as u16).to_be_bytes());
        record[14..16].copy_from_slice(&(self.extent as u16).to_be_bytes());
        model::set_word(record, 8, self.prefix);
    }

    fn system_370(&self) -> bool {
        self.machine == Machine::System370
    }

    fn has(&self, theme: Theme) -> bool {
        self.themes.contains(&theme)
    }

    fn cut(&self, address: u32) -> u32 {
        address & if self.modes.wide { 0x7FFF_FFFF } else { 0x00FF_FFFF }
    }

    fn put(&mut self, at: u32, value: u32) {
        model::set_word(&mut self.case.storage, at as usize, value);
    }

    // -----------------------------------------------------------------------------------------------------------
    // Tables.

    /// The absolute page of a real one.
    fn prefixed(&self, page: u32) -> u32 {
        match page << 12 {
            0 => self.prefix >> 12,
            block if block == self.prefix => 0,
            _ => page,
        }
    }

    /// Where the host's page entry of a real page is; pages 256 apart share it.
    fn host_entry(&self, page: u32) -> u32 {
        HOST_PAGES + 4 * (self.origin * 16 + self.prefixed(page) & 0xFF)
    }

    fn lay_host_tables(&mut self) {
        let segments: Vec<u32> = match self.extent {
            32_768 => vec![0, 1, 2047],
            _ => (self.origin >> 4..=(self.origin + self.extent - 1) >> 4).collect(),
        };
        for segment in segments {
            self.put(4 * segment, HOST_PAGES | 15);
        }
        let pages = (16 * self.extent).min(256);
        for page in 0..pages {
            let mut role = ROLES[page as usize % 16];
            // The second half of the guest's segment table.
            if page == 9 && self.modes.dat && self.modes.wide {
                role = TABLES;
            }
            if page % 16 == ALIAS && self.rng.percent(40) {
                role = DATA;
            } else if page % 16 == ALIAS && self.supervised && self.rng.percent(60) {
                role = AREAS;
            }
            let flags = match page % 16 {
                HOST_PROTECTED => 0x200,
                HOST_INVALID => 0x400,
                // No interruption can be presented.
                _ if page == 0 && self.supervised && self.rng.percent(3) => self.rng.pick(&[0x200, 0x200, 0x400]),
                _ => 0,
            };
            let entry = self.frames[role] << 12 | flags;
            let at = self.host_entry(page);
            self.put(at, entry);
            // In the other table operands have each other's frames.
            let other = match role {
                DATA => self.frames[OTHER_DATA] << 12 | flags,
                OTHER_DATA => self.frames[DATA] << 12 | flags,
                _ => entry,
            };
            self.put(at + OTHER_HOST_PAGES - HOST_PAGES, other);
        }
        if self.far && !self.modes.dat {
            let table = (self.frames[DATA] << 12) + (FAR_HOST_PAGES & 0xFFF);
            self.put(4, table | 15);
            for page in 16..32 {
                let frame = self.frames[self.rng.pick(&[DATA, OTHER_DATA, TEXT])];
                self.put(table + 4 * (page - 16), frame << 12);
            }
        }
    }

    /// Identity mostly. In the other page table operands, and sometimes texts, are exchanged.
    fn lay_guest_tables(&mut self) {
        if !self.modes.dat {
            return;
        }
        let tables = self.frames[TABLES] << 12;
        let other = self.frames[OTHER_DATA] << 12;
        for segment in [0, 15, 2047] {
            self.put(tables + 4 * (segment & 0x3FF), GUEST_PAGES | 15);
        }
        self.put(tables, GUEST_PAGES | 15);
        self.put(other, OTHER_GUEST_PAGES | 15);
        self.put(other + 60, OTHER_GUEST_PAGES | 15);
        let exchanged = self.rng.percent(30);
        let identity = self.rng.percent(30);
        for index in 0..256 {
            let page = match index % 16 {
                _ if index == 255 => self.rng.pick(&[15, 1, 3]),
                0 if index == 0 && self.rng.percent(10) => 3,
                3 | 4 | 7 | 10 if !identity => self.rng.pick(&[3, 4, 7, 10]),
                1 | 6 if !identity => self.rng.pick(&[1, 6]),
                2 | 5 if !identity => self.rng.pick(&[2, 5]),
                page => page,
            };
            let other = match page {
                3 | 10 => 4,
                4 | 7 => 3,
                1 if exchanged => 2,
                5 if exchanged => 6,
                _ => page,
            };
            let flags = if self.rng.percent(3) { self.rng.pick(&[0x200, 0x400, 0x100]) } else { 0 };
            self.put(tables + (GUEST_PAGES & 0xFFF) + 4 * index, page << 12 | flags);
            self.put(tables + (OTHER_GUEST_PAGES & 0xFFF) + 4 * index, other << 12);
        }
        if self.supervised {
            self.lay_failing_entries(tables);
        }
        if self.far {
            self.put(tables + 4, FAR_GUEST_PAGES | 15);
            for page in 0..16 {
                let real = self.rng.pick(&[3, 4, 7, 1]);
                self.put((self.frames[DATA] << 12) + (FAR_GUEST_PAGES & 0xFFF) + 4 * page, real << 12);
            }
        }
        let length = if self.fault == Some(Fault::Segment) && !self.wraps { 0 } else { 127 };
        model::set_word(&mut self.case.record, CR + 4, GUEST_SEGMENTS | length);
    }

    /// Pages and segments by which accesses fail. With low tables the first words of real page 0 are the entries of
    /// the first pages: those of pages 8 to 11 are where old PSWs are stored.
    fn lay_failing_entries(&mut self, tables: u32) {
        let past = 16 * self.extent << 12 & 0x7FFF_F000;
        let malformed = self.rng.pick(&[0x100, 0x800, 0x8000_0000]);
        let entries = [
            (PROTECTED, 0x3200),
            (INVALID, 0x3400),
            (MALFORMED, 0x3000 | malformed),
            (PAST_EXTENT, past),
            (PAST_EXTENT + 2, HOST_PROTECTED << 12),
            (PAST_EXTENT + 4, HOST_INVALID << 12),
        ];
        for (page, entry) in entries {
            self.put(tables + (GUEST_PAGES & 0xFFF) + 4 * page, entry);
            let before = self.rng.pick(&[3, 4, 7, 10]);
            self.put(tables + (GUEST_PAGES & 0xFFF) + 4 * (page - 1), before << 12);
        }
        let segments = [
            (INVALID_SEGMENT, GUEST_PAGES | 0x20 | 15),
            (MALFORMED_SEGMENT, 0x8000_0000 | GUEST_PAGES | 15),
            (PAST_EXTENT_SEGMENT, past | 15),
            (SHORT_SEGMENT, GUEST_PAGES),
            (LIKE_SEGMENT, GUEST_PAGES | 15),
            (LATE_SEGMENT, GUEST_PAGES | 15),
        ];
        for (segment, entry) in segments {
            self.put(tables + 4 * segment, entry);
        }
        if self.low_tables {
            let length = self.rng.pick(&[0, 15]);
            self.put(tables, length);
            for page in (0..8).chain(12..16) {
                self.put((self.frames[AREAS] << 12) + 4 * page, page << 12);
            }
        }
    }

    /// Writes bytes at a logical address by the first PSW's modes, as far as the tables lead.
    fn poke(&mut self, address: u32, bytes: &[u8]) {
        self.poke_for(self.modes.dat, address, bytes);
    }

    fn poke_for(&mut self, dat: bool, address: u32, bytes: &[u8]) {
        let mut record = self.case.record.clone();
        let psw = if self.system_370() { 0x0008_0000_0000_0000 } else { 0x0008_0000_8000_0000 };
        model::set_doubleword(&mut record, 16, psw | if dat { 1 << 58 } else { 0 });
        // Another CR0 would be no table.
        model::set_word(&mut record, CR, 0b10110 << 19);
        let (mut address, mut rest) = (self.cut(address), bytes);
        while !rest.is_empty() {
            let length = rest.len().min(4096 - (address & 0xFFF) as usize);
            let Case { storage, keys, designation, .. } = &self.case;
            if let Answer::Good(place) = model::translate(&record, storage, keys, *designation, address, 0) {
                self.case.storage[place as usize..][..length].copy_from_slice(&rest[..length]);
            }
            address = self.cut(address + length as u32);
            rest = &rest[length..];
        }
    }

    // -----------------------------------------------------------------------------------------------------------
    // Numbers and registers.

    fn choose_numbers(&mut self) {
        let time = self.machine.time(self.rng);
        let budget = match self.rng.below(10_000) {
            0..=99 => 0,
            100..=399 => 1,
            400..=1999 => self.rng.range(2, 20),
            2000..=8399 => self.rng.range(21, 70),
            8400..=9899 => self.rng.range(71, 160),
            9900..=9994 => self.rng.range(161, 700),
            9995..=9998 => self.rng.range(701, 5000),
            _ => 65_535,
        };
        (self.case.time, self.case.budget, self.units) = (time, budget, budget);
        let epoch = if self.rng.percent(40) { 0 } else { self.rng.next() };
        let guest_clock = match self.rng.below(4) {
            0 => self.rng.below(1000) as u64,
            1 => 0u64.wrapping_sub(self.moment()),
            _ => self.rng.next(),
        };
        let comparator = if self.rng.percent(40) { guest_clock.wrapping_add(self.moment()) } else { u64::MAX };
        self.case.clock = guest_clock.wrapping_sub(epoch);
        let timer = match self.rng.below(100) {
            0..=44 => self.moment(),
            // From negative to positive.
            45..=49 => (1 << 63) + self.moment().min(1 << 40),
            _ => self.rng.next() >> 1,
        };
        model::set_doubleword(&mut self.case.record, 24, timer);
        model::set_doubleword(&mut self.case.record, 32, comparator);
        model::set_doubleword(&mut self.case.record, 40, epoch);
    }

    /// The time of some units, and one beside it: of none, of one, of all, of one more or less than all.
    fn moment(&mut self) -> u64 {
        let units = match self.rng.below(10) {
            0 => self.rng.below(3),
            1..=3 => (self.units + self.rng.below(3)).saturating_sub(1),
            _ => self.rng.below(self.units + 2),
        };
        (units as u64 * self.case.time as u64).wrapping_add(self.rng.below(3) as u64).wrapping_sub(1)
    }

    /// The loop lies over the end of a block, over the end of a page, or in a block; so do the other fragments, in other
    /// places of their pages.
    fn choose_fragments(&mut self) {
        let shift = self.rng.below(4);
        for number in 0..4 {
            let mut page = self.rng.pick(&[1, 1, 2, 5, 6]);
            if self.rng.percent(if number < 2 { 3 } else { 25 }) {
                // With the areas, or in a frame of tables.
                page = self.rng.pick(&[0, 0, 8]);
            }
            let before = 2 * self.rng.below(20);
            let offset = match (number + shift) % 4 {
                0 => 0x7FE - before,
                1 => 0xFFE - before,
                2 => 0x200 + before,
                _ => 0xA00 + before,
            };
            let mut address = page << 12 | offset;
            if number == 1 && self.rng.percent(25) {
                // Eight blocks beside the first, in another frame.
                address = self.fragments[0].address ^ 0x4000;
            }
            if number == self.rng.below(3) && self.wraps {
                address = self.cut(u32::MAX - 1 - before);
            }
            self.fragments.push(Fragment { address, starts: vec![0] });
        }
    }

    /// Of the two programs and the two handlers. These are privileged; in the rest they are like the programs, or not.
    fn choose_states(&mut self) {
        let mut program = self.state();
        let alike = self.rng.percent(25);
        // Privileged instructions are done in supervisor state.
        let privileged = [Theme::Clocks, Theme::Controls, Theme::Areas].iter().any(|&theme| self.has(theme));
        let privileged = privileged || self.fault.is_some();
        program.problem = !alike && self.rng.percent(if privileged { 40 } else { 75 });
        for number in 0..4 {
            let mut state = program;
            if number > 0 && !alike && (number > 1 || self.rng.percent(40)) {
                let key = program.modes.key;
                state.modes.key = self.rng.pick(&[key, key, key, 0, 0, if number < 3 { 15 } else { 0 }]);
                state.masks[0] ^= self.rng.pick(&[0, 0, 0x01, 0x02]);
                state.basic ^= self.system_370() && self.rng.percent(50);
                let narrower = !self.system_370() && !self.wraps && self.rng.percent(20);
                state.modes.wide ^= narrower;
            }
            if number > 1 {
                state.problem = self.rng.percent(3);
                state.modes.dat &= alike || self.rng.percent(55);
            }
            self.states.push(state);
        }
    }

    /// Where the values to load stand: in page 0, or about the end of a block of operands.
    fn choose_values(&mut self) {
        self.values = VALUES[self.rng.percent(25) as usize];
        self.values_by_register = self.supervised && !self.has(Theme::Prefix) && self.rng.percent(25);
        if self.values_by_register {
            let page = self.rng.pick(&[3, 4, 7, 10]) << 12;
            let before = match () {
                _ if self.has(Theme::Controls) => self.rng.range(17, 46),
                _ if self.has(Theme::Clocks) => self.rng.range(9, 16),
                _ => self.rng.range(1, 8),
            };
            self.values = page + self.rng.pick(&[0x800, 0x1000]) - 8 * before;
        }
    }

    fn choose_registers(&mut self) {
        for role in 0..16 {
            let value = match self.rng.below(8) {
                0 => self.rng.below(3),
                1 => 0u32.wrapping_sub(self.rng.range(1, 3)),
                2 => 0x7FFF_FFFE + self.rng.below(4),
                3 => 0x4000_0000 + self.rng.below(2),
                4 => 0x00FF_FFFE + self.rng.below(4),
                _ => self.rng.word(),
            };
            self.set(role, value);
        }
        let operand = self.operand();
        let other = match self.rng.below(10) {
            0..=3 => operand ^ 0x4000,
            4..=5 => operand ^ 0x800,
            _ => self.operand(),
        };
        let other = if self.has(Theme::Exceptions) { self.failing_operand() } else { other };
        let (operand, other) = self.operands_of_programs(operand, other);
        let other = match (self.far, self.modes.dat) {
            (true, true) => 0x0010_0000 | other & 0xFFFF,
            (true, false) => 0x0001_0000 | other & 0xFFFF,
            _ => other,
        };
        let first = self.fragments[0].address;
        let second = self.fragments[1].address;
        let twin = first & 0xFFF
            | match first >> 12 & 15 {
                1 if self.modes.dat && self.modes.wide => 0x6000,
                1 => self.rng.pick(&[6, 9]) << 12,
                2 => 0x5000,
                5 => 0x2000,
                _ => 0x1000,
            };
        for (role, address) in
            [(OPERAND, operand), (OTHER_OPERAND, other), (START, first), (OTHER_START, second), (TWIN, twin)]
        {
            // The bits that are no part of an address may be anything.
            let high = if self.rng.percent(60) {
                0
            } else {
                self.rng.word() & if self.modes.wide { 0x8000_0000 } else { 0xFF00_0000 }
            };
            self.set(role, address & 0x7FFF_FFFF | high);
        }
        let word = self.word_of_text();
        self.set(WORD, word);
        let word = self.word_of_text();
        self.set(OTHER_WORD, word);
        self.choose_entry();
        let index = self.rng.pick(&[0, 1, 2, 4, 8, 0x7FC, 0x800, 0x1000, 0x4000, 0x00FF_FFFC, 0x7FFF_FFFC]);
        self.set(INDEX, index);
        let count = self.rng.range(1, 9);
        self.set(COUNT, count);
        if self.supervised {
            self.choose_registers_of_programs(operand);
        }
    }

    /// The other operand is where accesses fail; a walk begins some rounds before.
    fn operands_of_programs(&mut self, operand: u32, other: u32) -> (u32, u32) {
        if self.fault.is_none() {
            let late = self.supervised && self.has(Theme::Controls) && self.modes.dat && self.modes.wide;
            let segment = match () {
                _ if self.has(Theme::Paging) && self.rng.percent(30) => LIKE_SEGMENT,
                _ if late && self.rng.percent(30) => LATE_SEGMENT,
                _ => 0,
            };
            return (segment << 20 | operand, other);
        }
        let failing = self.failing_address();
        if !self.has(Theme::Walks) {
            return (operand, failing);
        }
        self.step = self.rng.pick(&[4, 8, 8, 16, 64, 0x100, 0x3F8]);
        let before = self.step * self.rng.range(1, 6);
        (self.cut((failing & !7).wrapping_sub(before)), failing)
    }

    /// What the themes of supervised guests have in registers.
    fn choose_registers_of_programs(&mut self, operand: u32) {
        let twin = if self.values_by_register { self.values } else { ALIAS << 12 };
        self.set(TWIN, twin);
        let tasks = self.values + TASKS;
        self.set(WORD, tasks);
        self.set(OTHER_WORD, tasks + 8);
        if self.has(Theme::Walks) {
            self.set(INDEX, operand);
        }
        if self.has(Theme::Targets) {
            // A text that fails as a whole, or after its first halfword.
            let before = 2 * self.rng.below(2);
            let target = self.failing_address().wrapping_sub(before) & !1;
            let operation = self.rng.pick(&[0x58, 0x50, 0x82, 0xD2, 0x0A, 0x1A]);
            self.set(WORD, self.cut(target));
            self.poke(target, &[operation, 0]);
        }
        if self.has(Theme::Areas) {
            // Where the next SVC goes on, in turn.
            for (role, fragment) in [(VALUE, 2), (OTHER_VALUE, self.rng.pick(&[1, 3, 2, 0]))] {
                let psw = self.psw(fragment);
                self.set(role, model::word(&psw, 4));
            }
        }
    }

    /// An address where an access fails, or that is some bytes before one.
    fn failing_address(&mut self) -> u32 {
        let dat = self.modes.dat;
        let page = |number: u32| number << 12;
        let segment = |number: u32| number << 20;
        let late = segment(if self.modes.wide { LATE_SEGMENT } else { INVALID_SEGMENT });
        let pages: [u32; 2] = match self.fault {
            Some(Fault::Low) => return self.rng.range(0, 63) * 8 + self.rng.pick(&[0, 0, 4, 6]),
            Some(Fault::Protected) => [page(PROTECTED); 2],
            Some(Fault::Past) if dat => [page(PAST_EXTENT), segment(PAST_EXTENT_SEGMENT)],
            Some(Fault::Past) => [16 * self.extent << 12; 2],
            Some(Fault::Segment) => [segment(INVALID_SEGMENT), late],
            Some(Fault::Page) => [page(INVALID), segment(SHORT_SEGMENT) | 0x10000],
            Some(Fault::Format) => [page(MALFORMED), segment(MALFORMED_SEGMENT)],
            Some(Fault::Host) if dat => [page(PAST_EXTENT + 2), page(PAST_EXTENT + 4)],
            Some(Fault::Host) => [page(HOST_PROTECTED), page(HOST_INVALID)],
            _ => [page(4); 2],
        };
        let start = self.rng.pick(&pages);
        let address = match self.rng.below(10) {
            0..=3 => start,
            4..=6 => start + self.rng.pick(&[8, 0x7F8, 0x800, 0xFF8]),
            _ => start.wrapping_sub(self.rng.pick(&[2, 4, 4, 8, 12])),
        };
        self.cut(address)
    }

    fn set(&mut self, role: usize, value: u32) {
        model::set_word(&mut self.case.record, GR + 4 * self.registers[role] as usize, value);
    }

    /// What the register has at first.
    fn value(&self, role: usize) -> u32 {
        model::word(&self.case.record, GR + 4 * self.registers[role] as usize)
    }

    /// A place for operands, mostly about the end of a block.
    fn operand(&mut self) -> u32 {
        if self.wraps && self.rng.percent(55) {
            let before = self.rng.range(1, 12);
            return self.cut(0u32.wrapping_sub(before));
        }
        let mut page =
            self.rng.pick(&[3, 3, 4, 4, 7, 7, 10, 9, 15, if self.modes.dat || self.extent > 1 { 0x13 } else { 3 }]);
        if self.frames[AREAS] == self.frames[PAGES] && self.rng.percent(70) {
            // Whose entries are where an old PSW is stored, or the interval timer's word.
            page = self.rng.pick(&[8, 9, 10, 11, TIMER_PAGE, TIMER_PAGE]);
        }
        let offset = match self.rng.below(10) {
            0..=3 => self.rng.range(0x7F4, 0x802),
            4..=6 => self.rng.range(0xFF4, 0x1002),
            7 => self.rng.below(16),
            _ => self.rng.below(4096),
        };
        (page << 12) + offset
    }

    /// One where an access may fail.
    fn failing_operand(&mut self) -> u32 {
        let page = self.rng.pick(&[HOST_PROTECTED, HOST_INVALID, 8, 16 * self.extent, 0x100, 0xF00, 4, 7]);
        let offset = self.rng.pick(&[0, 8, 0x7FC, 0x7FE, 0x800, 0xFF8]);
        (page << 12).wrapping_add(offset).wrapping_sub(self.rng.below(3) * 2) & 0x7FFF_FFFF
    }

    /// An instruction of four bytes, or two of two.
    fn word_of_text(&mut self) -> u32 {
        let sum = |rng: &mut Rng, registers: [u8; 16]| {
            let registers = registers[rng.below(4) as usize] << 4 | registers[rng.below(4) as usize];
            (rng.pick(&[0x18, 0x1A, 0x1B]) as u32) << 8 | registers as u32
        };
        match self.rng.below(10) {
            0..=3 => sum(self.rng, self.registers) << 16 | sum(self.rng, self.registers),
            4..=5 => 0x4100_0000 | (self.register(WORK + 1) as u32) << 20 | self.rng.below(4096),
            6 => 0x4700_0000 | self.rng.below(16) << 20 | (self.register(START) as u32) << 12,
            7 => 0x0700_0700 | self.rng.below(16) << 20,
            8 => 0x5800_0000 | (self.register(WORK + 2) as u32) << 20 | (self.register(OPERAND) as u32) << 12,
            _ => self.rng.word(),
        }
    }

    /// An entry of a table that operands or text are translated by, guest's or host's, and what to store there.
    fn choose_entry(&mut self) {
        let mut page = self.rng.pick(&[3, 3, 4, 7, 7, 10]);
        let operand = self.value(OPERAND) & 0x00FF_FFFF;
        if self.rng.percent(80) {
            page = operand >> 12 & 0xFF;
        }
        if self.rng.percent(15) {
            page = self.fragments[self.rng.below(2) as usize].address >> 12 & 0xFF;
        }
        let flags = if self.rng.percent(75) { 0 } else { self.rng.pick(&[0x200, 0x400, 0x100]) };
        if self.far {
            self.choose_far_entry(flags);
            return;
        }
        if self.has(Theme::Prefix) || self.has(Theme::Paging) {
            self.choose_entry_of_programs(operand);
            return;
        }
        let (at, values) = match self.rng.below(if self.modes.dat { 20 } else { 10 }) {
            0..=6 => {
                // By a page that has the host's page table. With DAT on the page is that of the guest's entry.
                if self.modes.dat {
                    let at = (self.frames[TABLES] << 12) + (GUEST_PAGES & 0xFFF) + 4 * page;
                    page = model::word(&self.case.storage, at as usize) >> 12 & 0xFF;
                }
                let now = model::word(&self.case.storage, self.host_entry(page) as usize);
                let mut frame = self.frames[self.rng.pick(&[DATA, OTHER_DATA, TEXT, OTHER_TEXT])] << 12;
                if frame == now & 0x7FFF_F000 {
                    frame = self.frames[if now >> 12 == self.frames[DATA] { OTHER_DATA } else { DATA }] << 12;
                }
                (0xD000 | self.host_entry(page) & 0xFFF, [now, frame | flags])
            }
            7..=9 => (0xE000 | 4 * (self.origin >> 4) & 0xFFF, [HOST_PAGES | 15, OTHER_HOST_PAGES | 15 | flags >> 5]),
            10..=16 => {
                let at = (self.frames[TABLES] << 12) + (GUEST_PAGES & 0xFFF) + 4 * page;
                let now = model::word(&self.case.storage, at as usize);
                let other = self.rng.pick(&[3, 4, 7, 1, 2]);
                let other = if ROLES[other as usize] == ROLES[now as usize >> 12 & 15] { other ^ 1 } else { other };
                (GUEST_PAGES + 4 * page, [now, other << 12 | flags])
            }
            _ => (GUEST_SEGMENTS, [GUEST_PAGES | 15, OTHER_GUEST_PAGES | 15 | flags >> 5]),
        };
        self.set(ENTRY, at);
        self.set(VALUE, values[1]);
        self.set(OTHER_VALUE, values[0]);
    }

    /// The host's entry of the prefix page, which leads to a copy of it; or the guest's of an operand, which is taken
    /// away.
    fn choose_entry_of_programs(&mut self, operand: u32) {
        let (at, now, other) = if self.has(Theme::Prefix) {
            let at = self.host_entry(0);
            let flags = if self.rng.percent(75) { 0 } else { self.rng.pick(&[0x200, 0x400]) };
            let now = model::word(&self.case.storage, at as usize);
            (0xD000 | at & 0xFFF, now, self.frames[DATA] << 12 | flags)
        } else if operand >> 20 == LIKE_SEGMENT {
            let now = GUEST_PAGES | 15;
            (GUEST_SEGMENTS + 4 * LIKE_SEGMENT, now, now | self.rng.pick(&[0x20, 0x20, 0x8000_0000]))
        } else {
            let at = GUEST_PAGES + 4 * (operand >> 12 & 0xFF);
            let place = (self.frames[TABLES] << 12) + (at & 0xFFF);
            let now = model::word(&self.case.storage, place as usize) & 0x7FFF_F000;
            (at, now, now | self.rng.pick(&[0x400, 0x400, 0x400, 0x200, 0x100]))
        };
        self.set(ENTRY, at);
        self.set(VALUE, other);
        self.set(OTHER_VALUE, now);
    }

    /// The same in the second segment's page table, which is not in use until the other operand is.
    fn choose_far_entry(&mut self, flags: u32) {
        let other = self.value(OTHER_OPERAND);
        let index = 4 * (other >> 12 & 15);
        let (at, roles) = if self.modes.dat { (FAR_GUEST_PAGES, [3, 4]) } else { (FAR_HOST_PAGES, [DATA, OTHER_DATA]) };
        let values = if self.modes.dat { roles.map(|page| page as u32) } else { roles.map(|role| self.frames[role]) };
        self.set(ENTRY, at + index);
        self.set(VALUE, values[0] << 12 | flags);
        self.set(OTHER_VALUE, values[1] << 12);
    }

    fn register(&self, role: usize) -> u8 {
        self.registers[role]
    }

    fn choose_controls(&mut self) {
        let control = self.control_register_0();
        model::set_word(&mut self.case.record, CR, control);
        for register in 2..16 {
            let value = self.rng.word();
            model::set_word(&mut self.case.record, CR + 4 * register, value);
        }
        if self.has(Theme::Areas) {
            // Pairs that are new PSWs, for STCTL.
            for (register, fragment) in [(4, 2), (6, 3), (8, self.rng.below(4) as usize)] {
                let psw = if self.rng.percent(85) { self.psw(fragment) } else { self.strange_psw(fragment) };
                self.case.record[CR + 4 * register..][..8].copy_from_slice(&psw);
            }
        }
        for (register, role) in [(10, VALUE), (11, OTHER_VALUE)] {
            let value = self.value(role);
            model::set_word(&mut self.case.record, CR + 4 * register, value);
        }
        let psw = self.psw(0);
        self.case.record[16..24].copy_from_slice(&psw);
    }

    /// Interception controls, requests, and whatever the last run left.
    fn choose_requests(&mut self) {
        let record = &mut self.case.record;
        for (bit, chance) in [(0x80, 10), (0x40, 10), (0x20, 6)] {
            record[5] |= if self.rng.percent(chance) { bit } else { 0 };
        }
        if self.rng.percent(10) {
            record[6 + self.rng.below(2) as usize] = 1 << self.rng.below(8);
        }
        if self.rng.percent(30) {
            record[48] = self.rng.byte() & if self.rng.percent(90) { 0x7F } else { 0xFF };
            for number in &mut record[49..52] {
                *number = self.rng.pick(&[0, 1, 2, 0xFF]);
            }
        }
        // Requests wait for their masks, or the first PSW has these.
        if self.rng.percent(7) {
            record[3] = self.rng.pick(&[0x01, 0x02, 0x03, 0x04, 0x08, 0xF0]);
        }
        if self.rng.percent(50) {
            self.rng.fill(&mut record[52..66]);
        }
    }

    fn control_register_0(&mut self) -> u32 {
        let low = match self.fault {
            Some(Fault::Low) => 85,
            _ if self.supervised => 12,
            _ => 30,
        };
        let masks = [(0x1000_0000, low), (0x800, 50), (0x400, 50), (0x80, 40)];
        let masks = masks.map(|(bit, chance)| if self.rng.percent(chance) { bit } else { 0 });
        0b10110 << 19 | masks.into_iter().sum::<u32>()
    }

    /// A state for any PSW of the guest.
    fn state(&mut self) -> State {
        let basic = self.system_370() && self.rng.percent(50);
        let external = if self.rng.percent(30) { 0x01 } else { 0 };
        let masks = [external | if self.rng.percent(25) { 0x02 } else { 0 }, self.rng.byte() & 0x04];
        State { modes: self.modes, basic, problem: self.rng.percent(8), masks }
    }

    /// One that goes on at an instruction of the fragment.
    fn psw(&mut self, fragment: usize) -> [u8; 8] {
        let starts = &self.fragments[fragment].starts;
        let start = if fragment < 2 && self.rng.percent(25) { self.rng.pick(starts) } else { 0 };
        let address = self.cut(self.fragments[fragment].address + start);
        let state = if self.supervised && self.rng.percent(95) { self.states[fragment] } else { self.state() };
        let State { modes, basic, problem, masks } = state;
        let mut psw = [0; 8];
        psw[0] = masks[0] | if modes.dat { 0x04 } else { 0 };
        psw[1] = modes.key << 4 | if basic { 0 } else { 0x08 } | masks[1] | problem as u8;
        // Condition code and program mask.
        psw[if basic { 4 } else { 2 }] = self.rng.byte() & if self.rng.percent(60) { 0x37 } else { 0x3F };
        if basic {
            psw[0] = psw[0] & 0x03 | if self.rng.percent(20) { self.rng.byte() & 0xFC } else { 0 };
            psw[2] = self.rng.byte();
            psw[4] |= self.rng.byte() & 0xC0;
        }
        psw[5..8].copy_from_slice(&address.to_be_bytes()[1..]);
        if !self.system_370() {
            psw[4] = if modes.wide { 0x80 | address.to_be_bytes()[0] } else { 0 };
        }
        psw
    }

    /// One of another key, state, mode or form; not installed; malformed; or with an odd address.
    fn strange_psw(&mut self, fragment: usize) -> [u8; 8] {
        let mut psw = self.psw(fragment);
        match self.rng.below(20) {
            0..=4 => psw[1] = psw[1] & 0x0F | self.rng.pick(&[0, self.modes.key, 1, 15]) << 4,
            5..=9 if !self.system_370() => psw[0] ^= 0x04,
            10..=11 if !self.system_370() && psw[4] & 0x7F == 0 => psw[4] ^= 0x80,
            5..=11 => psw[1] ^= 0x08,
            12..=13 => psw[1] ^= 0x01,
            14 => psw[1] |= 0x02,
            15 => psw[0] |= self.rng.pick(&[0x40, 0x80, 0x20, 0x08]),
            16 => psw[3] |= 1 << self.rng.below(8),
            17 => psw[2] |= self.rng.pick(&[0x40, 0x80]),
            18 => psw[7] |= 1,
            _ => psw[4] |= 1 << self.rng.below(8),
        }
        psw
    }

    /// The residue reaches its end after some units; the word turns negative then, or has done, or does not.
    fn set_interval_timer(&mut self) {
        if self.machine == Machine::Xa {
            return;
        }
        self.case.record[200] = self.rng.byte() & 0x7F | if self.rng.percent(12) { 0x80 } else { 0 };
        // After so many falls before.
        let left = 3 * self.moment().min(1 << 40) + self.rng.below(4) as u64;
        let falls = (left / 40_960_000) as u32;
        let aimed = 40_960_000 - (left % 40_960_000) as u32;
        let residue = if self.rng.percent(80) { aimed } else { self.rng.below(40_960_000) };
        model::set_word(&mut self.case.record, 204, residue.min(40_959_999));
        if self.system_370() {
            let word = match self.rng.below(10) {
                _ if self.prefix == TIMER_PAGE << 12 => self.frames[AREAS] << 12 | self.rng.below(256),
                0..=5 => 256 * falls + self.rng.pick(&[0, 1, 255]),
                _ => self.rng.pick(&[0, 255, 256, 0x200, 0x8000_0000, 0xFFFF_FFFF]),
            };
            self.poke(80, &u32::to_be_bytes(word));
        }
    }

    /// The marks are mostly set, so that blocks can be kept from their first use on.
    fn set_keys(&mut self) {
        let marked = self.rng.percent(50);
        for frame in 0..self.case.keys.len() {
            let marks = if marked { 0x06 } else { self.rng.byte() & 0x06 };
            let fetch = if self.rng.percent(if self.supervised { 8 } else { 15 }) { 0x08 } else { 0 };
            let access = if self.rng.percent(6) { self.rng.byte() & 0xF0 } else { self.modes.key << 4 };
            self.case.keys[frame] = access | fetch | marks | self.rng.byte() & 0x01;
        }
        if self.has(Theme::Psws) && self.rng.percent(30) {
            // What one of the keys may not store into.
            let frame = self.frames[self.rng.pick(&[DATA, OTHER_DATA])] as usize;
            self.case.keys[frame] = self.case.keys[frame] & 0x0F | self.rng.pick(&[0, 0x10, 0xF0]);
        }
        if self.has(Theme::Exceptions) && self.rng.percent(40) {
            let access = self.rng.byte() & 0xF0;
            self.case.keys[self.frames[OTHER_DATA] as usize] = access | self.rng.byte() & 0x0E;
        }
        if self.fault == Some(Fault::Key) {
            let frame = self.frames[OTHER_DATA] as usize;
            let access = (self.modes.key ^ self.rng.range(1, 15) as u8) << 4;
            let fetch = if self.rng.percent(60) { 0x08 } else { 0 };
            self.case.keys[frame] = access | fetch | self.case.keys[frame] & 0x07;
        }
    }

    // -----------------------------------------------------------------------------------------------------------
    // Text.

    fn lay_fragments(&mut self) {
        for number in 0..4 {
            let text = if number < 2 { self.lay_loop(number) } else { self.lay_handler(number) };
            let address = self.fragments[number].address;
            self.poke_twice(address, &text);
        }
    }

    /// Where the other setting of DAT finds it, too; mostly that is the same place.
    fn poke_twice(&mut self, address: u32, bytes: &[u8]) {
        if self.modes.dat {
            self.poke_for(false, address, bytes);
        }
        self.poke(address, bytes);
    }

    /// Perhaps an inner loop, then the rest, and back or on to the other loop.
    fn lay_loop(&mut self, number: usize) -> Vec<u8> {
        let base = if number == 0 { START } else { OTHER_START };
        let mut text = Vec::new();
        self.fragments[number].starts.clear();
        if self.rng.percent(40) {
            // COUNT is set anew, and falls to zero.
            let rounds = self.rng.range(1, 8) as u16;
            self.emit(number, &mut text, &rx(0x41, self.register(COUNT), 0, 0, rounds));
            let start = text.len();
            for _ in 0..self.rng.range(1, 4) {
                self.lay_item(if self.supervised { 35 } else { 0 }, number, &mut text);
            }
            let one = rx(0x41, self.register(WORK), 0, 0, 1);
            self.emit(number, &mut text, &one);
            let less = [0x1B, self.register(COUNT) << 4 | self.register(WORK)];
            self.emit(number, &mut text, &less);
            let mask = self.rng.pick(&[0x7, 0x2, 0x7, 0x3]);
            let back = rx(0x47, mask, 0, self.register(base), start as u16);
            self.emit(number, &mut text, &back);
        }
        // Programs may be as short as SVC and the branch back.
        let most = if self.supervised && self.rng.percent(35) { 2 } else { 8 };
        let items = self.rng.range(1, most);
        for _ in 0..items {
            self.lay_item(if self.supervised { 75 } else { 55 }, number, &mut text);
        }
        let next = if number == 1 || self.rng.percent(25) { self.rng.pick(&[START, OTHER_START, START]) } else { base };
        let next = self.register(next);
        let last = match self.rng.below(10) {
            0..=4 => rx(0x47, 15, 0, next, 0),
            5 => rx(0x47, 15, next, 0, 0),
            _ => vec![0x07, 0xF0 | next],
        };
        self.emit(number, &mut text, &last);
        // Seldom a branch to an odd address.
        if self.rng.per_mille(15) {
            let at = text.len() - 1;
            text[at] |= 1;
        }
        text
    }

    /// Of a theme with this chance.
    fn lay_item(&mut self, chance: u32, number: usize, text: &mut Vec<u8>) {
        if !self.themes.is_empty() && self.rng.percent(chance) {
            let theme = self.rng.pick(&self.themes.clone());
            self.disturb(theme, number, text);
        } else {
            self.plain(number, text);
        }
    }

    fn emit(&mut self, number: usize, text: &mut Vec<u8>, instruction: &[u8]) {
        self.fragments[number].starts.push(text.len() as u32);
        text.extend(instruction);
    }

    /// A register for results: mostly one that nothing else stands in.
    fn work(&mut self) -> u8 {
        if self.rng.percent(2) {
            return self.rng.below(16) as u8;
        }
        let role = self.rng.below(4) as usize;
        self.register(WORK + role)
    }

    /// Base, index and displacement of an operand.
    fn storage_operand(&mut self) -> (u8, u8, u16) {
        let base = self.rng.pick(&[OPERAND, OPERAND, OTHER_OPERAND]);
        let index = if self.rng.percent(15) { INDEX } else { WORK };
        let index = if index == WORK { 0 } else { self.register(index) };
        let displacement = match self.rng.below(10) {
            0..=4 => 0,
            5..=7 => self.rng.below(16) as u16,
            8 => self.rng.pick(&[0x7FC, 0x7FE, 0x800, 0xFFC, 0xFFF]),
            _ => self.rng.below(4096) as u16,
        };
        (self.register(base), index, displacement)
    }

    fn plain(&mut self, number: usize, text: &mut Vec<u8>) {
        let first = self.work();
        let second = if self.rng.percent(70) {
            self.registers[WORK + self.rng.below(4) as usize]
        } else {
            self.rng.below(16) as u8
        };
        let base = self.register(if number == 1 { OTHER_START } else { START });
        let instruction = match self.rng.below(100) {
            0..=9 => vec![0x18, first << 4 | second],
            10..=27 => vec![0x1A, first << 4 | second],
            28..=42 => vec![0x1B, first << 4 | second],
            43..=52 => {
                let base = self.rng.pick(&[0, first, second, self.register(OPERAND)]);
                let index = if self.rng.percent(40) { self.rng.below(16) as u8 } else { 0 };
                rx(0x41, first, index, base, self.rng.below(4096) as u16)
            }
            53..=56 => {
                let step = self.rng.pick(&[1, 2, 4, 4, 8, 0x7FF]);
                let index = self.register(INDEX);
                rx(0x41, index, index, 0, step)
            }
            57..=66 => {
                // Over the next instruction, which is laid at once.
                let over = text.len() as u16 + 4;
                let next = vec![self.rng.pick(&[0x18, 0x1A, 0x1B]), first << 4 | second];
                let branch = rx(0x47, self.rng.below(16) as u8, 0, base, over + next.len() as u16);
                self.emit(number, text, &branch);
                next
            }
            67..=70 if !text.is_empty() => {
                // Back, where the code is one that does not stay for ever, mostly.
                let start = self.rng.pick(&self.fragments[number].starts.clone());
                rx(0x47, self.rng.pick(&[1, 2, 4, 8, 5, 10]), 0, base, start as u16)
            }
            71..=75 => {
                let target = self.rng.pick(&[0, 0, self.register(START), self.register(OTHER_START)]);
                let mask = if target == 0 { self.rng.below(16) } else { self.rng.pick(&[1, 2, 4, 8, 3, 9]) };
                vec![0x07, (mask as u8) << 4 | target]
            }
            76..=87 => {
                let (base, index, displacement) = self.storage_operand();
                rx(0x58, first, index, base, displacement)
            }
            _ => {
                let (base, index, displacement) = self.storage_operand();
                rx(0x50, second, index, base, displacement)
            }
        };
        self.emit(number, text, &instruction);
    }

    fn disturb(&mut self, theme: Theme, number: usize, text: &mut Vec<u8>) {
        let instruction = match theme {
            Theme::Text => {
                if self.rng.percent(50) {
                    self.exchange(WORD, OTHER_WORD, number, text);
                }
                let store = self.store_text(number, text.len() as u16);
                self.emit(number, text, &store);
                // What it is stored over, mostly.
                vec![0x47, 0, 0, 0]
            }
            Theme::Tables => {
                if self.rng.percent(50) {
                    self.exchange(VALUE, OTHER_VALUE, number, text);
                }
                for value in [VALUE, OTHER_VALUE] {
                    let store = self.store_entry(value, number);
                    self.emit(number, text, &store);
                    self.use_operand(number, text);
                    if self.rng.percent(40) {
                        return;
                    }
                }
                return;
            }
            Theme::Low => self.low_operand(),
            Theme::Branches => {
                self.exchange(WORD, OTHER_WORD, number, text);
                let (mask, target) = (self.rng.pick(&[15, 7, 11, 13]), self.register(WORD));
                if self.rng.percent(50) {
                    vec![0x07, mask << 4 | target]
                } else {
                    rx(0x47, mask, 0, target, 0)
                }
            }
            Theme::Psws => {
                self.use_operand(number, text);
                let (second, number) = (self.rng.byte(), self.rng.below(8));
                match self.rng.below(10) {
                    0..=4 => self.call(),
                    5 => self.with_value(0x82, 0, PSWS + 4),
                    _ => self.with_value(0x82, second, PSWS + 8 * number),
                }
            }
            Theme::Clocks => self.clock_operand(),
            Theme::Controls if self.modes.dat && self.rng.percent(50) => {
                // The other segment table, and back.
                for values in [OTHER_CONTROLS, CONTROLS] {
                    let load = self.with_value(0xB7, 0x11, values + 4);
                    self.emit(number, text, &load);
                    self.use_operand(number, text);
                }
                return;
            }
            Theme::Controls => {
                self.use_operand(number, text);
                self.control_operand()
            }
            Theme::Exceptions => self.exception(number),
            _ => return self.disturb_program(theme, number, text),
        };
        self.emit(number, text, &instruction);
    }

    /// The same for the themes of supervised guests.
    fn disturb_program(&mut self, theme: Theme, number: usize, text: &mut Vec<u8>) {
        let instruction = match theme {
            Theme::Operations => self.refused_operation(number),
            Theme::Operands => self.access(OTHER_OPERAND, true),
            Theme::Targets if self.rng.percent(50) => vec![0x07, 0xF0 | self.register(WORD)],
            Theme::Targets => rx(0x47, 15, 0, self.register(WORD), 0),
            Theme::Walks => {
                let index = self.register(INDEX);
                self.emit(number, text, &rx(0x41, index, index, 0, self.step as u16));
                self.access(INDEX, false)
            }
            Theme::Areas => {
                self.store_area(number, text);
                self.interrupt()
            }
            Theme::Paging => {
                let store = self.store_entry(VALUE, number);
                self.emit(number, text, &store);
                self.access(OPERAND, false)
            }
            Theme::Prefix => {
                for value in [VALUE, OTHER_VALUE] {
                    let store = self.store_entry(value, number);
                    self.emit(number, text, &store);
                    if self.rng.percent(30) {
                        break;
                    }
                    let interrupt = self.interrupt();
                    self.emit(number, text, &interrupt);
                }
                return;
            }
            _ => self.call(),
        };
        self.emit(number, text, &instruction);
    }

    /// By ST, or by STCTL of a control register that has the same.
    fn store_entry(&mut self, value: usize, number: usize) -> Vec<u8> {
        let base = self.register(ENTRY);
        if self.supervised && !self.states[number].problem && self.rng.percent(25) {
            return s(0xB6, if value == VALUE { 0xAA } else { 0xBB }, base, 0);
        }
        rx(0x50, self.register(value), 0, base, 0)
    }

    fn call(&mut self) -> Vec<u8> {
        vec![0x0A, self.rng.pick(&[0, 1, 2, 3, 3, 3, 0x80, 0xFF])]
    }

    fn interrupt(&mut self) -> Vec<u8> {
        if self.rng.percent(70) {
            self.call()
        } else {
            self.unassigned_operation()
        }
    }

    /// Two registers exchange what they have, so that each round has another.
    fn exchange(&mut self, first: usize, second: usize, number: usize, text: &mut Vec<u8>) {
        let (first, second, between) = (self.register(first), self.register(second), self.register(WORK + 3));
        for [to, from] in [[between, first], [first, second], [second, between]] {
            self.emit(number, text, &[0x18, to << 4 | from]);
        }
    }

    /// What a changed translation is seen by.
    fn use_operand(&mut self, number: usize, text: &mut Vec<u8>) {
        for _ in 0..self.rng.below(3) {
            let (operation, first) = (self.rng.pick(&[0x58, 0x50]), self.work());
            let base = self.rng.pick(&[OPERAND, OPERAND, OPERAND, OTHER_OPERAND]);
            let base = if self.far { OTHER_OPERAND } else { base };
            let operand = rx(operation, first, 0, self.register(base), self.rng.below(4) as u16);
            self.emit(number, text, &operand);
        }
    }

    /// Over the next instruction, over itself, over another, by its own address or by another page.
    fn store_text(&mut self, number: usize, at: u16) -> Vec<u8> {
        let own = if number == 1 { OTHER_START } else { START };
        let (base, offset) = match self.rng.below(10) {
            0..=2 => (own, at + 4),
            3 => (own, at),
            4 => (own, at + 2),
            5 => (own, self.rng.below(at as u32 / 2 + 1) as u16 * 2),
            6 => (if number == 1 { START } else { OTHER_START }, 2 * self.rng.below(8) as u16),
            7 if number == 0 => (TWIN, at),
            _ if number == 0 => (TWIN, at + 4),
            _ => (TWIN, 2 * self.rng.below(8) as u16),
        };
        let word = self.rng.pick(&[WORD, OTHER_WORD]);
        let (word, base) = (self.register(word), self.register(base));
        if self.rng.percent(8) {
            return s(self.rng.pick(&[0xB6, 0xB2]), 0x05, base, offset);
        }
        rx(0x50, word, 0, base, offset)
    }

    /// About the interval timer's word, the areas of interruptions and the end of low addresses.
    fn low_operand(&mut self) -> Vec<u8> {
        let at = match self.rng.below(10) {
            0..=2 => self.rng.range(76, 84),
            3..=6 => self.rng.range(500, 516),
            7 => self.rng.pick(&[24, 32, 40, 88, 136, 140, 144]),
            8 => self.rng.range(0x7F8, 0x808),
            _ => self.rng.below(600),
        } as u16;
        match self.rng.below(10) {
            0..=5 => rx(0x50, self.rng.below(16) as u8, 0, 0, at),
            6..=7 => rx(0x58, self.work(), 0, 0, at),
            8 => s(0xB2, 0x05, 0, at),
            _ => s(0xB2, 0x09, 0, at & 0xFF8),
        }
    }

    fn clock_operand(&mut self) -> Vec<u8> {
        let second = self.rng.pick(&[0x05, 0x05, 0x09, 0x09, 0x08]);
        if second == 0x08 && self.rng.percent(85) {
            let number = self.rng.below(8);
            return self.with_value(0xB2, second, TIMERS + 8 * number);
        }
        if self.rng.percent(8) {
            return s(0xB2, second, 0, self.rng.pick(&[24, 32, 40, 80, 136, 144, 160, 504, 508, 512]));
        }
        let base = self.operand_role();
        self.with_operand(base, 0xB2, second, if second == 0x05 { 1 } else { 8 })
    }

    /// LCTL of the values laid for the range, one register mostly; STCTL to an operand.
    fn control_operand(&mut self) -> Vec<u8> {
        let range = self.control_range();
        if self.rng.percent(65) {
            return self.load_controls(range);
        }
        if self.rng.percent(8) {
            return s(0xB6, range, 0, self.rng.pick(&[0, 16, 28, 48, 76, 132, 148, 448, 504, 508]));
        }
        let base = self.operand_role();
        self.with_operand(base, 0xB6, range, 4)
    }

    /// One of the operands, mostly one that can be accessed.
    fn operand_role(&mut self) -> usize {
        if self.fault.is_some() && self.rng.percent(90) {
            return OPERAND;
        }
        self.rng.pick(&[OPERAND, OTHER_OPERAND])
    }

    fn load_controls(&mut self, range: u8) -> Vec<u8> {
        let values = self.rng.pick(&[CONTROLS, OTHER_CONTROLS]);
        let end = 2048 - self.values % 2048;
        if self.values_by_register && (values + 4..values + 0x60).contains(&end) && self.rng.percent(50) {
            // Over the end of the block.
            let word = (end - values) / 4 - 1;
            let range = (word % 16) << 4 | (word + self.rng.range(1, 4)) % 16;
            return self.with_value(0xB7, range as u8, values + 4 * word);
        }
        let off = self.rng.percent(3) as u32;
        self.with_value(0xB7, range, values + 4 * (range as u32 >> 4) + off)
    }

    fn control_range(&mut self) -> u8 {
        let first = if self.rng.percent(55) { self.rng.below(2) } else { self.rng.below(16) };
        let count = if self.rng.percent(70) { self.rng.below(3) } else { self.rng.below(16) };
        (first << 4 | (first + count) % 16) as u8
    }

    /// An operation on one of the values to load.
    fn with_value(&self, operation: u8, second: u8, offset: u32) -> Vec<u8> {
        if self.values_by_register {
            return s(operation, second, self.register(TWIN), offset as u16);
        }
        s(operation, second, 0, (self.values + offset) as u16)
    }

    /// An operation on an operand, mostly on its boundary.
    fn with_operand(&mut self, role: usize, operation: u8, second: u8, boundary: u32) -> Vec<u8> {
        let at = self.value(role);
        let displacement = match self.rng.below(100) {
            0..=95 => (boundary - at % boundary) % boundary + boundary * self.rng.below(3),
            _ => self.rng.below(16),
        };
        s(operation, second, self.register(role), displacement as u16)
    }

    /// An operation on an operand; of loads that change more than a register only where they fail.
    fn access(&mut self, role: usize, fails: bool) -> Vec<u8> {
        let (first, range) = (self.work() << 4, self.control_range());
        let (operation, second, boundary) = match self.rng.below(if fails { 20 } else { 12 }) {
            0..=2 => (0x58, first, 1),
            3..=5 => (0x50, first, 1),
            6..=7 => (0xB2, 0x05, 1),
            8..=9 => (0xB2, 0x09, 8),
            10..=11 => (0xB6, range, 4),
            12..=13 => (0xB2, 0x08, 8),
            14..=16 => (0x82, 0, 8),
            _ => (0xB7, range, 4),
        };
        self.with_operand(role, operation, second, boundary)
    }

    /// One that ends in an exception; in supervisor state some are done, or are exits.
    fn refused_operation(&mut self, number: usize) -> Vec<u8> {
        let own = self.register(if number == 1 { OTHER_START } else { START });
        match self.rng.below(12) {
            0..=5 => self.unassigned_operation(),
            6..=8 => self.privileged_operation(number),
            9..=10 => self.operation_off_boundary(),
            _ => rx(0x47, self.rng.pick(&[15, 1, 4, 8]), 0, own, 1),
        }
    }

    /// Of one, two or three halfwords, those of the other architecture too.
    fn unassigned_operation(&mut self) -> Vec<u8> {
        let foreign = if self.system_370() { [0xB2, 0x30] } else { [0x9C, 0] };
        match self.rng.below(3) {
            0 => vec![self.rng.pick(&[0x00, 0x01, 0x19, 0x1C, 0x3F]), self.rng.byte()],
            1 => {
                let [first, second] = self.rng.pick(&[[0x40, 0x12], [0x90, 0xEC], [0xB2, 0x04], [0xBF, 0xFF], foreign]);
                s(first, second, 0, 0)
            }
            _ => vec![self.rng.pick(&[0xC0, 0xD2, 0xF3, 0xFF]), self.rng.byte(), 0, 0, 0, 0],
        }
    }

    fn privileged_operation(&mut self, number: usize) -> Vec<u8> {
        let (value, range) = (self.rng.below(4), self.control_range());
        let exits = self.states[number].problem || self.rng.percent(20);
        match self.rng.below(if exits { 8 } else { 5 }) {
            0 => self.with_value(0x82, 0, PSWS + 8 * value),
            1 => self.with_value(0xB2, 0x08, TIMERS + 8 * value),
            2 => self.with_operand(OPERAND, 0xB2, 0x09, 8),
            3 => self.with_value(0xB7, range, CONTROLS + 4 * (range as u32 >> 4)),
            4 => self.with_operand(OPERAND, 0xB6, range, 4),
            5 => s(0x83, self.rng.byte(), 0, 0),
            6 => s(0xAE, self.rng.byte(), 0, 0),
            _ if self.system_370() => s(0x9C + value as u8, 0, 0, 0),
            _ => s(0xB2, 0x30 + self.rng.below(13) as u8, 0, 0),
        }
    }

    fn operation_off_boundary(&mut self) -> Vec<u8> {
        let (range, word, doubleword) = (self.control_range(), self.rng.range(1, 3), self.rng.range(1, 7));
        match self.rng.below(5) {
            0 => self.with_value(0x82, 0, PSWS + doubleword),
            1 => self.with_value(0xB2, 0x08, TIMERS + doubleword),
            2 => self.with_value(0xB2, 0x09, TIMERS + doubleword),
            3 => self.with_value(0xB7, range, CONTROLS + word),
            _ => self.with_value(0xB6, range, CONTROLS + word),
        }
    }

    /// Into the new PSWs, the old ones and the fields beside them, by page 0 or by the alias; or a load of these.
    fn store_area(&mut self, number: usize, text: &mut Vec<u8>) {
        let base = if self.values_by_register || self.rng.percent(50) { 0 } else { self.register(TWIN) };
        let work = self.work();
        let instruction = match self.rng.below(12) {
            0..=3 => {
                self.exchange(VALUE, OTHER_VALUE, number, text);
                rx(0x50, self.register(VALUE), 0, base, self.rng.pick(&[100, 100, 100, 108]))
            }
            4..=6 => {
                let (range, at) = self.rng.pick(&[(0x45, 96), (0x67, 104), (0x47, 96), (0x89, 96), (0x89, 104)]);
                s(0xB6, range, base, at)
            }
            7..=8 => {
                let load = self.with_value(0xB2, 0x08, TIMERS + 56);
                self.emit(number, text, &load);
                s(0xB2, 0x09, base, 96)
            }
            9 => s(0xB2, 0x05, base, self.rng.pick(&[24, 32, 40, 80, 93, 136, 140, 144])),
            10 => rx(0x50, work, 0, base, self.rng.pick(&[32, 36, 40, 44, 80, 104, 136, 140, 144])),
            _ => rx(0x58, work, 0, base, self.rng.pick(&[32, 36, 40, 44, 80, 96, 136, 140, 144])),
        };
        self.emit(number, text, &instruction);
    }

    fn exception(&mut self, number: usize) -> Vec<u8> {
        let own = self.register(if number == 1 { OTHER_START } else { START });
        let other = self.register(OTHER_OPERAND);
        let first = self.work();
        match self.rng.below(12) {
            0 => vec![self.rng.pick(&[0, 0x01, 0x19, 0x1C]), self.rng.byte()],
            1 => s(self.rng.pick(&[0x42, 0x90, 0xB2]), 0xFF, 0, 0),
            2 => vec![0xD2, 0, 0, 0, 0, 0],
            3..=4 => self.operation_off_boundary(),
            5 => s(self.rng.pick(&[0x83, 0xAE, 0x9C]), 0, 0, 0),
            6 => rx(0x47, self.rng.pick(&[1, 4, 8]), 0, own, 1),
            7..=8 => rx(0x50, first, 0, other, self.rng.below(4) as u16),
            9 => s(0xB2, self.rng.pick(&[0x05, 0x09]), other, 8 * self.rng.below(2) as u16),
            _ => rx(0x58, first, 0, other, self.rng.below(4) as u16),
        }
    }

    /// Of an interruption: perhaps some of the loop's, perhaps what mends an entry, and back by the old PSW; or on to
    /// the loop.
    fn lay_handler(&mut self, number: usize) -> Vec<u8> {
        let mut text = Vec::new();
        self.fragments[number].starts.clear();
        if number == 3 {
            self.lay_remedy(number, &mut text);
        }
        for _ in 0..self.rng.below(3) {
            if self.has(Theme::Areas) && self.rng.percent(40) {
                self.store_area(number, &mut text);
                continue;
            }
            let instruction = self.instruction_of_handler(number);
            self.emit(number, &mut text, &instruction);
        }
        for instruction in self.instructions_back(number) {
            self.emit(number, &mut text, &instruction);
        }
        text
    }

    /// The page is given back, the walk begins again, control registers are as at first.
    fn lay_remedy(&mut self, number: usize, text: &mut Vec<u8>) {
        if self.has(Theme::Paging) && self.rng.percent(90) {
            let mend = self.store_entry(OTHER_VALUE, number);
            self.emit(number, text, &mend);
        }
        if self.has(Theme::Walks) && self.rng.percent(90) {
            self.emit(number, text, &[0x18, self.register(INDEX) << 4 | self.register(OPERAND)]);
        }
        if self.supervised && self.has(Theme::Controls) && self.modes.dat && self.rng.percent(60) {
            let load = self.with_value(0xB7, 0x01, CONTROLS);
            self.emit(number, text, &load);
        }
    }

    fn instruction_of_handler(&mut self, number: usize) -> Vec<u8> {
        let (first, second) = (self.work(), self.work());
        match self.rng.below(20) {
            0..=5 if self.has(Theme::Tables) => self.store_entry(OTHER_VALUE, number),
            0..=3 if self.has(Theme::Controls) => self.control_operand(),
            4..=8 if self.has(Theme::Clocks) => self.clock_operand(),
            9..=10 if self.supervised => rx(0x58, first, 0, 0, self.rng.pick(&[32, 36, 40, 44, 136, 140, 144])),
            11..=13 if self.supervised => self.access(OPERAND, false),
            // An interruption of the other kind.
            14 if self.supervised && number == 2 => self.refused_operation(number),
            14 if self.supervised => self.call(),
            _ => vec![self.rng.pick(&[0x18, 0x1A, 0x1B]), first << 4 | second],
        }
    }

    /// By the old PSW mostly, as it is or changed; by another one; by those of two tasks in turn; by a branch.
    fn instructions_back(&mut self, number: usize) -> Vec<Vec<u8>> {
        let old: u16 = if number == 2 { 32 } else { 40 };
        let back = s(0x82, 0, 0, old);
        let branch = rx(0x47, 15, 0, self.register(START), 0);
        if !self.supervised {
            return vec![if self.rng.percent(85) { back } else { branch }];
        }
        let [first, second] = [WORK, WORK + 1].map(|role| self.register(role));
        // The old PSW leads again to what fails.
        let fails_again = self.has(Theme::Targets) || matches!(self.fault, Some(Fault::Page | Fault::Segment));
        let otherwise = number == 3 && fails_again && self.rng.percent(60);
        match if otherwise { self.rng.range(12, 17) } else { self.rng.below(20) } {
            12..=14 => {
                let length = rx(0x41, first, 0, 0, self.rng.pick(&[2, 4, 4, 6]));
                let load = rx(0x58, second, 0, 0, old + 4);
                let store = rx(0x50, second, 0, 0, old + 4);
                vec![length, load, vec![0x1A, second << 4 | first], store, back]
            }
            15..=16 => vec![self.with_value(0x82, 0, PSWS + 8 * (number as u32 & 3))],
            17 => vec![branch],
            18 => {
                let load = self.with_value(0x58, first << 4, PSWS);
                vec![load, rx(0x50, first, 0, 0, old), back]
            }
            19 if !self.has(Theme::Targets) => self.instructions_to_other_task(old),
            _ => vec![back],
        }
    }

    /// The old PSW is saved, and the one that was saved before is loaded.
    fn instructions_to_other_task(&self, old: u16) -> Vec<Vec<u8>> {
        let [first, second, between] = [WORK, WORK + 1, WORK + 3].map(|role| self.register(role));
        let [task, other] = [WORD, OTHER_WORD].map(|role| self.register(role));
        let mut text = Vec::new();
        for (register, at) in [(first, 0), (second, 4)] {
            text.push(rx(0x58, register, 0, 0, old + at));
            text.push(rx(0x50, register, 0, task, at));
        }
        for (to, from) in [(between, task), (task, other), (other, between)] {
            text.push(vec![0x18, to << 4 | from]);
        }
        text.push(s(0x82, 0, task, 0));
        text
    }

    /// New PSWs, and where branches lead in turn.
    fn lay_areas(&mut self) {
        if self.has(Theme::Branches) {
            for word in [WORD, OTHER_WORD] {
                let fragment = &self.fragments[self.rng.below(2) as usize];
                let start = if self.rng.percent(50) { self.rng.pick(&fragment.starts) } else { 0 };
                let target = self.cut(fragment.address + start);
                self.set(word, target);
            }
        }
        for (new, handler) in [(96, 2), (104, 3)] {
            let mut psw = match self.rng.below(20) {
                0 => self.strange_psw(handler),
                1 if !self.supervised => self.strange_psw(handler),
                2..=3 if !self.supervised => self.psw(0),
                _ => self.psw(handler),
            };
            // The handlers are privileged, mostly.
            if self.rng.percent(95) {
                psw[1] &= !0x01;
            }
            if self.modes.dat && !self.supervised && self.rng.percent(30) {
                psw[0] &= !0x04;
            }
            self.poke_for(false, new, &psw);
        }
    }

    /// What LPSW, SPT and LCTL load.
    fn lay_values(&mut self) {
        for number in 0..8 {
            let fragment = self.rng.below(2) as usize;
            let strange = if !self.supervised || [4, 5].contains(&number) { 50 } else { 0 };
            let psw = if self.rng.percent(strange) { self.strange_psw(fragment) } else { self.psw(fragment) };
            self.poke_twice(self.values + PSWS + 8 * number, &psw);
            let timer = self.timer_value();
            self.poke_twice(self.values + TIMERS + 8 * number, &timer.to_be_bytes());
        }
        if self.has(Theme::Areas) {
            // A new PSW, once its unit's time is taken off.
            let timer = u64::from_be_bytes(self.psw(2)).wrapping_add(self.case.time as u64);
            self.poke_twice(self.values + TIMERS + 56, &timer.to_be_bytes());
        }
        for (at, other) in [(CONTROLS, false), (OTHER_CONTROLS, true)] {
            let mut values = self.case.record[CR..CR + 64].to_vec();
            if other || self.rng.percent(60) {
                let control = self.other_control_register_0();
                model::set_word(&mut values, 0, control);
            }
            if other && self.modes.dat {
                let designation = match self.rng.below(10) {
                    // The same table of another length.
                    0..=2 => GUEST_SEGMENTS | !values[7] as u32 & 127,
                    3 => 16 * self.extent << 12 | 127,
                    _ => OTHER_GUEST_SEGMENTS | self.rng.pick(&[0, 127]),
                };
                model::set_word(&mut values, 4, designation);
            }
            values.extend(values.clone());
            self.poke_twice(self.values + at, &values);
        }
    }

    fn other_control_register_0(&mut self) -> u32 {
        let control = self.control_register_0();
        // Not the format of DAT.
        if self.rng.percent(if self.modes.dat { 20 } else { 4 }) {
            return control ^ 1 << self.rng.range(19, 23);
        }
        control
    }

    /// A value for SPT: due after some units, after very few, at once, or late.
    fn timer_value(&mut self) -> u64 {
        let time = self.case.time as u64;
        match self.rng.below(10) {
            0..=3 => self.moment(),
            4..=6 => (time * self.rng.below(4) as u64).wrapping_add(self.rng.below(3) as u64).wrapping_sub(1),
            7 => self.rng.pick(&[u64::MAX, 1 << 63, (1 << 63) + time, 0u64.wrapping_sub(time)]),
            _ => self.rng.next() >> 1,
        }
    }

    /// The frame that the prefix page may get has what the areas have.
    fn copy_areas(&mut self) {
        if self.has(Theme::Prefix) {
            let [from, to] = [AREAS, DATA].map(|role| self.frames[role] as usize * FRAME);
            self.case.storage.copy_within(from..from + FRAME, to);
        }
    }
}

/// Instructions of the forms RX and S: operation, register or mask, index, base, displacement.
fn rx(operation: u8, register: u8, index: u8, base: u8, displacement: u16) -> Vec<u8> {
    s(operation, register << 4 | index, base, displacement)
}

fn s(operation: u8, second: u8, base: u8, displacement: u16) -> Vec<u8> {
    vec![operation, second, base << 4 | (displacement >> 8) as u8 & 15, displacement as u8]
}
