//! Guests that read the clock: loops of STCK with the place moving, readings over each other, across pages, and where
//! nothing can be stored; interruptions, loaded PSWs and exits between them; STCK where the run found other text.

use super::{Case, Machine, Modes, Rng, CR, GR};
use crate::model::{self, Answer, FRAME};

pub fn case(rng: &mut Rng, machine: Machine) -> Case {
    let mut guest = Guest::new(rng, machine);
    guest.lay_host_tables();
    guest.choose_state();
    guest.choose_numbers();
    guest.lay_guest_tables();
    guest.lay_text();
    guest.lay_handlers();
    guest.set_interval_timer();
    if guest.rng.percent(6) {
        guest.damage();
    }
    guest.case
}

/// Frame 0 has the host's segment table, frame 1 its page table.
const PAGE_TABLE: u32 = 0x1000;

/// The extent is of sixteen pages. The frames of some: areas and handlers, text, operands, and the last page; two pages
/// share the frame of page 2, and one that of the text.
const PAGES: [(u32, u32); 8] = [(0, 2), (1, 3), (2, 4), (3, 5), (4, 4), (9, 3), (8, 7), (15, 5)];
/// Of another storage key, of host page protection, and one that the host lacks.
const OTHER_KEY: u32 = 5;
const HOST_PROTECTED: u32 = 6;
const HOST_INVALID: u32 = 7;
/// With DAT on: protected, invalid and malformed in the guest's page table, which is in page 8 with the segment table.
const PROTECTED: u32 = 10;
const INVALID: u32 = 11;
const MALFORMED: u32 = 12;
const TABLES: u32 = 0x8000;

/// Places in page 0: the handlers, PSWs for LPSW, values for LCTL and SPT.
const HANDLERS: [u32; 2] = [0x200, 0x240];
const PSWS: u32 = 0x280;
const CONTROLS: u32 = 0x2C0;

// Registers. The moving place; operands; one of any place; the text, by its own page or by the page with the same
// frame; STCK as a word; the loop; and operands of an overflow.
const PLACE: u8 = 1;
const OPERANDS: u8 = 2;
const ANY: u8 = 3;
const TEXT: u8 = 4;
const STCK: u8 = 5;
const LOOP: u8 = 6;
const LARGE: u8 = 8;
const PAST: u8 = 11;

struct Guest<'a> {
    rng: &'a mut Rng,
    machine: Machine,
    case: Case,
    modes: Modes,
    /// Where the loop begins.
    start: u32,
    /// Offsets of instructions that do nothing, for STCK to be stored there.
    slots: Vec<u32>,
    /// The guest clock, read as text, is STCK and an instruction that does nothing.
    clock_is_text: bool,
}

impl<'a> Guest<'a> {
    fn new(rng: &'a mut Rng, machine: Machine) -> Guest<'a> {
        let mut record = machine.record();
        record[15] = 1;
        let (storage, keys, addresses) = (vec![0; 8 * FRAME], vec![0; 8], Vec::new());
        let case = Case { record, storage, keys, designation: 127, clock: 0, time: 1, budget: 1, addresses };
        let xa = machine != Machine::System370;
        let (dat, wide) = (xa && rng.percent(50), xa && rng.percent(60));
        let modes = Modes { dat, wide, key: if rng.percent(60) { 0 } else { 3 } };
        let start = 0x1000 + rng.pick(&[0, 0, 0x400, 0xF00, 0xFA0]);
        let clock_is_text = rng.percent(6);
        Guest { rng, machine, case, modes, start, slots: Vec::new(), clock_is_text }
    }

    fn system_370(&self) -> bool {
        self.machine == Machine::System370
    }

    fn lay_host_tables(&mut self) {
        let origin = self.rng.pick(&[0, 0, 1, 15, 16, 0x777]);
        self.case.record[12..14].copy_from_slice(&(origin as u16).to_be_bytes());
        model::set_word(&mut self.case.storage, 4 * (origin as usize >> 4), PAGE_TABLE | 15);
        let prefix = if self.rng.percent(70) { 0 } else { self.rng.pick(&[0x3000, 0xD000, 0xE000]) };
        model::set_word(&mut self.case.record, 8, prefix);
        for page in 0..16 {
            let mut entry = self.rng.pick(&[4, 5, 6]) << 12;
            if let Some((_, frame)) = PAGES.into_iter().find(|&(number, _)| number == page) {
                entry = frame << 12;
            }
            // Real block 0 is the prefix block's frame.
            if page == prefix >> 12 {
                entry = 0x2000;
            }
            match page {
                OTHER_KEY => entry = 0x6000,
                HOST_PROTECTED => entry |= 0x200,
                HOST_INVALID => entry |= 0x400,
                _ => {}
            }
            let at = PAGE_TABLE + 4 * ((origin & 15) * 16 + page);
            model::set_word(&mut self.case.storage, at as usize, entry);
        }
        for frame in 0..8 {
            let access = if frame == 6 { 0x50 } else { 0x30 };
            self.case.keys[frame] = access | self.rng.byte() & 0x06 | if self.rng.percent(3) { 0x08 } else { 0 };
        }
    }

    /// Writes bytes at a guest real address, by the tables.
    fn poke(&mut self, real: u32, bytes: &[u8]) {
        let mut record = self.case.record.clone();
        let psw = if self.system_370() { 0x0008_0000_0000_0000 } else { 0x0008_0000_8000_0000 };
        model::set_doubleword(&mut record, 16, psw);
        for (&byte, address) in bytes.iter().zip(real..) {
            let Case { storage, keys, designation, .. } = &self.case;
            if let Answer::Good(place) = model::translate(&record, storage, keys, *designation, address, 0) {
                self.case.storage[place as usize] = byte;
            }
        }
    }

    /// Identity, and pages that cannot be stored into. Segment 1 is invalid.
    fn lay_guest_tables(&mut self) {
        if !self.modes.dat {
            return;
        }
        model::set_word(&mut self.case.record, CR + 4, TABLES);
        self.poke(TABLES, &[TABLES + 0x400, 0x20].map(u32::to_be_bytes).concat());
        for page in 0..16 {
            let entry = match page {
                PROTECTED => 0x2200,
                INVALID => 0x2400,
                MALFORMED => 0x2100,
                _ => page << 12,
            };
            self.poke(TABLES + 0x400 + 4 * page, &entry.to_be_bytes());
        }
    }

    // -----------------------------------------------------------------------------------------------------------
    // State and numbers.

    fn choose_state(&mut self) {
        let control = self.control_register_0();
        model::set_word(&mut self.case.record, CR, control);
        let place = self.operand();
        let text = self.start & 0xFFF | self.rng.pick(&[0x1000, 0x9000]);
        let displacement = self.rng.below(64) as u16;
        let stck = 0xB205_0000 | (self.rng.pick(&[PLACE, PLACE, OPERANDS, ANY]) as u32) << 12 | displacement as u32;
        let past = self.rng.pick(&[0x0000_FFFC, 0x0001_0000, 0x00FF_FFFC, 0x7FFF_FFFC]);
        let any = self.any_place();
        let registers = [
            (PLACE, place),
            (OPERANDS, 0x2000 + self.rng.below(256)),
            (ANY, any),
            (TEXT, text),
            (STCK, stck),
            (LOOP, self.start),
            (LARGE, 0x7FFF_FFFF),
            (PAST, past),
        ];
        let random: Vec<u8> = (0..64).map(|_| self.rng.byte()).collect();
        self.case.record[GR..GR + 64].copy_from_slice(&random);
        for (register, value) in registers {
            model::set_word(&mut self.case.record, GR + 4 * register as usize, value);
        }
        for (at, bits) in [(5, [(0x80, 8), (0x40, 10), (0x20, 4)]), (48, [(0x80, 3), (0x40, 5), (0x20, 5)])] {
            for (bit, chance) in bits {
                self.case.record[at] |= if self.rng.percent(chance) { bit } else { 0 };
            }
        }
        // Whatever the last run left.
        if self.rng.percent(50) {
            self.rng.fill(&mut self.case.record[52..66]);
        }
        self.case.record[3] = if self.rng.percent(7) { self.rng.pick(&[0x01, 0x02, 0x03, 0x04]) } else { 0 };
        let psw = self.psw(self.start);
        self.case.record[16..24].copy_from_slice(&psw);
    }

    fn control_register_0(&mut self) -> u32 {
        let masks = [(0x1000_0000, 30), (0x800, 8), (0x400, 8), (0x80, 20)];
        let masks = masks.map(|(bit, chance)| if self.rng.percent(chance) { bit } else { 0 });
        0b10110 << 19 | masks.into_iter().sum::<u32>()
    }

    /// A place for the readings that move: at the beginning or the end of a page, mostly one that can be stored into.
    fn operand(&mut self) -> u32 {
        let page = self.rng.pick(&[2, 2, 2, 3, 3, 4, 14, 15]);
        page << 12 | self.rng.pick(&[0, 1, 8, 0x7F0, 0xFD9, 0xFE0, 0xFF8, 0xFFA])
    }

    /// One where nothing can be stored, of any reason, or at its edge.
    fn any_place(&mut self) -> u32 {
        let pages = [OTHER_KEY, HOST_PROTECTED, HOST_INVALID, PROTECTED, INVALID, MALFORMED, 1, 9, 16, 256];
        match self.rng.below(10) {
            0 => self.rng.range(496, 520),
            1..=2 => (self.rng.pick(&pages) << 12) - self.rng.below(9),
            _ => self.rng.pick(&pages) << 12 | self.rng.below(64),
        }
    }

    fn psw(&mut self, address: u32) -> [u8; 8] {
        let mut psw = [0; 8];
        psw[1] = self.modes.key << 4;
        psw[1] |= if self.rng.percent(12) { 0x01 } else { 0 };
        let basic = self.system_370() && self.rng.percent(50);
        if !basic {
            psw[1] |= 0x08;
        }
        let mask = if self.rng.percent(40) { 0x08 } else { 0 };
        psw[if basic { 4 } else { 2 }] = mask;
        psw[0] = if self.modes.dat { 0x04 } else { 0 };
        psw[0] |= if self.rng.percent(25) { 0x01 } else { 0 };
        psw[0] |= if self.rng.percent(25) { 0x02 } else { 0 };
        psw[5..8].copy_from_slice(&address.to_be_bytes()[1..]);
        psw[4] |= if self.modes.wide { 0x80 } else { 0 };
        psw
    }

    /// One of another key or wait state, not installed, malformed, or with an odd address.
    fn strange_psw(&mut self, address: u32) -> [u8; 8] {
        let mut psw = self.psw(address);
        match self.rng.below(10) {
            0..=4 => {
                psw[1] |= 0x08;
                psw[3] = 1;
            }
            5 => psw[0] |= 0x40,
            6 => psw[1] |= 0x02,
            7 => psw[7] |= 1,
            _ => psw[1] = psw[1] & 0x0F | 0x50,
        }
        psw
    }

    fn choose_numbers(&mut self) {
        let time = match self.rng.below(100) {
            0..=2 => 0,
            3 => 1_048_577,
            4 => self.rng.pick(&[0x0020_0000, 0x8000_0000, 0xFFFF_FFFF]),
            _ => self.machine.time(self.rng),
        };
        self.case.time = time;
        self.case.budget = match self.rng.below(1000) {
            0..=29 => 0,
            30..=59 => 1,
            60..=299 => self.rng.range(2, 12),
            300..=989 => self.rng.range(13, 40),
            990..=998 => self.rng.range(41, 200),
            _ => 65_536,
        };
        let (clock, epoch) = (self.moment(), self.moment());
        let epoch = if self.rng.percent(25) { 0 } else { epoch };
        model::set_doubleword(&mut self.case.record, 40, epoch);
        // Clock or guest clock, whose sum with the epoch may wrap.
        self.case.clock = if self.rng.percent(50) { clock } else { clock.wrapping_sub(epoch) };
        if self.clock_is_text {
            // STCK 32(OPERANDS), BC 0.
            self.case.clock = 0xB205_2020_4700_0000u64.wrapping_sub(epoch);
        }
        let timer = if self.rng.percent(80) { self.rng.next() >> 1 } else { 5 * time as u64 };
        model::set_doubleword(&mut self.case.record, 24, timer);
        let comparator = if self.rng.percent(70) { u64::MAX } else { self.rng.next() };
        model::set_doubleword(&mut self.case.record, 32, comparator);
    }

    /// A number of 64 bits that a run's units bring past the end, past a bit in the middle, or nowhere near it.
    fn moment(&mut self) -> u64 {
        let before = self.case.time.min(1_048_576) as u64 * self.rng.below(16) as u64 + self.rng.below(4) as u64;
        match self.rng.below(6) {
            0 => self.rng.below(1000) as u64,
            1 | 2 => 0u64.wrapping_sub(before),
            3 => (1u64 << self.rng.pick(&[20, 31, 32, 63])).wrapping_sub(before),
            _ => self.rng.next(),
        }
    }

    /// The residue is near its limit, and T set seldom.
    fn set_interval_timer(&mut self) {
        if self.machine == Machine::Xa {
            return;
        }
        let left = 3 * self.case.time.min(1_048_576) * self.rng.below(10) + self.rng.below(3);
        let residue = 40_959_999u32.saturating_sub(left);
        model::set_word(&mut self.case.record, 204, residue);
        self.case.record[200] = if self.rng.percent(4) { 0x80 } else { 0 };
        if self.system_370() {
            let word = self.rng.pick(&[0, 255, 256, 300, 0x8000_0000, 0xFFFF_FFFF]);
            self.poke(80, &u32::to_be_bytes(word));
            if self.rng.percent(6) {
                self.protect_prefix_page();
            }
        }
    }

    /// The host protects the page of the interval timer's word.
    fn protect_prefix_page(&mut self) {
        let page = model::halfword(&self.case.record, 12) % 16 * 16 + (model::word(&self.case.record, 8) >> 12);
        let at = (PAGE_TABLE + 4 * page) as usize;
        let entry = model::word(&self.case.storage, at) | 0x200;
        model::set_word(&mut self.case.storage, at, entry);
    }

    // -----------------------------------------------------------------------------------------------------------
    // Text.

    fn lay_text(&mut self) {
        let mut text = Vec::new();
        for _ in 0..self.rng.range(3, 12) {
            if self.rng.percent(12) {
                self.slots.push(text.len() as u32);
                text.extend([0x47, 0, 0, 0]);
            }
            text.extend(self.instruction());
        }
        // Mostly back to the beginning, seldom on to what follows, which is zeros.
        if self.rng.percent(92) {
            text.extend(s_text(0x47F0, LOOP, 0));
        }
        self.poke(self.start, &text);
        for place in 0..8 {
            let psw = if self.rng.percent(35) { self.strange_psw(self.start) } else { self.psw(self.start) };
            self.poke(PSWS + 8 * place, &psw);
            let control = self.control_register_0();
            let timer = self.rng.next() as u32 >> 1;
            self.poke(CONTROLS + 8 * place, &[control, timer].map(u32::to_be_bytes).concat());
        }
    }

    fn instruction(&mut self) -> Vec<u8> {
        match self.rng.below(100) {
            0..=39 => self.store_clock(),
            40..=53 => {
                let step = self.rng.pick(&[1, 4, 7, 8, 8, 8, 8, 9, 16, 0xFF8]);
                s_text(0x4100 | (PLACE as u16) << 4, PLACE, step)
            }
            54..=57 => vec![self.rng.pick(&[0x18, 0x1A, 0x1B]), 0xC0 | self.rng.below(16) as u8],
            58..=64 => vec![0x0A, self.rng.byte()],
            65..=73 => self.exception(),
            74..=79 => s_text(0x8200, 0, PSWS + 8 * self.rng.below(8)),
            80..=85 => {
                let slot = if self.slots.is_empty() { 0 } else { self.rng.pick(&self.slots.clone()) };
                s_text(0x5000 | (STCK as u16) << 4, TEXT, slot)
            }
            86 => s_text(0xB700, 0, CONTROLS + 8 * self.rng.below(8)),
            87 => s_text(0xB208, 0, CONTROLS + 8 * self.rng.below(8)),
            88 => s_text(0xB209, OPERANDS, 0),
            89 => s_text(0xB600, OPERANDS, 4 * self.rng.below(8)),
            90..=92 => s_text(0x5000 | (self.rng.below(16) as u16) << 4, OPERANDS, self.rng.below(48)),
            93..=94 => s_text(0x58C0, PLACE, 0),
            95 => s_text(0x8300, 0, 0),
            _ => {
                let mask = self.rng.pick(&[0x8, 0x7]);
                s_text(0x4700 | mask << 4, LOOP, 4 * self.rng.below(8))
            }
        }
    }

    fn store_clock(&mut self) -> Vec<u8> {
        let base = match self.rng.below(20) {
            0..=9 => PLACE,
            10..=14 => OPERANDS,
            15..=16 => ANY,
            17 => PAST,
            18 => 0,
            _ => TEXT,
        };
        let displacement = match base {
            0 if self.system_370() && self.rng.percent(60) => self.rng.range(73, 83),
            0 => self.rng.pick(&[160, 504, 508, 511, 512, 0x7F8]),
            TEXT if self.clock_is_text => 4 * self.rng.below(6),
            TEXT => self.rng.below(24),
            _ => self.rng.pick(&[0, 0, 0, 1, 4, 7, 8, 16, 32]),
        };
        s_text(0xB205, base, displacement)
    }

    /// One that ends in an exception, in some states.
    fn exception(&mut self) -> Vec<u8> {
        match self.rng.below(8) {
            0 => vec![0, 0],
            1 => s_text(0xB208, 0, 3),
            2 => s_text(0x8200, 0, PSWS + 4),
            3 => s_text(0x58C0, PAST, 0),
            4 => vec![0x1A, LARGE << 4 | LARGE],
            5 => s_text(0x50C0, ANY, 0),
            6 => s_text(0x47F0, LOOP, 1),
            _ => s_text(0xB230, 0, 0),
        }
    }

    /// Handlers of SVC and of program interruptions: a reading, perhaps the place moved, and back by the old PSW. In
    /// some guests an interruption goes on at the loop, in few its new PSW is malformed.
    fn lay_handlers(&mut self) {
        for (handler, (new, old)) in HANDLERS.into_iter().zip([(96, 32), (104, 40)]) {
            let mut text = self.store_clock();
            if self.rng.percent(50) {
                text.extend(s_text(0x4100 | (PLACE as u16) << 4, PLACE, 8));
            }
            text.extend(s_text(0x8200, 0, old));
            self.poke(handler, &text);
            let mut psw = match self.rng.below(20) {
                0 => self.strange_psw(handler),
                1..=5 => self.psw(self.start),
                _ => self.psw(handler),
            };
            // The handlers are privileged.
            psw[1] &= !0x01;
            self.poke(new, &psw);
        }
    }

    // -----------------------------------------------------------------------------------------------------------
    // Refusals beside that of the time, and entries that fail.

    fn damage(&mut self) {
        if self.rng.percent(50) {
            self.case.time = 0;
        }
        let case = &mut self.case;
        match self.rng.below(9) {
            0 => case.record[0] = 1,
            1 => case.record[2] = 3,
            2 => case.storage.truncate(self.rng.pick(&[0, 5, 8 * FRAME - 1])),
            3 => case.keys.push(0),
            4 => case.budget = self.rng.pick(&[65_536, u32::MAX]),
            5 => case.record[66 + self.rng.below(6) as usize] = 1,
            6 => case.record[15] = 0,
            _ => case.budget = self.rng.pick(&[0, 1, 65_535]),
        }
        // The longest run is too long for many cases.
        if case.budget == 65_535 && case.time != 0 {
            case.budget = 300;
        }
    }
}

/// The operation and what follows it in two bytes, a base and a displacement.
fn s_text(operation: u16, base: u8, displacement: u32) -> Vec<u8> {
    ((operation as u32) << 16 | (base as u32) << 12 | displacement).to_be_bytes().to_vec()
}
