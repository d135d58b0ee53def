//! Check, translate and run, written from document 01 and requests 1/12, 2/12 and 5/12 of document 02 alone, and byte
//! by byte. The headings cited are those of document 01. Bit 0 is the leftmost bit. Nothing is kept from one byte to
//! the next, so that each sentence of the rules stands in one place.

/// An answer of check, translate or run.
#[derive(Clone, Copy, PartialEq, Eq, Debug)]
pub enum Answer {
    /// The number of the refusal.
    Refused(u8),
    /// The interception code; of check and translate 32 alone.
    Intercepted(u8),
    /// Program code and host virtual address, and which table was bad.
    HostFault(u8, u32, Table),
    /// Of run alone.
    BudgetUsed,
    /// Of translate alone: the guest's program code, and which table was bad.
    ProgramException(u8, Table),
    /// Check: good, with 0. Translate: the host absolute address.
    Good(u32),
}

/// "the stage (guest segment, guest page, host segment, host page, none)", by their numbers.
#[derive(Clone, Copy, PartialEq, Eq, PartialOrd, Ord, Debug)]
pub enum Stage {
    None,
    GuestSegment,
    GuestPage,
    HostSegment,
    HostPage,
}

/// Which table was bad: the one whose entry was sought when the walk ended.
#[derive(Clone, Copy, PartialEq, Eq, Debug)]
pub struct Table {
    pub stage: Stage,
    /// "the address of the entry involved, guest real or host absolute", if it was read.
    pub entry: Option<u32>,
}

impl Table {
    pub const NONE: Table = Table { stage: Stage::None, entry: None };

    pub fn unread(stage: Stage) -> Table {
        Table { stage, entry: None }
    }

    pub fn read(stage: Stage, address: u32) -> Table {
        Table { stage, entry: Some(address) }
    }

    /// "zero when that entry was not read"
    pub fn address(self) -> u32 {
        self.entry.unwrap_or(0)
    }
}

/// What the host's tables were walked for. No part of an answer: for the tally.
#[derive(Clone, Copy, PartialEq, Eq, PartialOrd, Ord, Debug)]
pub enum Walk {
    GuestSegmentEntry,
    GuestPageEntry,
    /// A byte of text or of an operand, or the one asked for.
    Byte,
    /// A byte of an interruption area, or of the interval timer's word.
    Area,
}

/// The end of a run.
pub struct Run {
    pub answer: Answer,
    pub units: u32,
    pub events: Events,
}

/// What happened on the way, for the tally.
#[derive(Default)]
pub struct Events {
    /// The guest interruptions presented: the form of the old PSW, and the program code or SVC_INTERRUPTION.
    pub interruptions: Vec<(Form, u8)>,
    /// How often the word of the interval timer fell, how often that set T, and whether a host fault kept it from it.
    pub falls: u32,
    pub turns: u32,
    pub fault_at_word: bool,
    /// The walk of the host fault that ended the run.
    pub walk: Option<Walk>,
    /// The readings of the clock, in the order of their units.
    pub readings: Vec<Reading>,
}

/// A value that an STCK stored. Request 5/12: "any two STCK values in one run differ".
#[derive(Clone, Copy, PartialEq, Eq, Debug)]
pub struct Reading {
    /// The units completed before its own.
    pub unit: u32,
    pub value: u64,
    /// Logical, of the operand's first byte.
    pub address: u32,
    /// The host absolute address of each byte.
    pub places: [u32; 8],
}

pub const SVC_INTERRUPTION: u8 = 0xFF;

pub const FRAME: usize = 4096;

// Program codes.
pub const OPERATION: u8 = 0x01;
pub const PRIVILEGED_OPERATION: u8 = 0x02;
pub const PROTECTION: u8 = 0x04;
pub const ADDRESSING: u8 = 0x05;
pub const SPECIFICATION: u8 = 0x06;
pub const FIXED_POINT_OVERFLOW: u8 = 0x08;
pub const SEGMENT_TRANSLATION: u8 = 0x10;
pub const PAGE_TRANSLATION: u8 = 0x11;
pub const TRANSLATION_SPECIFICATION: u8 = 0x12;

// "The record, 200 bytes, big-endian", and "The record becomes version 2, 208 bytes".
const VERSION: usize = 2;
const INTERVENTION: usize = 3;
const MODE: usize = 4;
const INTERCEPTION_CONTROLS: usize = 5;
const LCTL_CONTROLS: usize = 6;
const PREFIX: usize = 8;
const ORIGIN: usize = 12;
const EXTENT: usize = 14;
const PSW: usize = 16;
const TIMER: usize = 24;
const COMPARATOR: usize = 32;
const EPOCH: usize = 40;
const SVC_FLAGS: usize = 48;
const SVC_NUMBERS: usize = 49;
const RESULT_CODE: usize = 52;
const RESULT_ILC: usize = 53;
const RESULT_INTERRUPTION: usize = 54;
const RESULT_ADDRESS: usize = 56;
const RESULT_TEXT: usize = 60;
const CONTROL_REGISTERS: usize = 72;
const GENERAL_REGISTERS: usize = 136;
const TIMER_REQUEST: usize = 200;
const RESIDUE: usize = 204;

/// The residue stays below it: "0 to 40,959,999".
const RESIDUE_LIMIT: u32 = 40_960_000;

pub fn halfword(bytes: &[u8], at: usize) -> u32 {
    (bytes[at] as u32) << 8 | bytes[at + 1] as u32
}

pub fn word(bytes: &[u8], at: usize) -> u32 {
    halfword(bytes, at) << 16 | halfword(bytes, at + 2)
}

pub fn doubleword(bytes: &[u8], at: usize) -> u64 {
    (word(bytes, at) as u64) << 32 | word(bytes, at + 4) as u64
}

pub fn set_word(bytes: &mut [u8], at: usize, value: u32) {
    bytes[at..at + 4].copy_from_slice(&value.to_be_bytes());
}

pub fn set_doubleword(bytes: &mut [u8], at: usize, value: u64) {
    bytes[at..at + 8].copy_from_slice(&value.to_be_bytes());
}

fn control_register(record: &[u8], number: usize) -> u32 {
    word(record, CONTROL_REGISTERS + 4 * number)
}

fn general_register(record: &[u8], number: usize) -> u32 {
    word(record, GENERAL_REGISTERS + 4 * number)
}

fn set_general_register(record: &mut [u8], number: usize, value: u32) {
    set_word(record, GENERAL_REGISTERS + 4 * number, value);
}

/// Bit of the PSW, 0 to 63.
fn psw_bit(record: &[u8], bit: usize) -> bool {
    record[PSW + bit / 8] & (0x80 >> (bit % 8)) != 0
}

/// Bit of a word, 0 to 31.
pub fn bit(value: u32, number: u32) -> bool {
    value & (0x8000_0000 >> number) != 0
}

/// The forms of a PSW.
#[derive(Clone, Copy, PartialEq, Eq, Debug)]
pub enum Form {
    /// System/370, bit 12 zero.
    Bc,
    /// System/370, bit 12 one.
    Ec,
    /// 370-XA, whatever bit 12 is.
    Xa,
}

/// Mode bits 4-5: 01 is System/370, 10 is 370-XA. No other is asked for its form: the entry fails.
fn system_370(record: &[u8]) -> bool {
    record[MODE] & 0x0C == 0x04
}

fn form(record: &[u8]) -> Form {
    match (system_370(record), psw_bit(record, 12)) {
        (false, _) => Form::Xa,
        (true, true) => Form::Ec,
        (true, false) => Form::Bc,
    }
}

/// Condition code and program mask stand in bits 34-39 of a BC PSW, else in bits 18-23: the byte they are in.
fn condition_byte(record: &[u8]) -> usize {
    if form(record) == Form::Bc {
        PSW + 4
    } else {
        PSW + 2
    }
}

fn set_condition_code(record: &mut [u8], code: u8) {
    let at = condition_byte(record);
    record[at] = record[at] & !0x30 | code << 4;
}

fn condition_code(record: &[u8]) -> u8 {
    record[condition_byte(record)] >> 4 & 3
}

/// The program mask's bit for fixed-point overflow: 36 of a BC PSW, else 20.
fn overflow_is_enabled(record: &[u8]) -> bool {
    record[condition_byte(record)] & 0x08 != 0
}

/// "Logical addresses wrap at 2^24 or 2^31 by PSW bit 32."; in System/370 mode at 2^24, whatever that bit is.
fn wrap(record: &[u8], address: u32) -> u32 {
    if psw_bit(record, 32) && !system_370(record) {
        address & 0x7FFF_FFFF
    } else {
        address & 0x00FF_FFFF
    }
}

/// The bits of the PSW's second word that are the address: 33-63, in System/370 mode 40-63.
fn address_field(record: &[u8]) -> u32 {
    if system_370(record) {
        0x00FF_FFFF
    } else {
        0x7FFF_FFFF
    }
}

fn instruction_address(record: &[u8]) -> u32 {
    word(record, PSW + 4) & address_field(record)
}

/// The bits left of the address stay: of a BC PSW the instruction-length code, the condition code and the program mask.
fn set_instruction_address(record: &mut [u8], address: u32) {
    let left = word(record, PSW + 4) & !address_field(record);
    let address = wrap(record, address);
    set_word(record, PSW + 4, left | address);
}

/// Advances the address by the length that the ILC stands for.
fn advance(record: &mut [u8], ilc: u8) {
    let address = instruction_address(record);
    set_instruction_address(record, address.wrapping_add(2 * ilc as u32));
}

// ---------------------------------------------------------------------------------------------------------------
// The table of refusals: each operation makes the tests it has the input for, in the order of the numbers.

pub fn refuse_record(record: &[u8]) -> Option<u8> {
    // "1 unless record and length field are both 200 or both 208"
    let length = record.len();
    if length != 200 && length != 208 || halfword(record, 0) as usize != length {
        return Some(1);
    }
    // "2 unless the version is then 1 or 2 respectively"
    if record[VERSION] != if length == 208 { 2 } else { 1 } {
        return Some(2);
    }
    None
}

pub fn refuse_storage(storage_len: usize, keys_len: usize) -> Option<u8> {
    if storage_len == 0 || storage_len > 4096 * FRAME || storage_len % FRAME != 0 {
        return Some(3);
    }
    if keys_len != storage_len / FRAME {
        return Some(4);
    }
    None
}

fn refuse_numbers(budget: u32, time: u32) -> Option<u8> {
    if budget > 65_535 {
        return Some(5);
    }
    // "It becomes 1 to 1,048,576"; "6 also covers 0".
    if time == 0 || time > 1_048_576 {
        return Some(6);
    }
    None
}

pub fn refuse_reserved(record: &[u8]) -> Option<u8> {
    if record[66..72].iter().any(|&byte| byte != 0) {
        return Some(7);
    }
    // "and 7 covers bytes 201-203 and a residue out of range", in every mode.
    if record.len() == 208 {
        if record[201..204].iter().any(|&byte| byte != 0) || word(record, RESIDUE) >= RESIDUE_LIMIT {
            return Some(7);
        }
    }
    None
}

/// The refusal of a run, if it is refused.
pub fn refuse_run(record: &[u8], storage_len: usize, keys_len: usize, budget: u32, time: u32) -> Option<u8> {
    refuse_record(record)
        .or_else(|| refuse_storage(storage_len, keys_len))
        .or_else(|| refuse_numbers(budget, time))
        .or_else(|| refuse_reserved(record))
}

// ---------------------------------------------------------------------------------------------------------------
// "Entry"

/// Whether the entry is good, else code 32.
pub fn entry_is_good(record: &[u8]) -> bool {
    // Mode bits 4-5 must be 10, and bit 6 zero. "Mode 01 is now accepted in the new record only".
    let mode_is_installed = record[MODE] & 0x0C == 0x08 || system_370(record) && record.len() == 208;
    if !mode_is_installed || record[MODE] & 0x02 != 0 {
        return false;
    }
    let origin = halfword(record, ORIGIN);
    let extent = halfword(record, EXTENT);
    if origin > 32_767 || extent == 0 || origin + extent > 32_768 {
        return false;
    }
    // "prefix bits 1-7 not zero there fail entry"
    if system_370(record) && word(record, PREFIX) & 0x7F00_0000 != 0 {
        return false;
    }
    prefix(record) as u64 + 4096 <= extent_bytes(record)
}

/// "prefix (bits 0 and 20-31 ignored)"
pub fn prefix(record: &[u8]) -> u32 {
    word(record, PREFIX) & 0x7FFF_F000
}

/// The host virtual address of the guest's absolute byte 0.
pub fn origin_bytes(record: &[u8]) -> u32 {
    halfword(record, ORIGIN) * 65_536
}

pub fn extent_bytes(record: &[u8]) -> u64 {
    halfword(record, EXTENT) as u64 * 65_536
}

// ---------------------------------------------------------------------------------------------------------------
// "Addresses"

#[derive(Clone, Copy, PartialEq, Eq, Debug)]
pub enum Access {
    Fetch,
    Store,
}

/// Why an access cannot be made.
#[derive(Clone, Copy, PartialEq, Eq, Debug)]
enum Failure {
    /// Program code; for 10 and 11 hex the virtual address with its last 12 bits zero, else 0; the table.
    Guest(u8, u32, Table),
    Host(Fault),
}

/// A host fault.
#[derive(Clone, Copy, PartialEq, Eq, Debug)]
struct Fault {
    code: u8,
    /// Host virtual; of a guest table's entry that the host cannot give, that of the guest's entry.
    address: u32,
    table: Table,
    walk: Walk,
}

impl Fault {
    fn answer(self) -> Answer {
        Answer::HostFault(self.code, self.address, self.table)
    }
}

/// What the accesses of one unit look at: all as it was when the unit began.
struct View<'a> {
    record: &'a [u8],
    storage: &'a [u8],
    keys: &'a [u8],
    designation: u32,
}

impl View<'_> {
    /// The host tables: the host absolute address and whether the host page is protected, else the program code and the
    /// table.
    fn host_translate(&self, address: u32) -> Result<(u32, bool), (u8, Table)> {
        let segment_index = address >> 20 & 0x7FF;
        let page_index = address >> 12 & 0xFF;
        let mut table = Table::unread(Stage::HostSegment);
        if segment_index >> 4 > self.designation & 0x7F {
            return Err((SEGMENT_TRANSLATION, table));
        }
        let segment_entry = self.host_word((self.designation & 0x7FFF_F000) + 4 * segment_index, &mut table)?;
        if bit(segment_entry, 26) {
            return Err((SEGMENT_TRANSLATION, table));
        }
        if bit(segment_entry, 0) {
            return Err((TRANSLATION_SPECIFICATION, table));
        }
        // The page index over the length: no page entry is read, whatever was read before.
        let mut table = Table::unread(Stage::HostPage);
        if page_index >> 4 > segment_entry & 0xF {
            return Err((PAGE_TRANSLATION, table));
        }
        let page_entry = self.host_word((segment_entry & 0x7FFF_FFC0) + 4 * page_index, &mut table)?;
        if bit(page_entry, 21) {
            return Err((PAGE_TRANSLATION, table));
        }
        if bit(page_entry, 0) || bit(page_entry, 20) || bit(page_entry, 23) {
            return Err((TRANSLATION_SPECIFICATION, table));
        }
        // "A host frame beyond storage is host page": its entry was read.
        let absolute = (page_entry & 0x7FFF_F000) + (address & 0xFFF);
        if absolute as usize >= self.storage.len() {
            return Err((ADDRESSING, table));
        }
        Ok((absolute, bit(page_entry, 22)))
    }

    /// A word of a host table: "or 5 beyond the storage". The table is told where its entry was read.
    fn host_word(&self, address: u32, table: &mut Table) -> Result<u32, (u8, Table)> {
        if address as usize >= self.storage.len() {
            return Err((ADDRESSING, *table));
        }
        table.entry = Some(address);
        Ok(word(self.storage, address as usize))
    }

    /// "Prefixing exchanges real block 0 and the prefix block."
    fn prefixed(&self, real: u32) -> u32 {
        let prefix = prefix(self.record);
        if real & 0x7FFF_F000 == 0 {
            return prefix + (real & 0xFFF);
        }
        if real & 0x7FFF_F000 == prefix {
            return real & 0xFFF;
        }
        real
    }

    /// A guest real address, up to its host page: host absolute address and whether the host page is protected.
    fn real_to_host(&self, real: u32, walk: Walk) -> Result<(u32, bool), Failure> {
        if real as u64 >= extent_bytes(self.record) {
            return Err(Failure::Guest(ADDRESSING, 0, Table::NONE));
        }
        let address = origin_bytes(self.record) + self.prefixed(real);
        self.host_translate(address).map_err(|(code, table)| Failure::Host(Fault { code, address, table, walk }))
    }

    /// An entry of a guest table. Keys and host page protection do not guard it. Past the extent it is no final address
    /// and belongs to its table; where the host cannot give it, the bad table is the host's.
    fn guest_word(&self, real: u32, table: &mut Table, walk: Walk) -> Result<u32, Failure> {
        match self.real_to_host(real, walk) {
            Ok((absolute, _)) => {
                table.entry = Some(real);
                Ok(word(self.storage, absolute as usize))
            }
            Err(Failure::Guest(code, address, _)) => Err(Failure::Guest(code, address, *table)),
            Err(failure) => Err(failure),
        }
    }

    /// The guest's tables: the real address and whether the guest page is protected.
    fn guest_translate(&self, logical: u32) -> Result<(u32, bool), Failure> {
        // In System/370 mode there is no DAT: bit 5 of a BC PSW is a channel's mask, and an EC PSW with bit 5 one has
        // been answered by code 32.
        if system_370(self.record) || !psw_bit(self.record, 5) {
            return Ok((logical, false));
        }
        let page_address = logical & 0x7FFF_F000;
        // "CR0 bits 8-12 must be 10110"
        if control_register(self.record, 0) >> 19 & 0x1F != 0b10110 {
            return Err(Failure::Guest(TRANSLATION_SPECIFICATION, 0, Table::NONE));
        }
        let segment_index = logical >> 20 & 0x7FF;
        let page_index = logical >> 12 & 0xFF;
        let designation = control_register(self.record, 1);
        let mut table = Table::unread(Stage::GuestSegment);
        if segment_index >> 4 > designation & 0x7F {
            return Err(Failure::Guest(SEGMENT_TRANSLATION, page_address, table));
        }
        let segment_at = (designation & 0x7FFF_F000) + 4 * segment_index;
        let segment_entry = self.guest_word(segment_at, &mut table, Walk::GuestSegmentEntry)?;
        if bit(segment_entry, 26) {
            return Err(Failure::Guest(SEGMENT_TRANSLATION, page_address, table));
        }
        if bit(segment_entry, 0) {
            return Err(Failure::Guest(TRANSLATION_SPECIFICATION, 0, table));
        }
        let mut table = Table::unread(Stage::GuestPage);
        if page_index >> 4 > segment_entry & 0xF {
            return Err(Failure::Guest(PAGE_TRANSLATION, page_address, table));
        }
        let page_at = (segment_entry & 0x7FFF_FFC0) + 4 * page_index;
        let page_entry = self.guest_word(page_at, &mut table, Walk::GuestPageEntry)?;
        if bit(page_entry, 21) {
            return Err(Failure::Guest(PAGE_TRANSLATION, page_address, table));
        }
        if bit(page_entry, 0) || bit(page_entry, 20) || bit(page_entry, 23) {
            return Err(Failure::Guest(TRANSLATION_SPECIFICATION, 0, table));
        }
        Ok(((page_entry & 0x7FFF_F000) + (logical & 0xFFF), bit(page_entry, 22)))
    }

    /// All tests of one byte, in the order of "Addresses". The answer is its host absolute address. Protections, a bad
    /// CR0 and a final address past the extent "are none and zero".
    fn access(&self, address: u32, access: Access) -> Result<u32, Failure> {
        let logical = wrap(self.record, address);
        if access == Access::Store && logical <= 511 && bit(control_register(self.record, 0), 3) {
            return Err(Failure::Guest(PROTECTION, 0, Table::NONE));
        }
        let (real, guest_protected) = self.guest_translate(logical)?;
        let (absolute, host_protected) = self.real_to_host(real, Walk::Byte)?;
        if access == Access::Store && guest_protected {
            return Err(Failure::Guest(PROTECTION, 0, Table::NONE));
        }
        // "access key nonzero and different from key bits 0-3: stores, and fetches if bit 4 is one"
        let access_key = self.record[PSW + 1] >> 4;
        let storage_key = self.keys[absolute as usize / FRAME];
        if access_key != 0 && access_key != storage_key >> 4 {
            if access == Access::Store || storage_key & 0x08 != 0 {
                return Err(Failure::Guest(PROTECTION, 0, Table::NONE));
            }
        }
        if access == Access::Store && host_protected {
            return Err(self.host_protection(real, Walk::Byte));
        }
        Ok(absolute)
    }

    /// Host page protection is of no table: its stage is none.
    fn host_protection(&self, real: u32, walk: Walk) -> Failure {
        let address = origin_bytes(self.record) + self.prefixed(real);
        Failure::Host(Fault { code: PROTECTION, address, table: Table::NONE, walk })
    }

    /// A byte of an interruption area: "These skip keys and low-address protection". It is a real address.
    fn area_access(&self, real: u32, access: Access) -> Result<u32, Failure> {
        let (absolute, host_protected) = self.real_to_host(real, Walk::Area)?;
        if access == Access::Store && host_protected {
            return Err(self.host_protection(real, Walk::Area));
        }
        Ok(absolute)
    }

    /// An operand of some bytes, from its first byte on: the host absolute address of each.
    fn operand(&self, address: u32, length: u32, access: Access) -> Result<Vec<u32>, Failure> {
        let mut places = Vec::new();
        for offset in 0..length {
            places.push(self.access(address.wrapping_add(offset), access)?);
        }
        Ok(places)
    }

    fn area(&self, real: u32, length: u32, access: Access) -> Result<Vec<u32>, Failure> {
        let mut places = Vec::new();
        for offset in 0..length {
            places.push(self.area_access(real + offset, access)?);
        }
        Ok(places)
    }

    fn fetch(&self, places: &[u32]) -> Vec<u8> {
        places.iter().map(|&place| self.storage[place as usize]).collect()
    }
}

// ---------------------------------------------------------------------------------------------------------------
// "Instructions": the one table of opcodes.

#[derive(Clone, Copy, PartialEq, Eq, Debug)]
enum Operation {
    LoadRegister,
    AddRegister,
    SubtractRegister,
    BranchOnConditionRegister,
    SupervisorCall,
    LoadAddress,
    BranchOnCondition,
    Store,
    Load,
    LoadPsw,
    StoreControl,
    LoadControl,
    StoreClock,
    SetCpuTimer,
    StoreCpuTimer,
    /// Mandatory interception.
    Mandatory,
}

/// The operation and whether it is privileged. None: operation exception. In System/370 mode "opcodes 9C to 9F are
/// code 4 and B230 to B23C operation exceptions".
fn lookup(system_370: bool, text: &[u8]) -> Option<(Operation, bool)> {
    let found = match text[0] {
        0x07 => (Operation::BranchOnConditionRegister, false),
        0x0A => (Operation::SupervisorCall, false),
        0x18 => (Operation::LoadRegister, false),
        0x1A => (Operation::AddRegister, false),
        0x1B => (Operation::SubtractRegister, false),
        0x41 => (Operation::LoadAddress, false),
        0x47 => (Operation::BranchOnCondition, false),
        0x50 => (Operation::Store, false),
        0x58 => (Operation::Load, false),
        0x82 => (Operation::LoadPsw, true),
        0x83 => (Operation::Mandatory, true),
        0x9C..=0x9F if system_370 => (Operation::Mandatory, true),
        0xAE => (Operation::Mandatory, true),
        0xB2 => match text[1] {
            0x05 => (Operation::StoreClock, false),
            0x08 => (Operation::SetCpuTimer, true),
            0x09 => (Operation::StoreCpuTimer, true),
            0x30..=0x3C if !system_370 => (Operation::Mandatory, true),
            _ => return None,
        },
        0xB6 => (Operation::StoreControl, true),
        0xB7 => (Operation::LoadControl, true),
        _ => return None,
    };
    Some(found)
}

/// The length in halfwords by the two leftmost bits of the operation code.
fn halfwords(first: u8) -> u8 {
    match first >> 6 {
        0 => 1,
        1 | 2 => 2,
        _ => 3,
    }
}

/// Second-operand address of RX: base, index and displacement.
fn address_rx(record: &[u8], text: &[u8]) -> u32 {
    let index = (text[1] & 0xF) as usize;
    let index = if index == 0 { 0 } else { general_register(record, index) };
    wrap(record, index.wrapping_add(base_and_displacement(record, text)))
}

/// Second-operand address of RS and S: base and displacement.
fn address_s(record: &[u8], text: &[u8]) -> u32 {
    wrap(record, base_and_displacement(record, text))
}

fn base_and_displacement(record: &[u8], text: &[u8]) -> u32 {
    let base = (text[2] >> 4) as usize;
    let base = if base == 0 { 0 } else { general_register(record, base) };
    base.wrapping_add(halfword(text, 2) & 0xFFF)
}

/// The sum or difference, its condition code, and whether it overflows.
fn arithmetic(first: u32, second: u32, subtract: bool) -> (u32, u8, bool) {
    let first = first as i32 as i64;
    let second = second as i32 as i64;
    let exact = if subtract { first - second } else { first + second };
    let result = exact as u32;
    if exact != result as i32 as i64 {
        return (result, 3, true);
    }
    let code = match exact {
        0 => 0,
        _ if exact < 0 => 1,
        _ => 2,
    };
    (result, code, false)
}

// ---------------------------------------------------------------------------------------------------------------
// One unit.

/// What one unit is about to do. Nothing of it is done until it is known how the unit ends.
struct Unit {
    record: Vec<u8>,
    /// Host absolute address and byte.
    stores: Vec<(u32, u8)>,
    /// Frames to mark, with whether each was stored into.
    marks: Vec<(usize, bool)>,
    /// Of STCK.
    reading: Option<Reading>,
}

impl Unit {
    fn mark(&mut self, places: &[u32], stored: bool) {
        for &place in places {
            self.marks.push((place as usize / FRAME, stored));
        }
    }

    fn store(&mut self, places: &[u32], bytes: &[u8]) {
        for (&place, &byte) in places.iter().zip(bytes) {
            self.stores.push((place, byte));
        }
        self.mark(places, true);
    }
}

/// How the instruction of a unit went.
enum Instruction {
    /// It ended, and the unit is as it says.
    Ended,
    /// Program exception. Marks so far are those of the text fetched.
    Exception { code: u8, ilc: u8, address: u32, text: Vec<u8> },
    /// Supervisor call that is not intercepted.
    SupervisorCall { number: u8 },
    /// Interception code 4.
    Intercepted { ilc: u8, text: Vec<u8> },
    HostFault(Fault),
}

/// "Order: odd address, all halfwords fetched, operation, privilege, interception, alignment, operand accesses".
fn instruction(view: &View, unit: &mut Unit, clock: u64) -> Instruction {
    let record = view.record;
    let start = instruction_address(record);
    let mut text: Vec<u8> = Vec::new();
    let exception = |code: u8, ilc: u8, address: u32, text: &[u8]| Instruction::Exception {
        code,
        ilc,
        address,
        text: text.to_vec(),
    };
    if start % 2 != 0 {
        return exception(SPECIFICATION, 1, 0, &text);
    }
    // "ILC is 1 if the first halfword cannot be read."
    let mut ilc = 1;
    let mut fetched = 0;
    while fetched < ilc {
        match view.operand(start.wrapping_add(2 * fetched as u32), 2, Access::Fetch) {
            Ok(places) => {
                text.extend(view.fetch(&places));
                unit.mark(&places, false);
            }
            Err(Failure::Guest(code, address, _)) => return exception(code, ilc, address, &text),
            Err(Failure::Host(fault)) => return Instruction::HostFault(fault),
        }
        if fetched == 0 {
            ilc = halfwords(text[0]);
        }
        fetched += 1;
    }
    let Some((operation, privileged)) = lookup(system_370(record), &text) else {
        return exception(OPERATION, ilc, 0, &text);
    };
    if privileged && psw_bit(record, 15) {
        return exception(PRIVILEGED_OPERATION, ilc, 0, &text);
    }
    if intercepted(record, operation, &text) {
        return Instruction::Intercepted { ilc, text };
    }
    match execute(view, unit, clock, operation, &text) {
        Ok(ending) => ending,
        Err(Failure::Guest(code, address, _)) => exception(code, ilc, address, &text),
        Err(Failure::Host(fault)) => Instruction::HostFault(fault),
    }
}

/// "Code 4 also: ..."
fn intercepted(record: &[u8], operation: Operation, text: &[u8]) -> bool {
    match operation {
        Operation::Mandatory => true,
        Operation::SupervisorCall => {
            let flags = record[SVC_FLAGS];
            if flags & 0x80 != 0 {
                return true;
            }
            (0..3).any(|n| flags & (0x40 >> n) != 0 && record[SVC_NUMBERS + n] == text[1])
        }
        Operation::LoadControl => {
            let controls = halfword(record, LCTL_CONTROLS);
            control_range(text).iter().any(|&register| controls & (0x8000 >> register) != 0)
        }
        Operation::LoadPsw => record[INTERCEPTION_CONTROLS] & 0x20 != 0,
        _ => false,
    }
}

/// The control registers of LCTL and STCTL: from R1 up, through 15 to 0, to R3.
fn control_range(text: &[u8]) -> Vec<usize> {
    let last = (text[1] & 0xF) as usize;
    let mut register = (text[1] >> 4) as usize;
    let mut range = vec![register];
    while register != last {
        register = (register + 1) % 16;
        range.push(register);
    }
    range
}

fn execute(
    view: &View,
    unit: &mut Unit,
    clock: u64,
    operation: Operation,
    text: &[u8],
) -> Result<Instruction, Failure> {
    let record = view.record;
    let first = (text[1] >> 4) as usize;
    let second = (text[1] & 0xF) as usize;
    let specification = Err(Failure::Guest(SPECIFICATION, 0, Table::NONE));
    advance(&mut unit.record, halfwords(text[0]));
    match operation {
        Operation::LoadRegister => {
            set_general_register(&mut unit.record, first, general_register(record, second));
        }
        Operation::AddRegister | Operation::SubtractRegister => {
            let subtract = operation == Operation::SubtractRegister;
            let (result, code, overflow) =
                arithmetic(general_register(record, first), general_register(record, second), subtract);
            set_general_register(&mut unit.record, first, result);
            set_condition_code(&mut unit.record, code);
            if overflow && overflow_is_enabled(record) {
                return Err(Failure::Guest(FIXED_POINT_OVERFLOW, 0, Table::NONE));
            }
        }
        Operation::BranchOnConditionRegister => {
            if second != 0 && first as u8 & (8 >> condition_code(record)) != 0 {
                set_instruction_address(&mut unit.record, general_register(record, second));
            }
        }
        Operation::BranchOnCondition => {
            if first as u8 & (8 >> condition_code(record)) != 0 {
                set_instruction_address(&mut unit.record, address_rx(record, text));
            }
        }
        Operation::SupervisorCall => return Ok(Instruction::SupervisorCall { number: text[1] }),
        Operation::LoadAddress => {
            set_general_register(&mut unit.record, first, address_rx(record, text));
        }
        Operation::Store => {
            let places = view.operand(address_rx(record, text), 4, Access::Store)?;
            unit.store(&places, &general_register(record, first).to_be_bytes());
        }
        Operation::Load => {
            let places = view.operand(address_rx(record, text), 4, Access::Fetch)?;
            set_general_register(&mut unit.record, first, word(&view.fetch(&places), 0));
            unit.mark(&places, false);
        }
        Operation::LoadPsw => {
            let address = address_s(record, text);
            if address % 8 != 0 {
                return specification;
            }
            let places = view.operand(address, 8, Access::Fetch)?;
            set_doubleword(&mut unit.record, PSW, doubleword(&view.fetch(&places), 0));
            unit.mark(&places, false);
        }
        Operation::StoreControl => {
            let address = address_s(record, text);
            if address % 4 != 0 {
                return specification;
            }
            let range = control_range(text);
            let places = view.operand(address, 4 * range.len() as u32, Access::Store)?;
            for (n, &register) in range.iter().enumerate() {
                unit.store(&places[4 * n..4 * n + 4], &control_register(record, register).to_be_bytes());
            }
        }
        Operation::LoadControl => {
            let address = address_s(record, text);
            if address % 4 != 0 {
                return specification;
            }
            let range = control_range(text);
            let places = view.operand(address, 4 * range.len() as u32, Access::Fetch)?;
            let bytes = view.fetch(&places);
            for (n, &register) in range.iter().enumerate() {
                set_word(&mut unit.record, CONTROL_REGISTERS + 4 * register, word(&bytes, 4 * n));
            }
            unit.mark(&places, false);
        }
        Operation::StoreClock => {
            let address = address_s(record, text);
            let places = view.operand(address, 8, Access::Store)?;
            let value = guest_clock(record, clock);
            unit.store(&places, &value.to_be_bytes());
            unit.reading = Some(Reading { unit: 0, value, address, places: places.try_into().unwrap() });
            set_condition_code(&mut unit.record, 0);
        }
        Operation::SetCpuTimer => {
            let address = address_s(record, text);
            if address % 8 != 0 {
                return specification;
            }
            let places = view.operand(address, 8, Access::Fetch)?;
            set_doubleword(&mut unit.record, TIMER, doubleword(&view.fetch(&places), 0));
            unit.mark(&places, false);
        }
        Operation::StoreCpuTimer => {
            let address = address_s(record, text);
            if address % 8 != 0 {
                return specification;
            }
            let places = view.operand(address, 8, Access::Store)?;
            unit.store(&places, &doubleword(record, TIMER).to_be_bytes());
        }
        Operation::Mandatory => unreachable!("intercepted before"),
    }
    Ok(Instruction::Ended)
}

/// "The guest clock is host clock plus epoch, carry out dropped."
fn guest_clock(record: &[u8], clock: u64) -> u64 {
    clock.wrapping_add(doubleword(record, EPOCH))
}

/// A guest interruption: old PSW, fields, new PSW. The fields start at real `fields_at`: a zero, the ILC shifted, the
/// interruption code in two bytes, and what else there is. The PSW at the unit's beginning decides the form: with a BC
/// PSW code and ILC go into the stored old PSW, bits 16-31 and 32-33, and no field is stored.
fn interrupt(view: &View, unit: &mut Unit, old: u32, new: u32, fields_at: u32, fields: &[u8]) -> Result<(), Failure> {
    let mut old_psw = doubleword(&unit.record, PSW).to_be_bytes();
    let mut fields = fields;
    if form(view.record) == Form::Bc {
        old_psw[2..4].copy_from_slice(&fields[2..4]);
        old_psw[4] = old_psw[4] & 0x3F | fields[1] >> 1 << 6;
        fields = &[];
    }
    // "the old PSW's bytes are accessed first"
    let old_places = view.area(old, 8, Access::Store)?;
    let field_places = view.area(fields_at, fields.len() as u32, Access::Store)?;
    let new_places = view.area(new, 8, Access::Fetch)?;
    unit.store(&old_places, &old_psw);
    unit.store(&field_places, fields);
    set_doubleword(&mut unit.record, PSW, doubleword(&view.fetch(&new_places), 0));
    unit.mark(&new_places, false);
    Ok(())
}

/// How a unit ends: complete or an exit.
enum UnitEnd {
    Complete,
    Exit(Answer),
}

struct Guest<'a> {
    record: &'a mut [u8],
    storage: &'a mut [u8],
    keys: &'a mut [u8],
    designation: u32,
    clock: u64,
    time: u32,
    /// The units completed.
    units: u32,
    events: Events,
}

impl Guest<'_> {
    /// "Before each unit, first that applies", and the unit.
    fn unit(&mut self) -> UnitEnd {
        let record = &*self.record;
        if record[INTERVENTION] & 0x04 != 0 {
            return self.intercept(40);
        }
        // In System/370 mode "DAT on is code 32 [...] and joins step 2, which there sees EC PSWs only".
        let form = form(record);
        if form != Form::Bc && (psw_bit(record, 1) || psw_bit(record, 16)) || form == Form::Ec && psw_bit(record, 5) {
            return self.intercept(32);
        }
        let before = record.to_vec();
        let mut unit = Unit { record: before.clone(), stores: Vec::new(), marks: Vec::new(), reading: None };
        if psw_is_malformed(record) {
            return self.program_exception(unit, SPECIFICATION, 0, 0, &[]);
        }
        let external = psw_bit(record, 7);
        let control_register_0 = control_register(record, 0);
        let comparator = doubleword(record, COMPARATOR);
        if external && bit(control_register_0, 20) && guest_clock(record, self.clock) > comparator {
            return self.intercept_external(0x1004);
        }
        if external && bit(control_register_0, 21) && (doubleword(record, TIMER) as i64) < 0 {
            return self.intercept_external(0x1005);
        }
        // "T with PSW bit 7 and CR0 bit 24, timer active, is code 20, 0080 hex, after step 5, and clears T."
        let pending = interval_timer_is_active(record) && record[TIMER_REQUEST] & 0x80 != 0;
        if external && bit(control_register_0, 24) && pending {
            self.record[TIMER_REQUEST] &= 0x7F;
            return self.intercept_external(0x0080);
        }
        if record[INTERVENTION] & 0x01 != 0 && external {
            return self.intercept(16);
        }
        // "For a BC PSW the I/O request needs any one of bits 0-6."
        let first_channel = if form == Form::Bc { 0 } else { 6 };
        if record[INTERVENTION] & 0x02 != 0 && (first_channel..=6).any(|channel| psw_bit(record, channel)) {
            return self.intercept(24);
        }
        if psw_bit(record, 14) {
            return self.intercept(28);
        }
        let view = View { record, storage: self.storage, keys: self.keys, designation: self.designation };
        match instruction(&view, &mut unit, self.clock) {
            Instruction::Ended => self.complete(unit, None),
            Instruction::HostFault(fault) => self.host_fault(Failure::Host(fault)),
            Instruction::Intercepted { ilc, text } => {
                advance(self.record, ilc);
                self.record[RESULT_ILC] = ilc;
                self.record[RESULT_TEXT..RESULT_TEXT + text.len()].copy_from_slice(&text);
                self.intercept(4)
            }
            Instruction::SupervisorCall { number } => {
                let fields = [0, 1 << 1, 0, number];
                match interrupt(&view, &mut unit, 32, 96, 136, &fields) {
                    Ok(()) => self.complete(unit, Some(SVC_INTERRUPTION)),
                    Err(failure) => self.host_fault(failure),
                }
            }
            Instruction::Exception { code, ilc, address, text } => {
                // An add that overflows keeps its results; of any other instruction nothing is kept.
                if code != FIXED_POINT_OVERFLOW {
                    unit.record = before;
                    unit.stores.clear();
                    if code != SEGMENT_TRANSLATION && code != PAGE_TRANSLATION {
                        advance(&mut unit.record, ilc);
                    }
                }
                self.program_exception(unit, code, ilc, address, &text)
            }
        }
    }

    /// Code 44, code 8 or the guest's interruption. The unit has the address advanced where it is to be.
    fn program_exception(&mut self, mut unit: Unit, code: u8, ilc: u8, address: u32, text: &[u8]) -> UnitEnd {
        let controls = self.record[INTERCEPTION_CONTROLS];
        let translation = code == SEGMENT_TRANSLATION || code == PAGE_TRANSLATION;
        if code == OPERATION && controls & 0x80 != 0 {
            self.record.copy_from_slice(&unit.record);
            self.record[RESULT_ILC] = ilc;
            self.record[RESULT_TEXT..RESULT_TEXT + text.len()].copy_from_slice(text);
            return self.intercept(44);
        }
        if controls & 0x40 != 0 {
            self.record.copy_from_slice(&unit.record);
            self.record[RESULT_ILC] = ilc;
            self.record[RESULT_INTERRUPTION + 1] = code;
            if translation {
                set_word(self.record, RESULT_ADDRESS, address);
            }
            return self.intercept(8);
        }
        let mut fields = vec![0, ilc << 1, 0, code];
        if translation {
            fields.extend(address.to_be_bytes());
        }
        let view =
            View { record: self.record, storage: self.storage, keys: self.keys, designation: self.designation };
        match interrupt(&view, &mut unit, 40, 104, 140, &fields) {
            Ok(()) => self.complete(unit, Some(code)),
            Err(failure) => self.host_fault(failure),
        }
    }

    /// The prefixed 4 KiB lie below the extent, so an interruption area can fail by a host fault only.
    fn host_fault(&mut self, failure: Failure) -> UnitEnd {
        let Failure::Host(fault) = failure else { unreachable!("interruption areas lie below the extent") };
        self.events.walk = Some(fault.walk);
        UnitEnd::Exit(fault.answer())
    }

    fn intercept(&mut self, code: u8) -> UnitEnd {
        self.record[RESULT_CODE] = code;
        UnitEnd::Exit(Answer::Intercepted(code))
    }

    fn intercept_external(&mut self, interruption: u16) -> UnitEnd {
        self.record[RESULT_INTERRUPTION..RESULT_INTERRUPTION + 2].copy_from_slice(&interruption.to_be_bytes());
        self.intercept(20)
    }

    /// The stores, the marks and the time of a complete unit, and the interval timer.
    fn complete(&mut self, mut unit: Unit, interruption: Option<u8>) -> UnitEnd {
        // A host fault at the timer's word undoes the whole unit, so the word is looked for before anything is done.
        let interval_timer = match self.add_to_residue(&mut unit) {
            Ok(places) => places,
            Err(failure) => {
                self.events.fault_at_word = true;
                return self.host_fault(failure);
            }
        };
        self.events.interruptions.extend(interruption.map(|code| (form(self.record), code)));
        self.events.readings.extend(unit.reading.map(|reading| Reading { unit: self.units, ..reading }));
        self.record.copy_from_slice(&unit.record);
        for (place, byte) in unit.stores {
            self.storage[place as usize] = byte;
        }
        for (frame, stored) in unit.marks {
            self.keys[frame] |= 0x04;
            if stored {
                self.keys[frame] |= 0x02;
            }
        }
        self.clock = self.clock.wrapping_add(self.time as u64);
        let timer = doubleword(self.record, TIMER).wrapping_sub(self.time as u64);
        set_doubleword(self.record, TIMER, timer);
        if let Some(places) = interval_timer {
            self.lower_word(&places);
        }
        self.units += 1;
        UnitEnd::Complete
    }

    /// "each completed unit adds three times its time to the residue; at 40,960,000 or more that much is taken off".
    /// The answer then is the places of the word at guest real 80. They are tested as a store of four bytes into an
    /// interruption area: no keys, no low-address protection, host page protection last, in the tables as they were
    /// when the unit began. An interruption for a malformed PSW is a completed unit and adds like any other.
    fn add_to_residue(&self, unit: &mut Unit) -> Result<Option<Vec<u32>>, Failure> {
        if !interval_timer_is_active(self.record) {
            return Ok(None);
        }
        let residue = word(self.record, RESIDUE) + 3 * self.time;
        if residue < RESIDUE_LIMIT {
            set_word(&mut unit.record, RESIDUE, residue);
            return Ok(None);
        }
        set_word(&mut unit.record, RESIDUE, residue - RESIDUE_LIMIT);
        let view =
            View { record: self.record, storage: self.storage, keys: self.keys, designation: self.designation };
        view.area(80, 4, Access::Store).map(Some)
    }

    /// "the word at guest real 80 falls by 256 with wrap. Going from nonnegative to negative sets T." It ends the unit:
    /// the word is the one that the unit's own stores left. No key is marked.
    fn lower_word(&mut self, places: &[u32]) {
        let bytes: Vec<u8> = places.iter().map(|&place| self.storage[place as usize]).collect();
        let before = word(&bytes, 0);
        let after = before.wrapping_sub(256);
        for (&place, byte) in places.iter().zip(after.to_be_bytes()) {
            self.storage[place as usize] = byte;
        }
        self.events.falls += 1;
        if before as i32 >= 0 && (after as i32) < 0 {
            self.record[TIMER_REQUEST] |= 0x80;
            self.events.turns += 1;
        }
    }
}

/// "When the interval timer is active (mode 01, bit 7 zero)"
fn interval_timer_is_active(record: &[u8]) -> bool {
    system_370(record) && record[MODE] & 0x01 == 0
}

/// Step 3 of "Before each unit".
pub fn psw_is_malformed(record: &[u8]) -> bool {
    let ones = |first: usize, last: usize| (first..=last).any(|number| psw_bit(record, number));
    match form(record) {
        Form::Bc => return false,
        Form::Ec => return psw_bit(record, 0) || ones(2, 4) || psw_bit(record, 17) || ones(24, 39),
        Form::Xa => {}
    }
    psw_bit(record, 0)
        || ones(2, 4)
        || psw_bit(record, 17)
        || ones(24, 31)
        || !psw_bit(record, 12)
        || !psw_bit(record, 32) && ones(33, 39)
}

// ---------------------------------------------------------------------------------------------------------------
// The three operations.

/// Check a record.
pub fn check(record: &[u8]) -> Answer {
    if let Some(number) = refuse_record(record).or_else(|| refuse_reserved(record)) {
        return Answer::Refused(number);
    }
    if !entry_is_good(record) {
        return Answer::Intercepted(32);
    }
    Answer::Good(0)
}

/// Translate one guest address.
pub fn translate(record: &[u8], storage: &[u8], keys: &[u8], designation: u32, address: u32, access: u32) -> Answer {
    translate_and_walk(record, storage, keys, designation, address, access).0
}

/// The same, with the walk of a host fault.
pub fn translate_and_walk(
    record: &[u8],
    storage: &[u8],
    keys: &[u8],
    designation: u32,
    address: u32,
    access: u32,
) -> (Answer, Option<Walk>) {
    let refusal = refuse_record(record)
        .or_else(|| refuse_storage(storage.len(), keys.len()))
        .or_else(|| refuse_reserved(record))
        .or_else(|| if access > 2 { Some(8) } else { None });
    if let Some(number) = refusal {
        return (Answer::Refused(number), None);
    }
    if !entry_is_good(record) {
        return (Answer::Intercepted(32), None);
    }
    // "In mode 01, DAT on is code 32, in translate too (it also reads PSW bit 12)".
    if form(record) == Form::Ec && psw_bit(record, 5) {
        return (Answer::Intercepted(32), None);
    }
    let view = View { record, storage, keys, designation };
    let access = if access == 1 { Access::Store } else { Access::Fetch };
    match view.access(address, access) {
        Ok(absolute) => (Answer::Good(absolute), None),
        Err(Failure::Guest(code, _, table)) => (Answer::ProgramException(code, table), None),
        Err(Failure::Host(fault)) => (fault.answer(), Some(fault.walk)),
    }
}

/// Run the guest. Record, storage and keys are left as the run leaves them.
pub fn run(
    record: &mut [u8],
    storage: &mut [u8],
    keys: &mut [u8],
    designation: u32,
    clock: u64,
    time: u32,
    budget: u32,
) -> Run {
    let events = Events::default();
    if let Some(number) = refuse_run(record, storage.len(), keys.len(), budget, time) {
        return Run { answer: Answer::Refused(number), units: 0, events };
    }
    record[RESULT_CODE..66].fill(0);
    if !entry_is_good(record) {
        record[RESULT_CODE] = 32;
        return Run { answer: Answer::Intercepted(32), units: 0, events };
    }
    let mut guest = Guest { record, storage, keys, designation, clock, time, units: 0, events };
    loop {
        let units = guest.units;
        if units == budget {
            return Run { answer: Answer::BudgetUsed, units, events: guest.events };
        }
        if let UnitEnd::Exit(answer) = guest.unit() {
            return Run { answer, units, events: guest.events };
        }
    }
}

/// "Case file and worked examples": the line that the program prints for a case file, its newline left out.
pub fn case_line(file: &[u8]) -> String {
    // Length 4, version 1, designation 4, clock 8, time 4, budget 2; then the record, from its length field on.
    let malformed = "R 9".to_string();
    if file.len() < 25 || word(file, 0) as usize != file.len() - 4 || file[4] != 1 {
        return malformed;
    }
    // "In case files its length field gives the record's size, 200 if not 208." So where a field of 200 stands before
    // 208 bytes, byte 200 is the frame count, and the file is malformed when that is 0.
    let size = if halfword(file, 23) == 208 { 208 } else { 200 };
    let count_at = 23 + size;
    if file.len() <= count_at {
        return malformed;
    }
    let frames = file[count_at] as usize;
    if !(1..=8).contains(&frames) || file.len() != count_at + 1 + frames + frames * FRAME {
        return malformed;
    }
    let mut record = file[23..count_at].to_vec();
    let mut keys = file[count_at + 1..count_at + 1 + frames].to_vec();
    let mut storage = file[count_at + 1 + frames..].to_vec();
    let (designation, clock, time) = (word(file, 5), doubleword(file, 9), word(file, 17));
    let end = run(&mut record, &mut storage, &mut keys, designation, clock, time, halfword(file, 21));
    match end.answer {
        Answer::Refused(number) => format!("R {number}"),
        Answer::Intercepted(code) => format!("I {code} {}", end.units),
        Answer::HostFault(code, ..) => format!("H {code} {}", end.units),
        Answer::BudgetUsed => format!("B 0 {}", end.units),
        Answer::ProgramException(..) | Answer::Good(_) => unreachable!("answers of translate and check"),
    }
}

// ---------------------------------------------------------------------------------------------------------------
// "The entries that describe the extent", and the guest frames.

/// What demand 3 keeps: table entries by their host absolute address, and guest frames.
pub struct Extent {
    pub entries: Vec<u32>,
    pub frames: Vec<usize>,
}

/// Of a run with this record and storage. Empty where the run is refused or the entry fails; the caller looks at the
/// refusals.
pub fn describe_extent(record: &[u8], storage: &[u8], designation: u32) -> Extent {
    let mut extent = Extent { entries: Vec::new(), frames: Vec::new() };
    if !entry_is_good(record) {
        return extent;
    }
    let first = origin_bytes(record) as u64;
    let last = first + extent_bytes(record) - 1;
    for segment in first >> 20..=last >> 20 {
        // In reach: the table's length and the storage allow it.
        if (segment >> 4) as u32 > designation & 0x7F {
            continue;
        }
        let segment_at = (designation & 0x7FFF_F000) + 4 * segment as u32;
        if segment_at as usize >= storage.len() {
            continue;
        }
        extent.entries.push(segment_at);
        let segment_entry = word(storage, segment_at as usize);
        if bit(segment_entry, 26) || bit(segment_entry, 0) {
            continue;
        }
        for page in 0..256 {
            let page_address = segment << 20 | page << 12;
            if page_address < first || page_address > last {
                continue;
            }
            if (page >> 4) as u32 > segment_entry & 0xF {
                continue;
            }
            let page_at = (segment_entry & 0x7FFF_FFC0) + 4 * page as u32;
            if page_at as usize >= storage.len() {
                continue;
            }
            extent.entries.push(page_at);
            let page_entry = word(storage, page_at as usize);
            if bit(page_entry, 0) || bit(page_entry, 20) || bit(page_entry, 21) || bit(page_entry, 23) {
                continue;
            }
            let frame = (page_entry & 0x7FFF_F000) as usize / FRAME;
            if frame < storage.len() / FRAME {
                extent.frames.push(frame);
            }
        }
    }
    extent.entries.sort_unstable();
    extent.entries.dedup();
    extent.frames.sort_unstable();
    extent.frames.dedup();
    extent
}
