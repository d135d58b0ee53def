//! What the programs print: the tally of ends, differences, and cases as files.

use crate::desk::Tables;
use crate::ffi::{self, Packed};
use crate::generate::{Case, Machine};
use crate::model::{self, Answer, Form, Run, Stage, Table, Walk, FRAME, SVC_INTERRUPTION};
use std::collections::BTreeMap;
use std::fmt::Display;
use std::fs;
use std::time::Instant;

/// The machines that are tried.
pub const MACHINES: [Machine; 3] = [Machine::Xa, Machine::System370, Machine::XaLarger];

/// "Case file and worked examples": the bytes of a case file, where the format can hold the case.
pub fn case_file(case: &Case) -> Option<Vec<u8>> {
    let frames = case.keys.len();
    // A record's length field that does not tell its bytes would have the file read otherwise.
    let size = if case.record.starts_with(&[0, 208]) { 208 } else { 200 };
    if case.record.len() != size || !(1..=8).contains(&frames) || case.storage.len() != frames * FRAME {
        return None;
    }
    let budget = u16::try_from(case.budget).ok()?;
    let mut rest = vec![1];
    rest.extend(case.designation.to_be_bytes());
    rest.extend(case.clock.to_be_bytes());
    rest.extend(case.time.to_be_bytes());
    rest.extend(budget.to_be_bytes());
    rest.extend(&case.record);
    rest.push(frames as u8);
    rest.extend(&case.keys);
    rest.extend(&case.storage);
    let mut file = (rest.len() as u32).to_be_bytes().to_vec();
    file.extend(rest);
    Some(file)
}

/// Writes the case as a file in the current folder, or prints it where the format cannot hold it.
pub fn keep_case(case: &Case, name: &str) {
    if let Some(bytes) = case_file(case) {
        match fs::write(name, bytes) {
            Ok(()) => println!("the case is in {name}"),
            Err(error) => println!("the case could not be written to {name}: {error}"),
        }
        return;
    }
    println!(
        "designation {:08x} clock {:016x} time {} budget {} storage of {} bytes, {} keys",
        case.designation,
        case.clock,
        case.time,
        case.budget,
        case.storage.len(),
        case.keys.len()
    );
    // Of a large storage the first frames are enough: the rest is zeros.
    dump("record", &case.record);
    dump("keys", &case.keys[..case.keys.len().min(80)]);
    dump("storage", &case.storage[..case.storage.len().min(80 * FRAME)]);
}

/// Lines of 32 bytes; lines of zeros are left out.
pub fn dump(name: &str, bytes: &[u8]) {
    println!("{name}, {} bytes:", bytes.len());
    for (number, line) in bytes.chunks(32).enumerate() {
        if line.iter().all(|&byte| byte == 0) {
            continue;
        }
        let text: String = line.iter().map(|byte| format!("{byte:02x}")).collect();
        println!("  {:6x} {text}", number * 32);
    }
}

/// Prints the bytes that differ, at most so many; answers whether there are any.
pub fn show_difference(name: &str, library: &[u8], model: &[u8]) -> bool {
    if library == model {
        return false;
    }
    if library.len() != model.len() {
        println!("{name}: {} bytes in one, {} in the other", library.len(), model.len());
        return true;
    }
    let places: Vec<usize> = (0..library.len()).filter(|&at| library[at] != model[at]).collect();
    println!("{name}: {} bytes differ", places.len());
    for &at in places.iter().take(24) {
        println!("  at {at} ({at:x} hex): {:02x} against {:02x}", library[at], model[at]);
    }
    true
}

pub fn show_answer(name: &str, answer: Packed) -> String {
    let kind = match answer.kind() {
        ffi::REFUSED => "refused",
        ffi::INTERCEPTED => "intercepted",
        ffi::HOST_FAULT => "host fault",
        ffi::BUDGET_USED => "budget used",
        ffi::PROGRAM_EXCEPTION => "program exception",
        ffi::GOOD => "good",
        _ => "unknown kind",
    };
    format!(
        "{name}: {kind} {} ({:x} hex), units {}, stage {}, entry {:x} hex, where {:x} hex, word {:016x}",
        answer.number(),
        answer.number(),
        answer.units(),
        answer.stage(),
        answer.entry(),
        answer.location as u32,
        answer.word
    )
}

/// How often each end occurred, with the units of each.
pub struct Tally {
    machine: Machine,
    /// Kind and number, to the units completed.
    ends: BTreeMap<(u32, u32), Vec<u32>>,
    /// Refusals of check and translate.
    refusals: BTreeMap<u32, u64>,
    /// Program codes presented as code 8 or 44, and as guest interruptions.
    intercepted_programs: BTreeMap<u32, u64>,
    interruptions: BTreeMap<u32, u64>,
    /// Answers of translate: kind and number.
    translations: BTreeMap<(u32, u32), u64>,
    /// Of System/370 mode alone, by name.
    events: BTreeMap<&'static str, u64>,
    /// Which table was bad, in translate's failures and in host faults of runs.
    failures: BTreeMap<Failure, u64>,
    /// Entries at zero, and guest entries whose real address is not the absolute one.
    entries: BTreeMap<(&'static str, Stage), u64>,
}

/// The walk, the stage, whether the entry was read, and the program code.
type Failure = (&'static str, Stage, bool, u32);

/// Walks by name: the first of translate's program exceptions, then translate's host walks, then those of runs.
const GUEST: &str = "translate, guest";
const TRANSLATE_SEGMENT: &str = "translate, host for a guest segment entry";
const TRANSLATE_PAGE: &str = "translate, host for a guest page entry";
const TRANSLATE_BYTE: &str = "translate, host for the byte";
const RUN_SEGMENT: &str = "run, host for a guest segment entry";
const RUN_PAGE: &str = "run, host for a guest page entry";
const RUN_BYTE: &str = "run, host for a byte";
const RUN_AREA: &str = "run, host for an interruption area";
const RUN_WORD: &str = "run, host for the interval timer's word";

/// Entries by name: bad ones, and guest entries that the host cannot give.
const TRANSLATE_ZERO: &str = "translate, entry at zero";
const RUN_ZERO: &str = "run, entry at zero";
const MOVED: &str = "translate, entry moved by prefixing";
const TRANSLATE_MOVED: &str = "translate, host for an entry moved by prefixing";
const RUN_MOVED: &str = "run, host for an entry moved by prefixing";

/// What a program exception of translate can be; without DAT only the first two.
const GUEST_FAILURES: [(Stage, bool, u32); 11] = [
    (Stage::None, false, 0x04),
    (Stage::None, false, 0x05),
    (Stage::None, false, 0x12),
    (Stage::GuestSegment, false, 0x05),
    (Stage::GuestSegment, false, 0x10),
    (Stage::GuestSegment, true, 0x10),
    (Stage::GuestSegment, true, 0x12),
    (Stage::GuestPage, false, 0x05),
    (Stage::GuestPage, false, 0x11),
    (Stage::GuestPage, true, 0x11),
    (Stage::GuestPage, true, 0x12),
];

/// What a host walk can end with; for a guest's entry not the first, which is host page protection.
const HOST_FAILURES: [(Stage, bool, u32); 10] = [
    (Stage::None, false, 0x04),
    (Stage::HostSegment, false, 0x05),
    (Stage::HostSegment, false, 0x10),
    (Stage::HostSegment, true, 0x10),
    (Stage::HostSegment, true, 0x12),
    (Stage::HostPage, false, 0x05),
    (Stage::HostPage, false, 0x11),
    (Stage::HostPage, true, 0x05),
    (Stage::HostPage, true, 0x11),
    (Stage::HostPage, true, 0x12),
];

fn stage_name(stage: Stage) -> &'static str {
    match stage {
        Stage::None => "none",
        Stage::GuestSegment => "guest segment",
        Stage::GuestPage => "guest page",
        Stage::HostSegment => "host segment",
        Stage::HostPage => "host page",
    }
}

/// What must occur in System/370 mode.
const EVENTS: [&str; 7] = [
    "interruptions with a BC PSW",
    "interruptions with an EC PSW",
    "falls of the word at real 80",
    "falls that set T",
    "host faults at the word",
    "code 20 with 0080 hex",
    "code 24 with a BC PSW and bit 6 zero",
];

impl Tally {
    pub fn new(machine: Machine) -> Tally {
        Tally {
            machine,
            ends: BTreeMap::new(),
            refusals: BTreeMap::new(),
            intercepted_programs: BTreeMap::new(),
            interruptions: BTreeMap::new(),
            translations: BTreeMap::new(),
            events: BTreeMap::new(),
            failures: BTreeMap::new(),
            entries: BTreeMap::new(),
        }
    }

    /// The end of a run, with the record it left.
    pub fn run(&mut self, end: &Run, record: &[u8]) {
        let events = &end.events;
        if let Answer::HostFault(code, address, table) = end.answer {
            let name = match events.walk {
                Some(Walk::GuestSegmentEntry) => RUN_SEGMENT,
                Some(Walk::GuestPageEntry) => RUN_PAGE,
                Some(Walk::Area) if events.fault_at_word => RUN_WORD,
                Some(Walk::Area) => RUN_AREA,
                _ => RUN_BYTE,
            };
            self.failure(name, RUN_ZERO, code, table);
            self.guest_entry(RUN_MOVED, events.walk, record, address);
        }
        let end = ffi::pack(end.answer, end.units);
        self.ends.entry((end.kind(), end.number())).or_default().push(end.units());
        if end.kind() == ffi::INTERCEPTED && end.number() == 8 {
            *self.intercepted_programs.entry(record[55] as u32).or_default() += 1;
        }
        if end.kind() == ffi::INTERCEPTED && end.number() == 44 {
            *self.intercepted_programs.entry(1).or_default() += 1;
        }
        if end.kind() == ffi::REFUSED {
            *self.refusals.entry(end.number()).or_default() += 1;
        }
        for &(_, code) in &events.interruptions {
            *self.interruptions.entry(code as u32).or_default() += 1;
        }
        if self.machine == Machine::System370 {
            let with = |form: Form| events.interruptions.iter().filter(|&&(old, _)| old == form).count() as u64;
            let intercepted = |code: u32| end.kind() == ffi::INTERCEPTED && end.number() == code;
            let counts = [
                with(Form::Bc),
                with(Form::Ec),
                events.falls as u64,
                events.turns as u64,
                events.fault_at_word as u64,
                (intercepted(20) && record[54..56] == [0x00, 0x80]) as u64,
                (intercepted(24) && record[17] & 0x08 == 0 && record[16] & 0x02 == 0) as u64,
            ];
            for (name, count) in EVENTS.into_iter().zip(counts) {
                *self.events.entry(name).or_default() += count;
            }
        }
    }

    pub fn check(&mut self, answer: Answer) {
        if let Answer::Refused(number) = answer {
            *self.refusals.entry(number as u32).or_default() += 1;
        }
    }

    /// An answer of translate for the record, with the walk of a host fault.
    pub fn translation(&mut self, (answer, walk): (Answer, Option<Walk>), record: &[u8]) {
        match answer {
            Answer::HostFault(code, address, table) => {
                let name = match walk {
                    Some(Walk::GuestSegmentEntry) => TRANSLATE_SEGMENT,
                    Some(Walk::GuestPageEntry) => TRANSLATE_PAGE,
                    _ => TRANSLATE_BYTE,
                };
                self.failure(name, TRANSLATE_ZERO, code, table);
                self.guest_entry(TRANSLATE_MOVED, walk, record, address);
            }
            Answer::ProgramException(code, table) => {
                self.failure(GUEST, TRANSLATE_ZERO, code, table);
                if table.entry.is_some_and(|entry| is_moved(record, entry)) {
                    *self.entries.entry((MOVED, table.stage)).or_default() += 1;
                }
            }
            _ => {}
        }
        let packed = ffi::pack(answer, 0);
        *self.translations.entry((packed.kind(), packed.number())).or_default() += 1;
        self.check(answer);
    }

    fn failure(&mut self, name: &'static str, zero: &'static str, code: u8, table: Table) {
        *self.failures.entry((name, table.stage, table.entry.is_some(), code as u32)).or_default() += 1;
        if table.entry == Some(0) {
            *self.entries.entry((zero, table.stage)).or_default() += 1;
        }
    }

    /// A guest entry that the host cannot give, where prefixing moves it.
    fn guest_entry(&mut self, name: &'static str, walk: Option<Walk>, record: &[u8], address: u32) {
        let stage = match walk {
            Some(Walk::GuestSegmentEntry) => Stage::GuestSegment,
            Some(Walk::GuestPageEntry) => Stage::GuestPage,
            _ => return,
        };
        if is_moved(record, address - model::origin_bytes(record)) {
            *self.entries.entry((name, stage)).or_default() += 1;
        }
    }

    /// The failures that must occur: all that can.
    fn owed_failures(&self) -> Vec<Failure> {
        let mut owed = Vec::new();
        let mut owe = |name: &'static str, list: &[(Stage, bool, u32)]| {
            owed.extend(list.iter().map(|&(stage, read, code)| (name, stage, read, code)));
        };
        if self.machine == Machine::System370 {
            owe(GUEST, &GUEST_FAILURES[..2]);
            owe(RUN_WORD, &HOST_FAILURES);
        } else {
            owe(GUEST, &GUEST_FAILURES);
            for name in [TRANSLATE_SEGMENT, TRANSLATE_PAGE, RUN_SEGMENT, RUN_PAGE] {
                owe(name, &HOST_FAILURES[1..]);
            }
        }
        for name in [TRANSLATE_BYTE, RUN_BYTE, RUN_AREA] {
            owe(name, &HOST_FAILURES);
        }
        owed
    }

    /// The entries that must occur.
    fn owed_entries(&self) -> Vec<(&'static str, Stage)> {
        let (guest, host) = ([Stage::GuestSegment, Stage::GuestPage], [Stage::HostSegment, Stage::HostPage]);
        let mut owed = vec![(TRANSLATE_ZERO, host), (RUN_ZERO, host)];
        if self.machine != Machine::System370 {
            owed.extend([TRANSLATE_ZERO, MOVED, TRANSLATE_MOVED, RUN_MOVED].map(|name| (name, guest)));
        }
        owed.into_iter().flat_map(|(name, stages)| stages.map(|stage| (name, stage))).collect()
    }

    pub fn print(&mut self) {
        match self.machine {
            Machine::Xa => {}
            Machine::System370 => println!("System/370 in the record of 208 bytes"),
            Machine::XaLarger => println!("370-XA in the record of 208 bytes"),
        }
        println!("ends of runs:                 cases   units: fewest  median    most      mean");
        let mut all = Vec::new();
        for ((kind, number), units) in &mut self.ends {
            let name = match *kind {
                ffi::REFUSED => format!("refusal {number}"),
                ffi::INTERCEPTED => format!("interception {number}"),
                ffi::HOST_FAULT => format!("host fault {number:x} hex"),
                _ => "budget used".to_string(),
            };
            print_units(&name, units);
            all.extend_from_slice(units);
        }
        print_units("all", &mut all);
        print!("program exceptions as code 8 or 44:");
        for (code, count) in &self.intercepted_programs {
            print!(" {code:x}:{count}");
        }
        print!("\nas guest interruptions:");
        for (code, count) in &self.interruptions {
            if *code == SVC_INTERRUPTION as u32 {
                print!(" SVC:{count}");
            } else {
                print!(" {code:x}:{count}");
            }
        }
        print!("\nrefusals of all three operations:");
        for (number, count) in &self.refusals {
            print!(" {number}:{count}");
        }
        print!("\ntranslations:");
        for ((kind, number), count) in &self.translations {
            match *kind {
                ffi::REFUSED => print!(" refusal {number}:{count}"),
                ffi::INTERCEPTED => print!(" interception {number}:{count}"),
                ffi::HOST_FAULT => print!(" host fault {number:x} hex:{count}"),
                ffi::PROGRAM_EXCEPTION => print!(" exception {number:x} hex:{count}"),
                _ => print!(" good:{count}"),
            }
        }
        println!();
        for (name, count) in &self.events {
            println!("{name}: {count}");
        }
        self.print_failures();
    }

    /// A line for each walk: stages, and program codes with their counts.
    fn print_failures(&self) {
        let mut last = ("", Stage::None, false);
        print!("which table was bad:");
        for (&(name, stage, read, code), count) in &self.failures {
            if name != last.0 {
                print!("\n  {name}:");
            }
            if (name, stage, read) != last {
                let state = match (stage, read) {
                    (Stage::None, _) => "",
                    (_, true) => " read",
                    (_, false) => " not read",
                };
                print!(" {}{state}", stage_name(stage));
            }
            print!(" {code:x}:{count}");
            last = (name, stage, read);
        }
        let mut last = "";
        for (&(name, stage), count) in &self.entries {
            if name != last {
                print!("\n  {name}:");
            }
            print!(" {} {count}", stage_name(stage));
            last = name;
        }
        println!();
    }

    /// What had to occur and never did.
    pub fn missing(&self) -> Vec<String> {
        let mut missing = Vec::new();
        for code in [4, 8, 16, 20, 24, 28, 32, 40, 44] {
            if !self.ends.contains_key(&(ffi::INTERCEPTED, code)) {
                missing.push(format!("interception {code}"));
            }
        }
        for code in [0x04, 0x05, 0x10, 0x11, 0x12] {
            if !self.ends.contains_key(&(ffi::HOST_FAULT, code)) {
                missing.push(format!("host fault {code:x} hex"));
            }
        }
        if !self.ends.contains_key(&(ffi::BUDGET_USED, 0)) {
            missing.push("budget used".to_string());
        }
        for number in 1..=8 {
            if !self.refusals.contains_key(&number) {
                missing.push(format!("refusal {number}"));
            }
        }
        // 10, 11 and 12 hex come from DAT.
        let all = [0x01, 0x02, 0x04, 0x05, 0x06, 0x08, 0x10, 0x11, 0x12];
        let codes = if self.machine == Machine::System370 { &all[..6] } else { &all[..] };
        for code in codes {
            if !self.intercepted_programs.contains_key(code) {
                missing.push(format!("program exception {code:x} hex as an interception"));
            }
            if !self.interruptions.contains_key(code) {
                missing.push(format!("program exception {code:x} hex as a guest interruption"));
            }
        }
        for name in EVENTS {
            if self.machine == Machine::System370 && self.events.get(name).is_none_or(|&count| count == 0) {
                missing.push(name.to_string());
            }
        }
        for owed in self.owed_failures() {
            if !self.failures.contains_key(&owed) {
                let (name, stage, read, code) = owed;
                let state = if read { "read" } else { "not read" };
                missing.push(format!("{name}: stage {}, {state}, {code:x} hex", stage_name(stage)));
            }
        }
        for owed in self.owed_entries() {
            if !self.entries.contains_key(&owed) {
                missing.push(format!("{}: {}", owed.0, stage_name(owed.1)));
            }
        }
        missing
    }
}

/// Whether prefixing moves the address: in block 0 or in the prefix block, where they are not the same.
fn is_moved(record: &[u8], address: u32) -> bool {
    let prefix = model::prefix(record);
    prefix != 0 && [0, prefix].contains(&(address & 0x7FFF_F000))
}

fn print_units(name: &str, units: &mut [u32]) {
    if units.is_empty() {
        return;
    }
    units.sort_unstable();
    let sum: u64 = units.iter().map(|&number| number as u64).sum();
    println!(
        "  {name:24} {:8} {:15} {:7} {:7} {:9.1}",
        units.len(),
        units[0],
        units[units.len() / 2],
        units[units.len() - 1],
        sum as f64 / units.len() as f64
    );
}

/// Why the entry of a page of the extent is out of reach.
pub const OUT_OF_REACH: [&str; 6] = [
    "segment over the length",
    "segment entry past the storage",
    "segment entry invalid",
    "segment entry malformed",
    "page over the length",
    "page entry past the storage",
];

/// None where the entry is in reach.
pub fn out_of_reach(tables: Tables, page: u32) -> Option<&'static str> {
    if tables.page_entry(page).is_some() {
        return None;
    }
    let segment = tables.host_page(page) >> 8;
    if segment >> 4 > tables.designation & 0x7F {
        return Some(OUT_OF_REACH[0]);
    }
    let Some(at) = tables.segment_entry(segment) else { return Some(OUT_OF_REACH[1]) };
    let entry = model::word(tables.storage, at);
    let reason = match entry {
        _ if entry & 0x20 != 0 => 2,
        _ if entry & 0x8000_0000 != 0 => 3,
        _ if tables.host_page(page) >> 4 & 15 > entry & 15 => 4,
        _ => 5,
    };
    Some(OUT_OF_REACH[reason])
}

/// Prints how often each outcome occurred, and the time. Ends the program where one that is owed occurred too seldom.
pub fn settle<Name: Ord + Display>(tally: &BTreeMap<Name, u64>, start: Instant, owed: &[Name], least: u64) {
    for (name, count) in tally {
        println!("  {name:54} {count:8}");
    }
    println!("{:.1} seconds", start.elapsed().as_secs_f64());
    let seldom = |name: &&Name| tally.get(name).copied().unwrap_or(0) < least;
    let seldom: Vec<&Name> = owed.iter().filter(seldom).collect();
    for name in &seldom {
        println!("occurred too seldom: {name}");
    }
    if !seldom.is_empty() {
        std::process::exit(1);
    }
}

/// The numbers of the command line: cases and seed.
pub fn arguments(default_cases: u64) -> (u64, u64) {
    let numbers: Vec<u64> = std::env::args()
        .skip(1)
        .map(|text| {
            text.parse().unwrap_or_else(|_| {
                eprintln!("usage: [CASES] [SEED], both decimal numbers");
                std::process::exit(2);
            })
        })
        .collect();
    (numbers.first().copied().unwrap_or(default_cases), numbers.get(1).copied().unwrap_or(DEFAULT_SEED))
}

pub const DEFAULT_SEED: u64 = 370;
