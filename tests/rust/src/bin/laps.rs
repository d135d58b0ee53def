//! laps [CASES] [SEED]: runs of the library against the model on guests for a run that does many units at a time on
//! kept translations: whole, in random pieces, with every budget up to 70, and on from exits. Of some cases the units
//! are looked at one by one for what they are examples of.

use drevokas_tests::ffi::{self, Packed};
use drevokas_tests::generate::{laps, Case, Machine, Rng};
use drevokas_tests::guarded::Guarded;
use drevokas_tests::model::{self, Answer, Run, Walk, SVC_INTERRUPTION};
use drevokas_tests::report;
use std::collections::{BTreeMap, BTreeSet};
use std::process::exit;
use std::time::Instant;

type Tally = BTreeMap<String, u64>;

/// Every so many-th case is run in pieces, with every budget, and unit by unit for the tally.
const IN_PIECES: u64 = 2;
const EVERY_BUDGET: u64 = 48;
const WATCHED: u64 = 16;
const MOST_BUDGET: u32 = 70;
/// A run is gone on with from so many exits.
const EXITS: u32 = 3;

fn main() {
    let (cases, seed) = report::arguments(170_000);
    println!("laps: {cases} cases, seed {seed}");
    let start = Instant::now();
    let mut tally = Tally::new();
    let (mut done, mut units) = (0u64, 0u64);
    for number in 0..cases {
        for machine in report::MACHINES {
            let Some(mut rng) = machine.rng(seed ^ 0x1A90_0000_0000, number) else { continue };
            let case = laps::case(&mut rng, machine);
            let Some(case_units) = examine(&mut rng, &case, number) else {
                println!("difference in case {number} of seed {seed}, {machine:?}");
                report::keep_case(&case, "difference.case");
                exit(1);
            };
            done += 1;
            units += case_units as u64;
            if number % WATCHED == 0 && case.budget < 1000 {
                watch(&case, machine, &mut tally);
            }
        }
    }
    let seconds = start.elapsed().as_secs_f64();
    report::settle(&tally, start, &owed(), if cases >= 100_000 { 1 } else { 0 });
    println!("{:.0} cases a second, {:.1} units a case", done as f64 / seconds, units as f64 / done as f64);
    println!("laps: no difference");
}

// ---------------------------------------------------------------------------------------------------------------
// What must hold.

/// The units of the whole run and of what is gone on with, if all agree.
fn examine(rng: &mut Rng, case: &Case, number: u64) -> Option<u32> {
    let (mut end, mut left) = compare(case)?;
    if number % IN_PIECES == 0 && !same_in_pieces(rng, case, &end, &left) {
        return None;
    }
    if number % EVERY_BUDGET == 0 && !same_with_every_budget(case) {
        return None;
    }
    let mut units = end.units;
    for _ in 0..EXITS {
        if !attended(&mut left.record, end.answer) {
            break;
        }
        go_on(&mut left, end.units);
        let Some(further) = compare(&left) else {
            println!("on from an exit after {units} units");
            return None;
        };
        (end, left) = further;
        units += end.units;
    }
    Some(units)
}

/// The model's end, and what it leaves, where the library gives and leaves the same.
fn compare(case: &Case) -> Option<(Run, Case)> {
    let mut left = case.clone();
    let Case { record, storage, keys, .. } = &mut left;
    let end = model::run(record, storage, keys, case.designation, case.clock, case.time, case.budget);
    let mut lent = Lent::new(case);
    let given = lent.run(case.clock, case.budget);
    (lent.is_like(&left) & same_answer(given, ffi::pack(end.answer, end.units))).then_some((end, left))
}

fn same_answer(given: Packed, owed: Packed) -> bool {
    if given != owed {
        println!("{}", report::show_answer("library", given));
        println!("{}", report::show_answer("model  ", owed));
    }
    given == owed
}

/// What a host does before it goes on after an exit; whether it goes on.
fn attended(record: &mut [u8], answer: Answer) -> bool {
    match answer {
        // The instruction counts as simulated.
        Answer::Intercepted(4 | 8 | 44) => {}
        Answer::Intercepted(16) => record[3] &= !0x01,
        Answer::Intercepted(20) if record[55] == 0x04 => record[32..40].fill(0xFF),
        Answer::Intercepted(20) if record[55] == 0x05 => record[24] = 0x7F,
        Answer::Intercepted(20) => {}
        Answer::Intercepted(24) => record[3] &= !0x02,
        Answer::Intercepted(28) => record[17] &= !0x02,
        Answer::Intercepted(40) => record[3] &= !0x04,
        _ => return false,
    }
    true
}

/// Clock and budget after so many units.
fn go_on(case: &mut Case, units: u32) {
    case.clock = case.clock.wrapping_add(units as u64 * case.time as u64);
    case.budget -= units;
}

/// A guest lent to the library within margins.
struct Lent<'a> {
    case: &'a Case,
    record: Guarded<u8>,
    storage: Guarded<u8>,
    keys: Guarded<u8>,
}

impl Lent<'_> {
    fn new(case: &Case) -> Lent<'_> {
        let [record, storage, keys] = [&case.record, &case.storage, &case.keys].map(|bytes| Guarded::new(bytes, 0xA7));
        Lent { case, record, storage, keys }
    }

    fn run(&mut self, clock: u64, budget: u32) -> Packed {
        let Lent { case, record, storage, keys } = self;
        ffi::run(record.content(), storage.content(), keys.content(), case.designation, clock, case.time, budget)
    }

    fn is_like(&mut self, model: &Case) -> bool {
        let mut differ = report::show_difference("record, library against model", self.record.content(), &model.record);
        differ |= report::show_difference("keys, library against model", self.keys.content(), &model.keys);
        differ |= report::show_difference("storage, library against model", self.storage.content(), &model.storage);
        if ![&self.record, &self.storage, &self.keys].iter().all(|bytes| bytes.margins_stand()) {
            println!("the library stored outside what it was given");
            differ = true;
        }
        !differ
    }
}

/// Whether the run in pieces of random length ends like the whole one.
fn same_in_pieces(rng: &mut Rng, case: &Case, end: &Run, left: &Case) -> bool {
    let mut lent = Lent::new(case);
    let most = rng.pick(&[1, 3, 10, 40]);
    let mut done = 0;
    let given = loop {
        let budget = rng.range(1, most).min(case.budget - done);
        let clock = case.clock.wrapping_add(done as u64 * case.time as u64);
        let given = lent.run(clock, budget);
        done += given.units();
        if given.kind() != ffi::BUDGET_USED || done >= case.budget {
            break given;
        }
    };
    let whole = Packed { word: given.word >> 32 << 32 | done as u64, ..given };
    let good = lent.is_like(left) & same_answer(whole, ffi::pack(end.answer, end.units));
    if !good {
        println!("in pieces of up to {most} units");
    }
    good
}

/// Whether each budget gives what the model gives in as many runs of one unit. Past an exit some are enough.
fn same_with_every_budget(case: &Case) -> bool {
    let mut left = case.clone();
    let (mut answer, mut units) = (Answer::BudgetUsed, 0);
    for budget in 1..=MOST_BUDGET {
        if answer == Answer::BudgetUsed {
            let clock = case.clock.wrapping_add(units as u64 * case.time as u64);
            let Case { record, storage, keys, .. } = &mut left;
            let end = model::run(record, storage, keys, case.designation, clock, case.time, 1);
            (answer, units) = (end.answer, units + end.units);
        } else if budget > units + 4 {
            break;
        }
        let mut lent = Lent::new(case);
        let given = lent.run(case.clock, budget);
        if !(lent.is_like(&left) & same_answer(given, ffi::pack(answer, units))) {
            println!("with budget {budget}");
            return false;
        }
    }
    true
}

// ---------------------------------------------------------------------------------------------------------------
// What occurred.

/// What the units so far did.
#[derive(Default)]
struct Watch {
    names: BTreeSet<String>,
    /// Fetched and stored blocks by logical number, to the place, with the state that they were met in.
    blocks: BTreeMap<(bool, u32), (u32, State)>,
    /// The block last met in each entry of the table.
    entries: BTreeMap<(bool, u32), u32>,
    /// Texts by place, with their logical blocks; and the unit that last stored over a place.
    texts: BTreeMap<u32, ([u8; 2], u32)>,
    stored: BTreeMap<u32, u32>,
    /// Units of the eight plain instructions in a row.
    stretch: u32,
    /// What the last unit was, and whether the interval timer's word fell in it.
    last: String,
    fell: bool,
    /// The new PSWs of SVC and of program interruptions, and the frame of the areas, as last met.
    new_psws: BTreeMap<bool, Vec<u8>>,
    areas: Option<u32>,
}

/// What a translation goes by, beside storage: the PSW's bits that guard accesses, and CR0 and CR1.
type State = ([u8; 2], [u8; 8]);

fn state(record: &[u8]) -> State {
    ([record[16] & 0x04, record[17] & 0xF8], record[72..80].try_into().unwrap())
}

/// Runs the case by the model, unit by unit, and on from exits.
fn watch(case: &Case, machine: Machine, tally: &mut Tally) {
    let mut watch = Watch::default();
    let mut now = case.clone();
    let (mut unit, mut exits) = (0, 0);
    loop {
        let before = Unit::of(&now);
        let clock = case.clock.wrapping_add(unit as u64 * case.time as u64);
        let Case { record, storage, keys, .. } = &mut now;
        let end = model::run(record, storage, keys, case.designation, clock, case.time, 1);
        if end.units == 0 || unit == case.budget {
            watch.exit(&before, &now.record, &end, unit, case.budget);
            exits += 1;
            if unit < case.budget && exits <= EXITS && attended(&mut now.record, end.answer) {
                continue;
            }
            break;
        }
        let kind = watch.unit(&before, &now, &end, unit);
        *tally.entry(format!("units of {kind}")).or_insert(0) += 1;
        unit += 1;
    }
    for name in watch.names {
        *tally.entry(name).or_insert(0) += 1;
    }
    *tally.entry(format!("cases of {machine:?}")).or_insert(0) += 1;
}

fn is_system_370(record: &[u8]) -> bool {
    record[4] & 0x0C == 0x04
}

fn is_wide(record: &[u8]) -> bool {
    !is_system_370(record) && record[20] & 0x80 != 0
}

fn cut(record: &[u8], address: u32) -> u32 {
    address & if is_wide(record) { 0x7FFF_FFFF } else { 0x00FF_FFFF }
}

fn form(record: &[u8]) -> &'static str {
    match (is_system_370(record), record[17] & 0x08 != 0, record[16] & 0x04 != 0, record[20] & 0x80 != 0) {
        (true, true, ..) => "EC",
        (true, false, ..) => "BC",
        (_, _, true, true) => "DAT on, 31 bits",
        (_, _, true, false) => "DAT on, 24 bits",
        (_, _, false, true) => "DAT off, 31 bits",
        (_, _, false, false) => "DAT off, 24 bits",
    }
}

/// The place of a byte, where an access leads to one.
fn place(case: &Case, address: u32, store: bool) -> Option<u32> {
    let Case { record, storage, keys, designation, .. } = case;
    match model::translate(record, storage, keys, *designation, cut(record, address), store as u32) {
        Answer::Good(place) => Some(place),
        _ => None,
    }
}

/// The frame of a guest real address: that of areas, or of a table.
fn frame(case: &Case, real: u32) -> Option<u32> {
    let mut record = case.record.clone();
    record[16..24].copy_from_slice(&[0, 0, 0, 0, 0x80, 0, 0, 0]);
    match model::translate(&record, &case.storage, &case.keys, case.designation, real, 0) {
        Answer::Good(place) => Some(place >> 12),
        _ => None,
    }
}

/// The frame of the host's page table that the areas are behind.
fn frame_of_host_pages(case: &Case) -> u32 {
    let address = model::origin_bytes(&case.record) + model::prefix(&case.record);
    let entry = (case.designation & 0x7FFF_F000) + 4 * (address >> 20);
    model::word(&case.storage, entry as usize) >> 12
}

/// The frames of the guest's segment table and of its first page table.
fn frames_of_guest_tables(case: &Case) -> [Option<u32>; 2] {
    let segments = model::word(&case.record, 76) & 0x7FFF_F000;
    let Some(table) = frame(case, segments) else { return [None; 2] };
    let entry = model::word(&case.storage, (table << 12) as usize);
    [Some(table), frame(case, entry & 0x7FFF_FFC0)]
}

/// How long the operand is, and whether it is stored.
fn length_of_operand(text: &[u8]) -> Option<(u32, bool)> {
    let registers = 4 * ((text[1] & 15).wrapping_sub(text[1] >> 4) as u32 % 16 + 1);
    match (text[0], text[1]) {
        (0x50, _) => Some((4, true)),
        (0x58, _) => Some((4, false)),
        (0x82, _) | (0xB2, 0x08) => Some((8, false)),
        (0xB2, 0x05 | 0x09) => Some((8, true)),
        (0xB6, _) => Some((registers, true)),
        (0xB7, _) => Some((registers, false)),
        _ => None,
    }
}

const PLAIN: [(u8, &str); 8] =
    [(0x07, "BCR"), (0x18, "LR"), (0x1A, "AR"), (0x1B, "SR"), (0x41, "LA"), (0x47, "BC"), (0x50, "ST"), (0x58, "L")];

/// The others that end without an interruption.
const OTHERS: [&str; 6] = ["LPSW", "STCTL", "LCTL", "STCK", "SPT", "STPT"];

fn name_of(text: &[u8]) -> Option<&'static str> {
    let name = match (text[0], text[1]) {
        (0x0A, _) => "SVC",
        (0x82, _) => "LPSW",
        (0xB6, _) => "STCTL",
        (0xB7, _) => "LCTL",
        (0xB2, 0x05) => "STCK",
        (0xB2, 0x08) => "SPT",
        (0xB2, 0x09) => "STPT",
        (first, _) => return PLAIN.iter().find(|&&(code, _)| code == first).map(|&(_, name)| name),
    };
    Some(name)
}

/// A unit that is to be done: the state that it meets, its text and its operand.
struct Unit {
    record: Vec<u8>,
    keys: Vec<u8>,
    address: u32,
    /// Places and bytes, as far as they can be fetched.
    text: Vec<(u32, u8)>,
    /// Whether that is all of it.
    whole: bool,
    operand: Option<Operand>,
}

struct Operand {
    address: u32,
    length: u32,
    store: bool,
    /// The place of each byte that can be accessed.
    places: Vec<Option<u32>>,
}

impl Unit {
    fn of(case: &Case) -> Unit {
        let (record, keys) = (case.record.clone(), case.keys.clone());
        let address = model::word(&record, 20) & if is_system_370(&record) { 0x00FF_FFFF } else { 0x7FFF_FFFF };
        let mut text: Vec<(u32, u8)> = Vec::new();
        let mut length = 2;
        while (text.len() as u32) < length {
            let Some(place) = place(case, address.wrapping_add(text.len() as u32), false) else { break };
            text.push((place, case.storage[place as usize]));
            length = [2, 4, 4, 6][text[0].1 as usize >> 6];
        }
        let whole = text.len() as u32 == length;
        let mut unit = Unit { record, keys, address, text, whole, operand: None };
        unit.operand = unit.operand(case);
        unit
    }

    fn bytes(&self) -> Vec<u8> {
        self.text.iter().map(|&(_, byte)| byte).collect()
    }

    fn operand(&self, case: &Case) -> Option<Operand> {
        let (record, bytes) = (&self.record, self.bytes());
        let (length, store) = if self.whole { length_of_operand(&bytes)? } else { return None };
        let base = |field: u8| if field == 0 { 0 } else { model::word(record, 136 + 4 * field as usize) };
        let index = if [0x50, 0x58].contains(&bytes[0]) { base(bytes[1] & 15) } else { 0 };
        let displacement = model::halfword(&bytes, 2) & 0xFFF;
        let address = cut(record, base(bytes[2] >> 4).wrapping_add(index).wrapping_add(displacement));
        let places = (0..length).map(|offset| place(case, address.wrapping_add(offset), store)).collect();
        Some(Operand { address, length, store, places })
    }

    /// What an exception is of.
    fn cause(&self) -> &'static str {
        match () {
            _ if model::psw_is_malformed(&self.record) => "a PSW",
            _ if self.address % 2 != 0 => "an odd address",
            _ if !self.whole => "a text",
            _ => name_of(&self.bytes()).unwrap_or("another operation"),
        }
    }
}

impl Watch {
    fn note(&mut self, name: impl Into<String>) {
        self.names.insert(name.into());
    }

    /// A run's end: the last unit of its budget, or an exit.
    fn exit(&mut self, before: &Unit, after: &[u8], end: &Run, unit: u32, budget: u32) {
        if unit == budget && unit > 0 {
            self.note(format!("last unit of the budget, {}", self.last));
        }
        let place = match unit {
            _ if unit == budget => "one after the last unit",
            0 => "at the first unit",
            _ if unit + 1 == budget => "at the last unit",
            _ => "inside",
        };
        let name = match end.answer {
            Answer::Intercepted(20) => format!("interception 20, {:02x}{:02x} hex", after[54], after[55]),
            Answer::Intercepted(code) => format!("interception {code}"),
            Answer::HostFault(code, ..) => format!("host fault {code:x} hex"),
            _ => "a further unit".to_string(),
        };
        self.note(format!("{name}, {place}"));
        match end.answer {
            Answer::Intercepted(20) if unit > 0 => self.note(format!("{name}, after {}", self.last)),
            Answer::Intercepted(4) => self.note(format!("interception 4 of {}", before.cause())),
            Answer::Intercepted(8) => self.note(format!("interception 8, program {:x} hex", after[55])),
            Answer::HostFault(code, ..) if end.events.walk == Some(Walk::Area) => {
                self.note(format!("host fault {code:x} hex at an area"));
            }
            _ => {}
        }
    }

    /// A completed unit. The answer is what it was.
    fn unit(&mut self, before: &Unit, after: &Case, end: &Run, unit: u32) -> String {
        if before.keys != after.keys {
            let changed = before.keys.iter().zip(&after.keys).any(|(old, new)| (old ^ new) & 0x02 != 0);
            self.note(if changed { "change bit set" } else { "reference bit set" });
        }
        let interruption = end.events.interruptions.first().map(|&(_, code)| code);
        let plain = before.whole && PLAIN.iter().any(|&(code, _)| code == before.text[0].1);
        self.stretch = if plain && interruption.is_none() { self.stretch + 1 } else { 0 };
        if [16, 64].contains(&self.stretch) {
            let stretch = self.stretch;
            self.note(format!("{stretch} plain units in a row"));
        }
        let kind = match interruption {
            Some(SVC_INTERRUPTION) => "SVC".to_string(),
            Some(code) => format!("program {code:x} hex"),
            None => before.cause().to_string(),
        };
        match interruption {
            Some(code) => self.interruption(before, after, code, &kind),
            None => self.instruction(before, after, unit),
        }
        let falls = end.events.falls > 0;
        if falls {
            self.note("the interval timer's word falls");
            self.note(format!("the interval timer's word falls in a unit of {kind}"));
        }
        if interruption.is_some() && self.fell {
            self.note("the interval timer's word falls one unit before an interruption");
        }
        if falls && (self.last == "SVC" || self.last.starts_with("program")) {
            self.note("the interval timer's word falls one unit after an interruption");
        }
        (self.last, self.fell) = (kind.clone(), falls);
        kind
    }

    fn interruption(&mut self, before: &Unit, after: &Case, code: u8, kind: &str) {
        let record = &before.record;
        self.note(format!("interruption, {kind}, {}", form(record)));
        if code != SVC_INTERRUPTION {
            self.note(format!("{kind} of {}", before.cause()));
        }
        self.changed_psw("interruption", record, &after.record);
        let new_psw = after.record[16..24].to_vec();
        let last = self.new_psws.insert(code == SVC_INTERRUPTION, new_psw.clone());
        if last.is_some_and(|last| last != new_psw) {
            self.note("interruption with another new PSW than before");
        }
        if model::prefix(record) != 0 {
            self.note("interruption with a prefix");
        }
        let Some(areas) = frame(after, 0) else { return };
        let dat = !is_system_370(record) && record[16] & 0x04 != 0;
        let held = [
            ("moved by a store", self.areas.is_some_and(|last| last != areas)),
            ("stored into", self.stored.keys().any(|&place| place >> 12 == areas)),
            ("among texts", self.texts.keys().any(|&place| place >> 12 == areas)),
            ("among the host's page entries", frame_of_host_pages(after) == areas),
            ("among the guest's entries", dat && frames_of_guest_tables(after).contains(&Some(areas))),
        ];
        for (name, _) in held.into_iter().filter(|&(_, holds)| holds) {
            self.note(format!("interruption with areas {name}"));
        }
        self.areas = Some(areas);
    }

    /// An instruction that ended without an interruption.
    fn instruction(&mut self, before: &Unit, after: &Case, unit: u32) {
        let (record, address, bytes) = (&before.record, before.address, before.bytes());
        let form = form(record);
        let name = before.cause();
        self.note(format!("{name}, {form}"));
        self.meet(record, address, before.text[0].0, false);
        self.ends("text", record, address, bytes.len() as u32);
        for at in (0..bytes.len()).step_by(2) {
            self.fetched(before.text[at].0, [bytes[at], bytes[at + 1]], address, unit);
        }
        self.branch(record, &after.record, &bytes);
        if let Some(operand) = &before.operand {
            self.operand(name, record, operand, unit);
        }
        match name {
            "LPSW" => self.changed_psw("LPSW", record, &after.record),
            "LCTL" => self.changed_controls(record, &after.record, bytes[1]),
            "STCTL" if bytes[1] & 15 < bytes[1] >> 4 => self.note("STCTL from 15 on to 0"),
            _ => {}
        }
    }

    fn operand(&mut self, name: &str, record: &[u8], operand: &Operand, unit: u32) {
        let &Operand { address, length, store, .. } = operand;
        self.ends(&format!("operand of {name}"), record, address, length);
        if address < 512 {
            self.note(format!("operand of {name} at a low address"));
        }
        for (offset, place) in (0..).zip(&operand.places) {
            let (Some(place), byte) = (*place, cut(record, address.wrapping_add(offset))) else { continue };
            if offset == 0 || byte % 2048 == 0 {
                self.meet(record, byte, place, store);
            }
            if store {
                self.stored_over(place, byte, unit);
            }
        }
    }

    fn ends(&mut self, what: &str, record: &[u8], address: u32, length: u32) {
        let last = address.wrapping_add(length - 1);
        let name = match () {
            _ if cut(record, last) != last => format!("{what} over the end of addresses, {}", form(record)),
            _ if address >> 12 != last >> 12 => format!("{what} over a page's end"),
            _ if address >> 11 != last >> 11 => format!("{what} over a block's end"),
            _ if last & 0x7FF == 0x7FF => format!("{what} up to a block's end"),
            _ => return,
        };
        self.note(name);
    }

    /// A block is used: as before, or led elsewhere since.
    fn meet(&mut self, record: &[u8], address: u32, place: u32, store: bool) {
        let kind = if store { "store" } else { "fetch" };
        let block = address >> 11;
        let (now, place) = (state(record), place >> 11);
        if let Some((old, then)) = self.blocks.insert((store, block), (place, now)) {
            if old != place {
                let cause = match () {
                    _ if now.0 != then.0 => "PSW",
                    _ if now.1 != then.1 => "control registers",
                    _ => "store",
                };
                self.note(format!("{kind} block moved by a {cause}"));
            }
            if self.entries.get(&(store, block % 8)).is_some_and(|&other| other != block) {
                self.note(format!("{kind} blocks of one entry in turn"));
            }
        }
        self.entries.insert((store, block % 8), block);
        if self.blocks.iter().any(|(&(kind, other), &(there, _))| kind != store && other != block && there == place) {
            self.note(format!("{kind} block also of the other kind by another address"));
        }
    }

    fn fetched(&mut self, place: u32, halfword: [u8; 2], address: u32, unit: u32) {
        if let Some((old, _)) = self.texts.insert(place, (halfword, address >> 11)) {
            if old != halfword {
                let last = [place, place + 1].iter().filter_map(|place| self.stored.get(place)).max();
                let late = last.is_some_and(|&last| last + 1 == unit);
                self.note(if late { "text changed by the unit before" } else { "text changed earlier" });
            }
        } else if [place, place + 1].iter().any(|place| self.stored.get(place) == Some(&(unit.wrapping_sub(1)))) {
            self.note("new text stored by the unit before");
        }
    }

    fn stored_over(&mut self, place: u32, address: u32, unit: u32) {
        self.stored.insert(place, unit);
        if let Some(&(_, block)) = self.texts.get(&(place & !1)) {
            self.note(if block == address >> 11 { "text stored over" } else { "text stored over by another address" });
        }
    }

    fn branch(&mut self, record: &[u8], after: &[u8], text: &[u8]) {
        let at = if is_system_370(record) && record[17] & 0x08 == 0 { 20 } else { 18 };
        let (code, mask) = (record[at] >> 4 & 3, record[at] & 0x08 != 0);
        match text[0] {
            0x07 | 0x47 => {
                self.note(format!("mask {}, code {code}", text[1] >> 4));
                if after[23] & 1 != 0 {
                    self.note("branch to an odd address");
                }
            }
            0x1A | 0x1B if after[at] >> 4 & 3 == 3 && !mask => self.note("overflow not enabled"),
            _ => {}
        }
    }

    fn changed_psw(&mut self, what: &str, before: &[u8], after: &[u8]) {
        let changed = |at: usize, bits: u8| (before[at] ^ after[at]) & bits != 0;
        let is_370 = is_system_370(before);
        let held = [
            ("changes the key", changed(17, 0xF0)),
            ("changes DAT", !is_370 && changed(16, 0x04)),
            ("changes the external mask", changed(16, 0x01)),
            ("changes the mode", !is_370 && changed(20, 0x80)),
            ("changes the form", is_370 && changed(17, 0x08)),
            ("changes problem state", changed(17, 0x01)),
            ("changes none of bits 0-17", !(changed(16, 0xFF) || changed(17, 0xFF) || changed(18, 0xC0))),
            ("enters the wait state", changed(17, 0x02)),
            ("of a malformed PSW", model::psw_is_malformed(after)),
            ("of an odd address", after[23] & 1 != 0),
        ];
        for (name, _) in held.into_iter().filter(|&(_, holds)| holds) {
            self.note(format!("{what} {name}"));
        }
    }

    fn changed_controls(&mut self, before: &[u8], after: &[u8], range: u8) {
        for (number, at) in [(0, 72), (1, 76)] {
            if before[at..at + 4] != after[at..at + 4] {
                self.note(format!("CR{number} changed, {}", form(before)));
            }
        }
        let [old, new] = [before, after].map(|record| model::word(record, 72));
        for (bit, name) in [(0x800, "comparator"), (0x400, "CPU timer"), (0x80, "interval timer")] {
            if (old ^ new) & bit != 0 {
                self.note(format!("LCTL {} the {name}", if new & bit != 0 { "enables" } else { "disables" }));
            }
        }
        let changes = [
            ("LCTL changes low-address protection", (old ^ new) >> 28 & 1 != 0),
            ("LCTL changes the format of DAT", (old ^ new) >> 19 & 0x1F != 0),
            ("LCTL of the values that are there", before[72..136] == after[72..136]),
            ("LCTL from 15 on to 0", range & 15 < range >> 4),
        ];
        for (name, _) in changes.into_iter().filter(|&(_, holds)| holds) {
            self.note(name);
        }
    }
}

const FORMS: [&str; 6] = ["DAT off, 24 bits", "DAT off, 31 bits", "DAT on, 24 bits", "DAT on, 31 bits", "BC", "EC"];

/// What must occur.
fn owed() -> Vec<String> {
    let mut owed: Vec<String> = Vec::new();
    owed.extend(owed_by_form());
    owed.extend(owed_by_interruptions());
    owed.extend(owed_by_exits());
    let storing = ["ST", "STCK", "STPT", "STCTL"];
    for what in ["text", "operand of L", "operand of ST", "operand of STCK", "operand of STCTL", "operand of LCTL"] {
        owed.extend(["block", "page"].map(|end| format!("{what} over a {end}'s end")));
    }
    owed.extend(["STPT", "SPT", "LPSW"].map(|name| format!("operand of {name} up to a block's end")));
    owed.extend(storing.map(|name| format!("operand of {name} at a low address")));
    owed.extend(["LPSW", "SPT", "LCTL"].map(|name| format!("operand of {name} at a low address")));
    for mask in 0..16 {
        owed.extend((0..4).map(|code| format!("mask {mask}, code {code}")));
    }
    for kind in ["fetch", "store"] {
        owed.extend(["PSW", "control registers", "store"].map(|cause| format!("{kind} block moved by a {cause}")));
        owed.push(format!("{kind} blocks of one entry in turn"));
        owed.push(format!("{kind} block also of the other kind by another address"));
    }
    for name in ["comparator", "CPU timer", "interval timer"] {
        owed.extend(["enables", "disables"].map(|does| format!("LCTL {does} the {name}")));
    }
    let others = [
        "16 plain units in a row",
        "64 plain units in a row",
        "change bit set",
        "reference bit set",
        "the interval timer's word falls",
        "text changed by the unit before",
        "text changed earlier",
        "text stored over",
        "text stored over by another address",
        "branch to an odd address",
        "overflow not enabled",
        "LCTL from 15 on to 0",
        "STCTL from 15 on to 0",
        "LCTL changes low-address protection",
        "LCTL changes the format of DAT",
        "LCTL of the values that are there",
    ];
    owed.extend(others.map(str::to_string));
    owed
}

/// Instructions, interruptions and control registers by the form of the PSW.
fn owed_by_form() -> Vec<String> {
    let mut owed = Vec::new();
    for form in FORMS {
        owed.extend(PLAIN.map(|(_, name)| format!("{name}, {form}")));
        owed.extend(OTHERS.map(|name| format!("{name}, {form}")));
        owed.extend(["1", "2", "4", "5", "6", "8"].map(|code| format!("interruption, program {code} hex, {form}")));
        owed.push(format!("interruption, SVC, {form}"));
        owed.push(format!("CR0 changed, {form}"));
        owed.push(format!("text over the end of addresses, {form}"));
        owed.extend(["L", "ST"].map(|name| format!("operand of {name} over the end of addresses, {form}")));
        if form.starts_with("DAT on") {
            owed.push(format!("CR1 changed, {form}"));
            owed.extend(["10", "11", "12"].map(|code| format!("interruption, program {code} hex, {form}")));
        }
    }
    owed
}

/// What exceptions are of, what PSWs change, and what interruptions meet.
fn owed_by_interruptions() -> Vec<String> {
    let mut owed = Vec::new();
    for code in ["4", "5", "10", "11", "12"] {
        owed.push(format!("program {code} hex of a text"));
        owed.extend(["L", "ST", "STCK"].map(|name| format!("program {code} hex of {name}")));
        owed.extend(OTHERS.map(|name| format!("program {code} hex of {name}")));
    }
    for name in ["LPSW", "SPT", "STPT", "LCTL", "STCTL"] {
        owed.extend(["2", "6"].map(|code| format!("program {code} hex of {name}")));
    }
    owed.extend(["1", "2"].map(|code| format!("program {code} hex of another operation")));
    owed.extend(["a PSW", "an odd address"].map(|cause| format!("program 6 hex of {cause}")));
    for what in ["LPSW", "interruption"] {
        owed.extend(["the key", "DAT", "the mode", "the form"].map(|change| format!("{what} changes {change}")));
        let changes = ["problem state", "the external mask", "none of bits 0-17"];
        owed.extend(changes.map(|change| format!("{what} changes {change}")));
        owed.push(format!("{what} enters the wait state"));
        owed.extend(["a malformed PSW", "an odd address"].map(|psw| format!("{what} of {psw}")));
    }
    owed.extend(["a prefix", "another new PSW than before"].map(|what| format!("interruption with {what}")));
    for what in ["texts", "the host's page entries", "the guest's entries"] {
        owed.push(format!("interruption with areas among {what}"));
    }
    owed.extend(["moved by a store", "stored into"].map(|what| format!("interruption with areas {what}")));
    for kind in
        ["SVC", "LPSW", "STCK", "SPT", "STPT", "program 1 hex", "program 2 hex", "program 4 hex", "program 5 hex"]
    {
        owed.push(format!("the interval timer's word falls in a unit of {kind}"));
    }
    for when in ["before", "after"] {
        owed.push(format!("the interval timer's word falls one unit {when} an interruption"));
    }
    owed
}

/// Exits, and the unit before them.
fn owed_by_exits() -> Vec<String> {
    let mut owed = Vec::new();
    for code in ["20, 1004 hex", "20, 1005 hex", "20, 0080 hex"] {
        let places = ["at the first unit", "inside", "at the last unit", "one after the last unit"];
        owed.extend(places.map(|place| format!("interception {code}, {place}")));
        owed.extend(["SVC", "LPSW", "LCTL", "STCK"].map(|kind| format!("interception {code}, after {kind}")));
    }
    owed.push("interception 20, 1005 hex, after SPT".to_string());
    for kind in ["SVC", "LPSW", "STCK", "SPT", "STPT", "LCTL", "STCTL", "program 1 hex", "program 4 hex"] {
        owed.push(format!("last unit of the budget, {kind}"));
    }
    for code in [4, 8, 16, 24, 28, 32, 44] {
        owed.push(format!("interception {code}, inside"));
    }
    owed.extend(["SVC", "LPSW", "LCTL", "another operation"].map(|name| format!("interception 4 of {name}")));
    for code in ["1", "2", "4", "5", "6", "8", "10", "11", "12"] {
        owed.push(format!("interception 8, program {code} hex"));
    }
    owed.extend(["4", "11", "12"].map(|code| format!("host fault {code} hex, inside")));
    owed.extend(["4", "11"].map(|code| format!("host fault {code} hex at an area")));
    owed
}
