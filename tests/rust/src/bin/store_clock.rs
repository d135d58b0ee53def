//! store_clock [CASES] [SEED]: request 5/12, library against model, on guests that read the clock. Any two values that
//! the STCKs of a run store differ: of a run at once, unit by unit, cut at each of its units, and resumed after an
//! exit, the host having mended what ended it. Each value is the guest clock at the run's start and the time of the
//! units before; it is read back from the library's storage after its unit, and at the end where it still stands.

use drevokas_tests::desk::Tables;
use drevokas_tests::ffi;
use drevokas_tests::generate::{self, store_clock, Case, Machine, Rng, Wishes};
use drevokas_tests::guarded::Guarded;
use drevokas_tests::model::{self, Answer, Reading, Run, Stage, SVC_INTERRUPTION};
use drevokas_tests::report;
use std::collections::{BTreeMap, BTreeSet};
use std::process::exit;
use std::time::Instant;

/// What a case is an example of.
type Names = BTreeSet<String>;

fn main() {
    let (cases, seed) = report::arguments(4_000);
    println!("store_clock: {cases} cases, seed {seed}");
    let start = Instant::now();
    let mut tally = BTreeMap::new();
    for number in 0..cases {
        for machine in report::MACHINES {
            let Some(mut rng) = machine.rng(seed ^ 0x0512_0000_0000, number) else { continue };
            let case = any_case(&mut rng, machine, number);
            let Some(names) = examine(&case, number % 8 == 0) else {
                println!("difference in case {number} of seed {seed}, {machine:?}");
                report::keep_case(&case, "difference.case");
                exit(1);
            };
            for name in names {
                *tally.entry(name).or_insert(0) += 1;
            }
        }
    }
    report::settle(&tally, start, &owed(), if cases >= 4_000 { cases.div_ceil(2000) } else { 0 });
    println!("store_clock: no difference");
}

/// Every fourth as the other programs have them, with many an STCK.
fn any_case(rng: &mut Rng, machine: Machine, number: u64) -> Case {
    if number % 4 != 3 {
        return store_clock::case(rng, machine);
    }
    let mut case = generate::case_with_readings(rng, Wishes { machine, damage: false, large_extents: false });
    case.budget = case.budget.min(100);
    case
}

/// What the case is an example of, if all holds.
fn examine(case: &Case, everywhere: bool) -> Option<Names> {
    let whole = at_once(case)?;
    if let Answer::Refused(number) = whole.end.answer {
        return Some(refused(case, number));
    }
    let readings = &whole.end.events.readings;
    let mut names = circumstances(case, readings);
    if !holds(case, readings) || everywhere && !cut_everywhere(case, &whole) {
        return None;
    }
    names.extend(unit_by_unit(case, &whole)?);
    names.extend(resumed(case, whole)?);
    Some(names)
}

// ---------------------------------------------------------------------------------------------------------------
// What must hold.

/// The model's end of a run, and what both leave.
struct Whole {
    end: Run,
    pair: Pair,
}

/// A guest by the library and by the model.
struct Pair {
    library: Case,
    model: Case,
}

impl Pair {
    fn new(case: &Case) -> Pair {
        Pair { library: case.clone(), model: case.clone() }
    }

    /// Runs both and answers the model's end, if they agree.
    fn run(&mut self, clock: u64, budget: u32) -> Option<Run> {
        let Case { record, storage, keys, designation, time, .. } = &mut self.model;
        let end = model::run(record, storage, keys, *designation, clock, *time, budget);
        let Case { record, storage, keys, designation, time, .. } = &mut self.library;
        let mut record = Lent::new(record);
        let mut storage = Lent::new(storage);
        let mut keys = Lent::new(keys);
        let bytes = (record.content(), storage.content(), keys.content());
        let given = ffi::run(bytes.0, bytes.1, bytes.2, *designation, clock, *time, budget);
        let owed = ffi::pack(end.answer, end.units);
        let mut agree = given == owed;
        if !agree {
            println!("{}", report::show_answer("library", given));
            println!("{}", report::show_answer("model  ", owed));
        }
        agree &= record.give_back() & storage.give_back() & keys.give_back();
        (agree & alike("library against model", &self.library, &self.model)).then_some(end)
    }
}

/// Bytes lent to the library within margins.
struct Lent<'a> {
    owner: &'a mut [u8],
    guarded: Guarded<u8>,
}

impl Lent<'_> {
    fn new(owner: &mut [u8]) -> Lent<'_> {
        let guarded = Guarded::new(owner, 0xA7);
        Lent { owner, guarded }
    }

    fn content(&mut self) -> &mut [u8] {
        self.guarded.content()
    }

    /// Whether the margins stand.
    fn give_back(mut self) -> bool {
        self.owner.copy_from_slice(self.guarded.content());
        if !self.guarded.margins_stand() {
            println!("the library stored outside what it was given");
        }
        self.guarded.margins_stand()
    }
}

fn alike(names: &str, first: &Case, second: &Case) -> bool {
    let mut differ = report::show_difference(&format!("record, {names}"), &first.record, &second.record);
    differ |= report::show_difference(&format!("keys, {names}"), &first.keys, &second.keys);
    differ |= report::show_difference(&format!("storage, {names}"), &first.storage, &second.storage);
    !differ
}

fn at_once(case: &Case) -> Option<Whole> {
    let mut pair = Pair::new(case);
    let end = pair.run(case.clock, case.budget)?;
    Some(Whole { end, pair })
}

/// The host clock after so many units of the case.
fn clock_after(case: &Case, units: u32) -> u64 {
    case.clock.wrapping_add(units as u64 * case.time as u64)
}

/// Whether the values differ, and each is the guest clock of its unit's beginning.
fn holds(case: &Case, readings: &[Reading]) -> bool {
    let epoch = model::doubleword(&case.record, 40);
    for reading in readings {
        let owed = clock_after(case, reading.unit).wrapping_add(epoch);
        if reading.value != owed {
            println!("unit {}: stored {:016x}, the guest clock is {owed:016x}", reading.unit, reading.value);
            return false;
        }
    }
    differ(readings.iter().map(|reading| reading.value))
}

fn differ(values: impl Iterator<Item = u64>) -> bool {
    let mut values: Vec<u64> = values.collect();
    values.sort_unstable();
    let twice = values.windows(2).find(|pair| pair[0] == pair[1]);
    if let Some(pair) = twice {
        println!("two readings are {:016x}", pair[0]);
    }
    twice.is_none()
}

/// The readings of a piece that begins after so many units.
fn later(readings: &[Reading], units: u32) -> impl Iterator<Item = Reading> + '_ {
    readings.iter().map(move |reading| Reading { unit: reading.unit + units, ..*reading })
}

fn read_back(storage: &[u8], reading: &Reading) -> u64 {
    u64::from_be_bytes(reading.places.map(|place| storage[place as usize]))
}

/// Whether a cut run ends like the whole one.
fn same(whole: &Whole, pair: &Pair, answer: Answer, readings: &[Reading]) -> bool {
    let answers = (whole.end.answer, whole.end.events.readings.as_slice());
    if answers != (answer, readings) {
        println!("at once and in pieces: {answers:?}, {:?}", (answer, readings));
        return false;
    }
    alike("at once against in pieces", &whole.pair.library, &pair.library)
}

/// Cuts the run after each of its units.
fn cut_everywhere(case: &Case, whole: &Whole) -> bool {
    (0..=whole.end.units).all(|units| {
        let mut pair = Pair::new(case);
        let Some(first) = pair.run(case.clock, units) else { return false };
        let Some(second) = pair.run(clock_after(case, units), case.budget - units) else { return false };
        let readings: Vec<Reading> =
            first.events.readings.iter().copied().chain(later(&second.events.readings, units)).collect();
        first.units == units && same(whole, &pair, second.answer, &readings)
    })
}

/// The run in pieces of one unit; what its units are examples of.
fn unit_by_unit(case: &Case, whole: &Whole) -> Option<Names> {
    let mut pair = Pair::new(case);
    let mut watch = Watch::new(case);
    let mut unit = 0;
    let answer = loop {
        let left = case.budget - unit;
        let seen = watch.before(&pair.model);
        let end = pair.run(clock_after(case, unit), left.min(1))?;
        if !watch.after(&pair, seen, unit, &end) {
            return None;
        }
        unit += end.units;
        if end.answer != Answer::BudgetUsed || left <= 1 {
            break end.answer;
        }
    };
    // Those that nothing was stored over, in the storage that the library left at once.
    let standing = watch.standing.iter().map(|reading| read_back(&whole.pair.library.storage, reading));
    let good = differ(standing) && same(whole, &pair, answer, &watch.readings);
    good.then_some(watch.names)
}

/// Goes on after exits with what is left of the budget, the host having done its part.
fn resumed(case: &Case, whole: Whole) -> Option<Names> {
    let Whole { end, mut pair } = whole;
    let (mut answer, mut units, mut readings) = (end.answer, end.units, end.events.readings);
    let mut names = Names::new();
    for _ in 0..6 {
        if !mend(&mut pair.library, answer) {
            break;
        }
        mend(&mut pair.model, answer);
        let end = pair.run(clock_after(case, units), case.budget - units)?;
        if !readings.is_empty() && !end.events.readings.is_empty() {
            names.insert(between(&exit_name(answer)));
        }
        readings.extend(later(&end.events.readings, units));
        units += end.units;
        answer = end.answer;
    }
    holds(case, &readings).then_some(names)
}

fn exit_name(answer: Answer) -> String {
    match answer {
        Answer::Intercepted(code) => format!("interception {code}"),
        Answer::HostFault(code, ..) => format!("host fault {code:x} hex"),
        _ => "no exit".to_string(),
    }
}

/// Takes the cause of an exit away, where it is one of a few. The instruction of code 4, 8 or 44 was passed.
fn mend(case: &mut Case, answer: Answer) -> bool {
    let record = &mut case.record;
    match answer {
        Answer::Intercepted(4 | 8 | 44) => {}
        Answer::Intercepted(16 | 24 | 40) => record[3] = 0,
        Answer::Intercepted(20) => record[16] &= !0x01,
        Answer::Intercepted(28) => record[17] &= !0x02,
        Answer::Intercepted(_) => {
            record[16] &= !if record[4] & 0x04 != 0 { 0x44 } else { 0x40 };
            record[18] &= !0x80;
            return model::entry_is_good(record);
        }
        Answer::HostFault(_, address, table) => {
            let tables = Tables { record, storage: &case.storage, designation: case.designation };
            let Some(at) = tables.page_entry((address - model::origin_bytes(record)) >> 12) else { return false };
            let entry = model::word(&case.storage, at) & 0x0000_7000;
            model::set_word(&mut case.storage, at, entry);
            return table.stage == Stage::HostPage || table.stage == Stage::None;
        }
        _ => return false,
    }
    true
}

// ---------------------------------------------------------------------------------------------------------------
// What occurred.

/// The readings of a run in pieces of one unit.
struct Watch<'a> {
    case: &'a Case,
    readings: Vec<Reading>,
    /// Those that nothing was stored over since.
    standing: Vec<Reading>,
    /// What happened since the last reading.
    since: Names,
    names: Names,
}

/// What a unit finds.
struct Seen {
    record: Vec<u8>,
    text: Option<Text>,
}

#[derive(Clone, Copy)]
struct Text {
    bytes: [u8; 4],
    places: [u32; 4],
}

impl Watch<'_> {
    fn new(case: &Case) -> Watch<'_> {
        Watch { case, readings: Vec::new(), standing: Vec::new(), since: Names::new(), names: Names::new() }
    }

    fn before(&self, case: &Case) -> Seen {
        Seen { record: case.record.clone(), text: text(case) }
    }

    /// Whether the unit's reading, if it has one, can be read back.
    fn after(&mut self, pair: &Pair, seen: Seen, unit: u32, end: &Run) -> bool {
        let storage = &pair.library.storage;
        self.standing.retain(|reading| read_back(storage, reading) == reading.value);
        let is_stck = seen.text.is_some_and(|text| text.bytes[..2] == [0xB2, 0x05]);
        if is_stck && end.events.readings.is_empty() {
            if let Some(reason) = not_done(&pair.model, &seen, end) {
                self.names.insert(format!("STCK not done, {reason}"));
            }
        }
        self.since.extend(unit_name(&seen, end));
        for reading in later(&end.events.readings, unit) {
            if read_back(storage, &reading) == reading.value {
                self.standing.push(reading);
            } else if end.events.falls == 0 {
                println!("unit {unit}: {:016x} is not in the library's storage", reading.value);
                return false;
            } else {
                self.names.insert(UNDER_THE_WORD.to_string());
            }
            self.note(&reading, &seen);
        }
        true
    }

    fn note(&mut self, reading: &Reading, seen: &Seen) {
        let text = seen.text.expect("STCK was fetched");
        let found = text.places.map(|place| self.case.storage[place as usize]);
        let touches = |earlier: &&Reading| earlier.places.iter().any(|place| reading.places.contains(place));
        let earlier = self.readings.iter().find(touches);
        let written = |earlier: &Reading| earlier.places.iter().any(|place| text.places.contains(place));
        let last = self.readings.last();
        let held = [
            (ACROSS, reading.address & 0xFFF > 0xFF8),
            (OVER, earlier.is_some()),
            (OVER_BY_ANOTHER, earlier.is_some_and(|earlier| earlier.address.abs_diff(reading.address) > 7)),
            (CHANGED_TEXT, found[..2] != [0xB2, 0x05]),
            (TEXT_IS_A_READING, found != text.bytes && self.readings.iter().any(written)),
            (GUEST_CLOCK_WRAPS, last.is_some_and(|last| last.value > reading.value)),
            (NEXT_UNIT, last.is_some_and(|last| last.unit + 1 == reading.unit)),
            (form(&seen.record), true),
        ];
        self.names.extend(held.into_iter().filter(|(_, holds)| *holds).map(|(name, _)| name.to_string()));
        if last.is_some() {
            self.names.extend(self.since.iter().map(|name| between(name)));
        }
        self.since.clear();
        self.readings.push(*reading);
    }
}

fn between(name: &str) -> String {
    format!("between readings, {name}")
}

/// The instruction's first two halfwords, where they can be fetched.
fn text(case: &Case) -> Option<Text> {
    let Case { record, storage, keys, designation, .. } = case;
    if !model::entry_is_good(record) {
        return None;
    }
    let address = model::word(record, 20) & if record[4] & 0x04 != 0 { 0x00FF_FFFF } else { 0x7FFF_FFFF };
    let mut places = [0; 4];
    for (place, address) in places.iter_mut().zip(address..) {
        match model::translate(record, storage, keys, *designation, address, 2) {
            Answer::Good(absolute) => *place = absolute,
            _ => return None,
        }
    }
    Some(Text { bytes: places.map(|place| storage[place as usize]), places })
}

/// What a unit was.
fn unit_name(seen: &Seen, end: &Run) -> Option<String> {
    if end.units == 0 {
        return None;
    }
    let name = match end.events.interruptions.first() {
        Some(&(_, SVC_INTERRUPTION)) => "SVC".to_string(),
        Some(_) if model::psw_is_malformed(&seen.record) => "malformed PSW".to_string(),
        Some((_, code)) => format!("program interruption {code:x} hex"),
        None if seen.text.is_some_and(|text| text.bytes[0] == 0x82) => "LPSW".to_string(),
        None => return None,
    };
    Some(name)
}

/// Why an STCK stored nothing; none where it was not come to.
fn not_done(case: &Case, seen: &Seen, end: &Run) -> Option<String> {
    let code = match (end.answer, end.events.interruptions.first()) {
        (Answer::HostFault(..), _) if end.events.fault_at_word => return Some(WORD_FAULT.to_string()),
        (Answer::HostFault(code, ..), _) => return Some(format!("host fault {code:x} hex")),
        (Answer::Intercepted(8), _) => case.record[55],
        (_, Some(&(_, code))) if !model::psw_is_malformed(&seen.record) => code,
        _ => return None,
    };
    if code == model::PROTECTION {
        return Some(protection(case, seen).to_string());
    }
    Some(format!("exception {code:x} hex"))
}

fn protection(case: &Case, seen: &Seen) -> &'static str {
    let text = seen.text.expect("STCK was fetched").bytes;
    let base = text[2] as usize >> 4;
    let base = if base == 0 { 0 } else { model::word(&seen.record, 136 + 4 * base) };
    let address = base.wrapping_add(model::halfword(&text, 2) & 0xFFF);
    let wide = seen.record[4] & 0x04 == 0 && seen.record[20] & 0x80 != 0;
    let bytes = (0..8).map(|offset| address.wrapping_add(offset) & if wide { 0x7FFF_FFFF } else { 0x00FF_FFFF });
    if seen.record[72] & 0x10 != 0 && bytes.clone().any(|byte| byte <= 511) {
        return LOW_ADDRESS;
    }
    let mut record = seen.record.clone();
    record[17] &= 0x0F;
    let fails = |byte| {
        let answer = model::translate(&record, &case.storage, &case.keys, case.designation, byte, 1);
        matches!(answer, Answer::ProgramException(model::PROTECTION, _))
    };
    if bytes.into_iter().any(fails) {
        PAGE
    } else {
        KEY
    }
}

fn form(record: &[u8]) -> &'static str {
    match (record[4] & 0x04 != 0, record[17] & 0x08 != 0) {
        (true, true) => FORMS[0],
        (true, false) => FORMS[1],
        (false, _) if record[16] & 0x04 != 0 => FORMS[2],
        _ if record[20] & 0x80 != 0 => FORMS[3],
        _ => FORMS[4],
    }
}

/// Numbers of the case, where there are two readings.
fn circumstances(case: &Case, readings: &[Reading]) -> Names {
    let (Some(first), Some(last)) = (readings.first(), readings.last()) else { return Names::new() };
    if first == last {
        return Names::new();
    }
    let epoch = model::doubleword(&case.record, 40);
    let carries = |reading: &Reading| clock_after(case, reading.unit).checked_add(epoch).is_none();
    let held = [
        (CLOCK_WRAPS, clock_after(case, first.unit) > clock_after(case, last.unit)),
        (EPOCH_WRAPS, carries(first) && carries(last)),
        (LEAST_TIME, case.time == 1),
        (GREATEST_TIME, case.time == 1_048_576),
        (MANY, readings.len() > 8),
        (LARGER_RECORD, case.record.len() == 208),
        (SMALLER_RECORD, case.record.len() == 200),
    ];
    held.into_iter().filter(|(_, holds)| *holds).map(|(name, _)| name.to_string()).collect()
}

/// The tests after the time's.
const LATER: [&str; 2] = ["and 7", "and code 32"];

/// Of a refused run: what comes before or after the time.
fn refused(case: &Case, number: u8) -> Names {
    let mut names = Names::from([format!("refusal {number}")]);
    if case.time != 0 {
        names.insert(format!("refusal {number}, time not 0"));
        return names;
    }
    let name = format!("refusal {number}, time 0");
    let budget = match case.budget {
        0 => "0",
        1 => "1",
        65_535 => "65535",
        _ => "another",
    };
    if number == 6 {
        names.insert(format!("{name}, budget {budget}"));
        let fails = [model::refuse_reserved(&case.record).is_some(), !model::entry_is_good(&case.record)];
        let later = LATER.into_iter().zip(fails).filter(|(_, fails)| *fails);
        names.extend(later.map(|(more, _)| format!("{name}, {more}")));
    }
    names.insert(name);
    names
}

const ACROSS: &str = "reading across pages";
const OVER: &str = "reading over an earlier one";
const OVER_BY_ANOTHER: &str = "reading over an earlier one by another address";
const CHANGED_TEXT: &str = "reading by changed text";
const TEXT_IS_A_READING: &str = "reading by text that a reading is part of";
const UNDER_THE_WORD: &str = "reading under the interval timer's word";
const NEXT_UNIT: &str = "readings in one unit after the other";
const FORMS: [&str; 5] =
    ["reading, EC PSW", "reading, BC PSW", "reading, DAT on", "reading, 31 bits", "reading, 24 bits"];
const GUEST_CLOCK_WRAPS: &str = "readings about a wrap of the guest clock";
const CLOCK_WRAPS: &str = "readings about a wrap of the host clock";
const EPOCH_WRAPS: &str = "readings with a carry of clock and epoch";
const LEAST_TIME: &str = "readings, time 1";
const GREATEST_TIME: &str = "readings, time 1048576";
const MANY: &str = "readings, more than eight";
const LARGER_RECORD: &str = "readings, record of 208 bytes";
const SMALLER_RECORD: &str = "readings, record of 200 bytes";
const WORD_FAULT: &str = "host fault at the interval timer's word";
const LOW_ADDRESS: &str = "low-address protection";
const PAGE: &str = "page protection";
const KEY: &str = "key protection";

/// The names that must occur once in 2,000 cases, where there are 4,000 at least.
fn owed() -> Vec<String> {
    let mut owed: Vec<String> = Vec::new();
    let mut owe = |first: &str, list: &[&str]| owed.extend(list.iter().map(|name| format!("{first}{name}")));
    owe("", &[ACROSS, OVER, OVER_BY_ANOTHER, CHANGED_TEXT, TEXT_IS_A_READING, UNDER_THE_WORD, NEXT_UNIT]);
    owe("", &FORMS);
    owe("", &[GUEST_CLOCK_WRAPS, CLOCK_WRAPS, EPOCH_WRAPS, LEAST_TIME, GREATEST_TIME, MANY]);
    owe("", &[LARGER_RECORD, SMALLER_RECORD]);
    owe("between readings, ", &["SVC", "malformed PSW", "LPSW"]);
    for code in ["1", "2", "4", "5", "6", "8", "10", "11", "12"] {
        owe("between readings, program interruption ", &[&format!("{code} hex")]);
    }
    owe("between readings, interception ", &["4", "8", "16", "20", "24", "28", "32", "44"]);
    owe("between readings, host fault ", &["4 hex", "11 hex"]);
    owe("STCK not done, ", &[LOW_ADDRESS, PAGE, KEY, WORD_FAULT, "host fault 4 hex", "host fault 11 hex"]);
    owe("STCK not done, ", &["exception 5 hex", "exception 10 hex", "exception 11 hex", "exception 12 hex"]);
    for number in 1..=7 {
        owe(&format!("refusal {number}, "), if number < 7 { &["time 0", "time not 0"] } else { &["time not 0"] });
    }
    owe("refusal 6, time 0, ", &["budget 0", "budget 1", "budget 65535", "budget another"]);
    owe("refusal 6, time 0, ", &LATER);
    owed
}
