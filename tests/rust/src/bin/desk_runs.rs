//! desk_runs [CASES] [SEED]: calls at the page desk, questions for the first unbacked page and runs in turn, on one
//! host by library and model, and by the library on a second host. The second agrees on the record, the entries that
//! describe the extent, the guest frames and the frames to be added, with their keys, and differs at random in all
//! else. After each step library and model agree; both hosts answer alike and agree still; nothing outside is touched;
//! and the number kept is that of the valid pages.

use drevokas_tests::desk::{self, Call, Tables};
use drevokas_tests::generate::desk::first_unbacked::next_question;
use drevokas_tests::generate::desk::{desk_host, next_call};
use drevokas_tests::generate::{self, Case, Rng, Wishes};
use drevokas_tests::model::{self, FRAME};
use drevokas_tests::{ffi, report};
use std::collections::{BTreeMap, BTreeSet};
use std::process::exit;
use std::time::Instant;

const STEPS: u32 = 14;

/// Larger extents and storages are left out: each step looks at every page and every byte.
const MOST_BLOCKS: u32 = 70;
const MOST_FRAMES: usize = 40;

#[derive(Clone, Copy, Debug)]
enum Step {
    Run,
    Call(Call),
    /// For the first unbacked page.
    Ask { from: u32, to: u32 },
}

/// A host with one guest, and the number of valid pages kept beside the designation.
#[derive(Clone)]
struct Host {
    case: Case,
    number: u32,
    words: Vec<u32>,
}

impl Host {
    fn tables(&self) -> Tables<'_> {
        Tables { record: &self.case.record, storage: &self.case.storage, designation: self.case.designation }
    }

    /// The answer, and *where of a run and a question.
    fn by_library(&mut self, step: Step) -> (u64, u64) {
        let Case { record, storage, keys, designation, clock, time, budget, .. } = &mut self.case;
        match step {
            Step::Run => {
                let end = ffi::run(record, storage, keys, *designation, *clock, *time, *budget);
                *clock = clock.wrapping_add(end.units() as u64 * *time as u64);
                (end.word, end.location)
            }
            Step::Call(call) => {
                let (number, words) = (&mut self.number, &mut self.words);
                (ffi::desk_call(record, storage, keys, *designation, call, number, words), 0)
            }
            Step::Ask { from, to } => {
                let mut location = ffi::NOT_TOUCHED;
                let word = ffi::first_unbacked(record, storage, keys, *designation, from, to, &mut location);
                (word, location)
            }
        }
    }

    fn by_model(&mut self, step: Step) -> (u64, u64) {
        let Case { record, storage, keys, designation, clock, time, budget, .. } = &mut self.case;
        match step {
            Step::Run => {
                let end = model::run(record, storage, keys, *designation, *clock, *time, *budget);
                *clock = clock.wrapping_add(end.units as u64 * *time as u64);
                let end = ffi::pack(end.answer, end.units);
                (end.word, end.location)
            }
            Step::Call(call) => {
                let (number, words) = (&mut self.number, &mut self.words);
                let outcome = desk::call(record, storage, keys, *designation, call, number, words);
                (ffi::pack_desk(outcome.answer), 0)
            }
            Step::Ask { from, to } => {
                let answer = desk::first_unbacked(record, storage, keys, *designation, from, to);
                let answer = ffi::pack_unbacked(answer);
                (answer.word, answer.location)
            }
        }
    }

    /// The number of valid pages as the library lists them.
    fn listed(&self) -> u32 {
        let mut words = vec![0; self.words.len()];
        let case = &self.case;
        let answer = ffi::list_pages(&case.record, &case.storage, &case.keys, case.designation, &mut words);
        assert_eq!(answer >> 48, 0x0500, "the list is done");
        let valid = words[..self.tables().pages() as usize].iter().filter(|&&word| word != desk::NOT_VALID).count();
        assert_eq!(answer as u32, valid as u32, "the list's words and its answer");
        answer as u32
    }
}

/// What two hosts have in common: entries by their addresses, and frames.
struct Common {
    entries: BTreeSet<usize>,
    frames: BTreeSet<usize>,
}

impl Common {
    /// The storage with what is in common taken from another.
    fn storage(&self, own: &[u8], from: &[u8]) -> Vec<u8> {
        let mut storage = own.to_vec();
        let entries = self.entries.iter().map(|&at| at..at + 4);
        let frames = self.frames.iter().map(|&frame| frame * FRAME..(frame + 1) * FRAME);
        for bytes in entries.chain(frames) {
            storage[bytes.clone()].copy_from_slice(&from[bytes]);
        }
        storage
    }

    fn keys(&self, own: &[u8], from: &[u8]) -> Vec<u8> {
        let mut keys = own.to_vec();
        self.frames.iter().for_each(|&frame| keys[frame] = from[frame]);
        keys
    }
}

type Tally = BTreeMap<&'static str, u64>;

fn main() {
    let (cases, seed) = report::arguments(4_000);
    println!("desk_runs: {cases} cases, seed {seed}");
    let start = Instant::now();
    let mut tally = Tally::new();
    for number in 0..cases {
        let mut rng = Rng::new(seed ^ 0x0312_0370_0000, number);
        let case = choose_host(&mut rng);
        if let Err(steps) = sequence(&mut rng, &case, &mut tally) {
            println!("desk_runs fails in case {number} of seed {seed}, after {steps:?}");
            report::keep_case(&case, "desk_runs.case");
            exit(1);
        }
    }
    report::settle(&tally, start, &OWED, if cases >= 1_000 { cases.div_ceil(20) } else { 0 });
    println!("desk_runs: holds");
}

/// A host with a good entry.
fn choose_host(rng: &mut Rng) -> Case {
    let machine = rng.pick(&report::MACHINES);
    let by_desk = rng.percent(60);
    loop {
        let wishes = Wishes { machine, damage: false, large_extents: false };
        let case = if by_desk { desk_host(rng) } else { generate::case(rng, wishes) };
        let small = model::halfword(&case.record, 14) <= MOST_BLOCKS && case.keys.len() <= MOST_FRAMES;
        if small && model::check(&case.record) == model::Answer::Good(0) {
            return case;
        }
    }
}

const TWO_HOSTS: &str = "sequences on two hosts";
const ONE_HOST: &str = "sequences on one host: an entry lies in a guest frame";
const RUNS: &str = "runs with units";
const AFTER_CHANGE: &str = "runs with units after a change at the desk";
const GOES_ON: &str = "runs that go on in the page added after their fault";
const ADDED: &str = "pages added";
const REMOVED: &str = "pages removed";
const PROTECTED: &str = "pages protected";
const REFUSED: &str = "calls refused";
const CONFLICTS: &str = "calls refused with 14";
const STORES: &str = "runs that store into an added frame";
const FOUND: &str = "questions that find a page";
const FOUND_HIGHER: &str = "questions that find a higher page after an add";
const FOUND_NONE: &str = "questions that find none";
const FOUND_ADDED: &str = "pages added that a question found";
const NOT_ANSWERED: &str = "questions refused";

/// What must occur once in 20 cases, where there are 1,000 at least.
const OWED: [&str; 16] = [
    TWO_HOSTS,
    ONE_HOST,
    RUNS,
    AFTER_CHANGE,
    GOES_ON,
    ADDED,
    REMOVED,
    PROTECTED,
    REFUSED,
    CONFLICTS,
    STORES,
    FOUND,
    FOUND_HIGHER,
    FOUND_NONE,
    FOUND_ADDED,
    NOT_ANSWERED,
];

/// The steps made so far, where the last went wrong.
fn sequence(rng: &mut Rng, case: &Case, tally: &mut Tally) -> Result<(), Vec<Step>> {
    let tables = Tables { record: &case.record, storage: &case.storage, designation: case.designation };
    let words = (0..tables.pages() + 3).map(|_| rng.word()).collect();
    let mut host = Host { case: case.clone(), number: tables.valid_pages(), words };
    let mut owed = host.clone();
    let common = choose_common(rng, tables);
    let mut second = common.as_ref().map(|common| differ(rng, &host, common));
    let second_start = second.clone();
    let frames = added_frames(tables, common.as_ref());
    *tally.entry(if common.is_some() { TWO_HOSTS } else { ONE_HOST }).or_default() += 1;
    let mut watch = Watch::default();
    let mut steps = Vec::new();
    for _ in 0..STEPS {
        let step = watch.choose(rng, &host, &frames);
        steps.push(step);
        let before = host.clone();
        let apart = !desk::entry_in_guest_frame(host.tables());
        let answer = host.by_library(step);
        let mut good = show_answers("library and model", answer, owed.by_model(step)) & same(&host, &owed);
        if let (Some(second), Some(start), Some(common)) = (&mut second, &second_start, &common) {
            good &= show_answers("the two hosts", answer, second.by_library(step));
            good &= agree(&host, second, case, &start.case, common);
        }
        good &= check_number(&mut host, &mut owed, apart, step);
        if !good {
            return Err(steps);
        }
        watch.see(&before, &host, step, answer, tally);
    }
    Ok(())
}

/// What two hosts are to have in common; none where an entry lies in a guest frame, for then a guest may change its own
/// entries.
fn choose_common(rng: &mut Rng, tables: Tables) -> Option<Common> {
    if desk::entry_in_guest_frame(tables) {
        return None;
    }
    let entries = tables.entries();
    let described = model::describe_extent(tables.record, tables.storage, tables.designation);
    assert!(entries.iter().eq(described.entries.iter().map(|&at| at as usize).collect::<Vec<_>>().iter()));
    let mut frames = tables.guest_frames();
    assert!(frames.iter().eq(described.frames.iter()));
    for frame in 0..tables.storage.len() / FRAME {
        if rng.percent(60) && !entries.iter().any(|at| at / FRAME == frame) {
            frames.insert(frame);
        }
    }
    Some(Common { entries, frames })
}

/// Frames to be handed in: of two hosts those in common, those with entries, and one past the storage.
fn added_frames(tables: Tables, common: Option<&Common>) -> Vec<u32> {
    let all = (tables.storage.len() / FRAME) as u32;
    let mut frames: Vec<u32> = match common {
        Some(common) => common.frames.iter().map(|&frame| frame as u32).collect(),
        None => (0..all).collect(),
    };
    frames.push(all);
    frames.extend(tables.entries().first().map(|at| (at / FRAME) as u32));
    frames
}

/// The same host with everything else filled at random.
fn differ(rng: &mut Rng, host: &Host, common: &Common) -> Host {
    let mut other = host.clone();
    rng.fill(&mut other.case.storage);
    rng.fill(&mut other.case.keys);
    other.case.storage = common.storage(&other.case.storage, &host.case.storage);
    other.case.keys = common.keys(&other.case.keys, &host.case.keys);
    other
}

fn show_answers(name: &str, first: (u64, u64), second: (u64, u64)) -> bool {
    if first != second {
        println!("{name}: answers {:016x} and {:016x}, where {:x} and {:x}", first.0, second.0, first.1, second.1);
    }
    first == second
}

fn same(host: &Host, owed: &Host) -> bool {
    let mut differs = report::show_difference("record, library against model", &host.case.record, &owed.case.record);
    differs |= report::show_difference("storage, library against model", &host.case.storage, &owed.case.storage);
    differs |= report::show_difference("keys, library against model", &host.case.keys, &owed.case.keys);
    if host.number != owed.number || host.words != owed.words {
        println!("number or words, library against model; numbers {} and {}", host.number, owed.number);
        differs = true;
    }
    !differs
}

/// Whether both hosts agree where they did and are elsewhere as they were.
fn agree(host: &Host, second: &Host, start: &Case, second_start: &Case, common: &Common) -> bool {
    let mut differs = false;
    for (name, left, start) in [("first host", host, start), ("second host", second, second_start)] {
        let storage = common.storage(&start.storage, &host.case.storage);
        let keys = common.keys(&start.keys, &host.case.keys);
        differs |= report::show_difference(&format!("storage of the {name}"), &left.case.storage, &storage);
        differs |= report::show_difference(&format!("keys of the {name}"), &left.case.keys, &keys);
    }
    differs |= report::show_difference("records of the two hosts", &host.case.record, &second.case.record);
    if host.number != second.number || host.words != second.words {
        println!("number or words of the two hosts differ");
        differs = true;
    }
    !differs
}

/// The number is that of the valid pages, also after a run if no entry lay in a guest frame; that stays so. Else it is
/// taken from the list.
fn check_number(host: &mut Host, owed: &mut Host, apart: bool, step: Step) -> bool {
    let listed = host.listed();
    if !apart && matches!(step, Step::Run) {
        (host.number, owed.number) = (listed, listed);
    }
    if host.number != listed {
        println!("{} valid pages, the number kept is {}", listed, host.number);
        return false;
    }
    if apart && desk::entry_in_guest_frame(host.tables()) {
        println!("an entry has come to lie in a guest frame");
        return false;
    }
    true
}

/// What happened last, to choose the next step and for the tally.
#[derive(Default)]
struct Watch {
    /// The page that a run lacked.
    lacked: Option<u32>,
    /// It was added.
    mended: bool,
    changed: bool,
    added: BTreeSet<usize>,
    /// The last question that found a page, and the page, until the next run.
    found: Option<(Step, u32)>,
    /// It was added.
    backed: bool,
}

impl Watch {
    fn choose(&self, rng: &mut Rng, host: &Host, frames: &[u32]) -> Step {
        if let Some(page) = self.lacked.filter(|_| !self.mended && rng.percent(70)) {
            return Step::Call(Call::Add { page, frame: rng.pick(frames) });
        }
        if let Some((question, page)) = self.found.filter(|_| rng.percent(60)) {
            return if self.backed { question } else { Step::Call(Call::Add { page, frame: rng.pick(frames) }) };
        }
        if self.mended && rng.percent(80) || rng.percent(40) {
            return Step::Run;
        }
        if rng.percent(20) {
            let (from, to) = next_question(rng, host.tables().pages());
            return Step::Ask { from, to };
        }
        Step::Call(next_call(rng, host.tables(), frames))
    }

    fn see(&mut self, before: &Host, after: &Host, step: Step, answer: (u64, u64), tally: &mut Tally) {
        let count = |name, holds: bool| *tally.entry(name).or_default() += holds as u64;
        match step {
            Step::Run => self.see_run(before, after, answer, count),
            Step::Call(call) => self.see_call(call, answer.0, count),
            Step::Ask { .. } => self.see_answer(step, answer, count),
        }
    }

    fn see_run(&mut self, before: &Host, after: &Host, answer: (u64, u64), mut count: impl FnMut(&'static str, bool)) {
        let went = answer.0 as u32 > 0;
        count(RUNS, went);
        count(AFTER_CHANGE, went && self.changed);
        count(GOES_ON, went && self.mended);
        let changed = |frame: &usize| {
            let bytes = frame * FRAME..(frame + 1) * FRAME;
            before.case.storage[bytes.clone()] != after.case.storage[bytes]
        };
        count(STORES, self.added.iter().any(changed));
        *self = Watch { added: std::mem::take(&mut self.added), ..Watch::default() };
        if answer.0 >> 48 == (ffi::HOST_FAULT as u64) << 8 | 0x11 {
            let address = (answer.1 as u32) - model::origin_bytes(&after.case.record);
            self.lacked = Some(address >> 12);
        }
    }

    fn see_call(&mut self, call: Call, answer: u64, mut count: impl FnMut(&'static str, bool)) {
        let (kind, number) = ((answer >> 56) as u32, answer >> 48 & 0xFF);
        let done = kind == ffi::GOOD;
        count(REFUSED, kind == ffi::REFUSED);
        count(CONFLICTS, kind == ffi::REFUSED && number == 14);
        count(ADDED, done && matches!(call, Call::Add { .. }));
        count(REMOVED, done && matches!(call, Call::Remove { .. }));
        count(PROTECTED, done && matches!(call, Call::Protect { .. }));
        self.changed |= done && call != Call::List;
        if let (Call::Add { page, frame }, true) = (call, done) {
            let found = self.found.is_some_and(|(_, found)| found == page);
            count(FOUND_ADDED, found);
            self.backed |= found;
            self.mended |= self.lacked == Some(page);
            self.added.insert(frame as usize);
        }
    }

    fn see_answer(&mut self, question: Step, answer: (u64, u64), mut count: impl FnMut(&'static str, bool)) {
        let (kind, page) = ((answer.0 >> 56) as u32, answer.1 as u32);
        let found = kind == ffi::GOOD;
        count(FOUND, found);
        count(FOUND_HIGHER, found && self.backed && self.found.is_some_and(|(_, last)| page > last));
        count(FOUND_NONE, kind == ffi::NONE);
        count(NOT_ANSWERED, kind == ffi::REFUSED);
        self.found = found.then_some((question, page));
        self.backed = false;
    }
}
