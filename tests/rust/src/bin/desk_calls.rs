//! desk_calls [CASES] [SEED]: single calls at the page desk, library against model, on random hosts. A second host that
//! has the same entries describing the extent and nothing else in common must give the same answer.

use drevokas_tests::desk::{self, Answer, Call, Outcome, Tables};
use drevokas_tests::generate::desk::{desk_case, DeskCase};
use drevokas_tests::generate::Rng;
use drevokas_tests::guarded::Guarded;
use drevokas_tests::{ffi, model, report};
use std::collections::{BTreeMap, BTreeSet};
use std::process::exit;
use std::time::Instant;

fn main() {
    let (cases, seed) = report::arguments(40_000);
    println!("desk_calls: {cases} cases, seed {seed}");
    let start = Instant::now();
    let mut tally = BTreeMap::new();
    for number in 0..cases {
        let mut rng = Rng::new(seed ^ 0x0312_0000_0000, number);
        let case = desk_case(&mut rng);
        let agreed = compare(&case).filter(|_| number % 4 != 0 || compare_hosts(&mut rng, &case));
        let Some(outcome) = agreed else {
            println!("difference in case {number} of seed {seed}: {:?}, number {:08x} hex", case.call, case.number);
            println!("workspace of {} words", case.words.len());
            report::keep_case(&case.case, "difference.case");
            exit(1);
        };
        for name in names(&case, &outcome) {
            *tally.entry(name).or_insert(0) += 1;
        }
    }
    report::settle(&tally, start, &owed(), if cases >= 20_000 { cases.div_ceil(2000) } else { 0 });
    println!("desk_calls: no difference");
}

/// The outcome, if library and model agree on it and on all that they leave.
fn compare(case: &DeskCase) -> Option<Outcome> {
    let DeskCase { case, call, number, words } = case;
    let (mut model_storage, mut model_number, mut model_words) = (case.storage.clone(), *number, words.clone());
    let outcome = desk::call(
        &case.record,
        &mut model_storage,
        &case.keys,
        case.designation,
        *call,
        &mut model_number,
        &mut model_words,
    );
    let owed = ffi::pack_desk(outcome.answer);

    let mut record = Guarded::new(&case.record, 0xA7);
    let mut storage = Guarded::new(&case.storage, 0xA7);
    let mut keys = Guarded::new(&case.keys, 0xA7);
    let mut numbers = Guarded::new(&[*number], 0xA7A7_A7A7);
    let mut workspace = Guarded::new(words, 0xA7A7_A7A7);
    let given = ffi::desk_call(
        record.content(),
        storage.content(),
        keys.content(),
        case.designation,
        *call,
        &mut numbers.content()[0],
        workspace.content(),
    );
    let mut differs = given != owed || numbers.content()[0] != model_number;
    if differs {
        let number = numbers.content()[0];
        println!("library {given:016x} and number {number:08x}, model {owed:016x} and number {model_number:08x}");
    }
    differs |= report::show_difference("storage, library against model", storage.content(), &model_storage);
    differs |= report::show_difference("record, left against before", record.content(), &case.record);
    differs |= report::show_difference("keys, left against before", keys.content(), &case.keys);
    differs |= show_words(workspace.content(), &model_words);
    let margins = [record.margins_stand(), storage.margins_stand(), keys.margins_stand()];
    if margins.contains(&false) || !numbers.margins_stand() || !workspace.margins_stand() {
        println!("the library stored outside what it was given");
        differs = true;
    }
    (!differs).then_some(outcome)
}

/// Prints the words that differ, at most so many; answers whether there are any.
fn show_words(library: &[u32], model: &[u32]) -> bool {
    let places: Vec<usize> = (0..model.len()).filter(|&at| library[at] != model[at]).collect();
    for &at in places.iter().take(24) {
        println!("workspace, word {at}: {:08x} against {:08x}", library[at], model[at]);
    }
    !places.is_empty()
}

/// Whether the library does the same with a host that has the same entries describing the extent, and touches nothing
/// but one of them.
fn compare_hosts(rng: &mut Rng, case: &DeskCase) -> bool {
    let DeskCase { case, call, number, words } = case;
    let refused = model::refuse_run(&case.record, case.storage.len(), case.keys.len(), 0, 0).is_some();
    if refused || !model::entry_is_good(&case.record) {
        return true;
    }
    let tables = Tables { record: &case.record, storage: &case.storage, designation: case.designation };
    let entries = tables.entries();
    let mut other = case.storage.clone();
    rng.fill(&mut other);
    copy_entries(&case.storage, &mut other, &entries);
    let before = other.clone();
    let mut storage = case.storage.clone();
    let desk_call = |storage: &mut [u8]| {
        let (mut number, mut words) = (*number, words.clone());
        let keys = vec![0; case.keys.len()];
        let answer = ffi::desk_call(&case.record, storage, &keys, case.designation, *call, &mut number, &mut words);
        (answer, number, words)
    };
    if desk_call(&mut storage) != desk_call(&mut other) {
        println!("two hosts with the same entries answer otherwise");
        return false;
    }
    let mut expected = before;
    copy_entries(&storage, &mut expected, &entries);
    !report::show_difference("storage of the second host", &other, &expected)
}

fn copy_entries(from: &[u8], to: &mut [u8], entries: &BTreeSet<usize>) {
    for &at in entries {
        to[at..at + 4].copy_from_slice(&from[at..at + 4]);
    }
}

fn call_name(call: Call) -> &'static str {
    match call {
        Call::Add { .. } => "add",
        Call::Remove { .. } => "remove",
        Call::Protect { .. } => "protect",
        Call::List => "list",
    }
}

/// What the case is an example of.
fn names(case: &DeskCase, outcome: &Outcome) -> Vec<String> {
    let call = call_name(case.call);
    let what = match outcome.answer {
        Answer::Refused(14) => conflict_name(outcome.conflict).to_string(),
        Answer::Refused(number) => format!("refusal {number:02}"),
        Answer::EntryFailed => "code 32".to_string(),
        Answer::Done(_) => "done".to_string(),
    };
    let more = match outcome.answer {
        Answer::Refused(10) => vec![why_refused(case)],
        Answer::Done(_) => circumstances(case),
        _ => Vec::new(),
    };
    let name = format!("{call}, {what}");
    let more: Vec<String> = more.into_iter().map(|more| format!("{name}, {more}")).collect();
    [vec![name], more].concat()
}

/// Why a page is refused with 10, where its entry is not out of reach.
const OUTSIDE: &str = "outside the extent";

fn why_refused(case: &DeskCase) -> &'static str {
    let tables = tables(case);
    let (Call::Add { page, .. } | Call::Remove { page } | Call::Protect { page }) = case.call else {
        unreachable!("the list has no page")
    };
    if page >= tables.pages() {
        return OUTSIDE;
    }
    report::out_of_reach(tables, page).expect("refusal 10")
}

fn tables(case: &DeskCase) -> Tables<'_> {
    let case = &case.case;
    Tables { record: &case.record, storage: &case.storage, designation: case.designation }
}

const IN_GUEST_FRAME: &str = "14, entry in a guest frame";
const SECOND_PAGE: &str = "14, second page";
const SEGMENT_ENTRY: &str = "14, segment entry";

fn conflict_name(conflict: desk::Conflict) -> &'static str {
    match (conflict.entry_in_guest_frame, conflict.second_page, conflict.segment_entry) {
        (true, false, false) => IN_GUEST_FRAME,
        (false, true, false) => SECOND_PAGE,
        (false, false, true) => SEGMENT_ENTRY,
        (true, true, false) => "14, entry in a guest frame and second page",
        (true, false, true) => "14, entry in a guest frame and segment entry",
        (false, true, true) => "14, second page and segment entry",
        (true, true, true) => "14, all three",
        (false, false, false) => unreachable!("no refusal 14"),
    }
}

const REPAIRS: &str = "where an entry lay in a guest frame";
const OVER_ZERO: &str = "number from FFFFFFFF hex to 0";
const BELOW_ZERO: &str = "number from 0 to FFFFFFFF hex";
const PAST_STORAGE: &str = "frame past the storage";
const MALFORMED: &str = "over a malformed entry";
const AGAIN: &str = "already protected";
const LONGER: &str = "workspace longer";
const BAD_TABLES: &str = "where an entry lies in a guest frame";

const SHARED_OUTSIDE: &str = "entry shared with a page outside";
const SEGMENT_OUTSIDE: &str = "entry a segment entry outside";

/// What is worth a look in a call that is done.
fn circumstances(case: &DeskCase) -> Vec<&'static str> {
    let tables = tables(case);
    let bad = desk::entry_in_guest_frame(tables);
    let mut list = Vec::new();
    let mut tell = |name, holds: bool| list.extend(holds.then_some(name));
    if let Call::Add { page, .. } | Call::Remove { page } | Call::Protect { page } = case.call {
        let at = tables.page_entry(page).expect("the call was done");
        let entry = model::word(tables.storage, at);
        let frames = (tables.storage.len() / model::FRAME) as u32;
        let past = tables.frame_of(page).is_some_and(|frame| frame >= frames);
        match case.call {
            Call::Add { .. } => {
                tell(MALFORMED, entry & 0x400 == 0);
                tell(OVER_ZERO, case.number == u32::MAX);
            }
            Call::Remove { .. } => {
                tell(REPAIRS, bad);
                tell(PAST_STORAGE, past);
                tell(BELOW_ZERO, case.number == 0);
            }
            _ => {
                tell(AGAIN, entry & 0x200 != 0);
                tell(PAST_STORAGE, past);
            }
        }
        tell(SHARED_OUTSIDE, is_shared_outside(tables, at));
        let segments = tables.segments();
        let outside = |segment: &u32| !segments.contains(segment);
        tell(SEGMENT_OUTSIDE, (0..2048).filter(outside).any(|segment| tables.segment_entry(segment) == Some(at)));
    } else {
        tell(LONGER, case.words.len() > tables.pages() as usize);
        tell(BAD_TABLES, bad);
    }
    list
}

/// Whether the entry also serves a page of the host segments around that is not in the extent.
fn is_shared_outside(tables: Tables, at: usize) -> bool {
    let (first, last) = (tables.host_page(0), tables.host_page(tables.pages() - 1));
    let around = (first >> 8).saturating_sub(1) << 8..((last >> 8) + 2).min(2048) << 8;
    around.filter(|page| !(first..=last).contains(page)).any(|page| tables.host_page_entry(page) == Some(at))
}

/// The names that must occur once in 2,000 cases, where there are 20,000 at least.
fn owed() -> Vec<String> {
    let mut owed = Vec::new();
    let mut owe = |call: &str, list: &[&str]| owed.extend(list.iter().map(|what| format!("{call}, {what}")));
    let front = ["refusal 01", "refusal 02", "refusal 03", "refusal 04", "refusal 07", "code 32", "done"];
    let conflicts = [IN_GUEST_FRAME, SECOND_PAGE, SEGMENT_ENTRY];
    for call in ["add", "remove", "protect", "list"] {
        owe(call, &front);
    }
    for call in ["add", "remove", "protect"] {
        owe(call, &conflicts);
        owe(call, &["refusal 10"]);
        owe(&format!("{call}, refusal 10"), &[OUTSIDE]);
        owe(&format!("{call}, refusal 10"), &report::OUT_OF_REACH);
        owe(&format!("{call}, done"), &[SHARED_OUTSIDE, SEGMENT_OUTSIDE]);
    }
    owe("add", &["refusal 11", "refusal 13"]);
    owe("remove", &["refusal 12"]);
    owe("protect", &["refusal 12"]);
    owe("list", &["refusal 15"]);
    owe("add, done", &[MALFORMED, OVER_ZERO]);
    owe("remove, done", &[REPAIRS, PAST_STORAGE, BELOW_ZERO]);
    owe("protect, done", &[AGAIN, PAST_STORAGE]);
    owe("list, done", &[LONGER, BAD_TABLES]);
    owed
}
