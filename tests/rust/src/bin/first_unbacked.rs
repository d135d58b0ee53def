//! first_unbacked [CASES] [SEED]: the first unbacked page, library against model, on random hosts. The answer agrees
//! with the list; a page that is found and added is not found again; and a second host that has the same entries for
//! the pages up to the answer, and nothing else in common, must give the same answer.

use drevokas_tests::desk::{self, Tables, Unbacked, NOT_VALID};
use drevokas_tests::ffi::{self, Packed};
use drevokas_tests::generate::desk::first_unbacked::{question, Question};
use drevokas_tests::generate::Rng;
use drevokas_tests::guarded::Guarded;
use drevokas_tests::model::{self, FRAME};
use drevokas_tests::report;
use std::collections::{BTreeMap, BTreeSet};
use std::process::exit;
use std::time::Instant;

fn main() {
    let (cases, seed) = report::arguments(40_000);
    println!("first_unbacked: {cases} cases, seed {seed}");
    let start = Instant::now();
    let mut tally = BTreeMap::new();
    for number in 0..cases {
        let mut rng = Rng::new(seed ^ 0x0412_0000_0000, number);
        let question = question(&mut rng);
        let Some((answer, added)) = examine(&mut rng, &question) else {
            let Question { case, from, to } = question;
            println!("difference in case {number} of seed {seed}: pages from {from} on below {to}");
            report::keep_case(&case, "difference.case");
            exit(1);
        };
        for name in names(&question, answer).into_iter().chain(added.map(str::to_string)) {
            *tally.entry(name).or_insert(0) += 1;
        }
    }
    report::settle(&tally, start, &owed(), if cases >= 20_000 { cases.div_ceil(2000) } else { 0 });
    println!("first_unbacked: no difference");
}

/// The answer, and what came of adding the page found, if all holds.
fn examine(rng: &mut Rng, question: &Question) -> Option<(Unbacked, Option<&'static str>)> {
    let answer = compare(question)?;
    if !agrees_with_list(question, answer) || !compare_hosts(rng, question, answer) {
        return None;
    }
    match answer {
        Unbacked::Page(page) => Some((answer, Some(add_found(rng, question, page)?))),
        _ => Some((answer, None)),
    }
}

// ---------------------------------------------------------------------------------------------------------------
// What must hold.

/// The answer, if library and model agree on it and the library leaves all as it was.
fn compare(question: &Question) -> Option<Unbacked> {
    let Question { case, from, to } = question;
    let (from, to) = (*from, *to);
    let answer = desk::first_unbacked(&case.record, &case.storage, &case.keys, case.designation, from, to);
    let owed = ffi::pack_unbacked(answer);

    let mut record = Guarded::new(&case.record, 0xA7);
    let mut storage = Guarded::new(&case.storage, 0xA7);
    let mut keys = Guarded::new(&case.keys, 0xA7);
    let mut location = Guarded::new(&[ffi::NOT_TOUCHED], 0xA7A7_A7A7_A7A7_A7A7);
    let word = ffi::first_unbacked(
        record.content(),
        storage.content(),
        keys.content(),
        case.designation,
        from,
        to,
        &mut location.content()[0],
    );
    let mut differs = !show_answers("library, model", Packed { word, location: location.content()[0] }, owed);
    differs |= report::show_difference("record, left against before", record.content(), &case.record);
    differs |= report::show_difference("storage, left against before", storage.content(), &case.storage);
    differs |= report::show_difference("keys, left against before", keys.content(), &case.keys);
    let margins = [record.margins_stand(), storage.margins_stand(), keys.margins_stand(), location.margins_stand()];
    if margins.contains(&false) {
        println!("the library stored outside what it was given");
        differs = true;
    }
    (!differs).then_some(answer)
}

fn show_answers(names: &str, first: Packed, second: Packed) -> bool {
    if first != second {
        println!("{names}: answers {:016x} and {:016x}", first.word, second.word);
        println!("{names}: where {:016x} and {:016x}", first.location, second.location);
    }
    first == second
}

/// The library's answer for a storage and keys of other content.
fn ask(question: &Question, storage: &[u8], keys: &[u8]) -> Packed {
    let Question { case, from, to } = question;
    let mut location = ffi::NOT_TOUCHED;
    let word = ffi::first_unbacked(&case.record, storage, keys, case.designation, *from, *to, &mut location);
    Packed { word, location }
}

/// The answer is the first page from A on and below B that the library lists as not valid; before 16 the list is turned
/// away like the question.
fn agrees_with_list(question: &Question, answer: Unbacked) -> bool {
    let Question { case, from, to } = question;
    let turned_away = matches!(answer, Unbacked::EntryFailed | Unbacked::Refused(1..=7));
    let pages = if turned_away { 0 } else { tables(question).pages() };
    let mut words = vec![0; pages as usize];
    let listed = ffi::list_pages(&case.record, &case.storage, &case.keys, case.designation, &mut words);
    let agrees = match answer {
        _ if turned_away => listed == ffi::pack_unbacked(answer).word,
        Unbacked::Refused(_) => listed >> 56 == ffi::GOOD as u64,
        _ => {
            let first = (*from..*to).find(|&page| words[page as usize] == NOT_VALID);
            first.map_or(Unbacked::None, Unbacked::Page) == answer
        }
    };
    if !agrees {
        println!("the list is otherwise: {listed:016x}");
    }
    agrees
}

/// Whether the library gives the same answer for a host with the same entries for the pages from A to the answer.
fn compare_hosts(rng: &mut Rng, question: &Question, answer: Unbacked) -> bool {
    let case = &question.case;
    let mut other = case.storage.clone();
    let mut keys = case.keys.clone();
    rng.fill(&mut other);
    rng.fill(&mut keys);
    for at in entries(question, answer) {
        other[at..at + 4].copy_from_slice(&case.storage[at..at + 4]);
    }
    show_answers("a second host, model", ask(question, &other, &keys), ffi::pack_unbacked(answer))
}

/// The entries, by address, of the pages that decide: those asked about, up to the one found.
fn entries(question: &Question, answer: Unbacked) -> BTreeSet<usize> {
    let last = match answer {
        Unbacked::Page(page) => page + 1,
        Unbacked::None => question.to,
        _ => return BTreeSet::new(),
    };
    let tables = tables(question);
    let segments = (question.from..last).filter_map(|page| tables.segment_entry(tables.host_page(page) >> 8));
    let pages = (question.from..last).filter_map(|page| tables.page_entry(page));
    segments.chain(pages).collect()
}

/// Adds the page found, with one of some frames. If that is done, the library finds a higher page or none.
fn add_found(rng: &mut Rng, question: &Question, page: u32) -> Option<&'static str> {
    let case = &question.case;
    let frames = (case.storage.len() / FRAME) as u32;
    for _ in 0..6 {
        let mut storage = case.storage.clone();
        let (frame, mut number) = (rng.below(frames), 0);
        let (keys, designation) = (&case.keys, case.designation);
        let done = ffi::add_page(&case.record, &mut storage, keys, designation, page, frame, &mut number);
        if done >> 56 != ffi::GOOD as u64 {
            continue;
        }
        let next = ask(question, &storage, keys);
        let name = match next.kind() {
            ffi::GOOD if next.location > page as u64 => THEN_HIGHER,
            ffi::NONE => THEN_NONE,
            _ => {
                println!("added page {page}, then {:016x}, where {:016x}", next.word, next.location);
                return None;
            }
        };
        let Question { case, from, to } = question;
        let after = desk::first_unbacked(&case.record, &storage, keys, designation, *from, *to);
        return show_answers("after adding, library, model", next, ffi::pack_unbacked(after)).then_some(name);
    }
    Some(NOT_ADDED)
}

// ---------------------------------------------------------------------------------------------------------------
// What occurred.

const THEN_HIGHER: &str = "found and added, then a higher page";
const THEN_NONE: &str = "found and added, then none";
const NOT_ADDED: &str = "found and not added";

fn tables(question: &Question) -> Tables<'_> {
    let case = &question.case;
    Tables { record: &case.record, storage: &case.storage, designation: case.designation }
}

/// What the case is an example of.
fn names(question: &Question, answer: Unbacked) -> Vec<String> {
    let (name, more) = match answer {
        Unbacked::Refused(16) => ("refusal 16".to_string(), vec![refused_pages(question).to_string()]),
        Unbacked::Refused(number) => (format!("refusal {number:02}"), also(question, number)),
        Unbacked::EntryFailed => ("code 32".to_string(), also(question, 32)),
        Unbacked::Page(page) => {
            let way = format!("{}, {}", why_unbacked(tables(question), page), position(question, page));
            ("found".to_string(), [vec![way], found_where(question, page), circumstances(question, page + 1)].concat())
        }
        Unbacked::None => ("none".to_string(), [none_where(question), circumstances(question, question.to)].concat()),
    };
    let more: Vec<String> = more.into_iter().map(|more| format!("{name}, {more}")).collect();
    [vec![name], more].concat()
}

/// The tests in their order. Code 32 is an entry that fails.
const ORDER: [u8; 7] = [1, 2, 3, 4, 7, 32, 16];

/// Which later tests fail too, where the record has one of the lengths.
fn also(question: &Question, number: u8) -> Vec<String> {
    let Question { case, from, to } = question;
    let record = &case.record;
    if ![200, 208].contains(&record.len()) {
        return Vec::new();
    }
    let fails = |test: u8| match test {
        2 => record[2] != if record.len() == 208 { 2 } else { 1 },
        3 => model::refuse_storage(case.storage.len(), case.keys.len()) == Some(3),
        4 => case.keys.len() != case.storage.len() / FRAME,
        7 => model::refuse_reserved(record).is_some(),
        32 => !model::entry_is_good(record),
        _ => from > to || *to > tables(question).pages(),
    };
    let later = ORDER.into_iter().skip_while(|&test| test != number).skip(1);
    later.filter(|&test| fails(test)).map(|test| format!("and {test}")).collect()
}

/// The sorts of pages refused with 16.
const REFUSED_PAGES: [&str; 6] = [
    "A above B by one",
    "A above B",
    "B one past the extent",
    "B past the extent",
    "A equals B, past the extent",
    "A above B, B past the extent",
];

fn refused_pages(question: &Question) -> &'static str {
    let Question { from, to, .. } = *question;
    let pages = tables(question).pages();
    let sort = match to > pages {
        false if from - to == 1 => 0,
        false => 1,
        true if from > to => 5,
        true if from == to => 4,
        true if to - pages == 1 => 2,
        true => 3,
    };
    REFUSED_PAGES[sort]
}

/// Why a page in reach is not valid.
const IN_REACH: [&str; 5] = ["invalid", "bit 0", "bit 20", "bit 23", "invalid and malformed"];

fn why_unbacked(tables: Tables, page: u32) -> &'static str {
    if let Some(reason) = report::out_of_reach(tables, page) {
        return reason;
    }
    let entry = model::word(tables.storage, tables.page_entry(page).expect("in reach"));
    match entry & 0x8000_0D00 {
        0x400 => IN_REACH[0],
        0x8000_0000 => IN_REACH[1],
        0x800 => IN_REACH[2],
        0x100 => IN_REACH[3],
        several if several & 0x400 != 0 => IN_REACH[4],
        _ => "malformed",
    }
}

/// Where the page found stands among those asked about.
const POSITIONS: [&str; 3] = ["first page", "first segment", "later segment"];

fn position(question: &Question, page: u32) -> &'static str {
    let segment = |page| tables(question).host_page(page) >> 8;
    match page {
        _ if page == question.from => POSITIONS[0],
        _ if segment(page) == segment(question.from) => POSITIONS[1],
        _ => POSITIONS[2],
    }
}

const FIRST_OF_EXTENT: &str = "page 0";
const LAST_OF_EXTENT: &str = "last page of the extent";
const LAST_ASKED: &str = "last page asked about";
const FIRST_OF_SEGMENT: &str = "first page of a later segment";
const LAST_OF_SEGMENT: &str = "last page of a segment";
const IN_BAD_SEGMENT: &str = "first page asked about, within a bad segment";
const ONLY: &str = "the only page not backed";
const BELOW_A: &str = "not all backed below A";
const AT_B: &str = "page B not backed";

/// The names that hold.
fn told(list: &[(&str, bool)]) -> Vec<String> {
    list.iter().filter(|(_, holds)| *holds).map(|(name, _)| name.to_string()).collect()
}

fn found_where(question: &Question, page: u32) -> Vec<String> {
    let tables = tables(question);
    let index = tables.host_page(page) & 0xFF;
    told(&[
        (FIRST_OF_EXTENT, page == 0),
        (LAST_OF_EXTENT, page == tables.pages() - 1),
        (LAST_ASKED, page == question.to - 1),
        (FIRST_OF_SEGMENT, index == 0 && page != question.from),
        (LAST_OF_SEGMENT, index == 255),
        (IN_BAD_SEGMENT, index != 0 && page != 0 && page == question.from && bad_segment(tables, page)),
        (ONLY, desk::survey(tables, 0, tables.pages()) == [page]),
        (BELOW_A, !desk::survey(tables, 0, question.from).is_empty()),
    ])
}

/// Whether no page of the page's segment is in reach.
fn bad_segment(tables: Tables, page: u32) -> bool {
    report::out_of_reach(tables, page).is_some_and(|reason| report::OUT_OF_REACH[..4].contains(&reason))
}

const EQUAL_AT_0: &str = "A equals B, 0";
const EQUAL_AT_END: &str = "A equals B, the number of pages";
const EQUAL_AT_UNBACKED: &str = "A equals B, page not backed";
const EQUAL_ELSEWHERE: &str = "A equals B, page backed";
const WHOLE: &str = "all pages, several segments";
const WHOLE_OF_ONE: &str = "all pages, one segment";

fn none_where(question: &Question) -> Vec<String> {
    let Question { from, to, .. } = *question;
    let tables = tables(question);
    let pages = tables.pages();
    let (equal, end) = (from == to, to == pages);
    let unbacked = !end && !tables.is_valid(to);
    let several = tables.segments().count() > 1;
    let whole = from == 0 && end;
    told(&[
        (EQUAL_AT_0, equal && to == 0),
        (EQUAL_AT_END, equal && end),
        (EQUAL_AT_UNBACKED, equal && unbacked),
        (EQUAL_ELSEWHERE, equal && !end && !unbacked),
        (WHOLE, whole && several),
        (WHOLE_OF_ONE, whole && !several),
        (AT_B, !equal && unbacked),
        (BELOW_A, !equal && !desk::survey(tables, 0, from).is_empty()),
    ])
}

const LARGER_RECORD: &str = "record of 208 bytes";
const SMALLER_RECORD: &str = "record of 200 bytes";
const BEGINS_WITHIN: &str = "extent begins within a segment";
const ENDS_WITHIN: &str = "extent ends within a segment";
const PAST_STORAGE: &str = "a frame past the storage";
const IN_GUEST_FRAME: &str = "an entry lies in a guest frame";
const SERVES_TWO: &str = "an entry serves two pages";
const SERVES_SEGMENT: &str = "an entry is a segment entry";
const AT_END: &str = "an entry at the end of the storage";

const CIRCUMSTANCES: [&str; 9] = [
    LARGER_RECORD,
    SMALLER_RECORD,
    BEGINS_WITHIN,
    ENDS_WITHIN,
    PAST_STORAGE,
    IN_GUEST_FRAME,
    SERVES_TWO,
    SERVES_SEGMENT,
    AT_END,
];

/// What is worth a look in the pages that decide, those below the last.
fn circumstances(question: &Question, last: u32) -> Vec<String> {
    let tables = tables(question);
    let frames = (tables.storage.len() / FRAME) as u32;
    let mut pages = question.from..last;
    let entries: Vec<usize> = pages.clone().filter_map(|page| tables.page_entry(page)).collect();
    let different: BTreeSet<usize> = entries.iter().copied().collect();
    let segments: BTreeSet<usize> = tables.segments().filter_map(|segment| tables.segment_entry(segment)).collect();
    let (first, end) = (tables.host_page(0), tables.host_page(tables.pages() - 1) + 1);
    told(&[
        (LARGER_RECORD, tables.record.len() == 208),
        (SMALLER_RECORD, tables.record.len() == 200),
        (BEGINS_WITHIN, first & 0xFF != 0),
        (ENDS_WITHIN, end & 0xFF != 0),
        (PAST_STORAGE, pages.any(|page| tables.frame_of(page).is_some_and(|frame| frame >= frames))),
        (IN_GUEST_FRAME, desk::entry_in_guest_frame(tables)),
        (SERVES_TWO, different.len() < entries.len()),
        (SERVES_SEGMENT, !segments.is_disjoint(&different)),
        (AT_END, different.last() == Some(&(tables.storage.len() - 4))),
    ])
}

/// The names that must occur once in 2,000 cases, where there are 20,000 at least.
fn owed() -> Vec<String> {
    let mut owed = Vec::new();
    let mut owe = |first: &str, list: &[&str]| owed.extend(list.iter().map(|name| format!("{first}, {name}")));
    for reason in &report::OUT_OF_REACH[..4] {
        owe(&format!("found, {reason}"), &[POSITIONS[0], POSITIONS[2]]);
    }
    for reason in report::OUT_OF_REACH[4..].iter().chain(&IN_REACH) {
        owe(&format!("found, {reason}"), &POSITIONS);
    }
    owe("found", &[FIRST_OF_EXTENT, LAST_OF_EXTENT, LAST_ASKED, FIRST_OF_SEGMENT, LAST_OF_SEGMENT]);
    owe("found", &[IN_BAD_SEGMENT, ONLY, BELOW_A]);
    owe("none", &[EQUAL_AT_0, EQUAL_AT_END, EQUAL_AT_UNBACKED, EQUAL_ELSEWHERE]);
    owe("none", &[WHOLE, WHOLE_OF_ONE, BELOW_A, AT_B]);
    owe("found", &CIRCUMSTANCES);
    owe("none", &CIRCUMSTANCES);
    owe("refusal 16", &REFUSED_PAGES);
    for (first, &test) in ORDER.iter().enumerate() {
        let name = if test == 32 { "code 32".to_string() } else { format!("refusal {test:02}") };
        let later: Vec<String> = ORDER[first + 1..].iter().map(|test| format!("and {test}")).collect();
        owe(&name, &later.iter().map(String::as_str).collect::<Vec<_>>());
    }
    owed.extend([THEN_HIGHER, THEN_NONE, NOT_ADDED].map(str::to_string));
    owed
}
