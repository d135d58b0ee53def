//! Request 4/12 of document 02: which page is found, when none is, each refusal and their order, worked by hand, by the
//! model and by the library.

mod host;

use drevokas_tests::desk::{self, Answer, Unbacked};
use drevokas_tests::ffi::{self, Packed};
use drevokas_tests::generate::Case;
use drevokas_tests::model;
use host::*;

/// The host's pages, and those of them that are not valid before page 8.
const ALL: u32 = 256;
const NOT_VALID: [u32; 4] = [4, 5, 6, 7];

/// The library's answer. It changes nothing.
fn gives(case: &Case, from: u32, to: u32) -> Packed {
    let lent = case.clone();
    let mut location = ffi::NOT_TOUCHED;
    let Case { record, storage, keys, designation, .. } = &lent;
    let word = ffi::first_unbacked(record, storage, keys, *designation, from, to, &mut location);
    assert!(lent.record == case.record && lent.storage == case.storage && lent.keys == case.keys);
    Packed { word, location }
}

/// Asks model and library.
fn answers(case: &Case, from: u32, to: u32, answer: Unbacked) {
    let Case { record, storage, keys, designation, .. } = case;
    let given = desk::first_unbacked(record, storage, keys, *designation, from, to);
    assert_eq!(given, answer, "from {from} to {to}");
    assert_eq!(gives(case, from, to), ffi::pack_unbacked(answer), "from {from} to {to}");
}

fn finds(case: &Case, from: u32, to: u32, page: u32) {
    answers(case, from, to, Unbacked::Page(page));
}

fn finds_none(case: &Case, from: u32, to: u32) {
    answers(case, from, to, Unbacked::None);
}

fn refuses(case: &Case, from: u32, to: u32, number: u8) {
    answers(case, from, to, Unbacked::Refused(number));
}

fn with_valid(case: &Case, places: std::ops::Range<usize>) -> Case {
    let entries: Vec<(usize, u32)> = places.step_by(4).map(|at| (at, 0x9000)).collect();
    with(case, &entries)
}

/// The host with every page valid; entries of its page tables for pages outside the extent are not.
fn backed() -> Case {
    with_valid(&host(), entry_at(0)..entry_at(ALL))
}

// ---------------------------------------------------------------------------------------------------------------
// The answers.

#[test]
fn answers_as_numbers() {
    let packed = |word, location| Packed { word, location };
    assert_eq!(gives(&host(), 0, ALL), packed(0x0500_0000_0000_0000, 4));
    assert_eq!(gives(&host(), 130, ALL), packed(0x0500_0000_0000_0000, 130));
    assert_eq!(gives(&with_pages(&host(), &[(0, 0x400)]), 0, ALL), packed(0x0500_0000_0000_0000, 0));
    assert_eq!(gives(&host(), 0, 4), packed(0x0600_0000_0000_0000, 0));
    assert_eq!(gives(&host(), 1, 0), packed(0x0010_0000_0000_0000, ffi::NOT_TOUCHED));
    let bad = after(host(), |case| case.record[2] = 2);
    assert_eq!(gives(&bad, 0, ALL), packed(0x0002_0000_0000_0000, ffi::NOT_TOUCHED));
    let bad = after(host(), |case| case.record[4] = 0x0A);
    assert_eq!(gives(&bad, 0, ALL), packed(0x0120_0000_0000_0000, 0));
}

#[test]
fn the_lowest_from_a_up_to_but_not_including_b() {
    for case in [host(), larger(&host())] {
        finds(&case, 0, ALL, 4);
        finds(&case, 0, 5, 4);
        finds(&case, 4, 5, 4);
        finds_none(&case, 0, 4);
        finds_none(&case, 1, 4);
        finds_none(&case, 3, 4);
        for page in NOT_VALID {
            finds(&case, page, ALL, page);
            finds(&case, page, page + 1, page);
        }
        finds(&case, 127, ALL, 127);
        finds_none(&case, 128, 129);
        finds(&case, 128, 130, 129);
        finds(&case, 128, ALL, 129);
        finds(&case, 254, ALL, 254);
        finds_none(&case, 255, ALL);
    }
}

#[test]
fn one_page_is_missing() {
    finds_none(&backed(), 0, ALL);
    for page in 0..ALL {
        let case = with_pages(&backed(), &[(page as usize, 0x9400)]);
        finds(&case, 0, ALL, page);
        finds(&case, page, ALL, page);
        finds(&case, 0, page + 1, page);
        finds(&case, page, page + 1, page);
        finds_none(&case, 0, page);
        finds_none(&case, page + 1, ALL);
    }
}

#[test]
fn a_equals_b() {
    let far = with_designation(&host(), 0x0001_0000);
    for case in [host(), larger(&host()), backed(), far] {
        for page in 0..=ALL {
            finds_none(&case, page, page);
        }
        refuses(&case, ALL + 1, ALL + 1, 16);
    }
}

// ---------------------------------------------------------------------------------------------------------------
// "has no valid host entry"

#[test]
fn entries_that_are_not_valid() {
    for entry in [0x400, 0x9400, 0x9600, 0x8000_9000, 0x9800, 0x9100, 0x8000_9400, 0x9C00, 0x9500, 0xFFFF_FFFF] {
        for page in [0, 77, 127, 128, 255] {
            finds(&with_pages(&backed(), &[(page as usize, entry)]), 0, ALL, page);
        }
    }
}

#[test]
fn entries_that_are_valid() {
    // Frame 0, bits that are ignored, protected; the last frame and frames past the storage.
    for entry in [0, 0x90FF, 0x9200, 0x92FF, 0xF000, 0x0001_0000, 0x0100_0000, 0x4000_0000, 0x7FFF_F2FF] {
        for page in [0, 77, 127, 128, 255] {
            finds_none(&with_pages(&backed(), &[(page, entry)]), 0, ALL);
        }
    }
}

#[test]
fn an_invalid_or_malformed_segment_entry() {
    for flags in [0x20, 0x8000_0000, 0x8000_0020] {
        let second = with(&backed(), &[(SEGMENT_1, 0x240F | flags)]);
        finds_none(&second, 0, 128);
        finds(&second, 0, 129, 128);
        finds(&second, 0, ALL, 128);
        finds(&second, 127, ALL, 128);
        let first = with(&backed(), &[(SEGMENT_0, 0x200F | flags)]);
        finds_none(&first, 128, ALL);
        finds(&first, 0, ALL, 0);
        // "answers an invalid segment's first asked page"
        for page in [1, 15, 16, 127] {
            finds(&first, page, ALL, page);
            finds(&first, page, page + 1, page);
            finds(&second, 128 + page, ALL, 128 + page);
        }
        finds_none(&first, 127, 127);
    }
    // Bit 27 is ignored.
    finds_none(&with(&backed(), &[(SEGMENT_0, 0x201F), (SEGMENT_1, 0x241F)]), 0, ALL);
}

#[test]
fn a_page_table_that_is_short() {
    // Page 16 is page 144 of its segment.
    let case = with(&backed(), &[(SEGMENT_0, 0x2008)]);
    finds_none(&case, 0, 16);
    finds(&case, 0, ALL, 16);
    finds(&case, 15, 17, 16);
    finds(&case, 100, ALL, 100);
    finds_none(&case, 128, ALL);
    finds(&with(&backed(), &[(SEGMENT_0, 0x2007)]), 0, ALL, 0);
    // Page 240 is page 112 of its segment.
    finds_none(&with(&backed(), &[(SEGMENT_1, 0x2407)]), 0, ALL);
    finds(&with(&backed(), &[(SEGMENT_1, 0x2406)]), 0, ALL, 240);
    finds_none(&with(&backed(), &[(SEGMENT_1, 0x2406)]), 0, 240);
    finds(&with(&backed(), &[(SEGMENT_1, 0x2400)]), 0, ALL, 144);
}

#[test]
fn a_page_table_at_the_end_of_the_storage() {
    // The 128 entries of segment 1 are the last of the storage.
    let whole = with_valid(&with(&backed(), &[(SEGMENT_1, 0xFE0F)]), 0xFE00..0x0001_0000);
    finds_none(&whole, 0, ALL);
    finds(&with(&whole, &[(0xFFFC, 0x400)]), 0, ALL, 255);
    // The first sixteen are.
    let cut = with_valid(&with(&backed(), &[(SEGMENT_1, 0xFFCF)]), 0xFFC0..0x0001_0000);
    finds_none(&cut, 0, 144);
    finds(&cut, 0, ALL, 144);
    finds(&cut, 145, ALL, 145);
    // None is.
    for entry in [0x0001_000F, 0x0100_000F, 0x7FFF_FFCF] {
        let case = with(&backed(), &[(SEGMENT_1, entry)]);
        finds_none(&case, 0, 128);
        finds(&case, 0, ALL, 128);
        finds(&case, 255, ALL, 255);
    }
}

#[test]
fn a_segment_entry_out_of_reach() {
    // Host segments 15 and 16: a length of 0 ends between them.
    let case = with(&with_extent(&backed(), 248, 16), &[(0x103C, 0x200F), (0x1040, 0x240F)]);
    finds_none(&case, 0, 128);
    finds(&case, 0, ALL, 128);
    finds(&case, 200, ALL, 200);
    finds_none(&with_designation(&case, 0x1001), 0, ALL);
    // Host segments 1023 and 1024 with a table in the last frame: the second's entry is past the storage.
    let case = with(&with_extent(&backed(), 16_376, 16), &[(0xFFFC, 0x200F)]);
    let case = with_designation(&case, 0xF07F);
    finds_none(&case, 0, 128);
    finds(&case, 0, ALL, 128);
    finds(&case, 129, 131, 129);
    // A table that starts past the storage.
    for designation in [0x0001_0000, 0x0001_007F, 0x7FFF_F07F] {
        let far = with_designation(&backed(), designation);
        for page in [0, 1, 127, 128, 255] {
            finds(&far, page, ALL, page);
        }
    }
    // Bits 0 and 20-24 of the designation are ignored.
    finds_none(&with_designation(&backed(), 0x8000_1F80), 0, ALL);
}

// ---------------------------------------------------------------------------------------------------------------
// Extents.

#[test]
fn extents_within_segments() {
    // Host pages 240 to 271: page 16 is the first of segment 1.
    let two = with_valid(&with_extent(&host(), 15, 2), 0x23C0..0x2440);
    finds_none(&two, 0, 32);
    finds(&with(&two, &[(0x23FC, 0x400)]), 0, 32, 15);
    finds(&with(&two, &[(0x2400, 0x400)]), 0, 32, 16);
    finds(&with(&two, &[(0x243C, 0x400)]), 0, 32, 31);
    refuses(&two, 0, 33, 16);
    // Within one segment: host pages 144 to 159.
    let one = with_valid(&with_invalid(&with_extent(&host(), 9, 1), 0x2000..0x2800), 0x2240..0x2280);
    finds_none(&one, 0, 16);
    finds(&with(&one, &[(0x227C, 0x400)]), 3, 16, 15);
    // The whole of segments 0 and 1.
    let whole = with_valid(&with_extent(&host(), 0, 32), 0x2000..0x2800);
    finds_none(&whole, 0, 512);
    finds(&with(&whole, &[(0x2000, 0x400)]), 0, 512, 0);
    finds(&with(&whole, &[(0x27FC, 0x400)]), 0, 512, 511);
    refuses(&whole, 0, 513, 16);
}

#[test]
fn the_greatest_extent() {
    // Segments 0 to 2046 have the page table at 4000 hex, the last that at 4400 hex.
    let mut case = with_valid(&with_extent(&host(), 0, 32_768), 0x4000..0x4800);
    for segment in 0..2047 {
        model::set_word(&mut case.storage, SEGMENT_0 + 4 * segment, 0x400F);
    }
    let case = with(&with_designation(&case, 0x107F), &[(0x2FFC, 0x440F)]);
    finds_none(&case, 0, 524_288);
    finds_none(&case, 524_288, 524_288);
    refuses(&case, 0, 524_289, 16);
    refuses(&case, 524_288, 524_287, 16);
    let last = with(&case, &[(0x47FC, 0x400)]);
    finds(&last, 0, 524_288, 524_287);
    finds_none(&last, 0, 524_287);
    finds(&with(&case, &[(0x2FFC, 0x442F)]), 1000, 524_288, 524_032);
    finds(&with_designation(&case, 0x107E), 1000, 524_288, 520_192);
    // Every segment but the last.
    let shared = with(&case, &[(0x4014, 0x400)]);
    finds(&shared, 0, 524_288, 5);
    finds(&shared, 6, 524_288, 261);
    finds(&shared, 523_600, 524_288, 523_781);
    finds_none(&shared, 523_782, 524_288);
}

// ---------------------------------------------------------------------------------------------------------------
// What does not matter.

#[test]
fn what_plays_no_part() {
    let missing = |page| (with_pages(&backed(), &[(page as usize, 0x400)]), Unbacked::Page(page));
    for (case, answer) in [(backed(), Unbacked::None), missing(200), missing(0), missing(255)] {
        // Prefix, that of page 255, PSW, timers, registers and results; mode bits 0-3 and 7.
        let other = after(case.clone(), |case| {
            case.record[5..12].copy_from_slice(&[0xFF, 0xFF, 0xFF, 0x80, 0x0F, 0xFF, 0xFF]);
            case.record[16..66].fill(0xFF);
            case.record[72..].fill(0xFF);
            case.record[3] = 0xFF;
            case.record[4] = 0xF9;
            case.keys.fill(0xFF);
        });
        answers(&other, 0, ALL, answer);
        // Pages outside the extent, valid.
        let other = with_valid(&with_valid(&case, 0x2000..0x2200), 0x2600..0x2800);
        answers(&other, 0, ALL, answer);
        // Entries in guest frames: the segment table's, the page tables'.
        for frame in [0x1000, 0x2000] {
            answers(&with_pages(&case, &[(2, frame), (128, frame)]), 0, ALL, answer);
        }
    }
}

#[test]
fn tables_that_are_shared() {
    // Both segments have the table at 2000 hex: pages 0 to 127 its second half, pages 128 to 255 its first.
    let shared = with_valid(&with(&host(), &[(SEGMENT_1, 0x200F)]), 0x2000..0x2400);
    finds_none(&shared, 0, ALL);
    finds(&with(&shared, &[(0x2014, 0x400)]), 0, ALL, 133);
    // A block more: pages 0 to 15 and 256 to 271 share their entries.
    let more = with(&with_extent(&shared, 8, 17), &[(0x2214, 0x400)]);
    finds(&more, 0, 272, 5);
    finds(&more, 6, 272, 261);
    finds_none(&more, 6, 261);
    finds_none(&more, 262, 272);
}

#[test]
fn a_page_table_over_the_segment_table() {
    // Page 144 has segment 0's entry, which is valid as a page's, page 145 segment 1's, which is malformed as a page's.
    let case = with_valid(&backed(), 0xFC0..0x11C0);
    let case = with(&case, &[(SEGMENT_0, 0x200F), (SEGMENT_1, 0x0FCF)]);
    finds_none(&case, 0, 145);
    finds(&case, 0, ALL, 145);
    finds_none(&case, 146, ALL);
    // Segment 0's entry is invalid, and valid as a page's.
    let case = with(&case, &[(SEGMENT_0, 0x202F)]);
    finds(&case, 0, ALL, 0);
    finds(&case, 128, ALL, 145);
}

// ---------------------------------------------------------------------------------------------------------------
// Refusals.

#[test]
fn refusal_16() {
    for case in [host(), larger(&host()), backed(), with_designation(&host(), 0x0001_0000)] {
        // A above B.
        for (from, to) in [(1, 0), (5, 4), (4, 3), (256, 255), (257, 256), (256, 0), (0x0001_0000, 4)] {
            refuses(&case, from, to, 16);
        }
        for from in [0x8000_0000, u32::MAX] {
            refuses(&case, from, 0, 16);
            refuses(&case, from, ALL, 16);
        }
        // B past the extent, so also where A is a page not valid, or the end.
        for to in [257, 258, 512, 0x0001_0000, 0x0001_0100, 0x0010_0000, 0x8000_0000, 0x8000_0100, u32::MAX] {
            for from in [0, 4, 255, 256, 257, to - 1, to] {
                refuses(&case, from, to, 16);
            }
        }
        // Both.
        refuses(&case, 258, 257, 16);
        refuses(&case, u32::MAX, u32::MAX - 1, 16);
    }
}

/// Pages that are found, none, A equal to B, and two sorts that are refused.
const QUESTIONS: [(u32, u32); 5] = [(0, ALL), (0, 4), (4, 4), (1, 0), (0, ALL + 1)];

#[test]
fn refusals_of_record_storage_and_keys() {
    for (number, case) in bad_records().into_iter().chain(bad_storages()) {
        for (from, to) in QUESTIONS {
            refuses(&case, from, to, number);
        }
    }
    let good = after(larger(&host()), |case| model::set_word(&mut case.record, 204, 40_959_999));
    finds(&good, 0, ALL, 4);
}

#[test]
fn entries_that_fail() {
    for case in failing_entries() {
        for (from, to) in QUESTIONS {
            answers(&case, from, to, Unbacked::EntryFailed);
        }
    }
}

#[test]
fn the_order_of_the_refusals() {
    for (answer, case) in faults_in_order(&host()) {
        let owed = match answer {
            Answer::Refused(number) => Unbacked::Refused(number),
            _ => Unbacked::EntryFailed,
        };
        for (from, to) in QUESTIONS {
            answers(&case, from, to, owed);
        }
    }
    refuses(&host(), 1, 0, 16);
    refuses(&host(), 0, ALL + 1, 16);
}

// ---------------------------------------------------------------------------------------------------------------
// Asked again and again.

#[test]
fn every_page_is_added_until_none_is_found() {
    let mut case = host();
    let owed: Vec<u32> = (4..128).chain(129..255).collect();
    for page in owed {
        finds(&case, 0, ALL, page);
        let Case { record, storage, keys, designation, .. } = &mut case;
        let given = ffi::add_page(record, storage, keys, *designation, page, 9, &mut 0);
        assert_eq!(given, ffi::pack_desk(Answer::Done(0)));
    }
    finds_none(&case, 0, ALL);
}
