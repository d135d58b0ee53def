//! Request 3/12 of document 02: each refusal, their order, each part of refusal 14 and what each call writes, worked by
//! hand, by the model and by the library.

mod both;
mod host;

use both::runs;
use drevokas_tests::desk::{self, Answer, Call, Conflict, NOT_VALID};
use drevokas_tests::generate::Case;
use drevokas_tests::model::{self, Stage, Table};
use drevokas_tests::{ffi, report};
use host::*;

/// Pages 0, 1, 2, 3, 128 and 255 are valid.
const VALID: u32 = 6;

/// A free page, and a free frame.
const PAGE: u32 = 4;
const FRAME: u32 = 9;

const ALL: [Call; 4] = [ADD, REMOVE, PROTECT, Call::List];
const CHANGES: [Call; 3] = [ADD, REMOVE, PROTECT];
const ADD: Call = Call::Add { page: PAGE, frame: FRAME };
const REMOVE: Call = Call::Remove { page: 0 };
const PROTECT: Call = Call::Protect { page: 0 };

/// What a call leaves.
#[derive(PartialEq, Debug)]
struct Left {
    storage: Vec<u8>,
    number: u32,
    words: Vec<u32>,
}

const WORD: u32 = 0x5A5A_1234;

/// Calls model and library, which agree. The workspace is filled with WORD.
fn calls(case: &Case, call: Call, number: u32, words: usize) -> (Answer, Conflict, Left) {
    let start = || Left { storage: case.storage.clone(), number, words: vec![WORD; words] };
    let mut left = start();
    let Left { storage, number, words } = &mut left;
    let outcome = desk::call(&case.record, storage, &case.keys, case.designation, call, number, words);
    let mut other = start();
    let Left { storage, number, words } = &mut other;
    let given = ffi::desk_call(&case.record, storage, &case.keys, case.designation, call, number, words);
    assert_eq!(given, ffi::pack_desk(outcome.answer), "{call:?}");
    assert!(!report::show_difference("storage", &other.storage, &left.storage), "{call:?}");
    assert!(other == left, "{call:?}");
    (outcome.answer, outcome.conflict, left)
}

/// The call is done and leaves the entry at the address, and nothing else; answers the host after it.
fn writes(case: &Case, call: Call, at: usize, entry: u32) -> Case {
    let (answer, _, left) = calls(case, call, 100, 0);
    assert_eq!(answer, Answer::Done(0), "{call:?}");
    let after = with(case, &[(at, entry)]);
    assert!(!report::show_difference("storage", &left.storage, &after.storage), "{call:?}");
    let number = match call {
        Call::Add { .. } => 101,
        Call::Remove { .. } => 99,
        _ => 100,
    };
    assert_eq!(left.number, number);
    after
}

/// The call changes nothing.
fn answers(case: &Case, call: Call, answer: Answer) -> Conflict {
    let words = if call == Call::List { 255 } else { 0 };
    let (given, conflict, left) = calls(case, call, 100, words);
    assert_eq!(given, answer, "{call:?}");
    assert!(left == Left { storage: case.storage.clone(), number: 100, words: vec![WORD; words] }, "{call:?}");
    conflict
}

fn refuses(case: &Case, call: Call, number: u8) -> Conflict {
    answers(case, call, Answer::Refused(number))
}

/// Refused with 14, for these parts.
fn conflicts(case: &Case, call: Call, parts: Conflict) {
    assert_eq!(refuses(case, call, 14), parts, "{call:?}");
}

const IN_GUEST_FRAME: Conflict = Conflict { entry_in_guest_frame: true, second_page: false, segment_entry: false };
const SECOND_PAGE: Conflict = Conflict { entry_in_guest_frame: false, second_page: true, segment_entry: false };
const OF_SEGMENT: Conflict = Conflict { entry_in_guest_frame: false, second_page: false, segment_entry: true };

fn lists(case: &Case, words: usize, valid: u32) -> Vec<u32> {
    let (answer, _, left) = calls(case, Call::List, 100, words);
    assert_eq!(answer, Answer::Done(valid));
    assert!(left.storage == case.storage && left.number == 100);
    left.words
}

fn add(page: u32, frame: u32) -> Call {
    Call::Add { page, frame }
}

fn remove(page: u32) -> Call {
    Call::Remove { page }
}

fn protect(page: u32) -> Call {
    Call::Protect { page }
}

// ---------------------------------------------------------------------------------------------------------------
// What is written.

#[test]
fn adding_writes_the_frame_and_nothing_else() {
    for case in [host(), larger(&host())] {
        // An invalid entry, malformed ones, the last page but one; the first free frame, the last, one of another page.
        for page in [4, 5, 6, 7, 8, 127, 129, 254] {
            for frame in [0, 3, 4, 9, 15] {
                writes(&case, add(page, frame), entry_at(page), frame << 12);
            }
        }
    }
}

#[test]
fn removing_sets_bit_21_and_keeps_the_rest() {
    let entries = [(0, 0x4400), (1, 0x56FF), (2, 0x6400), (3, 0x0001_0400), (128, 0x7400), (255, 0x8400)];
    for (page, entry) in entries {
        let after = writes(&host(), remove(page), entry_at(page), entry);
        refuses(&after, remove(page), 12);
        writes(&after, add(page, 3), entry_at(page), 0x3000);
    }
}

#[test]
fn protecting_sets_bit_22_and_keeps_the_rest() {
    let entries = [(0, 0x4200), (1, 0x52FF), (2, 0x6200), (3, 0x0001_0200), (128, 0x7200), (255, 0x8200)];
    for (page, entry) in entries {
        let after = writes(&host(), protect(page), entry_at(page), entry);
        writes(&after, protect(page), entry_at(page), entry);
    }
}

#[test]
fn the_number_is_modulo_two_to_the_32() {
    for (call, number, left) in [
        (ADD, 0, 1),
        (ADD, u32::MAX - 1, u32::MAX),
        (ADD, u32::MAX, 0),
        (REMOVE, 1, 0),
        (REMOVE, 0, u32::MAX),
        (REMOVE, 0x8000_0000, 0x7FFF_FFFF),
        (PROTECT, 0, 0),
        (PROTECT, u32::MAX, u32::MAX),
        (Call::List, 0, 0),
        (Call::List, u32::MAX, u32::MAX),
    ] {
        assert_eq!(calls(&host(), call, number, 256).2.number, left);
    }
}

#[test]
fn the_list() {
    let mut owed = vec![NOT_VALID; 256];
    for (page, frame) in [(0, 4), (1, 5), (2, 6), (3, 16), (128, 7), (255, 8)] {
        owed[page] = frame;
    }
    for case in [host(), larger(&host())] {
        assert_eq!(lists(&case, 256, VALID), owed);
        for more in [1, 300] {
            let words = lists(&case, 256 + more, VALID);
            assert_eq!(words[..256], owed);
            assert!(words[256..].iter().all(|&word| word == WORD));
        }
        // Out of reach with an entry that would be valid.
        let short = with(&case, &[(SEGMENT_0, 0x2007), (SEGMENT_1, 0x2406)]);
        let mut none = vec![NOT_VALID; 256];
        none[128] = 7;
        assert_eq!(lists(&short, 256, 1), none);
        let invalid = with(&case, &[(SEGMENT_0, 0x202F), (SEGMENT_1, 0x8000_240F)]);
        assert_eq!(lists(&invalid, 256, 0), vec![NOT_VALID; 256]);
    }
    // The greatest frame number.
    let far = with_pages(&host(), &[(9, 0x7FFF_F0FF)]);
    assert_eq!(lists(&far, 256, VALID + 1)[9], 0x7_FFFF);
}

#[test]
fn what_plays_no_part() {
    let mut case = host();
    // Prefix, PSW, timers, registers and results; mode bits 0-3 and 7.
    case.record[5..12].copy_from_slice(&[0xFF, 0xFF, 0xFF, 0x80, 0x0F, 0xFF, 0xFF]);
    case.record[16..66].fill(0xFF);
    case.record[72..].fill(0xFF);
    case.record[3] = 0xFF;
    case.record[4] = 0xF9;
    // Bits of the designation, of a segment entry and of the host's other pages.
    case.designation |= 0x8000_0F80;
    case = with(&case, &[(SEGMENT_0, 0x201F), (0x2000, 0x2000), (0x21FC, 0x1000), (0x2600, 0x2000)]);
    writes(&case, ADD, entry_at(PAGE), FRAME << 12);
    writes(&case, REMOVE, entry_at(0), 0x4400);
    writes(&case, PROTECT, entry_at(0), 0x4200);
    assert_eq!(lists(&case, 256, VALID)[128], 7);
}

// ---------------------------------------------------------------------------------------------------------------
// Refusals that all calls have.

#[test]
fn refusals_of_the_record() {
    for (number, case) in bad_records() {
        for call in ALL {
            refuses(&case, call, number);
        }
    }
    let good = after(larger(&host()), |case| model::set_word(&mut case.record, 204, 40_959_999));
    writes(&good, ADD, entry_at(PAGE), FRAME << 12);
}

#[test]
fn refusals_of_storage_and_keys() {
    for (number, case) in bad_storages() {
        for call in ALL {
            refuses(&case, call, number);
        }
    }
}

#[test]
fn entries_that_fail() {
    for case in failing_entries() {
        for call in ALL {
            answers(&case, call, Answer::EntryFailed);
        }
    }
}

#[test]
fn the_order_of_the_refusals() {
    // Page 2 is in the frame of the page tables, so 14 would apply to all changes.
    let bad = with_pages(&host(), &[(2, 0x2000)]);
    let calls = [
        (add(256, 16), 10),
        (add(0, 16), 11),
        (add(4, 16), 13),
        (add(4, 9), 14),
        (remove(256), 10),
        (remove(4), 12),
        (remove(0), 14),
        (protect(256), 10),
        (protect(4), 12),
        (protect(0), 14),
        (Call::List, 15),
    ];
    for (call, last) in calls {
        for (answer, case) in faults_in_order(&bad) {
            answers(&case, call, answer);
        }
        refuses(&bad, call, last);
    }
}

// ---------------------------------------------------------------------------------------------------------------
// Refusals 10 to 13 and 15.

#[test]
fn pages_outside_the_extent() {
    for page in [256, 257, 383, 0x1000, 0x0008_0000, 0x0010_0000, 0x8000_0000, u32::MAX, u32::MAX - 127] {
        for call in [add(page, FRAME), remove(page), protect(page)] {
            refuses(&host(), call, 10);
        }
    }
}

/// The page is refused with 10, whatever stands where its entry would be.
fn out_of_reach(case: &Case, page: u32) {
    for entry in [0x4000, 0x400, 0x8000_0000] {
        let case = with_pages(case, &[(page as usize, entry)]);
        for call in [add(page, FRAME), add(page, 16), remove(page), protect(page)] {
            refuses(&case, call, 10);
        }
    }
}

#[test]
fn pages_out_of_reach() {
    // The segment entry: invalid, malformed, both.
    for flags in [0x20, 0x8000_0000, 0x8000_0020] {
        let case = with(&host(), &[(SEGMENT_1, 0x240F | flags)]);
        out_of_reach(&case, 128);
        out_of_reach(&case, 255);
        writes(&case, remove(2), entry_at(2), 0x6400);
    }
    // The length of a page table: page 16 is page 144 of its segment.
    let case = with(&host(), &[(SEGMENT_0, 0x2008)]);
    out_of_reach(&case, 16);
    out_of_reach(&case, 127);
    writes(&case, add(15, FRAME), entry_at(15), FRAME << 12);
    out_of_reach(&with(&host(), &[(SEGMENT_0, 0x2007)]), 0);
    // A page table across the end of the storage: of segment 1 the first 16 entries are there.
    let case = with(&host(), &[(SEGMENT_1, 0xFFCF), (0xFFFC, 0x400)]);
    writes(&case, add(143, FRAME), 0xFFFC, FRAME << 12);
    for call in [add(144, FRAME), remove(144), protect(144)] {
        refuses(&case, call, 10);
    }
    for table in [0x0001_000F, 0x7FFF_FFCF] {
        out_of_reach(&with(&host(), &[(SEGMENT_1, table)]), 128);
    }
}

#[test]
fn segment_entries_out_of_reach() {
    // Host segments 15 and 16: a length of 0 ends between them.
    let case = with(&with_extent(&host(), 248, 16), &[(0x103C, 0x200F), (0x1040, 0x240F)]);
    for call in [add(200, FRAME), remove(128), protect(128)] {
        refuses(&case, call, 10);
    }
    writes(&case, ADD, entry_at(PAGE), FRAME << 12);
    let longer = with_designation(&case, 0x1001);
    writes(&longer, add(200, FRAME), entry_at(200), FRAME << 12);
    writes(&longer, remove(128), entry_at(128), 0x7400);
    // Host segments 1023 and 1024 with a table in the last frame: the second's entry is past the storage.
    let case = with(&with_extent(&host(), 16_376, 16), &[(0xFFFC, 0x200F)]);
    let case = with_designation(&case, 0xF07F);
    writes(&case, protect(0), entry_at(0), 0x4200);
    for call in [add(128, FRAME), remove(255), protect(128)] {
        refuses(&case, call, 10);
    }
    // A table that starts past the storage.
    let far = with_designation(&host(), 0x0001_0000);
    for call in CHANGES {
        refuses(&far, call, 10);
    }
    assert_eq!(lists(&far, 256, 0), vec![NOT_VALID; 256]);
}

#[test]
fn the_last_segment() {
    let case = with(&with_extent(&host(), 32_767, 1), &[(0x2FFC, 0x300F)]);
    let case = with_designation(&case, 0x107F);
    // Host page 255 of segment 2047.
    let case = with(&case, &[(0x33FC, 0x4000)]);
    writes(&case, remove(15), 0x33FC, 0x4400);
    assert_eq!(lists(&case, 16, 16)[15], 4);
    refuses(&with_designation(&case, 0x107E), remove(15), 10);
}

#[test]
fn valid_and_not_valid() {
    for page in [0, 1, 2, 3, 128, 255] {
        refuses(&host(), add(page, FRAME), 11);
        // Before 13.
        refuses(&host(), add(page, 16), 11);
    }
    for page in [4, 5, 6, 7, 8, 254] {
        refuses(&host(), remove(page), 12);
        refuses(&host(), protect(page), 12);
    }
}

#[test]
fn frames_outside_the_storage() {
    // Frame numbers that would be good but for bits left of the entry's frame.
    for frame in [16, 17, 4096, 0x7_FFFF, 0x8_0000, 0x8_0009, 0xF_FFFF, 0x10_0009, 0x8000_0009, u32::MAX] {
        refuses(&host(), add(PAGE, frame), 13);
        refuses(&with_pages(&host(), &[(2, 0x2000)]), add(PAGE, frame), 13);
    }
    writes(&host(), add(PAGE, 15), entry_at(PAGE), 0xF000);
    // The greatest storage.
    let full = after(host(), |case| {
        case.storage.resize(4096 * 4096, 0);
        case.keys.resize(4096, 0);
    });
    writes(&full, add(PAGE, 4095), entry_at(PAGE), 0x00FF_F000);
    refuses(&full, add(PAGE, 4096), 13);
}

#[test]
fn workspaces_too_short() {
    for words in [0, 1, 255] {
        let (answer, _, left) = calls(&host(), Call::List, 100, words);
        assert_eq!(answer, Answer::Refused(15));
        assert!(left.words.iter().all(|&word| word == WORD));
    }
    // Where nothing is in reach, too.
    let far = with_designation(&host(), 0x0001_0000);
    refuses(&far, Call::List, 15);
}

// ---------------------------------------------------------------------------------------------------------------
// 14: "after the call an entry describing the extent would lie in a guest frame"

#[test]
fn adding_a_frame_with_entries() {
    for page in [4, 5, 254] {
        // The segment table, the page tables.
        conflicts(&host(), add(page, 1), IN_GUEST_FRAME);
        conflicts(&host(), add(page, 2), IN_GUEST_FRAME);
    }
    // Segment 0's table across frames 2 and 3: in frame 2 are entries of pages outside the extent alone.
    let across = with(&host(), &[(SEGMENT_0, 0x2E0F), (SEGMENT_1, 0x340F)]);
    let across = with_invalid(&across, 0x3000..0x3800);
    conflicts(&across, add(0, 3), IN_GUEST_FRAME);
    writes(&across, add(0, 2), 0x3000, 0x2000);
    // Of segment 1 sixteen entries are in reach: those past its length are no entries.
    let short = with(&host(), &[(SEGMENT_1, 0x3FC0)]);
    let short = with_invalid(&short, 0x3FC0..0x4000);
    conflicts(&short, add(PAGE, 3), IN_GUEST_FRAME);
    writes(&short, add(PAGE, 4), entry_at(PAGE), 0x4000);
    // Two blocks, the second's entries at the end of frame 4. Those in frame 5 are of pages past the extent.
    let two = with(&with_extent(&host(), 15, 2), &[(SEGMENT_1, 0x4FC1)]);
    let two = with_invalid(&two, 0x4FC0..0x5040);
    conflicts(&two, add(3, 4), IN_GUEST_FRAME);
    writes(&two, add(3, 5), entry_at(115), 0x5000);
}

#[test]
fn entries_that_are_not_valid_count() {
    // Segments 1023 and 1024: their entries are in frames 10 and 11. The second is invalid, or malformed.
    for entry in [0x242F, 0x8000_240F, 0xFFFF_FFFF] {
        let case = with(&with_extent(&host(), 16_376, 16), &[(0xAFFC, 0x200F), (0xB000, entry)]);
        let case = with_designation(&case, 0xA07F);
        conflicts(&case, add(PAGE, 10), IN_GUEST_FRAME);
        conflicts(&case, add(PAGE, 11), IN_GUEST_FRAME);
        writes(&case, add(PAGE, 12), entry_at(PAGE), 0xC000);
        // Over the length it is no entry.
        let short = with_designation(&case, 0xA03F);
        conflicts(&short, add(PAGE, 10), IN_GUEST_FRAME);
        writes(&short, add(PAGE, 11), entry_at(PAGE), 0xB000);
    }
    // Page entries behind such a segment entry are out of reach and no entries.
    for flags in [0x20, 0x8000_0000] {
        let case = with(&host(), &[(SEGMENT_1, 0x300F | flags)]);
        writes(&case, add(PAGE, 3), entry_at(PAGE), 0x3000);
    }
    let case = after(with(&host(), &[(SEGMENT_1, 0x300F)]), |case| case.storage[0x3000..0x3200].fill(0xFF));
    conflicts(&case, add(PAGE, 3), IN_GUEST_FRAME);
}

#[test]
fn tables_that_are_bad_already() {
    for frame in [0x1000, 0x2000] {
        let case = with_pages(&host(), &[(2, frame)]);
        conflicts(&case, ADD, IN_GUEST_FRAME);
        conflicts(&case, REMOVE, IN_GUEST_FRAME);
        conflicts(&case, PROTECT, IN_GUEST_FRAME);
        conflicts(&case, protect(2), IN_GUEST_FRAME);
        // The one that takes the page away.
        writes(&case, remove(2), entry_at(2), frame | 0x400);
        assert_eq!(lists(&case, 256, VALID)[2], frame >> 12);
        // Two such pages.
        let case = with_pages(&case, &[(128, 0x2000)]);
        conflicts(&case, remove(2), IN_GUEST_FRAME);
        conflicts(&case, remove(128), IN_GUEST_FRAME);
    }
    // Pages that are no guest's: outside the extent, invalid, malformed, out of reach, past the storage.
    let outside = with(&host(), &[(0x21FC, 0x2000), (0x2600, 0x2000)]);
    let not_valid = with_pages(&host(), &[(9, 0x2400), (10, 0x8000_2000), (11, 0x2800), (12, 0x2100)]);
    let far = with_pages(&host(), &[(9, 0x0001_2000), (10, 0x7000_2000)]);
    let over = with_pages(&with(&host(), &[(SEGMENT_1, 0x2400)]), &[(144, 0x2000)]);
    for case in [outside, not_valid, far, over] {
        for call in CHANGES {
            assert_eq!(calls(&case, call, 100, 0).0, Answer::Done(0));
        }
    }
}

// ---------------------------------------------------------------------------------------------------------------
// 14: "the chosen entry serves a second page of the extent"

/// Both segments have the table at 2000 hex.
fn shared() -> Case {
    with(&host(), &[(SEGMENT_1, 0x200F)])
}

#[test]
fn a_shared_page_table() {
    // The halves of the two segments have no entry in common: only pages outside the extent share one.
    writes(&shared(), ADD, entry_at(PAGE), FRAME << 12);
    writes(&shared(), REMOVE, entry_at(0), 0x4400);
    writes(&shared(), PROTECT, entry_at(0), 0x4200);
    // A block more: pages 0 to 15 and 256 to 271 share their entries.
    let case = with_extent(&shared(), 8, 17);
    for first in [0, 256] {
        conflicts(&case, add(first + 4, FRAME), SECOND_PAGE);
        conflicts(&case, add(first + 15, FRAME), SECOND_PAGE);
        conflicts(&case, remove(first), SECOND_PAGE);
        conflicts(&case, protect(first), SECOND_PAGE);
        conflicts(&case, protect(first + 1), SECOND_PAGE);
        refuses(&case, add(first, FRAME), 11);
        refuses(&case, remove(first + 4), 12);
    }
    writes(&case, add(16, FRAME), entry_at(16), FRAME << 12);
    // Of the second segment they are over the length.
    let case = with(&case, &[(SEGMENT_1, 0x2007)]);
    writes(&case, ADD, entry_at(PAGE), FRAME << 12);
    writes(&case, REMOVE, entry_at(0), 0x4400);
    refuses(&case, add(260, FRAME), 10);
    // Both conflicts at once.
    let case = with_extent(&shared(), 8, 17);
    let both = Conflict { entry_in_guest_frame: true, ..SECOND_PAGE };
    conflicts(&case, add(4, 1), both);
}

#[test]
fn overlapping_page_tables() {
    // Page 16 of segment 1, which is page 144 of the extent, has the entry of page 0.
    let case = with(&host(), &[(SEGMENT_1, 0x21CF)]);
    conflicts(&case, ADD, SECOND_PAGE);
    conflicts(&case, REMOVE, SECOND_PAGE);
    conflicts(&case, PROTECT, SECOND_PAGE);
    conflicts(&case, add(148, FRAME), SECOND_PAGE);
    conflicts(&case, remove(144), SECOND_PAGE);
    conflicts(&case, protect(144), SECOND_PAGE);
    // Page 111 has the entry of page 255; page 112 its own.
    conflicts(&case, add(111, FRAME), SECOND_PAGE);
    writes(&case, add(112, FRAME), entry_at(112), FRAME << 12);
    writes(&case, add(143, FRAME), 0x21FC, FRAME << 12);
}

// ---------------------------------------------------------------------------------------------------------------
// 14: "or as a segment entry describing it"

/// Segment 1's page table is at FC0 hex, over the segment table: page 144 has segment 0's entry, page 145 segment 1's.
/// Segment 0's entry is invalid, so its pages are out of reach; as a page's entry it names frame 10.
fn over_segments(flags: u32) -> Case {
    let case = with_invalid(&host(), 0xFC0..0x13C0);
    with(&case, &[(SEGMENT_0, 0xA020 | flags), (SEGMENT_1, 0x0FCF)])
}

#[test]
fn a_page_table_over_the_segment_table() {
    conflicts(&over_segments(0x400), add(144, FRAME), OF_SEGMENT);
    conflicts(&over_segments(0x100), add(144, FRAME), OF_SEGMENT);
    for flags in [0, 0x200] {
        conflicts(&over_segments(flags), remove(144), OF_SEGMENT);
        conflicts(&over_segments(flags), protect(144), OF_SEGMENT);
    }
    // Its own segment's entry.
    conflicts(&over_segments(0), add(145, FRAME), OF_SEGMENT);
    // Other pages of that table.
    writes(&over_segments(0), add(143, FRAME), 0xFFC, FRAME << 12);
    writes(&over_segments(0), add(146, FRAME), 0x1008, FRAME << 12);
    // A segment that the extent does not touch: page 16 of an extent that begins with segment 1.
    let case = with_extent(&over_segments(0x400), 16, 8);
    writes(&case, add(16, FRAME), SEGMENT_0, FRAME << 12);
    conflicts(&case, add(17, FRAME), OF_SEGMENT);
    let case = with_extent(&over_segments(0), 16, 8);
    writes(&case, remove(16), SEGMENT_0, 0xA420);
    writes(&case, protect(16), SEGMENT_0, 0xA220);
}

#[test]
fn all_three_parts() {
    // Segment 2 has the table of segment 1, and the extent all its pages.
    let case = with(&with_extent(&over_segments(0x400), 8, 40), &[(0x1008, 0x0FCF)]);
    let all = Conflict { entry_in_guest_frame: true, second_page: true, segment_entry: true };
    conflicts(&case, add(144, 1), all);
    let case = with(&case, &[(SEGMENT_0, 0xA020)]);
    let two = Conflict { entry_in_guest_frame: false, ..all };
    conflicts(&case, remove(144), two);
    conflicts(&case, protect(144), two);
}

// ---------------------------------------------------------------------------------------------------------------
// Calls and runs.

#[test]
fn a_page_is_added_protected_and_removed_between_runs() {
    // ST 0,100(1) at guest 0, with a register that points at page 4.
    let text = [0x50, 0x00, 0x10, 0x64];
    let mut case = after(host(), |case| {
        case.storage[0x4000..0x4004].copy_from_slice(&text);
        model::set_doubleword(&mut case.record, 16, 0x0008_0000_8000_0000);
        model::set_word(&mut case.record, 136, 0x1234_5678);
        model::set_word(&mut case.record, 140, 0x4000);
    });
    let faults = |case: &Case, code| {
        let table = if code == 0x11 { Table::read(Stage::HostPage, entry_at(4) as u32) } else { Table::NONE };
        runs(case, model::Answer::HostFault(code, 0x0008_4064, table), 0);
    };
    faults(&case, 0x11);
    case = writes(&case, add(4, 9), entry_at(4), 0x9000);
    let left = runs(&case, model::Answer::BudgetUsed, 1);
    assert_eq!(model::word(&left.storage, 0x9064), 0x1234_5678);
    lists(&left, 256, VALID + 1);
    case = writes(&case, protect(4), entry_at(4), 0x9200);
    faults(&case, 0x04);
    lists(&case, 256, VALID + 1);
    case = writes(&case, remove(4), entry_at(4), 0x9600);
    faults(&case, 0x11);
    lists(&case, 256, VALID);
}
