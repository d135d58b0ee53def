//! Request 5/12 of document 02, sentence by sentence, with values worked by hand, by the model and by the library.

mod both;

use both::{runs, translates};
use drevokas_tests::generate::Case;
use drevokas_tests::model::{self, Answer, Stage, Table};
use drevokas_tests::{ffi, report};
use std::collections::BTreeSet;

const PSW: usize = 16;
const EPOCH: usize = 40;
const CR0: usize = 72;
const GR: usize = 136;

/// Guest absolute 0 to 3FFF hex are host absolute 3000 to 6FFF hex; the other pages of the extent are not valid.
const HOST: usize = 0x3000;
const PAGE_TABLE: usize = 0x2000;

/// The readings go there: register 2 is 2000 hex.
const READINGS: usize = HOST + 0x2000;
const STCK_0: [u8; 4] = [0xB2, 0x05, 0x20, 0x00];
const STCK_8: [u8; 4] = [0xB2, 0x05, 0x20, 0x08];
const LR: [u8; 2] = [0x18, 0xCC];

/// The guest clock at the start: clock 1122334455667788 hex, epoch 10 hex.
const CLOCK: u64 = 0x1122_3344_5566_7788;
const START: u64 = 0x1122_3344_5566_7798;

#[derive(Clone, Copy, PartialEq, Eq, Debug)]
enum Kind {
    Xa,
    Ec,
    Bc,
}

const KINDS: [Kind; 3] = [Kind::Xa, Kind::Ec, Kind::Bc];

fn psw(kind: Kind, address: u64) -> u64 {
    address
        | match kind {
            Kind::Xa => 0x0008_0000_8000_0000,
            Kind::Ec => 0x0008_0000_0000_0000,
            Kind::Bc => 0,
        }
}

/// A guest with its text at 1000 hex, which goes on after an SVC at 1800 hex, after a program interruption at 1900 hex:
/// both are STCK 8(2). Origin 0, extent 1, prefix 0, time 1. Register 3 is 4000 hex, a page that the host lacks.
fn guest(kind: Kind, text: &[&[u8]]) -> Case {
    let mut storage = vec![0; 8 * 4096];
    model::set_word(&mut storage, 0x1000, 0x200F);
    for page in 0..256 {
        let entry = if page < 4 { HOST as u32 + 0x1000 * page } else { 0x400 };
        model::set_word(&mut storage, PAGE_TABLE + 4 * page as usize, entry);
    }
    let text = text.concat();
    storage[HOST + 0x1000..HOST + 0x1000 + text.len()].copy_from_slice(&text);
    for (new, address) in [(96, 0x1800), (104, 0x1900)] {
        model::set_doubleword(&mut storage, HOST + new, psw(kind, address));
        storage[HOST + address as usize..][..4].copy_from_slice(&STCK_8);
    }
    let mut record = vec![0; if kind == Kind::Xa { 200 } else { 208 }];
    record[1] = record.len() as u8;
    record[2] = if kind == Kind::Xa { 1 } else { 2 };
    record[4] = if kind == Kind::Xa { 0x08 } else { 0x04 };
    record[15] = 1;
    model::set_doubleword(&mut record, PSW, psw(kind, 0x1000));
    model::set_doubleword(&mut record, EPOCH, 0x10);
    for (register, value) in [(2, 0x2000), (3, 0x4000), (6, 0x1000)] {
        model::set_word(&mut record, GR + 4 * register, value);
    }
    let keys = vec![0; 8];
    Case { record, storage, keys, designation: 0x1000, clock: CLOCK, time: 1, budget: 1, addresses: Vec::new() }
}

/// The value at an address of host absolute storage.
fn value(case: &Case, at: usize) -> u64 {
    model::doubleword(&case.storage, at)
}

/// Runs the case, which must complete so many units.
fn completes(case: &Case, units: u32) -> Case {
    let mut case = case.clone();
    case.budget = units;
    runs(&case, Answer::BudgetUsed, units)
}

/// What a run left, with the clock advanced by its units.
fn advanced(left: &Case, units: u64) -> Case {
    let mut case = left.clone();
    case.clock = case.clock.wrapping_add(units * case.time as u64);
    case
}

fn is_refused(case: &Case, number: u8) {
    let left = runs(case, Answer::Refused(number), 0);
    assert!(left.record == case.record && left.storage == case.storage && left.keys == case.keys);
}

// ---------------------------------------------------------------------------------------------------------------
// "It becomes 1 to 1,048,576", "Refusals: 6 also covers 0."

#[test]
fn time_0_is_refused_in_every_run() {
    for kind in KINDS {
        // With an STCK and without one.
        for text in [&STCK_0[..], &LR] {
            let mut case = guest(kind, &[text]);
            case.time = 0;
            case.record[52..66].fill(0xEE);
            for budget in [0, 1, 2, 65_535] {
                case.budget = budget;
                is_refused(&case, 6);
            }
            // Before all that a run looks at: a stop request, a malformed PSW, the wait state.
            for (at, byte) in [(3, 0x04), (PSW, 0x80), (PSW + 1, 0x0A)] {
                let mut case = case.clone();
                case.record[at] = byte;
                is_refused(&case, 6);
            }
        }
    }
}

#[test]
fn times_from_1_to_1_048_576() {
    for kind in KINDS {
        let mut case = guest(kind, &[&STCK_0]);
        for (time, good) in [
            (0, false),
            (1, true),
            (2, true),
            (65_535, true),
            (65_536, true),
            (1_048_575, true),
            (1_048_576, true),
            (1_048_577, false),
            (2_097_152, false),
            (0x8000_0000, false),
            (0x8000_0001, false),
            (u32::MAX, false),
        ] {
            case.time = time;
            for budget in [0, 1] {
                case.budget = budget;
                if good {
                    completes(&case, budget);
                } else {
                    is_refused(&case, 6);
                }
            }
        }
    }
}

/// A case made to be refused by the number, or to fail at entry by 32.
fn refused_by(kind: Kind, number: u8) -> Case {
    let mut case = guest(kind, &[&STCK_0]);
    match number {
        1 => case.record[0] = 1,
        2 => case.record[2] = 3,
        3 => case.storage.truncate(5),
        4 => case.keys.push(0),
        5 => case.budget = 65_536,
        7 => case.record[71] = 1,
        _ => case.record[15] = 0,
    }
    case
}

#[test]
fn order_of_the_refusals() {
    for kind in KINDS {
        for number in [1, 2, 3, 4, 5] {
            for time in [0, 1, 1_048_577] {
                let mut case = refused_by(kind, number);
                case.time = time;
                is_refused(&case, number);
            }
        }
        for number in [7, 32] {
            let mut case = refused_by(kind, number);
            for budget in [0, 1] {
                case.budget = budget;
                case.time = 0;
                is_refused(&case, 6);
                case.time = 1;
                let answer = if number == 7 { Answer::Refused(7) } else { Answer::Intercepted(32) };
                runs(&case, answer, 0);
            }
        }
    }
}

#[test]
fn no_other_operation_has_a_time() {
    for kind in KINDS {
        let mut case = guest(kind, &[&STCK_0]);
        case.time = 0;
        assert_eq!(model::check(&case.record), Answer::Good(0));
        assert_eq!(ffi::check(&case.record), ffi::pack(Answer::Good(0), 0).word);
        translates(&case, 0x2000, 1, Answer::Good(READINGS as u32));
    }
}

#[test]
fn line_of_a_case_file() {
    let mut case = guest(Kind::Xa, &[&STCK_0]);
    case.time = 0;
    let mut file = report::case_file(&case).unwrap();
    assert_eq!(model::case_line(&file), "R 6");
    // 9 comes before all.
    file.push(0);
    assert_eq!(model::case_line(&file), "R 9");
    case.time = 1;
    assert_eq!(model::case_line(&report::case_file(&case).unwrap()), "B 0 1");
}

// ---------------------------------------------------------------------------------------------------------------
// "any two STCK values in one run differ"

#[test]
fn two_readings() {
    for kind in KINDS {
        let left = completes(&guest(kind, &[&STCK_0, &STCK_8]), 2);
        assert_eq!(value(&left, READINGS), 0x1122_3344_5566_7798);
        assert_eq!(value(&left, READINGS + 8), 0x1122_3344_5566_7799);
        // With a unit between.
        let mut case = guest(kind, &[&STCK_0, &LR, &STCK_8]);
        let left = completes(&case, 3);
        assert_eq!(value(&left, READINGS), 0x1122_3344_5566_7798);
        assert_eq!(value(&left, READINGS + 8), 0x1122_3344_5566_779A);
        case.time = 1_048_576;
        let left = completes(&case, 3);
        assert_eq!(value(&left, READINGS), 0x1122_3344_5566_7798);
        assert_eq!(value(&left, READINGS + 8), 0x1122_3344_5586_7798);
    }
}

#[test]
fn readings_over_each_other() {
    // STCK 4(2).
    let mut case = guest(Kind::Xa, &[&STCK_0, &[0xB2, 0x05, 0x20, 0x04]]);
    case.time = 0x8000;
    let left = completes(&case, 2);
    assert_eq!(value(&left, READINGS), 0x1122_3344_1122_3344);
    assert_eq!(value(&left, READINGS + 4), 0x1122_3344_5566_F798);
    // The second in the first one's place: it alone is there.
    let left = completes(&guest(Kind::Xa, &[&STCK_0, &STCK_0]), 2);
    assert_eq!((value(&left, READINGS), value(&left, READINGS + 8)), (START + 1, 0));
}

/// A guest that reads the clock, comes to its second reading, STCK 8(2), after so many units, and completes it.
fn reads_again_after(case: &Case, units: u64) {
    for time in [1, 2, 4096, 1_048_576] {
        let mut case = case.clone();
        case.time = time;
        let left = completes(&case, units as u32 + 1);
        assert_eq!(value(&left, READINGS), START);
        assert_eq!(value(&left, READINGS + 8), START + units * time as u64);
        // The same in two pieces, cut at each unit.
        for first in 0..=units {
            let left = advanced(&completes(&case, first as u32), first);
            let left = completes(&left, (units + 1 - first) as u32);
            assert_eq!(value(&left, READINGS), START);
            assert_eq!(value(&left, READINGS + 8), START + units * time as u64);
        }
    }
}

#[test]
fn units_of_every_sort_advance_the_clock() {
    for kind in KINDS {
        reads_again_after(&guest(kind, &[&STCK_0, &STCK_8]), 1);
        // LA, and a branch that is taken: BC 15,10(6).
        reads_again_after(&guest(kind, &[&STCK_0, &[0x41, 0xC0, 0, 1], &STCK_8]), 2);
        reads_again_after(&guest(kind, &[&STCK_0, &[0x47, 0xF0, 0x60, 0x0A], &[0, 0], &STCK_8]), 2);
        // L and ST, 64(2).
        reads_again_after(&guest(kind, &[&STCK_0, &[0x58, 0xC0, 0x20, 0x40], &[0x50, 0xC0, 0x20, 0x40], &STCK_8]), 3);
        // SVC.
        reads_again_after(&guest(kind, &[&STCK_0, &[0x0A, 7]]), 2);
        // Program interruptions: operation, the alignment of SPT 3, and L 4(5), past the extent.
        for text in [&[0, 0][..], &[0xB2, 0x08, 0, 3], &[0x58, 0xC0, 0x50, 0x04]] {
            let mut case = guest(kind, &[&STCK_0, text]);
            model::set_word(&mut case.record, GR + 20, 0x0001_0000);
            reads_again_after(&case, 2);
        }
        // SPT 64(2) sets the CPU timer and no clock.
        reads_again_after(&guest(kind, &[&STCK_0, &[0xB2, 0x08, 0x20, 0x40], &STCK_8]), 2);
    }
}

#[test]
fn interrupting_add_advances_the_clock() {
    for kind in KINDS {
        // AR 12,12 overflows.
        let mut case = guest(kind, &[&STCK_0, &[0x1A, 0xCC]]);
        model::set_word(&mut case.record, GR + 48, 0x7FFF_FFFF);
        case.record[if kind == Kind::Bc { PSW + 4 } else { PSW + 2 }] |= 0x08;
        reads_again_after(&case, 2);
    }
}

#[test]
fn loaded_psw_advances_the_clock() {
    for kind in KINDS {
        // LPSW 64(2) with another key, to 1100 hex.
        let mut case = guest(kind, &[&STCK_0, &[0x82, 0, 0x20, 0x40]]);
        model::set_doubleword(&mut case.storage, READINGS + 0x40, psw(kind, 0x1100) | 0x0030_0000_0000_0000);
        case.keys[5] = 0x30;
        case.storage[HOST + 0x1100..HOST + 0x1104].copy_from_slice(&STCK_8);
        reads_again_after(&case, 2);
        // A malformed one: its interruption is a unit too. BC PSWs are never malformed: this one is EC.
        let bits = 0x0008_0001_0000_1100;
        model::set_doubleword(&mut case.storage, READINGS + 0x40, bits);
        case.keys[5] = 0;
        reads_again_after(&case, 3);
    }
}

#[test]
fn exits_add_no_time() {
    for kind in KINDS {
        // DIAGNOSE.
        let mut case = guest(kind, &[&STCK_0, &[0x83, 0, 0, 0], &STCK_8]);
        case.time = 4096;
        case.budget = 9;
        let left = runs(&case, Answer::Intercepted(4), 1);
        assert_eq!((value(&left, READINGS), value(&left, READINGS + 8)), (START, 0));
        let left = completes(&advanced(&left, 1), 1);
        assert_eq!((value(&left, READINGS), value(&left, READINGS + 8)), (START, START + 4096));
        // An SVC that is intercepted.
        let mut case = guest(kind, &[&STCK_0, &[0x0A, 7], &STCK_8]);
        case.record[48] = 0x80;
        case.budget = 9;
        let left = completes(&advanced(&runs(&case, Answer::Intercepted(4), 1), 1), 1);
        assert_eq!((value(&left, READINGS), value(&left, READINGS + 8)), (START, START + 1));
    }
}

// ---------------------------------------------------------------------------------------------------------------
// Readings that are not done.

/// The first reading is all that was stored.
fn nothing_but_the_first(case: &Case, left: &Case) {
    let mut owed = case.storage.clone();
    model::set_doubleword(&mut owed, READINGS, START);
    assert!(left.storage == owed);
}

#[test]
fn host_fault_undoes_a_reading() {
    let missing = |page: u32| Table::read(Stage::HostPage, PAGE_TABLE as u32 + 4 * page);
    for kind in KINDS {
        // STCK 0(3), of a page that the host lacks.
        let mut case = guest(kind, &[&STCK_0, &LR, &[0xB2, 0x05, 0x30, 0x00]]);
        case.time = 1000;
        case.budget = 9;
        let left = runs(&case, Answer::HostFault(0x11, 0x4000, missing(4)), 2);
        nothing_but_the_first(&case, &left);
        // Its first four bytes are in a page that is there.
        model::set_word(&mut case.record, GR + 12, 0x3FFC);
        let left = runs(&case, Answer::HostFault(0x11, 0x4000, missing(4)), 2);
        nothing_but_the_first(&case, &left);
        // The host mends the page; the value is the first and the units since.
        let mut left = advanced(&left, 2);
        model::set_word(&mut left.storage, PAGE_TABLE + 16, 0x7000);
        let left = completes(&left, 1);
        assert_eq!(value(&left, READINGS), START);
        assert_eq!(model::word(&left.storage, HOST + 0x3FFC), 0x1122_3344);
        assert_eq!(model::word(&left.storage, 0x7000), 0x5566_7F68);
    }
}

#[test]
fn host_page_protection_undoes_a_reading() {
    for kind in KINDS {
        let mut case = guest(kind, &[&STCK_0, &[0xB2, 0x05, 0x30, 0x00]]);
        model::set_word(&mut case.storage, PAGE_TABLE + 16, 0x7200);
        case.budget = 9;
        let left = runs(&case, Answer::HostFault(model::PROTECTION, 0x4000, Table::NONE), 1);
        nothing_but_the_first(&case, &left);
        let mut left = advanced(&left, 1);
        model::set_word(&mut left.storage, PAGE_TABLE + 16, 0x7000);
        let left = completes(&left, 1);
        assert_eq!((value(&left, READINGS), value(&left, 0x7000)), (START, START + 1));
    }
}

#[test]
fn reading_that_is_interrupted_is_a_unit_without_a_value() {
    for kind in KINDS {
        // STCK 511 with low-address protection, and STCK 0(5), past the extent; then STCK 8(2) at 1900 hex.
        for (low, text) in [(0x1000_0000, [0xB2, 0x05, 0x01, 0xFF]), (0, [0xB2, 0x05, 0x50, 0x00])] {
            let mut case = guest(kind, &[&STCK_0, &text]);
            model::set_word(&mut case.record, GR + 20, 0x0001_0000);
            model::set_word(&mut case.record, CR0, low);
            reads_again_after(&case, 2);
            let left = completes(&case, 3);
            assert_eq!(model::doubleword(&left.storage, HOST + 511), 0);
        }
    }
}

#[test]
fn reading_that_fails_in_its_second_page_stores_nothing() {
    for kind in KINDS {
        // STCK 0(5) with key 3: its last four bytes are in a page of key 5.
        let mut case = guest(kind, &[&STCK_0, &[0xB2, 0x05, 0x50, 0x00]]);
        model::set_word(&mut case.record, GR + 20, 0x2FFC);
        case.record[PSW + 1] |= 0x30;
        (case.keys[5], case.keys[6]) = (0x30, 0x50);
        reads_again_after(&case, 2);
        let left = completes(&case, 2);
        assert_eq!(value(&left, READINGS + 0xFFC), 0);
    }
}

// ---------------------------------------------------------------------------------------------------------------
// "a run's rise stays below 2^64, and adding the epoch modulo 2^64 keeps values apart"

#[test]
fn wrap_at_2_to_the_64() {
    for kind in KINDS {
        for (clock, epoch, time, values) in [
            (u64::MAX, 0, 1, [u64::MAX, 0]),
            (u64::MAX - 1, 0, 1, [u64::MAX - 1, u64::MAX]),
            (0, u64::MAX, 1, [u64::MAX, 0]),
            (u64::MAX, 2, 1, [1, 2]),
            (u64::MAX, u64::MAX, 1, [u64::MAX - 1, u64::MAX]),
            (u64::MAX - 5, 5, 1, [u64::MAX, 0]),
            (u64::MAX, 0, 1_048_576, [u64::MAX, 0xF_FFFF]),
            (0x7FFF_FFFF_FFFF_FFFF, 0, 1, [0x7FFF_FFFF_FFFF_FFFF, 0x8000_0000_0000_0000]),
            (0xFFFF_FFFF, 0, 1, [0xFFFF_FFFF, 0x1_0000_0000]),
            (0xFFFF_FFFF, 0xFFFF_FFFF_0000_0000, 2, [u64::MAX, 1]),
        ] {
            let mut case = guest(kind, &[&STCK_0, &STCK_8]);
            case.clock = clock;
            case.time = time;
            model::set_doubleword(&mut case.record, EPOCH, epoch);
            let left = completes(&case, 2);
            assert_eq!([value(&left, READINGS), value(&left, READINGS + 8)], values);
            let left = completes(&advanced(&completes(&case, 1), 1), 1);
            assert_eq!([value(&left, READINGS), value(&left, READINGS + 8)], values);
        }
    }
}

#[test]
fn longest_run() {
    // STCK 0(2), BC 15,0(6): 32,768 readings, the last in unit 65,534.
    for (time, last) in [(1, START + 65_534), (1_048_576, START + 65_534 * 1_048_576)] {
        let mut case = guest(Kind::Xa, &[&STCK_0, &[0x47, 0xF0, 0x60, 0x00]]);
        case.time = time;
        let left = completes(&case, 65_535);
        assert_eq!(value(&left, READINGS), last);
        let Case { record, storage, keys, designation, clock, .. } = &mut case;
        let readings = model::run(record, storage, keys, *designation, *clock, time, 65_535).events.readings;
        let values: BTreeSet<u64> = readings.iter().map(|reading| reading.value).collect();
        assert_eq!((readings.len(), values.len()), (32_768, 32_768));
    }
}

// ---------------------------------------------------------------------------------------------------------------
// The interval timer beside the clock.

#[test]
fn word_of_the_interval_timer_falls_in_a_reading() {
    for kind in [Kind::Ec, Kind::Bc] {
        // STCK 80: the word is the left half of the value, 300, which then falls by 256.
        let mut case = guest(kind, &[&[0xB2, 0x05, 0x00, 0x50], &STCK_8]);
        model::set_word(&mut case.record, 204, 40_959_999);
        case.clock = 300 << 32;
        let left = completes(&case, 2);
        assert_eq!(value(&left, HOST + 80), 44 << 32 | 0x10);
        assert_eq!(value(&left, READINGS + 8), 300 << 32 | 0x11);
    }
}

#[test]
fn host_fault_at_the_word_undoes_a_reading() {
    for kind in [Kind::Ec, Kind::Bc] {
        let mut case = guest(kind, &[&STCK_0, &STCK_8]);
        model::set_word(&mut case.record, 204, 40_959_999 - 3);
        model::set_word(&mut case.storage, PAGE_TABLE, HOST as u32 | 0x200);
        case.budget = 9;
        let left = runs(&case, Answer::HostFault(model::PROTECTION, 80, Table::NONE), 1);
        nothing_but_the_first(&case, &left);
        let mut left = advanced(&left, 1);
        model::set_word(&mut left.storage, PAGE_TABLE, HOST as u32);
        let left = completes(&left, 1);
        assert_eq!((value(&left, READINGS), value(&left, READINGS + 8)), (START, START + 1));
    }
}
