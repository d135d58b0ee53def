//! The host of the tests of the page desk, its variations, and those that every call refuses. Not every test has use
//! for all of it.
#![allow(dead_code)]

use drevokas_tests::desk::Answer;
use drevokas_tests::generate::Case;
use drevokas_tests::model;

/// The host's segment table is at 1000 hex.
pub const SEGMENT_0: usize = 0x1000;
pub const SEGMENT_1: usize = 0x1004;

/// The entries of the 256 pages follow each other from here on, in two page tables: at 2000 hex for host segment 0, of
/// which the extent has the second half, and at 2400 hex for host segment 1, of which it has the first half.
pub const PAGES: usize = 0x2200;

pub fn entry_at(page: u32) -> usize {
    PAGES + 4 * page as usize
}

/// Sixteen frames. Origin 8, extent 16: host pages 128 to 383. Frame 0 and frames from 3 on have no entries.
pub fn host() -> Case {
    let mut storage = vec![0; 16 * 4096];
    model::set_word(&mut storage, SEGMENT_0, 0x200F);
    model::set_word(&mut storage, SEGMENT_1, 0x240F);
    for entry in 0..512 {
        model::set_word(&mut storage, 0x2000 + 4 * entry, 0x400);
    }
    let mut record = vec![0; 200];
    record[1] = 200;
    record[2] = 1;
    record[4] = 0x08;
    model::set_word(&mut record, 12, 0x0008_0010);
    let keys = (0..16).map(|frame| 0x11 * frame).collect();
    let (designation, addresses) = (SEGMENT_0 as u32, Vec::new());
    let case = Case { record, storage, keys, designation, clock: 0, time: 1, budget: 1, addresses };
    let entries = [
        (0, 0x4000),
        (1, 0x52FF),
        (2, 0x6000),
        // Past the storage.
        (3, 0x0001_0000),
        (4, 0x7600),
        // Malformed, with bit 21 zero.
        (5, 0x8000_4000),
        (6, 0x4800),
        (7, 0x4100),
        (128, 0x7000),
        (255, 0x8000),
    ];
    with_pages(&case, &entries)
}

pub fn with_pages(case: &Case, entries: &[(usize, u32)]) -> Case {
    let entries: Vec<(usize, u32)> = entries.iter().map(|&(page, entry)| (PAGES + 4 * page, entry)).collect();
    with(case, &entries)
}

pub fn with(case: &Case, words: &[(usize, u32)]) -> Case {
    let mut case = case.clone();
    for &(at, word) in words {
        model::set_word(&mut case.storage, at, word);
    }
    case
}

/// The same with invalid entries from one address up to another.
pub fn with_invalid(case: &Case, places: std::ops::Range<usize>) -> Case {
    let entries: Vec<(usize, u32)> = places.step_by(4).map(|at| (at, 0x400)).collect();
    with(case, &entries)
}

/// The same with another origin and extent.
pub fn with_extent(case: &Case, origin: u16, extent: u16) -> Case {
    let mut case = case.clone();
    model::set_word(&mut case.record, 12, (origin as u32) << 16 | extent as u32);
    case
}

pub fn with_designation(case: &Case, designation: u32) -> Case {
    Case { designation, ..case.clone() }
}

/// The record of 208 bytes, of a System/370 guest.
pub fn larger(case: &Case) -> Case {
    let mut case = case.clone();
    case.record.resize(208, 0);
    case.record[1] = 208;
    case.record[2] = 2;
    case.record[4] = 0x04;
    case
}

pub fn after(case: Case, change: impl FnOnce(&mut Case)) -> Case {
    let mut case = case;
    change(&mut case);
    case
}

// ---------------------------------------------------------------------------------------------------------------
// What every call refuses, with the number of the refusal.

pub fn bad_records() -> Vec<(u8, Case)> {
    let mut bad = vec![(1, after(host(), |case| case.record[1] = 208)), (1, after(host(), |case| case.record[0] = 1))];
    for length in [0, 2, 199, 201, 208] {
        bad.push((1, after(host(), |case| case.record.resize(length, 0))));
    }
    bad.push((1, after(larger(&host()), |case| case.record[1] = 200)));
    bad.push((2, after(host(), |case| case.record[2] = 2)));
    bad.push((2, after(larger(&host()), |case| case.record[2] = 1)));
    bad.push((2, after(host(), |case| case.record[2] = 0)));
    for at in 66..72 {
        bad.push((7, after(host(), |case| case.record[at] = 1)));
    }
    for at in [66, 201, 202, 203] {
        bad.push((7, after(larger(&host()), |case| case.record[at] = 0x80)));
    }
    bad.push((7, after(larger(&host()), |case| model::set_word(&mut case.record, 204, 40_960_000))));
    bad
}

pub fn bad_storages() -> Vec<(u8, Case)> {
    let mut bad = Vec::new();
    for length in [0, 1, 4095, 16 * 4096 - 1, 16 * 4096 + 4, 4097 * 4096] {
        bad.push((3, after(host(), |case| case.storage.resize(length, 0))));
    }
    for keys in [0, 1, 15, 17, 4096] {
        bad.push((4, after(host(), |case| case.keys.resize(keys, 0))));
    }
    bad
}

/// Code 32.
pub fn failing_entries() -> Vec<Case> {
    vec![
        after(host(), |case| case.record[4] = 0x04),
        after(host(), |case| case.record[4] = 0x0C),
        after(host(), |case| case.record[4] = 0x0A),
        with_extent(&host(), 8, 0),
        with_extent(&host(), 32_768, 1),
        with_extent(&host(), 32_753, 16),
        after(host(), |case| model::set_word(&mut case.record, 8, 0x0010_0000)),
        after(larger(&host()), |case| model::set_word(&mut case.record, 8, 0x0100_0000)),
    ]
}

/// The host with each fault on top of those after it, and the answer to it.
pub fn faults_in_order(case: &Case) -> Vec<(Answer, Case)> {
    let faults: [(Answer, fn(&mut Case)); 6] = [
        (Answer::Refused(1), |case| case.record[1] = 208),
        (Answer::Refused(2), |case| case.record[2] = 2),
        (Answer::Refused(3), |case| case.storage.truncate(16 * 4096 - 4)),
        (Answer::Refused(4), |case| case.keys.truncate(14)),
        (Answer::Refused(7), |case| case.record[71] = 1),
        (Answer::EntryFailed, |case| case.record[4] = 0x0A),
    ];
    let from = |first: usize| {
        let mut case = case.clone();
        faults[first..].iter().for_each(|(_, spoil)| spoil(&mut case));
        (faults[first].0, case)
    };
    (0..faults.len()).map(from).collect()
}
