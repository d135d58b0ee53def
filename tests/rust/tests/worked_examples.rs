//! "Case file and worked examples" of document 01, by the library and by the model.

use drevokas_tests::generate::Case;
use drevokas_tests::model::{self, Answer, Stage, Table};
use drevokas_tests::{ffi, report};

/// "Setup": host designation 00001000 hex, eight frames, origin 0, extent 1, prefix 0, DAT off, key 0, bit 32 one.
fn setup() -> Case {
    let mut storage = vec![0; 8 * 4096];
    model::set_word(&mut storage, 4096, 0x2000);
    model::set_word(&mut storage, 8192, 0x3000);
    model::set_word(&mut storage, 8196, 0x400);
    let mut record = vec![0; 200];
    record[1] = 200;
    record[2] = 1;
    record[4] = 0x08;
    record[15] = 1;
    record[17] = 0x08;
    record[20] = 0x80;
    Case { record, storage, keys: vec![0; 8], designation: 0x1000, clock: 0, time: 1, budget: 0, addresses: Vec::new() }
}

fn translates(case: &Case, address: u32, answer: Answer) {
    let Case { record, storage, keys, designation, .. } = case;
    assert_eq!(model::translate(record, storage, keys, *designation, address, 0), answer);
    assert_eq!(ffi::translate(record, storage, keys, *designation, address, 0), ffi::pack(answer, 0));
}

/// Runs both, and answers the record left.
fn runs(case: &Case, answer: Answer, units: u32) -> Vec<u8> {
    let (mut first, mut second) = (case.clone(), case.clone());
    let Case { record, storage, keys, designation, clock, time, budget, .. } = &mut first;
    let end = model::run(record, storage, keys, *designation, *clock, *time, *budget);
    assert_eq!((end.answer, end.units), (answer, units));
    let Case { record, storage, keys, designation, clock, time, budget, .. } = &mut second;
    assert_eq!(ffi::run(record, storage, keys, *designation, *clock, *time, *budget), ffi::pack(answer, units));
    assert!(first.record == second.record && first.storage == second.storage && first.keys == second.keys);
    first.record
}

/// Lays instructions at guest 0, which is host 12288.
fn with_text(text: &[u8]) -> Case {
    let mut case = setup();
    case.storage[12288..12288 + text.len()].copy_from_slice(text);
    case
}

#[test]
fn guest_fetches() {
    let case = setup();
    translates(&case, 0, Answer::Good(12288));
    translates(&case, 4095, Answer::Good(16383));
    translates(&case, 4096, Answer::HostFault(0x11, 4096, Table::read(Stage::HostPage, 8196)));
    translates(&case, 65536, Answer::ProgramException(model::ADDRESSING, Table::NONE));
}

#[test]
fn prefixing() {
    let mut case = setup();
    for (page, frame) in [(0, 5), (1, 6), (2, 7)] {
        model::set_word(&mut case.storage, 8192 + 4 * page, frame << 12);
    }
    model::set_word(&mut case.record, 8, 0x2000);
    translates(&case, 0, Answer::Good(0x7000));
    translates(&case, 0x2010, Answer::Good(0x5010));
    translates(&case, 0x1000, Answer::Good(0x6000));
}

#[test]
fn guest_table_length() {
    let mut case = setup();
    case.record[16] = 0x04;
    model::set_word(&mut case.record, 72, 0b10110 << 19);
    let segment = Table::unread(Stage::GuestSegment);
    translates(&case, 0x0100_0000, Answer::ProgramException(model::SEGMENT_TRANSLATION, segment));
    // Past the length test: the segment table at 0 is all zeros, so page index 255 is above the length.
    let page = Table::unread(Stage::GuestPage);
    translates(&case, 0x00FF_FFFF, Answer::ProgramException(model::PAGE_TRANSLATION, page));
}

#[test]
fn timer() {
    // LR 0,0 three times, timer enabled.
    let mut case = with_text(&[0x18, 0, 0x18, 0, 0x18, 0]);
    case.record[16] = 0x01;
    model::set_word(&mut case.record, 72, 0x400);
    model::set_doubleword(&mut case.record, 24, 5);
    case.time = 5;
    case.budget = 1;
    assert_eq!(model::doubleword(&runs(&case, Answer::BudgetUsed, 1), 24), 0);
    case.budget = 3;
    let record = runs(&case, Answer::Intercepted(20), 2);
    assert_eq!(model::doubleword(&record, 24), 5u64.wrapping_neg());
    assert_eq!(model::halfword(&record, 54), 0x1005);
    case.record[16] = 0;
    model::set_doubleword(&mut case.record, 24, 1 << 63);
    case.time = 1;
    case.budget = 1;
    assert_eq!(model::doubleword(&runs(&case, Answer::BudgetUsed, 1), 24), (1 << 63) - 1);
}

#[test]
fn clock() {
    // STCK 100 in 31-bit mode.
    let mut case = with_text(&[0xB2, 0x05, 0, 100]);
    case.record[16] = 0x01;
    model::set_word(&mut case.record, 72, 0x800);
    case.clock = u64::MAX;
    model::set_doubleword(&mut case.record, 40, 2);
    model::set_doubleword(&mut case.record, 32, 1);
    case.budget = 1;
    runs(&case, Answer::BudgetUsed, 1);
    model::set_doubleword(&mut case.record, 32, 0);
    let record = runs(&case, Answer::Intercepted(20), 0);
    assert_eq!(model::halfword(&record, 54), 0x1004);
}

#[test]
fn add_and_load_address() {
    let mut case = with_text(&[0x1A, 0x12]);
    model::set_word(&mut case.record, 140, 0x7FFF_FFFF);
    model::set_word(&mut case.record, 144, 1);
    case.budget = 1;
    let record = runs(&case, Answer::BudgetUsed, 1);
    assert_eq!(model::word(&record, 140), 0x8000_0000);
    assert_eq!(record[18] >> 4 & 3, 3);

    let mut case = with_text(&[0x41, 0x31, 0x00, 0x01]);
    case.record[20] = 0;
    model::set_word(&mut case.record, 140, 0x00FF_FFFF);
    case.budget = 1;
    assert_eq!(model::word(&runs(&case, Answer::BudgetUsed, 1), 148), 0);
}

#[test]
fn stop_request_and_case_file() {
    let mut case = setup();
    case.record[3] = 0x04;
    case.time = 1;
    case.budget = 1;
    runs(&case, Answer::Intercepted(40), 0);
    let file = report::case_file(&case).unwrap();
    assert_eq!(model::word(&file, 0) as usize, file.len() - 4);
    assert_eq!(file.len(), 4 + 1 + 4 + 8 + 4 + 2 + 200 + 1 + 8 + 8 * 4096);
    case.budget = 0;
    runs(&case, Answer::BudgetUsed, 0);
}
