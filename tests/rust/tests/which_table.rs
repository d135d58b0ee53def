//! Request 2/12 of document 02: the stage and the entry of each failure, with values worked by hand, by the model and
//! by the library. A failing translation is also tried as the first instruction fetch of a run.

mod both;

use both::{runs, translates};
use drevokas_tests::generate::Case;
use drevokas_tests::model::{self, Answer, Stage, Table};
use drevokas_tests::{ffi, report};

const PSW: usize = 16;
const CR0: usize = 72;
const CR1: usize = 76;
const GR1: usize = 140;

/// The host's segment table is at 1000 hex. The guest's first MiB is host segment 1023, its second is 1024.
const DESIGNATION: u32 = 0x1000 | 64;
const FIRST_ENTRY: usize = 0x1FFC;
const SECOND_ENTRY: usize = 0x2000;
const ORIGIN: u32 = 0x3FF0_0000;

/// Places of the guest's table entries. Real 1000 hex: segments 0 and 1. Real 2000 hex: pages of segment 0. Real 110000
/// hex: pages of segment 1.
const SEGMENTS: usize = 0x5000;
const PAGES: usize = 0x6000;
const PAGES_OF_1: usize = 0xA000;

/// A guest with DAT on: extent 32, prefix 5000 hex, key 0, 31-bit addressing, program exceptions intercepted. Virtual
/// pages 0 to 3 are real 3000, 4000, 111000 and 0 hex, virtual 100000 hex is real 3000 hex.
fn guest() -> Case {
    let mut storage = vec![0; 16 * 4096];
    model::set_word(&mut storage, FIRST_ENTRY, 0x300F);
    model::set_word(&mut storage, SECOND_ENTRY, 0x340F);
    for page in 0..512 {
        let frame = match page {
            0..=5 => 4 + page as u32,
            0x110..=0x112 => 0xA + page as u32 - 0x110,
            _ => 0,
        };
        let entry = if frame == 0 { 0x400 } else { frame << 12 };
        model::set_word(&mut storage, 0x3000 + 4 * page, entry);
    }
    model::set_word(&mut storage, SEGMENTS, 0x2001);
    model::set_word(&mut storage, SEGMENTS + 4, 0x0011_000F);
    for (page, entry) in [0x3000, 0x4000, 0x0011_1000, 0].into_iter().enumerate() {
        model::set_word(&mut storage, PAGES + 4 * page, entry);
    }
    model::set_word(&mut storage, PAGES_OF_1, 0x3000);
    let mut record = vec![0; 200];
    record[1] = 200;
    record[2] = 1;
    record[4] = 0x08;
    record[5] = 0x40;
    model::set_word(&mut record, 8, 0x5000);
    model::set_word(&mut record, 12, 0x3FF0_0020);
    model::set_doubleword(&mut record, PSW, 0x0408_0000_8000_0000);
    model::set_word(&mut record, CR0, 0b10110 << 19);
    model::set_word(&mut record, CR1, 0x1000);
    let keys = vec![0; 16];
    Case { record, storage, keys, designation: DESIGNATION, clock: 0, time: 1, budget: 1, addresses: Vec::new() }
}

/// The same with DAT off.
fn real_guest() -> Case {
    let mut case = guest();
    case.record[PSW] = 0;
    case
}

fn with(case: &Case, words: &[(usize, u32)]) -> Case {
    let mut case = case.clone();
    for &(at, word) in words {
        model::set_word(&mut case.storage, at, word);
    }
    case
}

fn with_record(case: &Case, words: &[(usize, u32)]) -> Case {
    let mut case = case.clone();
    for &(at, word) in words {
        model::set_word(&mut case.record, at, word);
    }
    case
}

fn read(stage: Stage, entry: usize) -> Table {
    Table::read(stage, entry as u32)
}

fn unread(stage: Stage) -> Table {
    Table::unread(stage)
}

/// Runs the case into a host fault in its first unit, which leaves everything as it was.
fn faults(case: &Case, answer: Answer) {
    let left = runs(case, answer, 0);
    assert!(left.record == case.record && left.storage == case.storage && left.keys == case.keys);
}

/// Fetches at the address fail with the answer: of both access kinds, and of a run that goes on there. The run's host
/// fault carries the same; its interception carries nothing.
fn fails(case: &Case, address: u32, answer: Answer) {
    translates(case, address, 0, answer);
    translates(case, address, 2, answer);
    let case = with_record(case, &[(PSW + 4, 0x8000_0000 | address)]);
    match answer {
        Answer::ProgramException(code, _) => {
            assert_eq!(runs(&case, Answer::Intercepted(8), 0).record[55], code);
        }
        _ => faults(&case, answer),
    }
}

#[test]
fn the_layout() {
    let case = guest();
    for (address, absolute) in
        [(0x678, 0x7678), (0x1678, 0x8678), (0x2678, 0xB678), (0x3678, 0x9678), (0x0010_0678, 0x7678)]
    {
        for access in 0..3 {
            translates(&case, address, access, Answer::Good(absolute));
        }
    }
    translates(&real_guest(), 0x5678, 0, Answer::Good(0x4678));
}

// ---------------------------------------------------------------------------------------------------------------
// The guest's own tables.

#[test]
fn guest_segment_read() {
    for (address, at, real) in [(0x678, SEGMENTS, 0x1000), (0x0010_0678, SEGMENTS + 4, 0x1004)] {
        let entry = model::word(&guest().storage, at);
        let table = read(Stage::GuestSegment, real);
        for (flags, code) in [(0x20, 0x10), (0x8000_0020, 0x10), (0x8000_0000, 0x12)] {
            fails(&with(&guest(), &[(at, entry | flags)]), address, Answer::ProgramException(code, table));
        }
    }
}

#[test]
fn guest_segment_not_read() {
    let table = unread(Stage::GuestSegment);
    // Segment 16 over a length of 0.
    fails(&guest(), 0x0100_0678, Answer::ProgramException(0x10, table));
    // A table at the extent; and one whose entry 1024 is the first past it.
    let at_extent = with_record(&guest(), &[(CR1, 0x0020_0000)]);
    fails(&at_extent, 0x678, Answer::ProgramException(5, table));
    let across = with_record(&guest(), &[(CR1, 0x001F_F07F)]);
    fails(&across, 0x4000_0678, Answer::ProgramException(5, table));
    // Its entry 1023 is in the extent, and the host has no page for it: host page 511 is entry 37FC hex.
    let fault = Answer::HostFault(0x11, ORIGIN + 0x001F_FFFC, read(Stage::HostPage, 0x37FC));
    fails(&across, 0x3FF0_0678, fault);
    // The length goes before the end of the extent.
    fails(&at_extent, 0x0100_0678, Answer::ProgramException(0x10, table));
    // The end of 2^31 is past any extent.
    let last = with_record(&guest(), &[(CR1, 0x7FFF_F07F)]);
    fails(&last, 0x4000_0678, Answer::ProgramException(5, table));
}

#[test]
fn guest_page_read() {
    for (address, at, real) in
        [(0x678, PAGES, 0x2000), (0x2678, PAGES + 8, 0x2008), (0x0010_0678, PAGES_OF_1, 0x0011_0000)]
    {
        let entry = model::word(&guest().storage, at);
        let table = read(Stage::GuestPage, real);
        for (flags, code) in
            [(0x400, 0x11), (0x8000_0F00, 0x11), (0x8000_0000, 0x12), (0x800, 0x12), (0x100, 0x12), (0xB00, 0x12)]
        {
            fails(&with(&guest(), &[(at, entry | flags)]), address, Answer::ProgramException(code, table));
        }
    }
}

#[test]
fn guest_page_not_read() {
    let table = unread(Stage::GuestPage);
    // Page 32 over a length of 1: a segment entry was read, but no page entry.
    fails(&guest(), 0x0002_0678, Answer::ProgramException(0x11, table));
    // A table that begins at the extent, and one whose entry 16 is the first past it.
    let at_extent = with(&guest(), &[(SEGMENTS, 0x0020_0001)]);
    fails(&at_extent, 0x678, Answer::ProgramException(5, table));
    let across = with(&guest(), &[(SEGMENTS, 0x001F_FFCF)]);
    fails(&across, 0x0001_0678, Answer::ProgramException(5, table));
    let fault = Answer::HostFault(0x11, ORIGIN + 0x001F_FFFC, read(Stage::HostPage, 0x37FC));
    fails(&across, 0xF678, fault);
    fails(&at_extent, 0x0002_0678, Answer::ProgramException(0x11, table));
    let last = with(&guest(), &[(SEGMENTS, 0x7FFF_FFCF)]);
    fails(&last, 0x0001_0678, Answer::ProgramException(5, table));
}

#[test]
fn guest_tables_in_prefixed_blocks() {
    // Real 0 is absolute 5000 hex, place 9000 hex; real 5000 hex is absolute 0, place 4000 hex. The real one is told.
    for (real, place) in [(0, 0x9000), (0x5000, 0x4000)] {
        let case = with_record(&guest(), &[(CR1, real)]);
        let case = with(&case, &[(place, 0x2001), (place + 4, real + 0x801), (place + 0x80C, 0x3000)]);
        translates(&case, 0x678, 0, Answer::Good(0x7678));
        translates(&case, 0x0010_3678, 0, Answer::Good(0x7678));
        let segment = read(Stage::GuestSegment, real as usize + 4);
        fails(&with(&case, &[(place + 4, 0x2021)]), 0x0010_3678, Answer::ProgramException(0x10, segment));
        let page = read(Stage::GuestPage, real as usize + 0x80C);
        fails(&with(&case, &[(place + 0x80C, 0x3400)]), 0x0010_3678, Answer::ProgramException(0x11, page));
        // Where the host cannot give the block it is the host's entry, of the absolute block.
        let block = 0x5000 - real;
        let entry = 0x3000 + 4 * (block as usize >> 12);
        let fault = Answer::HostFault(0x11, ORIGIN + block + 4, read(Stage::HostPage, entry));
        fails(&with(&case, &[(entry, 0x400)]), 0x0010_3678, fault);
        // The same for the page table alone.
        let case = with(&guest(), &[(SEGMENTS, real + 0x801), (place + 0x80C, 0x400), (entry, 0x0010_0000)]);
        let fault = Answer::HostFault(5, ORIGIN + block + 0x80C, read(Stage::HostPage, entry));
        fails(&case, 0x3678, fault);
    }
}

#[test]
fn entries_at_zero() {
    // The guest's, at real zero: place 9000 hex.
    let case = with(&with_record(&guest(), &[(CR1, 0)]), &[(0x9000, 0x2021)]);
    fails(&case, 0x678, Answer::ProgramException(0x10, read(Stage::GuestSegment, 0)));
    let case = with(&guest(), &[(SEGMENTS, 0x0001), (0x9000, 0x3400)]);
    fails(&case, 0x678, Answer::ProgramException(0x11, read(Stage::GuestPage, 0)));
    // The host's, with an origin of 0: a segment table at zero, and a page table.
    let mut case = with_record(&real_guest(), &[(12, 0x0000_0020)]);
    case.designation = 0;
    let segment = with(&case, &[(0, 0x8000_300F)]);
    fails(&segment, 0x5678, Answer::HostFault(0x12, 0x678, read(Stage::HostSegment, 0)));
    fails(&segment, 0x4678, Answer::HostFault(0x12, 0x4678, read(Stage::HostSegment, 0)));
    case.designation = DESIGNATION;
    for (entry, code) in [(0x4400, 0x11), (0x4100, 0x12), (0x0001_0000, 5)] {
        let page = with(&case, &[(0x1000, 0x000F), (0, entry)]);
        fails(&page, 0x5678, Answer::HostFault(code, 0x678, read(Stage::HostPage, 0)));
    }
    // No entry and one at zero are told alike: the stage, and zero.
    let unread_page = ffi::pack(Answer::HostFault(0x11, 0x678, unread(Stage::HostPage)), 0);
    assert_eq!(unread_page, ffi::pack(Answer::HostFault(0x11, 0x678, read(Stage::HostPage, 0)), 0));
}

// ---------------------------------------------------------------------------------------------------------------
// The host's tables, by each way into the second MiB.

/// What may be wrong with the host's tables of the second MiB: designation, changed words, code and table.
fn host_tables(page_entry: usize) -> Vec<(u32, Vec<(usize, u32)>, u8, Table)> {
    let good = model::word(&guest().storage, page_entry);
    let mut list = vec![
        // Segment 1024 over a length of 63.
        (0x1000 | 63, vec![], 0x10, unread(Stage::HostSegment)),
        // The table in the last frame: its entry 1024 would be the first past the storage.
        (0xF000 | 64, vec![(0xFFFC, 0x300F)], 5, unread(Stage::HostSegment)),
        (DESIGNATION, vec![(SECOND_ENTRY, 0x342F)], 0x10, read(Stage::HostSegment, SECOND_ENTRY)),
        (DESIGNATION, vec![(SECOND_ENTRY, 0x8000_342F)], 0x10, read(Stage::HostSegment, SECOND_ENTRY)),
        (DESIGNATION, vec![(SECOND_ENTRY, 0x8000_340F)], 0x12, read(Stage::HostSegment, SECOND_ENTRY)),
        // Pages 16 to 18 over a length of 0, and past the storage.
        (DESIGNATION, vec![(SECOND_ENTRY, 0x3400)], 0x11, unread(Stage::HostPage)),
        (DESIGNATION, vec![(SECOND_ENTRY, 0xFFCF)], 5, unread(Stage::HostPage)),
        (DESIGNATION, vec![(SECOND_ENTRY, 0x7FFF_FFCF)], 5, unread(Stage::HostPage)),
    ];
    for (entry, code) in [
        (good | 0x400, 0x11),
        (good | 0x8000_0F00, 0x11),
        (good | 0x8000_0000, 0x12),
        (good | 0x800, 0x12),
        (good | 0x100, 0x12),
        // With protection, which comes after it.
        (good | 0xA00, 0x12),
        // Frames beyond the storage.
        (0x0001_0000, 5),
        (0x7FFF_F200, 5),
    ] {
        list.push((DESIGNATION, vec![(page_entry, entry)], code, read(Stage::HostPage, page_entry)));
    }
    list
}

/// Tries all of them: the walk for the guest absolute address is to end so.
fn all_host_tables(case: &Case, absolute: u32, end: impl Fn(&Case, Answer)) {
    for (designation, words, code, table) in host_tables(0x3400 + 4 * (absolute as usize >> 12 & 0xFF)) {
        let mut case = with(case, &words);
        case.designation = designation;
        end(&case, Answer::HostFault(code, ORIGIN + absolute, table));
    }
}

#[test]
fn host_walk_for_a_guest_segment_entry() {
    // The guest's segment table at real 112000 hex. The fault's address is that of its entry.
    let case = with_record(&guest(), &[(CR1, 0x0011_2000)]);
    let case = with(&case, &[(0xC000, 0x2001), (0xC004, 0x2001)]);
    translates(&case, 0x678, 0, Answer::Good(0x7678));
    all_host_tables(&case, 0x0011_2000, |case, answer| fails(case, 0x678, answer));
    all_host_tables(&case, 0x0011_2004, |case, answer| fails(case, 0x0010_0678, answer));
    // Whatever the entry would say, and though stores are guarded further on.
    let case = with(&case, &[(0xC000, 0x2021)]);
    all_host_tables(&case, 0x0011_2000, |case, answer| translates(case, 0x678, 1, answer));
}

#[test]
fn host_walk_for_a_guest_page_entry() {
    let case = guest();
    all_host_tables(&case, 0x0011_0000, |case, answer| fails(case, 0x0010_0678, answer));
    // Its entry 2.
    let case = with(&case, &[(PAGES_OF_1 + 8, 0x4000)]);
    all_host_tables(&case, 0x0011_0008, |case, answer| fails(case, 0x0010_2678, answer));
}

#[test]
fn host_walk_for_the_byte() {
    all_host_tables(&guest(), 0x0011_1678, |case, answer| {
        fails(case, 0x2678, answer);
        translates(case, 0x2678, 1, answer);
    });
    all_host_tables(&real_guest(), 0x0011_1678, |case, answer| {
        fails(case, 0x0011_1678, answer);
        translates(case, 0x0011_1678, 1, answer);
    });
    // Guest page protection and keys come after the host's tables.
    let mut case = with(&guest(), &[(PAGES + 8, 0x0011_1200)]);
    case.record[PSW + 1] = 0x18;
    case.keys.fill(0x28);
    all_host_tables(&case, 0x0011_1678, |case, answer| translates(case, 0x2678, 1, answer));
}

#[test]
fn host_tables_at_all() {
    // The first walk of all is the one for the guest's segment entry.
    let fault = |address: u32, code: u8, table: Table| Answer::HostFault(code, ORIGIN + address, table);
    let mut case = guest();
    case.designation = 0x0001_007F;
    fails(&case, 0x2678, fault(0x1000, 5, unread(Stage::HostSegment)));
    case.designation = 0x1000 | 62;
    fails(&case, 0x2678, fault(0x1000, 0x10, unread(Stage::HostSegment)));
    // With DAT off it is the one for the byte, 5678 hex being absolute 678 hex.
    case.record[PSW] = 0;
    fails(&case, 0x5678, fault(0x678, 0x10, unread(Stage::HostSegment)));
    // The guest's two entries and the byte in the first MiB: the host's entries for each.
    for (page, address) in [(1, 0x1000), (2, 0x2004), (4, 0x4678)] {
        let case = with(&guest(), &[(0x3000 + 4 * page, 0x400)]);
        fails(&case, 0x1678, fault(address, 0x11, read(Stage::HostPage, 0x3000 + 4 * page)));
    }
    let case = with(&guest(), &[(FIRST_ENTRY, 0x302F)]);
    fails(&case, 0x1678, fault(0x1000, 0x10, read(Stage::HostSegment, FIRST_ENTRY)));
}

// ---------------------------------------------------------------------------------------------------------------
// None and zero.

#[test]
fn protections() {
    let exception = Answer::ProgramException(4, Table::NONE);
    // Low addresses, with tables that are good and with none.
    for words in [[(CR0, 0x10B0_0000), (CR1, 0x1000)], [(CR0, 0x10B0_0000), (CR1, 0x0020_0000)]] {
        translates(&with_record(&guest(), &words), 0x1FF, 1, exception);
    }
    // The guest's page, the key, the host's page.
    translates(&with(&guest(), &[(PAGES, 0x3200)]), 0x678, 1, exception);
    let mut case = guest();
    case.record[PSW + 1] = 0x18;
    case.keys[7] = 0x28;
    translates(&case, 0x678, 1, exception);
    translates(&case, 0x678, 0, exception);
    let case = with(&guest(), &[(0x300C, 0x7200)]);
    translates(&case, 0x678, 1, Answer::HostFault(4, ORIGIN + 0x3678, Table::NONE));
    translates(&case, 0x678, 2, Answer::Good(0x7678));
    // Protected pages under the guest's tables do not guard them: the guest's entry was read.
    let case = with(&guest(), &[(0x3004, 0x5200), (0x3008, 0x6200), (PAGES, 0x3400)]);
    fails(&case, 0x678, Answer::ProgramException(0x11, read(Stage::GuestPage, 0x2000)));
}

#[test]
fn bad_control_register_0() {
    for number in 8..=12 {
        let control = 0b10110 << 19 ^ 0x8000_0000 >> number;
        let case = with_record(&guest(), &[(CR0, control)]);
        fails(&case, 0x678, Answer::ProgramException(0x12, Table::NONE));
    }
}

#[test]
fn final_address_past_the_extent() {
    let exception = Answer::ProgramException(5, Table::NONE);
    fails(&real_guest(), 0x0020_0000, exception);
    fails(&real_guest(), 0x7FFF_FFFE, exception);
    // By a page entry that was read and is good.
    fails(&with(&guest(), &[(PAGES, 0x0020_0000)]), 0x678, exception);
    fails(&with(&guest(), &[(PAGES, 0x7FFF_F000)]), 0x678, exception);
}

#[test]
fn good_answers_ends_and_refusals() {
    let mut case = guest();
    let Case { record, storage, keys, designation, .. } = &case;
    // Refusals leave *where as it was.
    let given = ffi::translate(record, storage, keys, *designation, 0x0100_0678, 3);
    assert_eq!((given.word, given.location), (8 << 48, ffi::NOT_TOUCHED));
    let given = ffi::translate(record, storage, keys, *designation, 0x2678, 0);
    assert_eq!((given.word, given.location), (5 << 56, 0xB678));
    // Code 32, for a preferred guest, and for a System/370 guest with DAT on.
    case.record[4] = 0x0A;
    translates(&case, 0x0100_0678, 0, Answer::Intercepted(32));
    case.record.resize(208, 0);
    (case.record[1], case.record[2], case.record[4]) = (208, 2, 0x04);
    translates(&case, 0x0100_0678, 0, Answer::Intercepted(32));
    assert_eq!(ffi::pack(Answer::Intercepted(32), 0).location, 0);
    // Interruptions that the guest takes, and the end of the budget: SVC goes on at virtual 5000 hex, which is real 0
    // and no instruction; and the same where that page is not valid.
    let mut case = with(&guest(), &[(0x7000, 0x0A00_0000), (0x9060, 0x0408_0000), (0x9064, 0x8000_5000)]);
    case.record[5] = 0;
    case.budget = 2;
    runs(&case, Answer::BudgetUsed, 2);
    case.record[5] = 0x40;
    let left = runs(&with(&case, &[(PAGES + 0x14, 0x400)]), Answer::Intercepted(8), 1);
    assert_eq!(left.record[53..60], [1, 0, 0x11, 0, 0, 0x50, 0]);
}

#[test]
fn packed() {
    // The numbers themselves: kind, code and stage; the entry and the address.
    let answer = |case: &Case, address: u32| {
        let given = ffi::translate(&case.record, &case.storage, &case.keys, case.designation, address, 0);
        (given.word, given.location)
    };
    let case = with(&guest(), &[(0x3444, 0x400)]);
    assert_eq!(answer(&case, 0x2678), (0x0211_0400_0000_0000, 0x0000_3444_4001_1678));
    let case = with(&guest(), &[(SECOND_ENTRY, 0x8000_340F)]);
    assert_eq!(answer(&case, 0x0010_0678), (0x0212_0300_0000_0000, 0x0000_2000_4001_0000));
    let case = with(&guest(), &[(PAGES_OF_1, 0x400)]);
    assert_eq!(answer(&case, 0x0010_0678), (0x0411_0200_0000_0000, 0x0011_0000_0000_0000));
    assert_eq!(answer(&case, 0x0002_0678), (0x0411_0200_0000_0000, 0));
    assert_eq!(answer(&case, 0x0100_0678), (0x0410_0100_0000_0000, 0));
    // A run's, after two units: LR at virtual 2FFC hex, and text goes on at 3000 hex, which is absolute 5000 hex.
    let mut case = with(&guest(), &[(0xBFFC, 0x1800_1800), (0x3014, 0x0FFF_F000)]);
    model::set_word(&mut case.record, PSW + 4, 0x8000_2FFC);
    case.budget = 9;
    let Case { record, storage, keys, designation, .. } = &mut case;
    let given = ffi::run(record, storage, keys, *designation, 0, 1, 9);
    assert_eq!((given.word, given.location), (0x0205_0400_0000_0002, 0x0000_3014_3FF0_5000));
}

// ---------------------------------------------------------------------------------------------------------------
// Other accesses of a run.

#[test]
fn operands() {
    // ST 0,0(1) at real 3000 hex, over the end of real page 110000 hex: that page, then the next and its first byte.
    let case = with(&real_guest(), &[(0x7000, 0x5000_1000)]);
    let case = with_record(&case, &[(PSW + 4, 0x8000_3000), (GR1, 0x0011_0FFE)]);
    runs(&case, Answer::BudgetUsed, 1);
    all_host_tables(&case, 0x0011_0FFE, faults);
    let fault = |code: u8, table: Table| Answer::HostFault(code, ORIGIN + 0x0011_1000, table);
    faults(&with(&case, &[(0x3444, 0xB400)]), fault(0x11, read(Stage::HostPage, 0x3444)));
    faults(&with(&case, &[(0x3444, 0xB200)]), fault(4, Table::NONE));
    // L 0,0(1) and LPSW 0(1): protection is not looked at.
    let case = with_record(&with(&case, &[(0x7000, 0x5800_1000)]), &[(GR1, 0x0011_0FFE)]);
    all_host_tables(&case, 0x0011_0FFE, faults);
    runs(&with(&case, &[(0x3444, 0xB200)]), Answer::BudgetUsed, 1);
    let case = with_record(&with(&case, &[(0x7000, 0x8200_1000)]), &[(GR1, 0x0011_0FF8)]);
    all_host_tables(&case, 0x0011_0FF8, faults);
    // With DAT on, and the operand's guest page entry in the second MiB: STCK 0(1) at virtual 0.
    let case = with_record(&with(&guest(), &[(0x7000, 0xB205_1000)]), &[(GR1, 0x0010_0678)]);
    runs(&case, Answer::BudgetUsed, 1);
    all_host_tables(&case, 0x0011_0000, faults);
}

#[test]
fn interruption_areas() {
    // The prefix block in the second MiB, and SVC 5 at real 3000 hex: the old PSW is at real 32.
    let case = with(&real_guest(), &[(0x7000, 0x0A05_0000), (0xB060, 0x0008_0000), (0xB064, 0x8000_3000)]);
    let case = with_record(&case, &[(8, 0x0011_1000), (PSW + 4, 0x8000_3000)]);
    runs(&case, Answer::BudgetUsed, 1);
    all_host_tables(&case, 0x0011_1020, faults);
    let protected = |address: u32| Answer::HostFault(4, ORIGIN + address, Table::NONE);
    faults(&with(&case, &[(0x3444, 0xB200)]), protected(0x0011_1020));
    // A program exception that is not intercepted: operation 00; a malformed PSW; and a guest page that is not valid,
    // whose own table is not the one that is told.
    let mut case = with(&case, &[(0x7000, 0)]);
    case.record[5] = 0;
    all_host_tables(&case, 0x0011_1028, faults);
    all_host_tables(&with_record(&case, &[(PSW, 0x8008_0000)]), 0x0011_1028, faults);
    let case = with_record(&case, &[(PSW, 0x0408_0000), (PSW + 4, 0x8000_5000)]);
    let case = with(&case, &[(PAGES + 0x14, 0x400)]);
    translates(&case, 0x5000, 0, Answer::ProgramException(0x11, read(Stage::GuestPage, 0x2014)));
    all_host_tables(&case, 0x0011_1028, faults);
    faults(&with(&case, &[(0x3444, 0xB200)]), protected(0x0011_1028));
}

#[test]
fn interval_timer_s_word() {
    // System/370, LR at real 3000 hex; the word at real 80 is due, and it is in the second MiB.
    let mut case = with(&real_guest(), &[(0x7000, 0x1800_0000)]);
    case.record.resize(208, 0);
    (case.record[1], case.record[2], case.record[4]) = (208, 2, 0x04);
    let case = with_record(&case, &[(8, 0x0011_1000), (PSW + 4, 0x3000), (204, 40_959_999)]);
    runs(&case, Answer::BudgetUsed, 1);
    all_host_tables(&case, 0x0011_1050, faults);
    faults(&with(&case, &[(0x3444, 0xB200)]), Answer::HostFault(4, ORIGIN + 0x0011_1050, Table::NONE));
    // The areas of the unit's interruption come first.
    let case = with(&case, &[(0x7000, 0x0A05_0000)]);
    all_host_tables(&case, 0x0011_1020, faults);
}

#[test]
fn record_and_line_stay() {
    // Text, operands and areas of the tests above leave the record as it was; bytes 52-65 are those of no table.
    let mut case = with(&real_guest(), &[(0x3444, 0x400)]);
    model::set_word(&mut case.record, PSW + 4, 0x8011_1000);
    case.record[52..66].fill(0xFF);
    let answer = Answer::HostFault(0x11, ORIGIN + 0x0011_1000, read(Stage::HostPage, 0x3444));
    let left = runs(&case, answer, 0);
    assert_eq!(left.record[52..66], [0; 14]);
    // A case file with eight frames, whose host page 1 is not valid.
    let mut case = with_record(&real_guest(), &[(12, 1), (8, 0), (PSW + 4, 0x8000_1000)]);
    case.storage = vec![0; 8 * 4096];
    case.keys = vec![0; 8];
    let case = with(&case, &[(0x1000, 0x2000), (0x2000, 0x3000), (0x2004, 0x400)]);
    faults(&case, Answer::HostFault(0x11, 0x1000, read(Stage::HostPage, 0x2004)));
    assert_eq!(model::case_line(&report::case_file(&case).unwrap()), "H 17 0");
}
