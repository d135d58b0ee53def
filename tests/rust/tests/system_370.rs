//! Request 1/12 of document 02, sentence by sentence, with values worked by hand: by the model, and by the library
//! where it takes the record.

mod both;

use both::{runs, translates};
use drevokas_tests::generate::Case;
use drevokas_tests::model::{self, Answer, Stage, Table};
use drevokas_tests::{ffi, report};

const MODE: usize = 4;
const PSW: usize = 16;
const CR0: usize = 72;
const GR: usize = 136;
const T: usize = 200;
const RESIDUE: usize = 204;

/// The instructions are at 1000 hex.
const BC: [u8; 8] = [0, 0, 0, 0, 0, 0, 0x10, 0];
const EC: [u8; 8] = [0, 0x08, 0, 0, 0, 0, 0x10, 0];
const LR: [u8; 2] = [0x18, 0x00];

/// Guest absolute 0 to 3FFF hex are host absolute 3000 to 6FFF hex; the other pages of the extent are not valid.
const HOST: usize = 0x3000;

/// A guest in System/370 mode: origin 0, extent 1, prefix 0, interval timer active, time 1, budget 1. SVC and program
/// exceptions go on at 2000 hex with an EC PSW.
fn guest(psw: [u8; 8], text: &[u8]) -> Case {
    let mut storage = vec![0; 8 * 4096];
    model::set_word(&mut storage, 0x1000, 0x200F);
    for page in 0..256 {
        model::set_word(&mut storage, 0x2000 + 4 * page, if page < 4 { 0x3000 + 0x1000 * page as u32 } else { 0x400 });
    }
    storage[HOST + 0x1000..HOST + 0x1000 + text.len()].copy_from_slice(text);
    for new in [96, 104] {
        model::set_doubleword(&mut storage, HOST + new, 0x0008_0000_0000_2000);
    }
    storage[HOST + 0x2000..HOST + 0x2004].copy_from_slice(&[0x18, 0, 0x18, 0]);
    let mut record = vec![0; 208];
    record[1] = 208;
    record[2] = 2;
    record[MODE] = 0x04;
    record[15] = 1;
    record[PSW..PSW + 8].copy_from_slice(&psw);
    Case { record, storage, keys: vec![0; 8], designation: 0x1000, clock: 0, time: 1, budget: 1, addresses: Vec::new() }
}

fn checks(case: &Case, answer: Answer) {
    assert_eq!(model::check(&case.record), answer);
    assert_eq!(ffi::check(&case.record), ffi::pack(answer, 0).word);
}

/// Runs the case, which must complete its budget.
fn completes(case: &Case) -> Case {
    runs(case, Answer::BudgetUsed, case.budget)
}

fn psw(case: &Case) -> [u8; 8] {
    case.record[PSW..PSW + 8].try_into().unwrap()
}

/// Bytes of guest absolute storage.
fn bytes(case: &Case, at: usize, length: usize) -> &[u8] {
    &case.storage[HOST + at..HOST + at + length]
}

fn set_bytes(case: &mut Case, at: usize, bytes: &[u8]) {
    case.storage[HOST + at..HOST + at + bytes.len()].copy_from_slice(bytes);
}

fn word_at_80(case: &Case) -> u32 {
    model::word(&case.storage, HOST + 80)
}

fn residue(case: &Case) -> u32 {
    model::word(&case.record, RESIDUE)
}

/// The next unit brings the fall, and the word is this.
fn about_to_fall(case: &mut Case, word: u32) {
    model::set_word(&mut case.record, RESIDUE, 40_959_999);
    model::set_word(&mut case.storage, HOST + 80, word);
}

fn set_register(case: &mut Case, register: usize, value: u32) {
    model::set_word(&mut case.record, GR + 4 * register, value);
}

fn register(case: &Case, register: usize) -> u32 {
    model::word(&case.record, GR + 4 * register)
}

/// The same with the record of 200 bytes, version 1.
fn in_200_bytes(case: &Case) -> Case {
    let mut case = case.clone();
    case.record.truncate(200);
    case.record[1] = 200;
    case.record[2] = 1;
    case
}

/// The same in 370-XA mode, 24-bit addressing.
fn in_xa_mode(case: &Case) -> Case {
    let mut case = case.clone();
    case.record[MODE] ^= 0x0C;
    case
}

/// The PSW with one bit turned.
fn turned(mut psw: [u8; 8], bit: usize) -> [u8; 8] {
    psw[bit / 8] ^= 0x80 >> (bit % 8);
    psw
}

// ---------------------------------------------------------------------------------------------------------------
// "Mode 01 is now accepted in the new record only", "Refusals: ..."

#[test]
fn mode_01_in_the_larger_record_only() {
    let mut case = guest(BC, &LR);
    checks(&case, Answer::Good(0));
    translates(&case, 0, 0, Answer::Good(0x3000));
    completes(&case);
    let small = in_200_bytes(&case);
    checks(&small, Answer::Intercepted(32));
    translates(&small, 0, 0, Answer::Intercepted(32));
    assert_eq!(runs(&small, Answer::Intercepted(32), 0).record[52], 32);
    // Mode bits 0-3 are ignored, and bit 7 is the timer's.
    for (mode, good) in [(0xF5, true), (0x00, false), (0x0C, false), (0x06, false), (0x08, true), (0x0A, false)] {
        case.record[MODE] = mode;
        checks(&case, if good { Answer::Good(0) } else { Answer::Intercepted(32) });
    }
    case.record[MODE] = 0x08;
    checks(&in_200_bytes(&case), Answer::Good(0));
}

#[test]
fn lengths_and_versions() {
    let table = [
        (200, 200, 1, None),
        (208, 208, 2, None),
        (200, 208, 2, Some(1)),
        (200, 208, 1, Some(1)),
        (208, 200, 1, Some(1)),
        (208, 200, 2, Some(1)),
        (207, 207, 2, Some(1)),
        (209, 209, 2, Some(1)),
        (200, 199, 1, Some(1)),
        (208, 0x1D0, 2, Some(1)),
        (200, 200, 2, Some(2)),
        (208, 208, 1, Some(2)),
        (208, 208, 0, Some(2)),
        (208, 208, 3, Some(2)),
    ];
    for (length, field, version, refusal) in table {
        let mut case = guest(BC, &LR);
        case.record[MODE] = 0x08;
        case.record.resize(length, 0);
        case.record[0..2].copy_from_slice(&(field as u16).to_be_bytes());
        case.record[2] = version;
        checks(&case, refusal.map_or(Answer::Good(0), Answer::Refused));
        if let Some(number) = refusal {
            translates(&case, 0, 0, Answer::Refused(number));
            runs(&case, Answer::Refused(number), 0);
        }
    }
    // Refusal 2 comes before 3.
    let mut case = guest(BC, &LR);
    case.record[2] = 1;
    case.storage.truncate(5);
    runs(&case, Answer::Refused(2), 0);
}

#[test]
fn reserved_bytes_and_residue() {
    for mode in [0x04, 0x05, 0x08] {
        for at in [66, 71, 201, 202, 203] {
            let mut case = guest(EC, &LR);
            case.record[MODE] = mode;
            case.record[at] = 1;
            checks(&case, Answer::Refused(7));
            // 7 comes before 8 and before the entry, after 5 and 6.
            translates(&case, 0, 3, Answer::Refused(7));
            case.record[15] = 0;
            let left = runs(&case, Answer::Refused(7), 0);
            assert!(left.record == case.record);
            case.time = 1_048_577;
            runs(&case, Answer::Refused(6), 0);
            case.budget = 65_536;
            runs(&case, Answer::Refused(5), 0);
        }
        for residue in [0, 40_959_999, 40_960_000, 1 << 31, u32::MAX] {
            let mut case = guest(EC, &LR);
            case.record[MODE] = mode;
            model::set_word(&mut case.record, RESIDUE, residue);
            checks(&case, if residue < 40_960_000 { Answer::Good(0) } else { Answer::Refused(7) });
        }
        // Byte 200 may be anything.
        let mut case = guest(EC, &LR);
        case.record[MODE] = mode;
        case.record[T] = 0xFF;
        checks(&case, Answer::Good(0));
    }
}

#[test]
fn prefix_bits_1_to_7() {
    for number in 0..32 {
        let mut case = guest(BC, &LR);
        case.record[14..16].copy_from_slice(&32_768u16.to_be_bytes());
        model::set_word(&mut case.record, 8, 0x8000_0000 >> number);
        let good = !(1..=7).contains(&number);
        checks(&case, if good { Answer::Good(0) } else { Answer::Intercepted(32) });
        checks(&in_xa_mode(&case), Answer::Good(0));
    }
    // A prefix block past the extent still fails, and the PSW is no part of the entry.
    let mut case = guest(turned(EC, 5), &LR);
    checks(&case, Answer::Good(0));
    model::set_word(&mut case.record, 8, 0x10000);
    checks(&case, Answer::Intercepted(32));
}

// ---------------------------------------------------------------------------------------------------------------
// "DAT off, 24-bit addresses, BC and EC PSWs"

/// BC PSWs with bits 32-39 zero and one, and an EC PSW.
const FORMS: [[u8; 8]; 3] = [BC, [0, 0, 0xFF, 0xFF, 0xF7, 0, 0x10, 0], EC];

#[test]
fn addresses_of_24_bits() {
    for start in FORMS {
        // LA 3,1(1)
        let mut case = guest(start, &[0x41, 0x31, 0x00, 0x01]);
        set_register(&mut case, 1, 0x00FF_FFFF);
        assert_eq!(register(&completes(&case), 3), 0);
        set_register(&mut case, 1, 0xFF00_1233);
        assert_eq!(register(&completes(&case), 3), 0x1234);
        // L 3,0(1)
        let mut case = guest(start, &[0x58, 0x31, 0x00, 0x00]);
        set_register(&mut case, 1, 0x8100_2000);
        set_bytes(&mut case, 0x2000, &[1, 2, 3, 4]);
        assert_eq!(register(&completes(&case), 3), 0x0102_0304);
        // BCR 15,1 and BC 15,0(1): bits 32-39 stay.
        for text in [vec![0x07, 0xF1], vec![0x47, 0xF1, 0, 0]] {
            let mut case = guest(start, &text);
            set_register(&mut case, 1, 0x9A00_2002);
            let mut owed = start;
            owed[5..].copy_from_slice(&[0x00, 0x20, 0x02]);
            assert_eq!(psw(&completes(&case)), owed);
        }
    }
}

/// A guest of 16 MiB whose last page is host frame 6.
fn with_last_page(start: [u8; 8], text: &[u8], first: usize) -> Case {
    let mut case = guest(start, &[]);
    case.record[14..16].copy_from_slice(&256u16.to_be_bytes());
    model::set_word(&mut case.storage, 0x1000 + 4 * 15, 0x200F);
    model::set_word(&mut case.storage, 0x2000 + 4 * 255, 0x6000);
    case.storage[0x7000 - first..0x7000].copy_from_slice(&text[..first]);
    set_bytes(&mut case, 0, &text[first..]);
    let address = 0x0100_0000 - first as u32;
    case.record[PSW + 5..PSW + 8].copy_from_slice(&address.to_be_bytes()[1..]);
    case
}

#[test]
fn text_and_advance_wrap() {
    for start in FORMS {
        // LR at the end of 24 bits; then LA over the end.
        let left = completes(&with_last_page(start, &LR, 2));
        let mut owed = start;
        owed[5..].copy_from_slice(&[0, 0, 0]);
        assert_eq!(psw(&left), owed);
        let left = completes(&with_last_page(start, &[0x41, 0x30, 0x01, 0x23], 2));
        owed[7] = 2;
        assert_eq!((psw(&left), register(&left, 3)), (owed, 0x123));
    }
}

#[test]
fn condition_code() {
    // AR 1,2: 0 and then negative. In a BC PSW bits 34-35, else 18-19; nothing else but the address changes.
    for (start, second, owed) in [
        ([0, 0, 0xAA, 0xBB, 0xB7, 0, 0x10, 0], 0, [0, 0, 0xAA, 0xBB, 0x87, 0, 0x10, 2]),
        ([0, 0, 0x55, 0x44, 0x40, 0, 0x10, 0], u32::MAX, [0, 0, 0x55, 0x44, 0x50, 0, 0x10, 2]),
        ([0, 8, 0x37, 0, 0, 0, 0x10, 0], 0, [0, 8, 0x07, 0, 0, 0, 0x10, 2]),
        ([0, 8, 0x00, 0, 0, 0, 0x10, 0], u32::MAX, [0, 8, 0x10, 0, 0, 0, 0x10, 2]),
    ] {
        let mut case = guest(start, &[0x1A, 0x12]);
        set_register(&mut case, 2, second);
        assert_eq!(psw(&completes(&case)), owed);
    }
    // BCR 2,1 on condition code 2, which another form would see as 1.
    for start in [[0, 0, 0x10, 0, 0x20, 0, 0x10, 0], [0, 8, 0x20, 0, 0, 0, 0x10, 0]] {
        let mut case = guest(start, &[0x07, 0x21]);
        set_register(&mut case, 1, 0x2000);
        assert_eq!(completes(&case).record[PSW + 6], 0x20);
    }
}

#[test]
fn overflow() {
    // AR 1,1 of 40000000 hex. The mask is bit 36 or bit 20.
    let mut case = guest([0, 0, 0xFF, 0xFF, 0xC7, 0, 0x10, 0], &[0x1A, 0x11]);
    set_register(&mut case, 1, 0x4000_0000);
    assert_eq!(psw(&completes(&case)), [0, 0, 0xFF, 0xFF, 0xF7, 0, 0x10, 2]);
    case.record[PSW + 4] = 0x8A;
    let left = completes(&case);
    assert_eq!((register(&left, 1), psw(&left)), (0x8000_0000, [0, 8, 0, 0, 0, 0, 0x20, 0]));
    assert_eq!(bytes(&left, 40, 8), [0, 0, 0, 8, 0x7A, 0, 0x10, 2]);

    let mut case = guest([0, 8, 0x07, 0, 0, 0, 0x10, 0], &[0x1A, 0x11]);
    set_register(&mut case, 1, 0x4000_0000);
    assert_eq!(psw(&completes(&case)), [0, 8, 0x37, 0, 0, 0, 0x10, 2]);
    case.record[PSW + 2] = 0x08;
    let left = completes(&case);
    assert_eq!(bytes(&left, 40, 8), [0, 8, 0x38, 0, 0, 0, 0x10, 2]);
    assert_eq!(bytes(&left, 140, 4), [0, 2, 0, 8]);
}

#[test]
fn keys_and_low_address_protection_are_in_force() {
    for start in [BC, EC] {
        // ST 1,256
        let mut case = guest(start, &[0x50, 0x10, 0x01, 0x00]);
        set_register(&mut case, 1, 0x1234_5678);
        assert_eq!(bytes(&completes(&case), 256, 4), [0x12, 0x34, 0x56, 0x78]);
        case.record[CR0] = 0x10;
        case.record[5] = 0x40;
        assert_eq!(runs(&case, Answer::Intercepted(8), 0).record[53..56], [2, 0, 4]);
        case.record[CR0] = 0;
        case.record[PSW + 1] |= 0x10;
        case.keys[3] = 0x20;
        assert_eq!(runs(&case, Answer::Intercepted(8), 0).record[53..56], [2, 0, 4]);
        case.keys[3] = 0x10;
        let left = completes(&case);
        assert_eq!((left.keys[3], left.keys[4]), (0x16, 0x04));
    }
}

// ---------------------------------------------------------------------------------------------------------------
// "their checks": steps 2 and 3. "DAT on is code 32 [...] and joins step 2, which there sees EC PSWs only"

#[test]
fn ec_psw_of_a_facility_not_installed() {
    for number in [1, 5, 16] {
        let mut case = guest(turned(EC, number), &LR);
        let left = runs(&case, Answer::Intercepted(32), 0);
        assert_eq!((psw(&left), left.record[52]), (psw(&case), 32));
        assert_eq!(residue(&left), 0);
        // The stop request and a used budget come first, a malformed PSW after.
        case.record[3] = 0x04;
        runs(&case, Answer::Intercepted(40), 0);
        case.budget = 0;
        runs(&case, Answer::BudgetUsed, 0);
        for malformed in [0, 17, 24, 39] {
            runs(&guest(turned(turned(EC, number), malformed), &LR), Answer::Intercepted(32), 0);
        }
    }
}

#[test]
fn malformed_ec_psw() {
    for number in [0, 2, 3, 4, 17].into_iter().chain(24..=39) {
        let mut case = guest(turned(EC, number), &LR);
        set_bytes(&mut case, 136, &[0xEE; 12]);
        let left = completes(&case);
        assert_eq!(bytes(&left, 40, 8), psw(&case));
        assert_eq!(bytes(&left, 136, 12), [0xEE, 0xEE, 0xEE, 0xEE, 0, 0, 0, 6, 0xEE, 0xEE, 0xEE, 0xEE]);
        assert_eq!(psw(&left), [0, 8, 0, 0, 0, 0, 0x20, 0]);
        assert_eq!((left.keys[3], left.keys[4]), (0x06, 0));
        case.record[5] = 0x40;
        let left = runs(&case, Answer::Intercepted(8), 0);
        assert_eq!((left.record[53..56].to_vec(), psw(&left)), (vec![0, 0, 6], psw(&case)));
        // Before the wait state.
        case.record[PSW + 1] |= 0x02;
        runs(&case, Answer::Intercepted(8), 0);
    }
    for number in [6, 7, 13, 18, 19, 20, 21, 22, 23] {
        assert_eq!(completes(&guest(turned(EC, number), &LR)).record[PSW + 7], 2);
    }
}

#[test]
fn bc_psw_is_never_malformed() {
    for number in (0..=7).chain([13]).chain(16..=39) {
        let start = turned(BC, number);
        let mut owed = start;
        owed[7] = 2;
        assert_eq!(psw(&completes(&guest(start, &LR))), owed);
    }
    let start = [0xFF, 0x04, 0xFF, 0xFF, 0xFF, 0, 0x10, 0];
    assert_eq!(psw(&completes(&guest(start, &LR))), [0xFF, 0x04, 0xFF, 0xFF, 0xFF, 0, 0x10, 2]);
    // Wait state and problem state are bits 14 and 15.
    runs(&guest(turned(BC, 14), &LR), Answer::Intercepted(28), 0);
    let left = completes(&guest(turned(BC, 15), &[0x82, 0, 0, 0]));
    assert_eq!(bytes(&left, 40, 8), [0, 1, 0, 2, 0x80, 0, 0x10, 4]);
    // In 370-XA mode bit 12 zero is malformed.
    assert_eq!(bytes(&completes(&in_xa_mode(&guest(BC, &LR))), 140, 4), [0, 0, 0, 6]);
}

#[test]
fn from_bc_to_ec_and_back() {
    // LPSW 512 loads an EC PSW, LPSW 520 at 2000 hex a BC PSW.
    let mut case = guest([0, 0, 0x12, 0x34, 0x80, 0, 0x10, 0], &[0x82, 0, 0x02, 0x00]);
    set_bytes(&mut case, 0x2000, &[0x82, 0, 0x02, 0x08]);
    set_bytes(&mut case, 512, &[0, 8, 0x10, 0, 0, 0, 0x20, 0]);
    set_bytes(&mut case, 520, &[0x54, 0, 0xFE, 0xDC, 0xFF, 0, 0x20, 4]);
    assert_eq!(psw(&completes(&case)), [0, 8, 0x10, 0, 0, 0, 0x20, 0]);
    case.budget = 2;
    assert_eq!(psw(&completes(&case)), [0x54, 0, 0xFE, 0xDC, 0xFF, 0, 0x20, 4]);
    // A malformed EC PSW is loaded by a completed unit; the next is the specification exception.
    set_bytes(&mut case, 512, &[0, 8, 0, 0, 0x80, 0, 0x20, 0]);
    let left = completes(&case);
    assert_eq!((bytes(&left, 40, 8), bytes(&left, 140, 4)), (&[0, 8, 0, 0, 0x80, 0, 0x20, 0][..], &[0, 0, 0, 6][..]));
    assert_eq!(residue(&left), 6);
    set_bytes(&mut case, 512, &[4, 8, 0, 0, 0, 0, 0x20, 0]);
    assert_eq!(psw(&runs(&case, Answer::Intercepted(32), 1)), [4, 8, 0, 0, 0, 0, 0x20, 0]);
}

// ---------------------------------------------------------------------------------------------------------------
// "interruptions as GA22-7000; in the record a BC PSW's bits 16-33 stay as loaded"

#[test]
fn interruptions_with_a_bc_psw() {
    let start = [0xFE, 0x04, 0xAB, 0xCD, 0xB5, 0, 0x10, 0];
    // SVC 5A; operation, ILC 3; privileged operation, ILC 2.
    for (text, at, owed) in [
        (vec![0x0A, 0x5A], 32, [0xFE, 0x04, 0x00, 0x5A, 0x75, 0, 0x10, 2]),
        (vec![0xD2, 0, 0, 0, 0, 0], 40, [0xFE, 0x04, 0x00, 0x01, 0xF5, 0, 0x10, 6]),
        (vec![0x82, 0, 0x02, 0x01], 40, [0xFE, 0x04, 0x00, 0x06, 0xB5, 0, 0x10, 4]),
    ] {
        let mut case = guest(start, &text);
        set_bytes(&mut case, 136, &[0xEE; 12]);
        set_bytes(&mut case, at + 64, &[0x54, 0, 0x9A, 0xBC, 0xDE, 0, 0x20, 0]);
        let left = completes(&case);
        assert_eq!(bytes(&left, at, 8), owed);
        assert_eq!(bytes(&left, 136, 12), [0xEE; 12]);
        // The new PSW comes in whole.
        assert_eq!(psw(&left), [0x54, 0, 0x9A, 0xBC, 0xDE, 0, 0x20, 0]);
        assert_eq!((left.keys[3], left.keys[4]), (0x06, 0x04));
    }
    // An odd address, and one past the extent: ILC 1, advanced by 2.
    let mut case = guest(start, &[]);
    case.record[PSW + 7] = 1;
    assert_eq!(bytes(&completes(&case), 40, 8), [0xFE, 0x04, 0x00, 0x06, 0x75, 0, 0x10, 3]);
    case.record[PSW + 5..PSW + 8].copy_from_slice(&[0x01, 0, 0]);
    assert_eq!(bytes(&completes(&case), 40, 8), [0xFE, 0x04, 0x00, 0x05, 0x75, 1, 0, 2]);
}

#[test]
fn interruptions_with_an_ec_psw() {
    let start = [0x03, 0x0C, 0x35, 0, 0, 0, 0x10, 0];
    for (text, at, fields_at, fields) in [
        (vec![0x0A, 0x5A], 32, 136, [0, 2, 0, 0x5A]),
        (vec![0xD2, 0, 0, 0, 0, 0], 40, 140, [0, 6, 0, 1]),
        (vec![0x82, 0, 0x02, 0x01], 40, 140, [0, 4, 0, 6]),
    ] {
        let mut case = guest(start, &text);
        set_bytes(&mut case, 136, &[0xEE; 12]);
        // The new PSW's form plays no part.
        set_bytes(&mut case, at + 64, &[0, 0, 0x9A, 0xBC, 0xDE, 0, 0x20, 0]);
        let left = completes(&case);
        assert_eq!(bytes(&left, at, 8), [0x03, 0x0C, 0x35, 0, 0, 0, 0x10, text.len() as u8]);
        let mut owed = [0xEE; 12];
        owed[fields_at - 136..fields_at - 132].copy_from_slice(&fields);
        assert_eq!(bytes(&left, 136, 12), owed);
        assert_eq!(psw(&left), [0, 0, 0x9A, 0xBC, 0xDE, 0, 0x20, 0]);
    }
}

#[test]
fn interceptions_leave_bits_16_to_33() {
    let start = [0x01, 0, 0xAB, 0xCD, 0xB5, 0, 0x10, 0];
    let advanced = |length: u8| [0x01, 0, 0xAB, 0xCD, 0xB5, 0, 0x10, length];
    // Code 4: SVC under flag bit 0.
    let mut case = guest(start, &[0x0A, 0x5A]);
    case.record[48] = 0x80;
    let left = runs(&case, Answer::Intercepted(4), 0);
    assert_eq!((psw(&left), &left.record[52..62]), (advanced(2), &[4, 1, 0, 0, 0, 0, 0, 0, 0x0A, 0x5A][..]));
    // Codes 44 and 8: an operation exception.
    let mut case = guest(start, &[0xD2, 1, 2, 3, 4, 5]);
    case.record[5] = 0x80;
    let left = runs(&case, Answer::Intercepted(44), 0);
    assert_eq!((psw(&left), &left.record[52..66]), (advanced(6), &[44, 3, 0, 0, 0, 0, 0, 0, 0xD2, 1, 2, 3, 4, 5][..]));
    case.record[5] = 0x40;
    let left = runs(&case, Answer::Intercepted(8), 0);
    assert_eq!((psw(&left), &left.record[52..60]), (advanced(6), &[8, 3, 0, 1, 0, 0, 0, 0][..]));
    // Code 20.
    case.record[T] = 0x80;
    case.record[CR0 + 3] = 0x80;
    let left = runs(&case, Answer::Intercepted(20), 0);
    assert_eq!((psw(&left), &left.record[52..60]), (start, &[20, 0, 0, 0x80, 0, 0, 0, 0][..]));
}

// ---------------------------------------------------------------------------------------------------------------
// "There opcodes 9C to 9F are code 4 and B230 to B23C operation exceptions."

#[test]
fn opcodes() {
    for start in [BC, EC] {
        for operation in 0x9B..=0xA0u8 {
            for second in [0x00, 0x31, 0xFF] {
                let mut case = guest(start, &[operation, second, 0x12, 0x34]);
                case.record[5] = 0xC0;
                let listed = (0x9C..=0x9F).contains(&operation);
                let code = if listed { 4 } else { 44 };
                let left = runs(&case, Answer::Intercepted(code), 0);
                assert_eq!(left.record[60..66], [operation, second, 0x12, 0x34, 0, 0]);
                assert_eq!((left.record[53], left.record[PSW + 7]), (2, 4));
                // Privileged operation in the problem state.
                case.record[5] = 0x40;
                case.record[PSW + 1] |= 0x01;
                assert_eq!(runs(&case, Answer::Intercepted(8), 0).record[53..56], [2, 0, if listed { 2 } else { 1 }]);
            }
        }
        for second in 0x2F..=0x3Du8 {
            let mut case = guest(start, &[0xB2, second, 0x12, 0x34]);
            for state in [0, 1] {
                case.record[PSW + 1] |= state;
                case.record[5] = 0xC0;
                assert_eq!(runs(&case, Answer::Intercepted(44), 0).record[60..64], [0xB2, second, 0x12, 0x34]);
                case.record[5] = 0x40;
                assert_eq!(runs(&case, Answer::Intercepted(8), 0).record[53..56], [2, 0, 1]);
            }
        }
        for text in [[0x83, 0, 0, 0], [0xAE, 0, 0, 0]] {
            runs(&guest(start, &text), Answer::Intercepted(4), 0);
        }
    }
    // In 370-XA mode it is the other way about, in the larger record too.
    for larger in [true, false] {
        for (operation, second, code) in [(0x9C, 0, 44), (0x9F, 0, 44), (0xB2, 0x30, 4), (0xB2, 0x3C, 4)] {
            let mut case = in_xa_mode(&guest(EC, &[operation, second, 0, 0]));
            case.record[5] = 0x80;
            let case = if larger { case } else { in_200_bytes(&case) };
            runs(&case, Answer::Intercepted(code), 0);
        }
    }
}

// ---------------------------------------------------------------------------------------------------------------
// "For a BC PSW the I/O request needs any one of bits 0-6."

#[test]
fn io_request() {
    for number in 0..16 {
        if (8..=14).contains(&number) {
            continue;
        }
        let mut case = guest(turned(BC, number), &LR);
        case.record[3] = 0x02;
        if number <= 6 {
            let left = runs(&case, Answer::Intercepted(24), 0);
            assert_eq!((psw(&left), &left.record[52..56]), (psw(&case), &[24, 0, 0, 0][..]));
        } else {
            completes(&case);
        }
    }
    let mut case = guest(turned(EC, 6), &LR);
    case.record[3] = 0x02;
    runs(&case, Answer::Intercepted(24), 0);
    let mut case = guest(turned(EC, 7), &LR);
    case.record[3] = 0x02;
    completes(&case);
    // The external request is bit 7's in both forms.
    for start in [BC, EC] {
        let mut case = guest(start, &LR);
        case.record[3] = 0x01;
        completes(&case);
        case.record[PSW] |= 0x01;
        runs(&case, Answer::Intercepted(16), 0);
    }
}

#[test]
fn comparator_and_cpu_timer() {
    for start in [BC, EC] {
        let mut case = guest(turned(start, 7), &LR);
        case.clock = 1;
        model::set_word(&mut case.record, CR0, 0x800);
        assert_eq!(runs(&case, Answer::Intercepted(20), 0).record[53..56], [0, 0x10, 0x04]);
        model::set_word(&mut case.record, CR0, 0x400);
        model::set_doubleword(&mut case.record, 24, u64::MAX);
        assert_eq!(runs(&case, Answer::Intercepted(20), 0).record[53..56], [0, 0x10, 0x05]);
    }
}

// ---------------------------------------------------------------------------------------------------------------
// "each completed unit adds three times its time to the residue"

#[test]
fn residue_of_completed_units() {
    for start in [BC, EC] {
        let mut case = guest(start, &[0x18, 0, 0x1A, 0x12, 0x0A, 1]);
        case.time = 1000;
        model::set_word(&mut case.record, RESIDUE, 5);
        for (budget, owed) in [(0, 5), (1, 3005), (2, 6005), (3, 9005), (4, 12_005)] {
            case.budget = budget;
            assert_eq!(residue(&completes(&case)), owed);
        }
        // Bit 7 one stops it.
        case.record[MODE] = 0x05;
        assert_eq!(residue(&completes(&case)), 5);
        case.record[MODE] = 0xF4;
        assert_eq!(residue(&completes(&case)), 12_005);
    }
    // So does 370-XA mode.
    let mut case = guest(EC, &LR);
    about_to_fall(&mut case, 7);
    let left = completes(&in_xa_mode(&case));
    assert_eq!((residue(&left), word_at_80(&left), left.record[T]), (40_959_999, 7, 0));
}

#[test]
fn exits_and_faults_add_nothing() {
    let mut case = guest(EC, &[0x18, 0, 0x83, 0, 0, 0]);
    case.budget = 9;
    assert_eq!(residue(&runs(&case, Answer::Intercepted(4), 1)), 3);
    // L 1,0(2) of a page that the host lacks; the interval timer would be due.
    let mut case = guest(EC, &[0x58, 0x10, 0x20, 0x00]);
    set_register(&mut case, 2, 0x4000);
    about_to_fall(&mut case, 0);
    let left = runs(&case, Answer::HostFault(0x11, 0x4000, Table::read(Stage::HostPage, 0x2010)), 0);
    assert!(left.record == case.record && left.storage == case.storage && left.keys == case.keys);
}

#[test]
fn malformed_psw_adds_like_any_unit() {
    let mut case = guest(turned(EC, 0), &LR);
    about_to_fall(&mut case, 300);
    let left = completes(&case);
    assert_eq!((residue(&left), word_at_80(&left)), (2, 44));
}

// ---------------------------------------------------------------------------------------------------------------
// "at 40,960,000 or more that much is taken off and the word at guest real 80 falls by 256 with wrap. Going from
// nonnegative to negative sets T."

#[test]
fn fall_of_the_word() {
    for (before, time, after, falls) in [
        (40_959_996, 1, 40_959_999, false),
        (40_959_997, 1, 0, true),
        (40_959_998, 1, 1, true),
        (40_959_999, 1, 2, true),
        (0, 1_048_576, 3_145_728, false),
        (37_814_271, 1_048_576, 40_959_999, false),
        (37_814_272, 1_048_576, 0, true),
        (40_959_999, 1_048_576, 3_145_727, true),
    ] {
        let mut case = guest(BC, &LR);
        case.time = time;
        model::set_word(&mut case.record, RESIDUE, before);
        model::set_word(&mut case.storage, HOST + 80, 1000);
        let left = completes(&case);
        assert_eq!((residue(&left), word_at_80(&left)), (after, if falls { 744 } else { 1000 }));
    }
}

#[test]
fn t_is_set_from_nonnegative_to_negative() {
    for (before, after, t) in [
        (0, 0xFFFF_FF00, true),
        (1, 0xFFFF_FF01, true),
        (255, 0xFFFF_FFFF, true),
        (256, 0, false),
        (257, 1, false),
        (0x7FFF_FFFF, 0x7FFF_FEFF, false),
        (0x8000_0000, 0x7FFF_FF00, false),
        (0x8000_00FF, 0x7FFF_FFFF, false),
        (0x8000_0100, 0x8000_0000, false),
        (0xFFFF_FFFF, 0xFFFF_FEFF, false),
    ] {
        let mut case = guest(EC, &LR);
        about_to_fall(&mut case, before);
        for request in [0x00, 0x55, 0x80, 0xD5] {
            case.record[T] = request;
            let left = completes(&case);
            assert_eq!((word_at_80(&left), left.record[T]), (after, request | if t { 0x80 } else { 0 }));
        }
    }
}

#[test]
fn residue_and_falls_are_kept_however_the_run_is_cut() {
    // BCR 15,1 to itself: 41 units of 1,048,576, from 39,000,000: 167,974,848 is four falls and 4,134,848.
    let mut case = guest(BC, &[0x07, 0xF1]);
    set_register(&mut case, 1, 0x1000);
    case.time = 1_048_576;
    model::set_word(&mut case.record, RESIDUE, 39_000_000);
    model::set_word(&mut case.storage, HOST + 80, 2000);
    for piece in [41, 1, 2, 5] {
        let mut left = case.clone();
        let mut units = 0;
        while units < 41 {
            left.budget = piece.min(41 - units);
            left = completes(&left);
            units += left.budget;
        }
        assert_eq!((residue(&left), word_at_80(&left)), (4_134_848, 976));
    }
}

// ---------------------------------------------------------------------------------------------------------------
// "T with PSW bit 7 and CR0 bit 24, timer active, is code 20, 0080 hex, after step 5, and clears T."

fn with_t(start: [u8; 8]) -> Case {
    let mut case = guest(turned(start, 7), &LR);
    case.record[T] = 0xAA;
    model::set_word(&mut case.record, CR0, 0x80);
    case
}

#[test]
fn t_pending() {
    for start in [BC, EC] {
        let case = with_t(start);
        let left = runs(&case, Answer::Intercepted(20), 0);
        assert_eq!(left.record[52..66], [20, 0, 0x00, 0x80, 0, 0, 0, 0, 0, 0, 0, 0, 0, 0]);
        assert_eq!((left.record[T], psw(&left), residue(&left)), (0x2A, psw(&case), 0));
        completes(&left);
        // Every mask.
        for (at, bit) in [(PSW, 0x01), (CR0 + 3, 0x80), (T, 0x80)] {
            let mut case = case.clone();
            case.record[at] &= !bit;
            assert_eq!(completes(&case).record[T], case.record[T]);
        }
        let mut other = case.clone();
        other.record[MODE] = 0x05;
        assert_eq!(completes(&other).record[T], 0xAA);
        // With a used budget it waits.
        other = case.clone();
        other.budget = 0;
        assert_eq!(completes(&other).record[T], 0xAA);
    }
    assert_eq!(completes(&in_xa_mode(&with_t(EC))).record[T], 0xAA);
}

#[test]
fn t_in_its_place() {
    // Before it: stop request, step 2, step 3, comparator, CPU timer. These do not clear T.
    let before: [(&dyn Fn(&mut Case), u8, [u8; 2]); 5] = [
        (&|case| case.record[3] = 0x04, 40, [0, 0]),
        (&|case| case.record[PSW + 2] = 0x80, 32, [0, 0]),
        (&|case| (case.record[PSW + 3], case.record[5]) = (1, 0x40), 8, [0, 6]),
        (&|case| (case.clock, case.record[CR0 + 2]) = (1, 0x08), 20, [0x10, 0x04]),
        (&|case| (case.record[24], case.record[CR0 + 2]) = (0x80, 0x04), 20, [0x10, 0x05]),
    ];
    for (change, code, interruption) in before {
        let mut case = with_t(EC);
        change(&mut case);
        let left = runs(&case, Answer::Intercepted(code), 0);
        assert_eq!((left.record[T], &left.record[54..56]), (0xAA, &interruption[..]));
    }
    // After it: external request, I/O request, wait state.
    let after: [&dyn Fn(&mut Case); 3] =
        [&|case| case.record[3] = 0x01, &|case| (case.record[3], case.record[PSW]) = (0x02, 0x03), &|case| {
            case.record[PSW + 1] |= 0x02
        }];
    for change in after {
        let mut case = with_t(EC);
        change(&mut case);
        assert_eq!(runs(&case, Answer::Intercepted(20), 0).record[54..56], [0x00, 0x80]);
    }
}

#[test]
fn t_set_in_a_unit_is_seen_before_the_next() {
    let mut case = guest(turned(BC, 7), &[0x18, 0, 0x18, 0]);
    model::set_word(&mut case.record, CR0, 0x80);
    about_to_fall(&mut case, 0);
    case.budget = 2;
    let left = runs(&case, Answer::Intercepted(20), 1);
    assert_eq!((left.record[T], residue(&left)), (0, 2));
    case.budget = 1;
    let mut left = completes(&case);
    assert_eq!(left.record[T], 0x80);
    left.record[15] = 0;
    assert_eq!(runs(&left, Answer::Intercepted(32), 0).record[T], 0x80);
}

// ---------------------------------------------------------------------------------------------------------------
// "The word's update ends the unit, skips keys and low-address protection and marks none."

#[test]
fn update_ends_the_unit() {
    // ST 1,80: the value stored less 256; it sets T by that value.
    let mut case = guest(BC, &[0x50, 0x10, 0x00, 0x50]);
    set_register(&mut case, 1, 100);
    about_to_fall(&mut case, 0x9000_0000);
    let left = completes(&case);
    assert_eq!((word_at_80(&left), left.record[T]), (0xFFFF_FF64, 0x80));
    // ST 1,78: half of it.
    let mut case = guest(BC, &[0x50, 0x10, 0x00, 0x4E]);
    set_register(&mut case, 1, 0x1234_0002);
    about_to_fall(&mut case, 0x9999_0005);
    let left = completes(&case);
    assert_eq!((word_at_80(&left), left.record[T]), (0x0001_FF05, 0));
    assert_eq!(bytes(&left, 78, 2), [0x12, 0x34]);
    // L 1,80 sees the word before.
    let mut case = guest(BC, &[0x58, 0x10, 0x00, 0x50]);
    about_to_fall(&mut case, 1000);
    let left = completes(&case);
    assert_eq!((register(&left, 1), word_at_80(&left)), (1000, 744));
    // SVC in the unit of a fall.
    let mut case = guest(BC, &[0x0A, 1]);
    about_to_fall(&mut case, 255);
    let left = completes(&case);
    assert_eq!((word_at_80(&left), left.record[T], bytes(&left, 32, 8)[3]), (0xFFFF_FFFF, 0x80, 1));
}

#[test]
fn another_page_of_the_same_frame() {
    // Page 3 is the prefix page's frame too: ST 1,80(2).
    let mut case = guest(EC, &[0x50, 0x10, 0x20, 0x50]);
    model::set_word(&mut case.storage, 0x200C, 0x3000);
    set_register(&mut case, 1, 600);
    set_register(&mut case, 2, 0x3000);
    about_to_fall(&mut case, 0);
    let left = completes(&case);
    assert_eq!((word_at_80(&left), left.record[T]), (344, 0));
}

#[test]
fn update_skips_keys_and_marks_none() {
    let mut case = guest([0, 0x10, 0, 0, 0, 0, 0x10, 0], &LR);
    case.record[CR0] = 0x10;
    case.keys = vec![0, 0, 0, 0xF8, 0x10, 0, 0, 0];
    about_to_fall(&mut case, 0);
    let left = completes(&case);
    assert_eq!((word_at_80(&left), left.record[T]), (0xFFFF_FF00, 0x80));
    assert_eq!(left.keys, [0, 0, 0, 0xF8, 0x14, 0, 0, 0]);
    // Where the instruction itself marks, its marks stand: L 1,0(2) of the same frame.
    let mut case = guest(BC, &[0x58, 0x10, 0x01, 0x00]);
    about_to_fall(&mut case, 0);
    assert_eq!(completes(&case).keys[3], 0x04);
}

#[test]
fn word_is_prefixed() {
    let mut case = guest(BC, &LR);
    model::set_word(&mut case.record, 8, 0x8000_2FFF);
    about_to_fall(&mut case, 1000);
    model::set_word(&mut case.storage, HOST + 0x2050, 5000);
    let left = completes(&case);
    assert_eq!((word_at_80(&left), model::word(&left.storage, HOST + 0x2050)), (1000, 4744));
}

#[test]
fn host_fault_at_the_word_undoes_the_unit() {
    // ST 1,0(2) into page 2; condition, timers and marks stay too.
    for (entry, code) in [(0x3200, 4), (0x3400, 0x11), (0x3500, 0x11), (0x3100, 0x12), (0x3800, 0x12), (0x8000, 5)] {
        let mut case = guest(EC, &[0x50, 0x10, 0x20, 0x00]);
        set_register(&mut case, 1, 0x1234_5678);
        set_register(&mut case, 2, 0x2100);
        about_to_fall(&mut case, 0);
        model::set_word(&mut case.storage, 0x2000, entry);
        let table = if code == 4 { Table::NONE } else { Table::read(Stage::HostPage, 0x2000) };
        let left = runs(&case, Answer::HostFault(code, 80, table), 0);
        assert!(left.record == case.record && left.storage == case.storage && left.keys == case.keys);
        // The table is looked at only where the word falls.
        model::set_word(&mut case.record, RESIDUE, 40_959_996);
        assert_eq!(bytes(&completes(&case), 0x2100, 4), [0x12, 0x34, 0x56, 0x78]);
    }
    let mut case = guest(EC, &LR);
    about_to_fall(&mut case, 0);
    case.record[MODE] = 0x05;
    model::set_word(&mut case.storage, 0x2000, 0x400);
    completes(&case);
}

#[test]
fn address_of_that_fault() {
    // Origin 1 and prefix 2000 hex: host page 18 is protected.
    let mut case = guest(BC, &LR);
    case.record[13] = 1;
    for page in 0..4 {
        model::set_word(&mut case.storage, 0x2040 + 4 * page, 0x3000 + 0x1000 * page as u32);
    }
    model::set_word(&mut case.storage, 0x2048, 0x5200);
    model::set_word(&mut case.record, 8, 0x2000);
    about_to_fall(&mut case, 0);
    runs(&case, Answer::HostFault(4, 0x1_2050, Table::NONE), 0);
    // The areas of the unit's interruption come first: SVC's old PSW, a program's old PSW.
    set_bytes(&mut case, 0x1000, &[0x0A, 0]);
    runs(&case, Answer::HostFault(4, 0x1_2020, Table::NONE), 0);
    set_bytes(&mut case, 0x1000, &[0x00, 0]);
    runs(&case, Answer::HostFault(4, 0x1_2028, Table::NONE), 0);
}

#[test]
fn tables_of_the_unit_s_beginning() {
    // Page 3 is the frame of the host page table: ST 1,0(2) changes the entry of page 0 in the unit of the fall.
    let mut case = guest(EC, &[0x50, 0x10, 0x20, 0x00]);
    model::set_word(&mut case.storage, 0x200C, 0x2000);
    set_register(&mut case, 2, 0x3000);
    about_to_fall(&mut case, 1000);
    for entry in [0x3400, 0x3200, 0x5000] {
        set_register(&mut case, 1, entry);
        assert_eq!(word_at_80(&completes(&case)), 744);
    }
    model::set_word(&mut case.storage, 0x2000, 0x3400);
    set_register(&mut case, 1, 0x3000);
    runs(&case, Answer::HostFault(0x11, 80, Table::read(Stage::HostPage, 0x2000)), 0);
}

// ---------------------------------------------------------------------------------------------------------------
// "in translate too (it also reads PSW bit 12)"

#[test]
fn translate() {
    let mut case = guest(turned(EC, 5), &[]);
    translates(&case, 0x1234, 0, Answer::Intercepted(32));
    // After refusal 8; and a BC PSW's bit 5 is a channel's mask.
    translates(&case, 0x1234, 3, Answer::Refused(8));
    case.record[PSW + 1] = 0;
    translates(&case, 0x1234, 0, Answer::Good(0x4234));
    // Neither malformed bits nor PER stop it, and bit 32 does not matter.
    for start in [[0xFB, 8, 0xFF, 0xFF, 0xFF, 0xFF, 0xFF, 0xFF], [0xFF, 0, 0xFF, 0xFF, 0xFF, 0xFF, 0xFF, 0xFF]] {
        let mut case = guest(start, &[]);
        for access in 0..3 {
            translates(&case, 0xFF00_1234, access, Answer::Good(0x4234));
        }
        translates(&case, 0x4000, 0, Answer::HostFault(0x11, 0x4000, Table::read(Stage::HostPage, 0x2010)));
        translates(&case, 0x1_0000, 0, Answer::ProgramException(5, Table::NONE));
        case.record[CR0] = 0x10;
        translates(&case, 0x0100_01FF, 1, Answer::ProgramException(4, Table::NONE));
        case.record[PSW + 1] |= 0x20;
        translates(&case, 0x1234, 1, Answer::ProgramException(4, Table::NONE));
        case.keys[4] = 0x20;
        translates(&case, 0x1234, 1, Answer::Good(0x4234));
    }
    // In 370-XA mode bit 12 is not read, and bit 32 is.
    let mut case = in_xa_mode(&guest(BC, &[]));
    translates(&case, 0x0100_1234, 0, Answer::Good(0x4234));
    case.record[PSW + 4] = 0x80;
    translates(&case, 0x0100_1234, 0, Answer::ProgramException(5, Table::NONE));
    // With bit 5 one CR0 is looked at.
    case.record[PSW] = 0x04;
    translates(&case, 0x1234, 0, Answer::ProgramException(0x12, Table::NONE));
}

// ---------------------------------------------------------------------------------------------------------------
// "Demand 3 reads as before, over the larger record."

#[test]
fn extent_in_mode_01() {
    let case = guest(BC, &LR);
    let extent = model::describe_extent(&case.record, &case.storage, case.designation);
    assert_eq!(extent.frames, [3, 4, 5, 6]);
    assert_eq!(extent.entries.len(), 17);
    let small = in_200_bytes(&case);
    let extent = model::describe_extent(&small.record, &small.storage, small.designation);
    assert!(extent.frames.is_empty() && extent.entries.is_empty());
}

// ---------------------------------------------------------------------------------------------------------------
// "In case files its length field gives the record's size, 200 if not 208."

#[test]
fn case_files() {
    let mut case = guest(turned(BC, 7), &LR);
    model::set_word(&mut case.record, CR0, 0x80);
    about_to_fall(&mut case, 0);
    case.budget = 3;
    let file = report::case_file(&case).unwrap();
    assert_eq!(file.len(), 4 + 1 + 4 + 8 + 4 + 2 + 208 + 1 + 8 + 8 * 4096);
    assert_eq!(model::case_line(&file), "I 20 1");
    let small = report::case_file(&in_200_bytes(&case)).unwrap();
    assert_eq!(small.len(), file.len() - 8);
    assert_eq!(model::case_line(&small), "I 32 0");
    assert_eq!(model::case_line(&report::case_file(&in_200_bytes(&in_xa_mode(&case))).unwrap()), "B 0 3");

    // The record is bytes 23 on.
    let with = |file: &[u8], changes: &[(usize, u8)]| {
        let mut file = file.to_vec();
        for &(at, value) in changes {
            file[at] = value;
        }
        model::case_line(&file)
    };
    assert_eq!(with(&file, &[(25, 1)]), "R 2");
    assert_eq!(with(&small, &[(25, 2)]), "R 2");
    assert_eq!(with(&small, &[(24, 199)]), "R 1");
    assert_eq!(with(&small, &[(23, 1), (24, 208)]), "R 1");
    assert_eq!(with(&file, &[(23 + 201, 1)]), "R 7");
    // 208 before 200 bytes, and 200 before 208: the frame count is sought elsewhere.
    assert_eq!(with(&small, &[(24, 208)]), "R 9");
    assert_eq!(with(&file, &[(24, 200)]), "R 9");
    assert_eq!(with(&file, &[(24, 200), (23 + 200, 8)]), "R 9");
    // A file of 208 bytes' record under 200 that happens to fit: eight bytes less at its end.
    let mut fits = file[..file.len() - 8].to_vec();
    let length = (fits.len() - 4) as u32;
    model::set_word(&mut fits, 0, length);
    assert_eq!(with(&fits, &[(24, 200), (25, 1), (23 + 200, 8)]), "I 32 0");
    assert_eq!(with(&fits, &[(24, 200), (25, 1), (23 + 200, 0)]), "R 9");
    assert_eq!(model::case_line(&fits), "R 9");
    // Version, count and length as before; files cut short.
    for (at, value) in [(4, 0), (4, 2), (3, 1), (23 + 208, 0), (23 + 208, 9), (23 + 208, 7)] {
        assert_eq!(with(&file, &[(at, value)]), "R 9");
    }
    // No frames and nine, with as many bytes.
    for (size, file) in [(200, &small), (208, &file)] {
        for frames in [0, 9] {
            let mut file = file.clone();
            file.resize(23 + size + 1 + frames + frames * 4096, 0);
            file[23 + size] = frames as u8;
            let length = (file.len() - 4) as u32;
            model::set_word(&mut file, 0, length);
            assert_eq!(model::case_line(&file), "R 9");
        }
    }
    for length in [0, 3, 4, 5, 23, 24, 25, 223, 224, 230, 231, 232] {
        let mut cut = file[..length].to_vec();
        if length >= 4 {
            model::set_word(&mut cut, 0, length as u32 - 4);
        }
        assert_eq!(model::case_line(&cut), "R 9");
    }
}
