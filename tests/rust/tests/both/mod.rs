//! A case by the model and by the library: both give the same answer. Not every test has use for all of it.
#![allow(dead_code)]

use drevokas_tests::ffi;
use drevokas_tests::generate::Case;
use drevokas_tests::model::{self, Answer};

pub fn translates(case: &Case, address: u32, access: u32, answer: Answer) {
    let Case { record, storage, keys, designation, .. } = case;
    assert_eq!(model::translate(record, storage, keys, *designation, address, access), answer);
    let given = ffi::translate(record, storage, keys, *designation, address, access);
    assert_eq!(given, ffi::pack(answer, 0));
}

/// Runs the case and answers what is left.
pub fn runs(case: &Case, answer: Answer, units: u32) -> Case {
    let mut left = case.clone();
    let Case { record, storage, keys, designation, clock, time, budget, .. } = &mut left;
    let end = model::run(record, storage, keys, *designation, *clock, *time, *budget);
    assert_eq!((end.answer, end.units), (answer, units));
    let mut other = case.clone();
    let Case { record, storage, keys, designation, clock, time, budget, .. } = &mut other;
    let given = ffi::run(record, storage, keys, *designation, *clock, *time, *budget);
    assert_eq!(given, ffi::pack(answer, units));
    assert!(left.record == other.record && left.storage == other.storage && left.keys == other.keys);
    left
}
