//! compare [CASES] [SEED]: check, translate and run of the library against the model, on random cases.

use drevokas_tests::generate::{self, Case, Rng, Wishes};
use drevokas_tests::guarded::Guarded;
use drevokas_tests::report::{self, Tally};
use drevokas_tests::{ffi, model};
use std::process::exit;
use std::time::Instant;

const TRANSLATIONS: u32 = 4;
const MARGIN_BYTE: u8 = 0xA7;

fn main() {
    let (cases, seed) = report::arguments(200_000);
    println!("compare: {cases} cases, seed {seed}");
    let start = Instant::now();
    let mut tallies = report::MACHINES.map(Tally::new);
    let mut done = 0;
    for number in 0..cases {
        for (machine, tally) in report::MACHINES.into_iter().zip(&mut tallies) {
            let Some(mut rng) = machine.rng(seed, number) else { continue };
            let wishes = Wishes { machine, damage: true, large_extents: true };
            let case = generate::case(&mut rng, wishes);
            if !compare(&mut rng, &case, tally) {
                println!("difference in case {number} of seed {seed}, {machine:?}");
                report::keep_case(&case, "difference.case");
                exit(1);
            }
            done += 1;
        }
    }
    let seconds = start.elapsed().as_secs_f64();
    let mut missing = Vec::new();
    for tally in &mut tallies {
        tally.print();
        missing.extend(tally.missing());
    }
    println!("{:.1} seconds, {:.0} cases a second", seconds, done as f64 / seconds);
    for name in &missing {
        println!("never occurred: {name}");
    }
    if !missing.is_empty() {
        exit(1);
    }
    println!("compare: no difference");
}

/// Whether library and model agree on the case.
fn compare(rng: &mut Rng, case: &Case, tally: &mut Tally) -> bool {
    let mut record = Guarded::new(&case.record, MARGIN_BYTE);
    let mut storage = Guarded::new(&case.storage, MARGIN_BYTE);
    let mut keys = Guarded::new(&case.keys, MARGIN_BYTE);

    let owed = model::check(&case.record);
    tally.check(owed);
    let owed = ffi::pack(owed, 0).word;
    let given = ffi::check(record.content());
    if given != owed {
        println!("check: library {given:016x}, model {owed:016x}");
        return false;
    }

    for _ in 0..TRANSLATIONS {
        let (address, access) = generate::translation(rng, case);
        let owed =
            model::translate_and_walk(&case.record, &case.storage, &case.keys, case.designation, address, access);
        tally.translation(owed, &case.record);
        let owed = ffi::pack(owed.0, 0);
        let given = ffi::translate(
            record.content(),
            storage.content(),
            keys.content(),
            case.designation,
            address,
            access,
        );
        if given != owed {
            println!("translate of {address:08x} hex, access kind {access}");
            println!("{}", report::show_answer("  library", given));
            println!("{}", report::show_answer("  model  ", owed));
            return false;
        }
    }
    if record.content() != case.record {
        println!("check or translate changed the record");
        return false;
    }

    let mut model_record = case.record.clone();
    let mut model_storage = case.storage.clone();
    let mut model_keys = case.keys.clone();
    let end = model::run(
        &mut model_record,
        &mut model_storage,
        &mut model_keys,
        case.designation,
        case.clock,
        case.time,
        case.budget,
    );
    let owed = ffi::pack(end.answer, end.units);
    tally.run(&end, &model_record);
    let given = ffi::run(
        record.content(),
        storage.content(),
        keys.content(),
        case.designation,
        case.clock,
        case.time,
        case.budget,
    );
    let mut differs = false;
    if given != owed {
        println!("run:");
        println!("{}", report::show_answer("  library", given));
        println!("{}", report::show_answer("  model  ", owed));
        differs = true;
    }
    differs |= report::show_difference("record, library against model", record.content(), &model_record);
    differs |= report::show_difference("keys, library against model", keys.content(), &model_keys);
    differs |= report::show_difference("storage, library against model", storage.content(), &model_storage);
    if !record.margins_stand() || !storage.margins_stand() || !keys.margins_stand() {
        println!("the library stored outside what it was given");
        differs = true;
    }
    !differs
}
