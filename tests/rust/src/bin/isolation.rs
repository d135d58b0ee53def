//! isolation [CASES] [SEED]: two runs of the library that agree on the record, the numbers, the entries that describe
//! the extent and the guest frames with their keys, and differ at random in all else. They must end alike, stage and
//! table entry included, leave the same record, guest frames and keys, and touch nothing outside. Some translations of
//! both must answer alike too.

use drevokas_tests::ffi::{self, Packed};
use drevokas_tests::generate::{self, Case, Machine, Rng, Wishes};
use drevokas_tests::model::{self, Extent, FRAME};
use drevokas_tests::report;
use std::process::exit;
use std::time::Instant;

const TRANSLATIONS: u32 = 4;

fn main() {
    let (cases, seed) = report::arguments(50_000);
    println!("isolation: {cases} cases, seed {seed}");
    for machine in report::MACHINES {
        isolate(machine, cases, seed);
    }
    println!("isolation: holds");
}

fn isolate(machine: Machine, cases: u64, seed: u64) {
    let start = Instant::now();
    let (mut done, mut skipped, mut units, mut empty) = (0, 0, 0u64, 0);
    // Runs and translations that tell of a table entry.
    let (mut runs, mut translations) = (0u64, 0u64);
    let cases = if machine == Machine::XaLarger { cases / 8 } else { cases };
    let mut number = 0;
    while done < cases {
        number += 1;
        let Some(mut rng) = machine.rng(seed, number - 1) else { continue };
        // A few refused runs and entries that fail: they have no guest frames, so all may differ.
        let wishes = Wishes { machine, damage: rng.percent(20), large_extents: rng.percent(20) };
        let case = generate::case(&mut rng, wishes);
        let extent = extent_of(&case);
        if extent.entries.iter().any(|&entry| extent.frames.contains(&(entry as usize / FRAME))) {
            skipped += 1;
            continue;
        }
        let other = refill(&mut rng, &case, &extent);
        let told = compare_translations(&mut rng, &case, &other);
        match told.and_then(|told| Some((told, compare(&case, &other, &extent)?))) {
            Some((told, end)) => {
                units += end.units() as u64;
                runs += (end.kind() == ffi::HOST_FAULT && end.entry() != 0) as u64;
                translations += told;
            }
            None => {
                println!("isolation fails in case {} of seed {seed}, {machine:?}", number - 1);
                report::keep_case(&case, "isolation-1.case");
                report::keep_case(&other, "isolation-2.case");
                exit(1);
            }
        }
        empty += extent.frames.is_empty() as u64;
        done += 1;
    }
    let seconds = start.elapsed().as_secs_f64();
    println!(
        "{done} cases, {:.1} units a case, {empty} without guest frames, {skipped} skipped for a table entry in a \
         guest frame, {seconds:.1} seconds",
        units as f64 / done.max(1) as f64
    );
    println!("a table entry told by {runs} runs and {translations} translations");
    if (runs == 0 || translations == 0) && cases > 1000 {
        exit(1);
    }
}

/// "A refused run has no entries that describe an extent and no guest frames."
fn extent_of(case: &Case) -> Extent {
    let refusal =
        model::refuse_run(&case.record, case.storage.len(), case.keys.len(), case.budget, case.time);
    if refusal.is_some() {
        return Extent { entries: Vec::new(), frames: Vec::new() };
    }
    model::describe_extent(&case.record, &case.storage, case.designation)
}

/// The same case with everything outside filled at random.
fn refill(rng: &mut Rng, case: &Case, extent: &Extent) -> Case {
    let mut other = case.clone();
    for (frame, bytes) in other.storage.chunks_mut(FRAME).enumerate() {
        if extent.frames.contains(&frame) {
            continue;
        }
        // Random bytes, or small changes.
        match rng.below(3) {
            0 => rng.fill(bytes),
            1 => bytes.iter_mut().for_each(|byte| *byte = !*byte),
            _ => {
                for _ in 0..64 {
                    let at = rng.below(bytes.len() as u32) as usize;
                    bytes[at] = rng.byte();
                }
            }
        }
    }
    for &entry in &extent.entries {
        let at = entry as usize;
        other.storage[at..at + 4].copy_from_slice(&case.storage[at..at + 4]);
    }
    for (frame, key) in other.keys.iter_mut().enumerate() {
        if !extent.frames.contains(&frame) {
            *key = rng.byte();
        }
    }
    other
}

/// Translates some addresses in both and answers how many answers tell of a table entry, if all agree.
fn compare_translations(rng: &mut Rng, case: &Case, other: &Case) -> Option<u64> {
    let mut told = 0;
    // Budget and time are nothing to translate: where they are refused it goes on, and the extent was taken as empty.
    let refusal = model::refuse_run(&case.record, case.storage.len(), case.keys.len(), case.budget, case.time);
    if matches!(refusal, Some(5 | 6)) {
        return Some(told);
    }
    for _ in 0..TRANSLATIONS {
        let (address, access) = generate::translation(rng, case);
        let translate =
            |case: &Case| ffi::translate(&case.record, &case.storage, &case.keys, case.designation, address, access);
        let (first, second) = (translate(case), translate(other));
        if first != second {
            println!("translate of {address:08x} hex, access kind {access}");
            println!("{}", report::show_answer("first ", first));
            println!("{}", report::show_answer("second", second));
            return None;
        }
        told += (first.kind() != ffi::REFUSED && first.entry() != 0) as u64;
    }
    Some(told)
}

/// Runs both and answers the end, if all is as it must be.
fn compare(case: &Case, other: &Case, extent: &Extent) -> Option<Packed> {
    let (mut first, mut second) = (case.clone(), other.clone());
    let first_end = run(&mut first);
    let second_end = run(&mut second);
    let mut good = true;
    if first_end != second_end {
        println!("{}", report::show_answer("first ", first_end));
        println!("{}", report::show_answer("second", second_end));
        good = false;
    }
    good &= !report::show_difference("record, first against second", &first.record, &second.record);
    for &frame in &extent.frames {
        let bytes = frame * FRAME..(frame + 1) * FRAME;
        let name = format!("guest frame {frame}, first against second");
        good &= !report::show_difference(&name, &first.storage[bytes.clone()], &second.storage[bytes]);
        let key = frame..frame + 1;
        let name = format!("key of guest frame {frame}, first against second");
        good &= !report::show_difference(&name, &first.keys[key.clone()], &second.keys[key]);
    }
    good &= is_untouched("first", case, &first, extent) && is_untouched("second", other, &second, extent);
    good.then_some(first_end)
}

fn run(case: &mut Case) -> Packed {
    let Case { record, storage, keys, .. } = case;
    ffi::run(record, storage, keys, case.designation, case.clock, case.time, case.budget)
}

/// Whether the run left everything outside as it was.
fn is_untouched(name: &str, before: &Case, after: &Case, extent: &Extent) -> bool {
    let mut good = true;
    for (frame, bytes) in before.storage.chunks(FRAME).enumerate() {
        if !extent.frames.contains(&frame) {
            let left = &after.storage[frame * FRAME..frame * FRAME + bytes.len()];
            let name = format!("{name} run, frame {frame} outside, left against before");
            good &= !report::show_difference(&name, left, bytes);
        }
    }
    for (frame, &key) in before.keys.iter().enumerate() {
        if !extent.frames.contains(&frame) {
            let left = after.keys[frame];
            let name = format!("{name} run, key {frame} outside, left against before");
            good &= !report::show_difference(&name, &[left], &[key]);
        }
    }
    good
}
