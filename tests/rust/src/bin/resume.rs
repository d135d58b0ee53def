//! resume [CASES] [SEED]: a run of n units at once against the same run cut into pieces, each resumed with the record
//! left and the clock advanced: unit by unit, and in pieces of random length. In many cases the CPU timer crosses zero
//! at a cut, or the interval timer's word falls there.

use drevokas_tests::ffi::{self, Packed};
use drevokas_tests::generate::{self, Case, Machine, Rng, Wishes};
use drevokas_tests::{model, report};
use std::process::exit;
use std::time::Instant;

fn main() {
    let (cases, seed) = report::arguments(50_000);
    println!("resume: {cases} cases, seed {seed}");
    for machine in report::MACHINES {
        resume(machine, cases, seed);
    }
    println!("resume: holds");
}

fn resume(machine: Machine, cases: u64, seed: u64) {
    let start = Instant::now();
    let (mut units, mut pieces, mut crossed, mut fell) = (0u64, 0u64, 0u64, 0u64);
    // Host faults after a unit or more that tell of a table entry.
    let mut told = 0u64;
    for number in 0..cases {
        let Some(mut rng) = machine.rng(seed, number) else { continue };
        let wishes = Wishes { machine, damage: rng.percent(5), large_extents: true };
        let mut case = generate::case(&mut rng, wishes);
        case.budget = case.budget.min(300);
        // The interval timer is aimed as the case is made.
        let chance = if machine == Machine::System370 { 20 } else { 70 };
        if is_whole(&case) && rng.percent(chance) {
            aim_timer(&mut rng, &mut case);
        }
        let mut whole = case.clone();
        let end = run(&mut whole, case.clock, case.budget);
        for unit_by_unit in [true, false] {
            let mut cut = case.clone();
            let result = run_in_pieces(&mut rng, &mut cut, unit_by_unit);
            pieces += result.pieces;
            crossed += result.crossed;
            fell += result.fell;
            if !same(&whole, end, &cut, result.end, result.units) {
                println!(
                    "resumed run differs in case {number} of seed {seed}, {machine:?}, unit by unit: {unit_by_unit}"
                );
                report::keep_case(&case, "resume.case");
                exit(1);
            }
        }
        units += end.units() as u64;
        told += (end.kind() == ffi::HOST_FAULT && end.units() > 0 && end.entry() != 0) as u64;
    }
    println!(
        "{units} units, {pieces} pieces, {crossed} cuts where the CPU timer crossed zero, {:.1} seconds",
        start.elapsed().as_secs_f64()
    );
    println!("{told} resumed runs that told of a table entry");
    if told == 0 && cases > 1000 {
        exit(1);
    }
    if crossed == 0 && cases > 1000 {
        println!("no cut where the CPU timer crossed zero");
        exit(1);
    }
    if machine == Machine::System370 {
        println!("{fell} cuts after a fall of the interval timer's word");
        if fell == 0 && cases > 1000 {
            exit(1);
        }
    }
}

/// Whether the record has one of the two lengths.
fn is_whole(case: &Case) -> bool {
    case.record.len() == 200 || case.record.len() == 208
}

/// Sets the CPU timer to reach zero, or one beside it, after some units, and lets it be seen.
fn aim_timer(rng: &mut Rng, case: &mut Case) {
    let units = rng.below(case.budget.min(12) + 1) as u64;
    let timer = (units * case.time as u64).wrapping_add(rng.below(3) as u64).wrapping_sub(1);
    model::set_doubleword(&mut case.record, 24, timer);
    if rng.percent(70) {
        // PSW bit 7, and CR0 bit 21; no external request that would come before.
        case.record[16] |= 0x01;
        case.record[72 + 2] |= 0x04;
        case.record[3] &= !0x01;
        if rng.percent(70) {
            model::set_doubleword(&mut case.record, 32, u64::MAX);
        }
    }
}

struct Pieces {
    end: Packed,
    units: u32,
    pieces: u64,
    crossed: u64,
    fell: u64,
}

fn run_in_pieces(rng: &mut Rng, case: &mut Case, unit_by_unit: bool) -> Pieces {
    let mut clock = case.clock;
    let mut left = case.budget;
    let mut result = Pieces { end: Packed { word: 0, location: 0 }, units: 0, pieces: 0, crossed: 0, fell: 0 };
    loop {
        let piece = if unit_by_unit { left.min(1) } else { rng.below(left.min(10) + 1).max(left.min(1)) };
        let (before, residue_before) = (timer(case), residue(case));
        result.end = run(case, clock, piece);
        result.pieces += 1;
        if result.end.kind() == ffi::REFUSED {
            return result;
        }
        let units = result.end.units();
        if units > piece {
            println!("{units} units completed with a budget of {piece}");
            return result;
        }
        result.crossed += (before >= 0 && timer(case) < 0) as u64;
        result.fell += (residue(case) < residue_before) as u64;
        result.units += units;
        clock = clock.wrapping_add(units as u64 * case.time as u64);
        left -= units;
        if result.end.kind() != ffi::BUDGET_USED || left == 0 {
            return result;
        }
    }
}

fn timer(case: &Case) -> i64 {
    if is_whole(case) {
        model::doubleword(&case.record, 24) as i64
    } else {
        0
    }
}

fn residue(case: &Case) -> u32 {
    if case.record.len() == 208 {
        model::word(&case.record, 204)
    } else {
        0
    }
}

fn run(case: &mut Case, clock: u64, budget: u32) -> Packed {
    let Case { record, storage, keys, .. } = case;
    ffi::run(record, storage, keys, case.designation, clock, case.time, budget)
}

fn same(whole: &Case, end: Packed, cut: &Case, cut_end: Packed, cut_units: u32) -> bool {
    let mut good = true;
    // Kind, number and stage; table entry and address; the units of all pieces.
    if end.word >> 32 != cut_end.word >> 32 || end.location != cut_end.location || end.units() != cut_units {
        println!("{}", report::show_answer("at once  ", end));
        println!("{}", report::show_answer("in pieces", cut_end));
        println!("in pieces {cut_units} units in all");
        good = false;
    }
    good &= !report::show_difference("record, at once against in pieces", &whole.record, &cut.record);
    good &= !report::show_difference("keys, at once against in pieces", &whole.keys, &cut.keys);
    good &= !report::show_difference("storage, at once against in pieces", &whole.storage, &cut.storage);
    good
}
