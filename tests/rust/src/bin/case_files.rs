//! case_files [CASES] [SEED]: the line that the program case prints for a case file against the model's line, for whole
//! files and for damaged ones. The program is $CASE, by default ../../target/bin/case.

use drevokas_tests::generate::{self, Rng, Wishes};
use drevokas_tests::{model, report};
use std::collections::BTreeMap;
use std::env;
use std::fs;
use std::io::Write;
use std::path::Path;
use std::process::{exit, Command, Stdio};
use std::time::Instant;

/// Where the record begins: after length, version, designation, clock, time and budget.
const TIME: usize = 17;
const RECORD: usize = 23;

const TIME_0: &str = "R 6, time 0";

fn main() {
    let (cases, seed) = report::arguments(2_000);
    println!("case_files: {cases} cases, seed {seed}");
    let program = env::var("CASE").unwrap_or_else(|_| "../../target/bin/case".to_string());
    if !Path::new(&program).is_file() {
        println!("no program {program}");
        exit(2);
    }
    let start = Instant::now();
    let mut kinds: BTreeMap<String, u64> = BTreeMap::new();
    for number in 0..cases {
        for machine in report::MACHINES {
            let Some(mut rng) = machine.rng(seed, number) else { continue };
            let wishes = Wishes { machine, damage: true, large_extents: true };
            let case = generate::case(&mut rng, wishes);
            let Some(mut file) = report::case_file(&case) else { continue };
            if rng.percent(40) {
                damage(&mut rng, &mut file);
            }
            let owed = model::case_line(&file);
            let given = printed(&program, &file);
            if given != format!("{owed}\n") {
                println!("difference in case {number} of seed {seed}, {machine:?}: program {given:?}, model {owed:?}");
                if fs::write("difference.case", &file).is_ok() {
                    println!("the case is in difference.case");
                }
                exit(1);
            }
            // Of a refusal the number too, and which of the times it is.
            let kind = match owed.as_str() {
                "R 6" if model::word(&file, TIME) == 0 => TIME_0,
                refusal if refusal.starts_with('R') => refusal,
                other => &other[..1],
            };
            *kinds.entry(kind.to_string()).or_default() += 1;
        }
    }
    for (kind, count) in &kinds {
        print!("{kind}: {count}; ");
    }
    println!("{:.1} seconds", start.elapsed().as_secs_f64());
    for kind in ["R 1", "R 2", "R 6", TIME_0, "R 7", "R 9", "I", "H", "B"] {
        if !kinds.contains_key(kind) && cases >= 2_000 {
            println!("never occurred: {kind}");
            exit(1);
        }
    }
    println!("case_files: no difference");
}

/// What the program prints for the file.
fn printed(program: &str, file: &[u8]) -> String {
    let child = Command::new(program).stdin(Stdio::piped()).stdout(Stdio::piped()).spawn();
    let mut child = child.unwrap_or_else(|error| {
        println!("{program}: {error}");
        exit(2);
    });
    // A program that has seen enough may close its input.
    let _ = child.stdin.take().unwrap().write_all(file);
    let output = child.wait_with_output().unwrap();
    String::from_utf8_lossy(&output.stdout).into_owned()
}

/// The length of the rest, as the file now is.
fn mend_length(file: &mut [u8]) {
    if file.len() >= 4 {
        let length = (file.len() - 4) as u32;
        model::set_word(file, 0, length);
    }
}

/// Spoils a file.
fn damage(rng: &mut Rng, file: &mut Vec<u8>) {
    let size = if file[RECORD..].starts_with(&[0, 208]) { 208 } else { 200 };
    match rng.below(10) {
        0 => {
            let near = [0, 3, 4, 5, RECORD, RECORD + 1, RECORD + 2, 223, 224, 231, 232];
            let length = if rng.percent(50) { rng.pick(&near) } else { rng.below(file.len() as u32) as usize };
            file.truncate(length);
            if rng.percent(70) {
                mend_length(file);
            }
        }
        1 => {
            let length = file.len() + rng.pick(&[1, 8, 4096, 4097]);
            file.resize(length, 0);
            if rng.percent(50) {
                mend_length(file);
            }
        }
        2 => file[rng.below(4) as usize] ^= 1 << rng.below(8),
        3 => file[4] = rng.pick(&[0, 2, 3, 255]),
        4 => file[RECORD + size] = rng.pick(&[0, 1, 7, 8, 9, 255]),
        5 => {
            let field: u16 = rng.pick(&[0, 199, 201, 207, 209, 0x01C8, 0x01D0, 0xD000, 0xFFFF]);
            file[RECORD..RECORD + 2].copy_from_slice(&field.to_be_bytes());
        }
        6 => file[RECORD + 2] = rng.pick(&[0, 1, 2, 3]),
        7 => file[RECORD + 1] = (408 - size) as u8,
        8 => model::set_word(file, TIME, rng.pick(&[0, 0, 1, 1_048_576, 1_048_577])),
        _ => {
            // The other size, with a frame count where it is then looked for, and as many bytes.
            let other = 408 - size;
            let frames = rng.range(1, 8) as usize;
            file[RECORD + 1] = other as u8;
            if rng.percent(70) {
                file[RECORD + 2] = if other == 208 { 2 } else { 1 };
            }
            file.resize(RECORD + other + 1 + frames + 4096 * frames, 0);
            file[RECORD + other] = frames as u8;
            mend_length(file);
        }
    }
}
