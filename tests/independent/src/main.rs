//! Compares the atlas engine with an independent implementation of
//! documents 01 and 02: its library through the test interface, its programs
//! by running them.
//!
//! `independent LISTER TAP CROWDING` runs all groups; `independent
//! --library-only` leaves out the programs. The first difference ends the run
//! with status 1.

mod cases;
mod engine;
mod exact;
mod groups;
mod lists;
mod model;
mod offsets;
mod programs;
mod tally;

use std::path::PathBuf;
use std::process::ExitCode;

const USE: &str = "use: independent LISTER TAP CROWDING | independent --library-only";

fn compare_all(programs: Option<[PathBuf; 3]>) -> groups::Compared {
    let mut total = groups::examples()?;
    total += groups::steps_on_one_number()?;
    total += groups::sheet_checks()?;
    total += groups::globe_and_map()?;
    total += groups::exact_values()?;
    total += groups::steps()?;
    total += groups::reading()?;
    total += groups::writing()?;
    total += groups::taps()?;
    if let Some([lister, tap, _]) = &programs {
        total += programs::lister(lister)?;
        total += programs::tap(tap)?;
    }
    total += offsets::offsets()?;
    total += offsets::map_to_globe()?;
    total += offsets::roots()?;
    total += lists::lists()?;
    match &programs {
        Some([_, _, crowding]) => total += programs::crowding(crowding)?,
        None => println!("9 lister, 10 tap, 15 crowding: left out"),
    }
    Ok(total)
}

fn main() -> ExitCode {
    let arguments: Vec<String> = std::env::args().skip(1).collect();
    let arguments: Vec<&str> = arguments.iter().map(String::as_str).collect();
    let programs = match arguments[..] {
        ["--library-only"] => None,
        [lister, tap, crowding] => {
            let full = |path: &str| std::fs::canonicalize(path).map_err(|e| format!("{path}: {e}"));
            match (full(lister), full(tap), full(crowding)) {
                (Ok(lister), Ok(tap), Ok(crowding)) => Some([lister, tap, crowding]),
                (Err(error), _, _) | (_, Err(error), _) | (_, _, Err(error)) => {
                    eprintln!("{error}");
                    return ExitCode::from(2);
                }
            }
        }
        _ => {
            eprintln!("{USE}");
            return ExitCode::from(2);
        }
    };
    match compare_all(programs) {
        Ok(total) => {
            println!("{total} compared in all, no difference");
            ExitCode::SUCCESS
        }
        Err(difference) => {
            println!("DIFFERENCE in {difference}");
            ExitCode::FAILURE
        }
    }
}
