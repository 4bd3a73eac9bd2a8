//! The published Rust as the judge: it makes recorded answers and checks them. See docs/ORACLE.md.

// The published files say `use smallvec::SmallVec`; this crate answers to that name.
extern crate self as smallvec;

mod cells;
mod check;
mod choose;
mod clocks;
mod draws;
mod judge;
mod scenarios;
mod stage;
mod standins;
mod write;

// The published files, found through the links that oracle/build makes.
#[rustfmt::skip]
#[allow(dead_code, unused_imports)]
#[path = "../../target/oracle/tree/sketches"]
mod sketches {
    pub mod microscope;
}

#[rustfmt::skip]
#[allow(dead_code)]
#[path = "../../target/oracle/tree/common"]
mod common {
    pub use crate::standins::MATRIX_MAX_ROWS;
    pub mod structures {
        pub mod matrix_storage;
        pub mod vector3d;
    }
}

// The names under which the published files look for what is theirs or ours.
pub use common::structures::matrix_storage::MatrixFastHash;
pub use common::structures::vector3d::Vector3D;
pub use standins::{Columns as DefaultXxHasher, DataInput, SketchHasher, SmallVec, analytics};

use choose::Dice;
use std::path::Path;
use std::process::ExitCode;
use write::Out;

/// The seed of the recorded answers in the repository.
const RECORD_SEED: u64 = 20_230_806;

/// How many calls the recorded answers hold, file by file.
const RECORD_CALLS: Calls = Calls {
    draws: 24_000,
    cells: 62_000,
    clock: 15_000,
    sketches: 17_000,
};

/// Calls to record in each file.
struct Calls {
    draws: u64,
    cells: u64,
    clock: u64,
    sketches: u64,
}

impl Calls {
    /// Shares out `total` calls about as the recorded answers do.
    fn shares_of(total: u64) -> Self {
        let draws = total / 5;
        let clock = total / 8;
        let sketches = total / 6;
        Self {
            draws,
            cells: total - draws - clock - sketches,
            clock,
            sketches,
        }
    }
}

/// Writes the four files into `folder`. Each has dice of its own, so that a change to one leaves the others alone.
fn record(folder: &Path, seed: u64, calls: &Calls) -> std::io::Result<()> {
    write_file(
        folder,
        "draws",
        Dice::new(seed, 1),
        calls.draws,
        draws::write,
    )?;
    write_file(
        folder,
        "cells",
        Dice::new(seed, 2),
        calls.cells,
        cells::write,
    )?;
    write_file(
        folder,
        "clock",
        Dice::new(seed, 3),
        calls.clock,
        clocks::write,
    )?;
    write_file(
        folder,
        "sketches",
        Dice::new(seed, 4),
        calls.sketches,
        scenarios::write,
    )
}

fn write_file(
    folder: &Path,
    name: &str,
    mut dice: Dice,
    calls: u64,
    fill: fn(&mut Out, &mut Dice, u64),
) -> std::io::Result<()> {
    let mut out = Out::create(&folder.join(name))?;
    fill(&mut out, &mut dice, calls);
    let (calls, bytes) = out.finish()?;
    println!("{name}: {calls} calls, {bytes} bytes");
    Ok(())
}

fn run(arguments: &[&str]) -> Result<bool, String> {
    let text = |e: std::io::Error| e.to_string();
    match arguments {
        ["record", folder] => record(Path::new(folder), RECORD_SEED, &RECORD_CALLS)
            .map(|()| true)
            .map_err(text),
        ["fresh", folder, seed, calls] => {
            let seed: u64 = seed.parse().map_err(|_| format!("not a seed: {seed}"))?;
            let calls: u64 = calls
                .parse()
                .map_err(|_| format!("not a number: {calls}"))?;
            println!("seed {seed}");
            record(Path::new(folder), seed, &Calls::shares_of(calls))
                .map(|()| true)
                .map_err(text)
        }
        ["check", folder] => check::folder(Path::new(folder)).map_err(text),
        _ => Err("judge record FOLDER | fresh FOLDER SEED CALLS | check FOLDER".to_string()),
    }
}

fn main() -> ExitCode {
    let given: Vec<String> = std::env::args().skip(1).collect();
    let arguments: Vec<&str> = given.iter().map(String::as_str).collect();
    match run(&arguments) {
        Ok(true) => ExitCode::SUCCESS,
        Ok(false) => ExitCode::FAILURE,
        Err(what) => {
            eprintln!("{what}");
            ExitCode::FAILURE
        }
    }
}
