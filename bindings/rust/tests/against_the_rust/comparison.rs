// What main.rs is, once there are links to the published Rust.

// The published files say `use smallvec::SmallVec`; this crate answers to that name.
extern crate self as smallvec;

mod band;
mod beside;
mod cells;
mod code_calls;
mod code_causes;
mod code_directed;
mod code_lists;
mod code_stories;
mod code_values;
mod codes;
mod damage;
mod directed;
mod draws;
mod held;
mod hits;
mod junk;
mod layout;
mod levels;
mod load_order;
mod losses;
mod lost;
mod lost_cases;
mod lost_stories;
mod lost_walk;
mod means;
mod named;
mod numbers;
mod pair;
mod pairs;
mod plain_calls;
mod plain_readings;
mod random_calls;
mod refusals;
mod score;
mod stores;
mod stories;
mod tally;
mod unsound;

#[allow(dead_code)]
#[path = "../../../../oracle/src/choose.rs"]
mod choose;
#[allow(dead_code)]
#[path = "../../../../oracle/src/judge.rs"]
mod judge;
#[path = "../../../../oracle/src/standins.rs"]
mod standins;

#[rustfmt::skip]
#[allow(dead_code, unused_imports)]
#[path = "../../../../target/oracle/tree/sketches"]
mod sketches {
    pub mod microscope;
}

#[rustfmt::skip]
#[allow(dead_code)]
#[path = "../../../../target/oracle/tree/common"]
mod common {
    pub use crate::standins::MATRIX_MAX_ROWS;
    pub mod structures {
        pub mod matrix_storage;
        pub mod vector3d;
    }
}

// The names under which the published files look for what is theirs or ours.
pub use common::structures::matrix_storage::MatrixFastHash;
pub use common::structures::vector3d::Vector3D;
pub use standins::{Columns as DefaultXxHasher, DataInput, SketchHasher, SmallVec, analytics};

use choose::Dice;
use score::{Outcome, Score};
use std::process::ExitCode;
use std::time::{SystemTime, UNIX_EPOCH};

const CALLS: u64 = 5_000_000;

/// One call in so many is an asking, so that more than 100,000 are accepted.
const CALLS_AN_ASKING: u64 = 30;

/// Differences after which a run stops: one mistake makes many.
const ENOUGH: u64 = 10;

struct Run {
    seed: u64,
    calls: u64,
}

fn fresh_seed() -> u64 {
    let since = SystemTime::now().duration_since(UNIX_EPOCH).expect("the clock is set");
    since.as_nanos() as u64
}

fn asked() -> Result<Run, String> {
    let mut run = Run {
        seed: fresh_seed(),
        calls: CALLS,
    };
    let mut words = std::env::args().skip(1);
    while let Some(word) = words.next() {
        let place = match word.as_str() {
            "--seed" => &mut run.seed,
            "--calls" => &mut run.calls,
            _ => return Err(format!("against_the_rust [--seed N] [--calls N]; not {word}")),
        };
        let given = words.next().unwrap_or_default();
        *place = given.parse().map_err(|_| format!("not a number: {given}"))?;
    }
    Ok(run)
}

/// One story of some hundred or thousand calls.
fn story(dice: &mut Dice) -> Outcome {
    if code_calls::askings() < score::calls() / CALLS_AN_ASKING {
        return code_calls::counted(code_story(dice));
    }
    match dice.below(29) {
        0..12 => stories::story(dice),
        12..15 => cells::story(dice),
        15..18 => random_calls::story(dice),
        18..20 => damage::story(dice),
        20..22 => draws::story(dice),
        22 => unsound::story(dice),
        23 | 24 => lost_stories::story(dice),
        _ => band::story(dice),
    }
}

fn code_story(dice: &mut Dice) -> Outcome {
    match dice.below(2) {
        0 => code_stories::story(dice),
        _ => code_values::story(dice),
    }
}

fn compare(run: &Run) -> Score {
    let mut score = Score::default();
    let directed = directed::ALL.into_iter().chain(refusals::ALL).chain(unsound::ALL);
    let directed = directed.chain(cells::ALL).chain(lost_cases::ALL).chain(lost_stories::ALL);
    let directed = directed.chain(draws::ALL).chain(band::ALL);
    for (name, story) in directed.chain(pairs::ALL) {
        score.count(name, story());
    }
    for (name, story) in code_causes::ALL.into_iter().chain(code_directed::ALL) {
        score.count(name, code_calls::counted(story()));
    }
    let mut dice = Dice::new(run.seed, 0);
    while score::calls() < run.calls && score.differences < ENOUGH {
        score.count("random", story(&mut dice));
    }
    let counted = [
        ("cells named", named::told()),
        ("means", means::told()),
        ("crossings", levels::told()),
        ("units lost", losses::told()),
    ];
    for (what, (line, outcome)) in counted {
        println!("{line}");
        score.count(what, outcome);
    }
    for call in hits::CALLS {
        let (line, outcome) = hits::told(call);
        println!("{line}");
        score.count(call, outcome);
    }
    score
}

fn main() -> ExitCode {
    let run = match asked() {
        Ok(run) => run,
        Err(what) => {
            eprintln!("{what}");
            return ExitCode::FAILURE;
        }
    };
    let score = judge::quietly(|| compare(&run));
    println!("{}", code_calls::told());
    println!("{}", score::refusals());
    println!("{} calls, {} differences, seed {}", score::calls(), score.differences, run.seed);
    if score.differences == 0 {
        ExitCode::SUCCESS
    } else {
        ExitCode::FAILURE
    }
}
