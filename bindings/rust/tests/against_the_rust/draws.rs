//! The draws by themselves beside the published `Rounding`, and with states and divisors that are to be refused. The Rust
//! is never handed those.

use crate::choose::Dice;
use crate::hits;
use crate::judge;
use crate::junk;
use crate::numbers;
use crate::plain_calls::told;
use crate::score::{Outcome, called, same};
use microscope::calls::{self, Change};

pub const ALL: [(&str, fn() -> Outcome); 2] = [("edges of the draws", edges), ("a run of draws", run)];

/// Seeds, states, values and divisors at which something ends.
const EDGES: [u64; 16] = [
    0,
    1,
    2,
    3,
    255,
    256,
    u32::MAX as u64,
    1 << 32,
    (1 << 53) + 1,
    (1 << 63) - 1,
    1 << 63,
    (1 << 63) + 1,
    0x9E37_79B9_7F4A_7C15,
    u64::MAX - 2,
    u64::MAX - 1,
    u64::MAX,
];

fn seed(seed: u64) -> Outcome {
    same(
        "the state of a seed",
        called(calls::rounding_new(seed)),
        judge::seeded(seed),
    )
}

fn draw(before: u64) -> Outcome {
    let (mut state, mut value) = (before, junk::WORD);
    let answer = called(calls::next_u64(&mut state, &mut value));
    let right = numbers::first(&numbers::draw(before));
    told("the draw's number", answer, right, 0)?;
    let after = if right == 0 { judge::draw(before) } else { (before, 0) };
    same("state and draw", (state, value), after)
}

fn divide(value: u64, divisor: u64, before: u64) -> Outcome {
    let (mut state, mut quotient, mut change) = (before, junk::WORD, junk::CHANGE);
    let answer = called(calls::unbiased_div_u64(
        value,
        divisor,
        &mut state,
        &mut quotient,
        &mut change,
    ));
    let right = hits::number("unbiased_div_u64", &numbers::division(divisor, before));
    told("the division's number", answer, right, 0)?;
    let came = (state, quotient, change);
    if right != 0 {
        return same("what a refusal leaves and tells", came, (before, 0, Change::default()));
    }
    let (after, divided) = judge::divide(value, divisor, before);
    let change = Change {
        draws: judge::draws_between(before, after),
        ..Change::default()
    };
    same("state, quotient and what is told", came, (after, divided, change))?;
    small(value, divisor, before, (state, quotient))
}

/// The published division of 32-bit numbers gives the same.
fn small(value: u64, divisor: u64, before: u64, (state, quotient): (u64, u64)) -> Outcome {
    let (Ok(value), Ok(divisor)) = (value.try_into(), divisor.try_into()) else {
        return Ok(());
    };
    let (after, divided) = judge::divide_u32(value, divisor, before);
    same(
        "state and quotient of 32 bits",
        (state, quotient),
        (after, divided as u64),
    )
}

fn named(outcome: Outcome, value: u64, divisor: u64, state: u64) -> Outcome {
    outcome.map_err(|what| format!("{what}; value or seed {value}, divisor {divisor}, state {state}"))
}

/// Every two edges divided from every state at an edge.
fn edges() -> Outcome {
    for state in EDGES {
        named(seed(state).and_then(|()| draw(state)), state, 0, state)?;
        for (value, divisor) in EDGES
            .into_iter()
            .flat_map(|value| EDGES.map(|divisor| (value, divisor)))
        {
            named(divide(value, divisor, state), value, divisor, state)?;
        }
    }
    Ok(())
}

/// Draws one after another from where the last left the state, beside the Rust's.
fn run() -> Outcome {
    let mut ours = calls::rounding_new(0);
    let mut theirs = judge::seeded(0);
    for _ in 0..10_000 {
        let mut value = junk::WORD;
        told("a draw's number", called(calls::next_u64(&mut ours, &mut value)), 0, 0)?;
        let (after, right) = judge::draw(theirs);
        theirs = after;
        same("state and draw", (ours, value), (theirs, right))?;
    }
    Ok(())
}

fn any_number(dice: &mut Dice) -> u64 {
    match dice.below(3) {
        0 => dice.one_of(&EDGES),
        1 => dice.any_size(),
        _ => dice.any(),
    }
}

pub fn story(dice: &mut Dice) -> Outcome {
    for _ in 0..300 {
        let state = if dice.chance(10) { 0 } else { dice.state() };
        let divisor = if dice.chance(10) { 0 } else { any_number(dice) };
        let value = match dice.below(4) {
            // Often a multiple, of which nothing remains, or close to one.
            0 => divisor
                .wrapping_mul(dice.below(9))
                .wrapping_add(dice.below(3))
                .wrapping_sub(1),
            _ => any_number(dice),
        };
        let outcome = match dice.below(6) {
            0 => seed(value),
            1 => draw(state),
            _ => divide(value, divisor, state),
        };
        named(outcome, value, divisor, state)?;
    }
    Ok(())
}
