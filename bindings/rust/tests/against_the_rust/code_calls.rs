//! The calls on watched codes beside what `codes` reckons: number, index, how many are listed, the codes to go on with,
//! both kept arrays and every byte of the list.

use crate::codes;
use crate::held::{Held, published};
use crate::hits;
use crate::junk;
use crate::plain_calls::{Told, told as answered};
use crate::score::{Outcome, called, same, same_each, unchanged, unchanged_one};
use microscope::calls::{self, KEPT_COLUMNS, MOST_CODES, Sketch, Watch};
use std::cell::Cell;

/// What is kept of codes, as a caller of another make might hand it over.
#[derive(Clone)]
pub struct Kept {
    pub watch: Watch,
    pub columns: Box<[u32; KEPT_COLUMNS]>,
    pub limits: Box<[u64; MOST_CODES]>,
}

impl Kept {
    pub fn none() -> Self {
        Self {
            watch: Watch::default(),
            columns: Box::new([0; KEPT_COLUMNS]),
            limits: Box::new([0; MOST_CODES]),
        }
    }

    /// The same once these codes were set for a sketch of so many rows.
    fn with(&self, rows: u64, columns: &[u32], limits: &[u64]) -> Self {
        let mut kept = self.clone();
        kept.watch = Watch {
            count: limits.len() as u64,
            rows,
            reached: 0,
        };
        kept.columns[..].copy_from_slice(&codes::written(&self.columns[..], columns));
        kept.limits[..].copy_from_slice(&codes::written(&self.limits[..], limits));
        kept
    }

    pub fn same_as(&self, watch: Watch, columns: &[u32], limits: &[u64]) -> Outcome {
        same("the codes to go on with", watch, self.watch)?;
        same_each("column", "those kept", columns, &self.columns[..])?;
        same_each("limit", "those kept", limits, &self.limits[..])
    }
}

#[derive(Clone, Copy, Default)]
struct Counts {
    settings: u64,
    settings_refused: u64,
    askings: u64,
    askings_refused: u64,
    codes: u64,
    listed: u64,
    differences: u64,
}

thread_local! {
    static COUNTS: Cell<Counts> = Cell::default();
}

fn count(more: impl FnOnce(&mut Counts)) {
    let mut counts = COUNTS.get();
    more(&mut counts);
    COUNTS.set(counts);
}

pub fn askings() -> u64 {
    COUNTS.get().askings
}

/// Counts a story's difference, and hands its outcome on.
pub fn counted(outcome: Outcome) -> Outcome {
    count(|counts| counts.differences += outcome.is_err() as u64);
    outcome
}

/// What was compared, in words.
pub fn told() -> String {
    let c = COUNTS.get();
    format!(
        "codes: {} settings, {} of them refused; {} askings, {} of them refused; {} codes asked for, {} listed; {} differences",
        c.settings, c.settings_refused, c.askings, c.askings_refused, c.codes, c.listed, c.differences
    )
}

/// The number of a setting, and what is kept after it.
pub fn setting(s: &Sketch, kept: &Kept, columns: &[u32], limits: &[u64]) -> (u64, Kept) {
    let number = hits::number("set_codes", &codes::setting_causes(s, columns, limits));
    count(|counts| {
        counts.settings += 1;
        counts.settings_refused += (number != 0) as u64;
    });
    match number {
        0 => (0, kept.with(s.rows, columns, limits)),
        _ => (number, kept.clone()),
    }
}

/// What an asking tells, and the list that it leaves.
#[derive(Debug, PartialEq)]
pub struct Asked {
    pub number: u64,
    pub index: u64,
    pub listed: u64,
    pub watch: Watch,
    pub list: Vec<u8>,
}

/// What an asking should tell and leave. The codes are gone through only if it is accepted: that gives the listed ones,
/// and what to go on with for "was at or above".
pub fn asking(s: &Sketch, kept: &Kept, grid: &[u8], list: &[u8], ask: impl FnOnce() -> (Vec<u8>, u64)) -> Asked {
    let Kept { watch, columns, .. } = kept;
    let number = hits::number("ask", &codes::asking_causes(s, watch, &columns[..], grid, list.len()));
    count(|counts| {
        counts.askings += 1;
        counts.askings_refused += (number != 0) as u64;
    });
    if number != 0 {
        let named = (number == 14).then(|| codes::named(s, watch, &columns[..], grid));
        return Asked {
            number,
            index: named.flatten().unwrap_or(0) as u64,
            listed: 0,
            watch: *watch,
            list: list.to_vec(),
        };
    }
    let (listed, reached) = ask();
    count(|counts| {
        counts.codes += watch.count;
        counts.listed += listed.len() as u64;
    });
    Asked {
        number,
        index: 0,
        listed: listed.len() as u64,
        watch: Watch { reached, ..*watch },
        list: codes::written(list, &listed),
    }
}

/// Sets codes with plain values.
pub fn set_codes(held: &Held, kept: &Kept, columns: &[u32], limits: &[u64]) -> Told {
    let (lent, lent_columns, lent_limits) = (held.sketch, columns.to_vec(), limits.to_vec());
    let mut left = kept.clone();
    let answer = called(calls::set_codes(
        &lent,
        &mut left.watch,
        &lent_columns,
        &lent_limits,
        &mut left.columns,
        &mut left.limits,
    ));
    let (number, right) = setting(&held.sketch, kept, columns, limits);
    let told = answered("the setting's number", answer, number, 0)?;
    right.same_as(left.watch, &left.columns[..], &left.limits[..])?;
    unchanged_one("the sketch lent", &lent, &held.sketch)?;
    unchanged("the columns lent", &lent_columns, columns)?;
    unchanged("the limits lent", &lent_limits, limits)?;
    Ok(told)
}

/// Asks with plain values. What is lent to be read only is compared too.
pub fn ask(held: &Held, kept: &Kept, list: &[u8]) -> Told {
    let (mut lent, lent_held, mut left) = (kept.clone(), held.clone(), list.to_vec());
    let mut asked = junk::ASKED;
    let answer = called(calls::ask(
        &lent_held.sketch,
        &mut lent.watch,
        &lent.columns,
        &lent.limits,
        &lent_held.grid,
        &mut left,
        &mut asked,
    ));
    let right = asking(&held.sketch, kept, &held.grid, list, || {
        let mut codes = codes::told(&kept.watch, &kept.columns[..], &kept.limits[..]);
        let listed = codes::asking(&mut codes, &published(held));
        (listed, codes::flags(&codes))
    });
    let told = answered("the asking's number", answer, right.number, asked.index)?;
    let left = Asked {
        number: told.0,
        index: asked.index,
        listed: asked.listed,
        watch: lent.watch,
        list: left,
    };
    same("the asking", left, right)?;
    unchanged("the columns kept", &lent.columns[..], &kept.columns[..])?;
    unchanged("the limits kept", &lent.limits[..], &kept.limits[..])?;
    unchanged_one("the sketch asked of", &lent_held.sketch, &held.sketch)?;
    unchanged("the grid asked of", &lent_held.grid, &held.grid)?;
    Ok(told)
}
