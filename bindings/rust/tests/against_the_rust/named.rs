//! Document 02's T-09 reckoned a second time, from its words alone: "The index with an unsound cell becomes the smallest,
//! in grid order, among the cells judged. It applies to the audit and to the index returned with 14. In a merge the
//! receiving grid is searched before the other." Which cells a call judges stands in document 01, behind its table.
//!
//! Nothing is searched in grid order here: all unsound cells are collected, column by column, and the smallest is taken.

use crate::held::Held;
use crate::numbers;
use crate::score::{Outcome, same};
use microscope::calls::Sketch;
use std::cell::Cell;

/// How often a cell was named, and how often in the ways that a wrong search would get wrong.
#[derive(Clone, Copy)]
struct Counts {
    named: u64,
    of_several: u64,
    past_one_not_judged: u64,
    of_the_other_grid: u64,
    past_one_of_the_other: u64,
}

thread_local! {
    static COUNTS: Cell<Counts> = const {
        Cell::new(Counts { named: 0, of_several: 0, past_one_not_judged: 0, of_the_other_grid: 0, past_one_of_the_other: 0 })
    };
}

fn count(change: impl FnOnce(&mut Counts)) {
    let mut counts = COUNTS.get();
    change(&mut counts);
    COUNTS.set(counts);
}

/// The unsound ones of these cells, each given by row and column.
fn unsound(held: &Held, cells: impl Iterator<Item = (u64, u64)>) -> Vec<usize> {
    let s = &held.sketch;
    cells
        .map(|(row, column)| numbers::cell_at(s, row, column))
        .filter(|&index| numbers::unsound_at(s, &held.grid, index))
        .collect()
}

fn grid_cells(s: &Sketch) -> impl Iterator<Item = (u64, u64)> + use<> {
    let rows = s.rows;
    (0..s.cols).flat_map(move |column| (0..rows).map(move |row| (row, column)))
}

fn key_cells(key: &[u32]) -> impl Iterator<Item = (u64, u64)> {
    (0..).zip(key.iter().map(|&column| column as u64))
}

fn in_whole(held: &Held) -> Vec<usize> {
    unsound(held, grid_cells(&held.sketch))
}

fn smallest(cells: &[usize]) -> Option<usize> {
    cells.iter().copied().min()
}

/// The smallest of those that were judged, beside all of the grid.
fn chosen(judged: &[usize], all: &[usize]) -> Option<usize> {
    count(|counts| {
        counts.named += 1;
        counts.of_several += (judged.len() > 1) as u64;
        counts.past_one_not_judged += (smallest(all) < smallest(judged)) as u64;
    });
    smallest(judged)
}

/// Calls that judge the whole grid, and the audit.
pub fn in_grid(held: &Held) -> Option<usize> {
    let all = in_whole(held);
    chosen(&all, &all)
}

/// Calls that judge the key's cells.
pub fn of_key(held: &Held, key: &[u32]) -> Option<usize> {
    chosen(&unsound(held, key_cells(key)), &in_whole(held))
}

/// A call that moves a clock of this kind to this reading: it judges the key's cells, or all if it crosses.
pub fn moving(held: &Held, key: &[u32], kind: u64, reading: u64) -> Option<usize> {
    if numbers::crosses(&held.sketch, kind, reading) {
        in_grid(held)
    } else {
        of_key(held, key)
    }
}

pub fn in_merge(mine: &Held, other: &Held) -> Option<usize> {
    let (receiving, others) = (in_whole(mine), in_whole(other));
    count(|counts| {
        counts.of_the_other_grid += receiving.is_empty() as u64;
        counts.past_one_of_the_other += (!others.is_empty() && smallest(&others) < smallest(&receiving)) as u64;
    });
    if receiving.is_empty() {
        chosen(&others, &others)
    } else {
        chosen(&receiving, &receiving)
    }
}

/// With 14 this cell is named; with any other number the index is 0.
pub fn names(number: u64, index: u64, right: impl FnOnce() -> Option<usize>) -> Outcome {
    let right = if number == 14 { right() } else { Some(0) };
    same("the cell named with 14, and else 0", Some(index as usize), right)
}

/// What was counted, in one line, and whether each way came.
pub fn told() -> (String, Outcome) {
    let Counts {
        named,
        of_several,
        past_one_not_judged,
        of_the_other_grid,
        past_one_of_the_other,
    } = COUNTS.get();
    let line = format!(
        "unsound cells named: {named}; the smallest of several: {of_several}; past a smaller one that is not judged: \
         {past_one_not_judged}; in a merge the other grid's: {of_the_other_grid}, and the receiving one's past a smaller \
         one of the other: {past_one_of_the_other}"
    );
    let each = [
        of_several,
        past_one_not_judged,
        of_the_other_grid,
        past_one_of_the_other,
    ];
    (line, same("whether each way came", each.contains(&0), false))
}
