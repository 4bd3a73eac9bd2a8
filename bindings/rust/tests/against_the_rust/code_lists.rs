//! Codes, limits and lists to choose from.

use crate::choose::Dice;
use crate::codes::MOST;

/// How many codes: few, none, all, or any.
pub fn how_many(dice: &mut Dice) -> usize {
    match dice.below(10) {
        0 => 0,
        1 => MOST,
        2..8 => dice.within(1, 8) as usize,
        _ => dice.within(1, MOST as u64) as usize,
    }
}

/// A limit near this figure, or at an end of its range.
pub fn limit(dice: &mut Dice, figure: u64) -> u64 {
    match dice.below(12) {
        0 => 0,
        1 => 1,
        2 => u64::MAX,
        3 => dice.any_size(),
        4 | 5 => figure + 1,
        6 => figure.saturating_sub(1),
        7 | 8 => figure + dice.below(20),
        _ => figure,
    }
}

/// A column a row that is below cols; many codes share cells, and some are the same.
pub fn key(dice: &mut Dice, rows: usize, cols: usize) -> Vec<u32> {
    let most = if dice.chance(60) { 2 } else { cols as u64 };
    (0..rows).map(|_| dice.below(most) as u32).collect()
}

/// Columns and limits to set: mostly good.
pub fn new_list(dice: &mut Dice, rows: usize, cols: usize, figure: impl Fn(&[u32]) -> u64) -> (Vec<u32>, Vec<u64>) {
    let count = if dice.chance(8) {
        dice.within(MOST as u64 + 1, MOST as u64 + 9) as usize
    } else {
        how_many(dice)
    };
    let keys: Vec<Vec<u32>> = (0..count).map(|_| key(dice, rows, cols)).collect();
    let limits = keys.iter().map(|key| limit(dice, figure(key))).collect();
    let mut columns = keys.concat();
    match dice.below(24) {
        0 => columns.push(0),
        1 => drop(columns.pop()),
        2 => columns.extend(vec![0; rows]),
        3 => columns.truncate(columns.len().saturating_sub(rows)),
        4 => columns.clear(),
        5 | 6 if !columns.is_empty() => {
            let at = dice.below(columns.len() as u64) as usize;
            columns[at] = dice.one_of(&[cols as u32, cols as u32 + 1, 65_536, u32::MAX]);
        }
        _ => {}
    }
    (columns, limits)
}

/// A list with marks in it: as long as there are codes, or shorter, or longer.
pub fn room(dice: &mut Dice, count: u64) -> Vec<u8> {
    let count = count.min(MOST as u64 + 6);
    let room = match dice.below(20) {
        0 => dice.below(count + 1),
        1 => count.saturating_sub(1),
        2 => 0,
        3..8 => count + dice.within(1, 9),
        _ => count,
    };
    (0..room).map(|_| dice.any() as u8).collect()
}
