//! Document 02's T-01 reckoned a second time, from its words alone: the codes are a plain list, each with what the asking
//! before found. The Over figures are the published Rust's.

use crate::judge;
use crate::numbers::{self, Causes, then};
use crate::pair::narrow;
use crate::sketches::microscope::DeltaStrategy;
use microscope::calls::{Sketch, Watch};

/// "up to 64 watched codes".
pub const MOST: usize = 64;

/// A code with what it is compared with.
#[derive(Clone)]
pub struct Code {
    pub columns: Vec<u32>,
    pub limit: u64,
    pub was_below: bool,
}

/// Setting: the columns of the codes stand one code after another. A new list's first asking counts as coming after
/// "below".
pub fn list(rows: usize, columns: &[u32], limits: &[u64]) -> Vec<Code> {
    let code = |(columns, &limit): (&[u32], &u64)| Code {
        columns: columns.to_vec(),
        limit,
        was_below: true,
    };
    columns.chunks(rows).zip(limits).map(code).collect()
}

/// The figure that a code is judged by. It is a whole number.
pub fn over(theirs: &judge::Sketch, columns: &[u32]) -> u64 {
    let key = judge::key(theirs, &narrow(columns));
    let figure = theirs.estimate_with(&key, DeltaStrategy::Over);
    assert_eq!(figure.fract(), 0.0, "a whole figure");
    figure as u64
}

/// Asking: every code whose figure is at or above its limit and was below at the asking before, in ascending index.
pub fn asking(codes: &mut [Code], theirs: &judge::Sketch) -> Vec<u8> {
    let mut listed = Vec::new();
    for (index, code) in codes.iter_mut().enumerate() {
        let below = over(theirs, &code.columns) < code.limit;
        if code.was_below && !below {
            listed.push(index as u8);
        }
        code.was_below = below;
    }
    listed
}

/// These in the first places. "Places past the last listed one keep their bytes."
pub fn written<T: Copy>(place: &[T], first: &[T]) -> Vec<T> {
    [first, &place[first.len()..]].concat()
}

/// What goes over the edge for "was at or above": twice the number of the codes behind, and 1 more if it is so.
pub fn flags(codes: &[Code]) -> u64 {
    let more = |behind: u64, code: &Code| 2 * behind + !code.was_below as u64;
    codes.iter().rev().fold(0, more)
}

/// The codes that a value from over the edge tells of, if it is one that can be asked with.
pub fn told(watch: &Watch, columns: &[u32], limits: &[u64]) -> Vec<Code> {
    if watch.count == 0 {
        return Vec::new();
    }
    let mut codes = list(watch.rows as usize, columns, &limits[..watch.count as usize]);
    let mut flags = watch.reached;
    for code in &mut codes {
        code.was_below = flags % 2 == 0;
        flags /= 2;
    }
    codes
}

fn out_of_range(s: &Sketch, columns: &[u32]) -> bool {
    columns.iter().any(|&column| column as u64 >= s.cols)
}

/// 1 to 5, 7 over all codes given, 19. It is lent no grid.
pub fn setting_causes(s: &Sketch, columns: &[u32], limits: &[u64]) -> Causes {
    let uneven = columns.len() as u128 != s.rows as u128 * limits.len() as u128;
    then(
        numbers::sketch(s),
        [(7, uneven || out_of_range(s, columns)), (19, limits.len() > MOST)],
    )
}

/// The columns of the codes that are looked at: of more than 64 codes the first 64. Only what the array holds whole is
/// there.
fn looked_at<'a>(s: &Sketch, watch: &Watch, columns: &'a [u32]) -> impl Iterator<Item = &'a [u32]> + use<'a> {
    let count = if s.rows == 0 { 0 } else { watch.count.min(MOST as u64) };
    columns.chunks_exact(s.rows.max(1) as usize).take(count as usize)
}

/// Codes that do not go with this sketch: of other rows, or with a column that it has not. No codes go with any.
fn foreign(s: &Sketch, watch: &Watch, columns: &[u32]) -> bool {
    watch.count > 0 && (watch.rows != s.rows || looked_at(s, watch, columns).any(|code| out_of_range(s, code)))
}

/// The unsound cells of all the codes, by the order of the codes.
fn unsound<'a>(s: &'a Sketch, watch: &Watch, columns: &'a [u32], grid: &'a [u8]) -> impl Iterator<Item = usize> + 'a {
    let cells = looked_at(s, watch, columns).flat_map(|code| (0..).zip(code.iter().map(|&column| column as u64)));
    cells
        .filter(|&(_, column)| column < s.cols)
        .map(|(row, column)| numbers::cell_at(s, row, column))
        .filter(|&index| numbers::unsound_at(s, grid, index))
}

/// The index with 14: the smallest in grid order over all of them, not the first code's.
pub fn named(s: &Sketch, watch: &Watch, columns: &[u32], grid: &[u8]) -> Option<usize> {
    unsound(s, watch, columns, grid).min()
}

/// 1 to 6, 7, 19, 20, 14 over the cells of all the codes.
pub fn asking_causes(s: &Sketch, watch: &Watch, columns: &[u32], grid: &[u8], room: usize) -> Causes {
    then(
        numbers::with_grid(s, grid),
        [
            (7, foreign(s, watch, columns)),
            (19, watch.count > MOST as u64),
            (20, (room as u64) < watch.count),
            (14, unsound(s, watch, columns, grid).next().is_some()),
        ],
    )
}
