//! The units that a call on a sketch loses: the call is made on the Rust's sketch, and gone through beside it, cell by cell, with
//! the Rust's own cells. Both must come to the same bytes and the same state.

use crate::beside::zoom_at;
use crate::judge;
use crate::losses::Lost;
use crate::lost::{Shape, Units};
use crate::score::{Outcome, same};

/// A call on a sketch gone through cell by cell, on a copy of the Rust's grid and from its state.
struct Walk {
    shape: Shape,
    cols: usize,
    depth: usize,
    grid: Vec<u8>,
    begun: u64,
    state: u64,
    /// Whether a cell is at max_zoom as the call begins.
    from_ceiling: bool,
    lost: Lost,
}

/// Whether a cell is at max_zoom. Where the call does not judge the whole grid, others may be unsound, with a zoom above it.
fn at_ceiling(theirs: &judge::Sketch) -> bool {
    let (params, depth) = (theirs.params(), theirs.cell_bytes());
    let top = judge::max_zoom(params.c as u16);
    judge::grid(theirs)
        .chunks_exact(depth)
        .any(|cell| cell[zoom_at(params.t)] == top)
}

impl Walk {
    fn begin(theirs: &judge::Sketch) -> Self {
        let params = theirs.params();
        let (t, c) = (params.t as u16, params.c as u16);
        Self {
            shape: Shape { t, c },
            cols: theirs.cols(),
            depth: theirs.cell_bytes(),
            grid: judge::grid(theirs).to_vec(),
            begun: judge::state(theirs),
            state: judge::state(theirs),
            from_ceiling: at_ceiling(theirs),
            lost: Lost::default(),
        }
    }

    /// An item in the key's cell of each row.
    fn record(&mut self, columns: &[u16], n: u64) -> Outcome {
        let Shape { t, c } = self.shape;
        for (row, &column) in columns.iter().enumerate() {
            let start = (row * self.cols + column as usize) * self.depth;
            let cell = &mut self.grid[start..][..self.depth];
            let after = judge::insert(t, c, n, self.state, cell);
            self.lost.rows.push(self.shape.by_item(n, cell, &after.cell)?);
            self.state = after.state;
            cell.copy_from_slice(&after.cell);
        }
        Ok(())
    }

    fn cross(&mut self, n: u64, crossed: u64) -> Outcome {
        let Shape { t, c } = self.shape;
        for cell in self.grid.chunks_exact_mut(self.depth) {
            let after = judge::enter(t, c, n, crossed, self.state, cell);
            let loss = self.shape.by_crossing(n, crossed, self.state, cell)?;
            self.lost.crossed.push(loss);
            self.state = after.state;
            cell.copy_from_slice(&after.cell);
        }
        Ok(())
    }

    fn merge(&mut self, n: u64, other: &judge::Sketch) -> Outcome {
        let Shape { t, c } = self.shape;
        let others = judge::grid(other).chunks_exact(self.depth);
        for (cell, src) in self.grid.chunks_exact_mut(self.depth).zip(others) {
            let after = judge::merge(t, c, n, self.state, cell, src);
            let loss = self.shape.by_merge(n, self.state, cell, src, &after)?;
            self.lost.merged.push(loss);
            self.state = after.state;
            cell.copy_from_slice(&after.cell);
        }
        Ok(())
    }

    /// The units lost, once the Rust's sketch is seen to be where the cells one by one led.
    fn end(self, theirs: &judge::Sketch) -> Units {
        same("the state, cell by cell", self.state, judge::state(theirs))?;
        same("the grid, cell by cell", &self.grid[..] == judge::grid(theirs), true)?;
        let lost = self.lost.counted(judge::draws_between(self.begun, self.state));
        let merges = !self.lost.merged.is_empty();
        let may_lose = if merges { at_ceiling(theirs) } else { self.from_ceiling };
        same("whether units are lost below the ceiling", lost > 0 && !may_lose, false)?;
        Ok(lost)
    }
}

pub fn update(theirs: &mut judge::Sketch, columns: &[u16]) -> Units {
    let (mut walk, clock) = (Walk::begin(theirs), judge::clock(theirs));
    walk.record(columns, clock.n())?;
    let (clock, crosses) = clock.tick();
    if crosses {
        walk.cross(clock.n(), 1)?;
    }
    judge::update(theirs, columns);
    walk.end(theirs)
}

fn advanced(theirs: &judge::Sketch, time: u64) -> Result<(Walk, u64), String> {
    let mut walk = Walk::begin(theirs);
    let (clock, crossed) = judge::clock(theirs).advance_to(time);
    if crossed > 0 {
        walk.cross(clock.n(), crossed)?;
    }
    Ok((walk, clock.n()))
}

pub fn update_at(theirs: &mut judge::Sketch, columns: &[u16], time: u64) -> Units {
    let (mut walk, n) = advanced(theirs, time)?;
    walk.record(columns, n)?;
    judge::update_at(theirs, columns, time).expect("a clock of time");
    walk.end(theirs)
}

pub fn advance_to(theirs: &mut judge::Sketch, time: u64) -> Units {
    let (walk, _) = advanced(theirs, time)?;
    judge::advance_to(theirs, time).expect("a clock of time");
    walk.end(theirs)
}

/// Two sketches that meet; if they do not, the Rust's number.
pub fn merge_sketches(theirs: &mut judge::Sketch, other: &judge::Sketch) -> Result<Result<u64, u8>, String> {
    let mut walk = Walk::begin(theirs);
    if let Err(number) = judge::merge_sketches(theirs, other) {
        return Ok(Err(number));
    }
    walk.merge(theirs.sub_window(), other)?;
    walk.end(theirs).map(Ok)
}
