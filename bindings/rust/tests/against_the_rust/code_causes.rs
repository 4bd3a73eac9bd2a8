//! Each two causes of a call on watched codes at once.

use crate::code_calls::{self, Kept};
use crate::directed::SMALL;
use crate::held::{self, Held};
use crate::layout;
use crate::numbers;
use crate::plain_calls::Told;
use crate::score::{Outcome, same};

pub const ALL: [(&str, fn() -> Outcome); 1] = [("two causes of a call on codes", two_causes)];

/// A setting and an asking that are accepted, until something is spoiled.
struct Calls {
    held: Held,
    kept: Kept,
    columns: Vec<u32>,
    limits: Vec<u64>,
    list: Vec<u8>,
}

impl Calls {
    fn good() -> Self {
        let mut kept = Kept::none();
        kept.watch.count = 2;
        kept.watch.rows = 2;
        let sketch = held::sketch_of(&SMALL, 0, 7);
        let grid = vec![0; numbers::grid_bytes(&sketch)];
        Self {
            held: Held { sketch, grid },
            kept,
            columns: vec![0; 4],
            limits: vec![1; 2],
            list: vec![9; 2],
        }
    }

    /// Makes the cause of this number hold, whatever was spoiled before.
    fn spoil(&mut self, number: u64) {
        let (held, kept) = (&mut self.held, &mut self.kept);
        match number {
            1 => held.sketch.t = 0,
            2 => held.sketch.c = 1,
            3 => held.sketch.length = 0,
            4 => held.sketch.cols = 3,
            5 => held.sketch.state = 0,
            6 => held.grid.push(0),
            7 => (kept.columns[3], self.columns[3]) = (4, 4),
            19 => {
                kept.watch.count = 65;
                self.limits.resize(65, 1);
                self.columns.resize(130, 0);
            }
            20 => self.list.clear(),
            // The zoom of cell 0.
            _ => held.grid[layout::zoom_of(held.sketch.t, 0)] = 255,
        }
    }
}

/// Each two causes at once, spoiled one after the other, give the number of the first in the order written here.
fn each_two(order: &[u64], call: impl Fn(&Calls) -> Told) -> Outcome {
    for (at, &first) in order.iter().enumerate() {
        for &other in &order[at..] {
            let mut calls = Calls::good();
            calls.spoil(first);
            calls.spoil(other);
            let (number, _) = call(&calls)?;
            same(&format!("the number of {first} and {other}"), number, first)?;
        }
    }
    Ok(())
}

fn two_causes() -> Outcome {
    each_two(&[1, 2, 3, 4, 5, 7, 19], |calls| {
        code_calls::set_codes(&calls.held, &calls.kept, &calls.columns, &calls.limits)
    })?;
    each_two(&[1, 2, 3, 4, 5, 6, 7, 19, 20, 14], |calls| {
        code_calls::ask(&calls.held, &calls.kept, &calls.list)
    })
}
