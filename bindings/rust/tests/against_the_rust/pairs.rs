//! The recorded pairs of causes, tests/pairs.data: each call is refused by the number recorded with it.

use crate::code_calls::{self, Kept};
use crate::damage;
use crate::held::Held;
use crate::hits::CALLS;
use crate::layout;
use crate::plain_calls::{self, Told};
use crate::plain_readings;
use crate::score::{Outcome, same, same_bytes};
use microscope::calls::{KEPT_COLUMNS, MOST_CODES, Sketch, Watch};

pub const ALL: [(&str, fn() -> Outcome); 1] = [("recorded pairs", recorded)];

static RECORDED: &[u8] = include_bytes!("../../../../tests/pairs.data");

const WORDS: usize = 34;

/// What the bytes of a grid are that a fresh start is lent, and of a list that an asking is lent, so that a write shows.
const MARK: u8 = 7;

/// What stands where a setting keeps columns and limits, for the same reason.
const KEPT_COLUMN: u32 = 7;
const KEPT_LIMIT: u64 = 7;

/// Room for the columns of 66 codes of 128 rows.
const CODE_COLUMNS: usize = 66 * 128;

/// A call as it is recorded: its words, and the store of a load or of a shape.
struct Case {
    words: [u64; WORDS],
    store: &'static [u8],
}

fn size(word: u64) -> usize {
    usize::try_from(word).expect("a size")
}

fn small(word: u64) -> u32 {
    u32::try_from(word).expect("a number below 2^32")
}

/// The first case of these bytes, and the bytes behind it.
fn first_of(bytes: &'static [u8]) -> (Case, &'static [u8]) {
    let (words, rest) = bytes.split_at(8 * WORDS);
    let words = std::array::from_fn(|i| u64::from_le_bytes(words[8 * i..][..8].try_into().expect("eight bytes")));
    let case = Case { words, store: &[] };
    let stored = matches!(case.call(), "load" | "store_shape");
    let (store, rest) = rest.split_at(if stored { size(words[33]) } else { 0 });
    (Case { store, ..case }, rest)
}

/// A sketch's nine words, the bytes of its grid, and 1 + the index of the cell whose zoom is 255 (0: none).
fn held(words: &[u64]) -> Held {
    let sketch = Sketch {
        rows: words[0],
        cols: words[1],
        t: words[2],
        c: words[3],
        kind: words[4],
        length: words[5],
        epoch: words[6],
        reading: words[7],
        state: words[8],
    };
    let grid = vec![0; size(words[9])];
    unsound(Held { sketch, grid }, words[10])
}

/// The same with one more cell whose zoom is 255: 1 + its index, 0: none.
fn unsound(mut held: Held, cell: u64) -> Held {
    if let Some(index) = size(cell).checked_sub(1) {
        held.grid[layout::zoom_of(held.sketch.t, index)] = 255;
    }
    held
}

impl Case {
    fn call(&self) -> &'static str {
        CALLS[size(self.words[0])]
    }

    fn key(&self) -> Vec<u32> {
        let columns = &self.words[27..][..size(self.words[26])];
        columns.iter().map(|&column| small(column)).collect()
    }

    fn mine(&self) -> Held {
        let held = held(&self.words[4..15]);
        match self.call() {
            "with_dimensions" => Held {
                grid: vec![MARK; held.grid.len()],
                ..held
            },
            "ask" => unsound(held, self.words[20]),
            _ => held,
        }
    }

    fn watch(&self) -> Watch {
        Watch {
            count: self.words[15],
            rows: self.words[16],
            reached: self.words[17],
        }
    }

    /// The columns of codes: first the key's, one at the place that is recorded, and else 0.
    fn code_columns(&self) -> Vec<u32> {
        let mut columns = self.key();
        columns.resize(CODE_COLUMNS, 0);
        if let Some(place) = size(self.words[31]).checked_sub(1) {
            columns[place] = small(self.words[32]);
        }
        columns
    }

    fn set_codes(&self, held: &Held) -> Told {
        let mut kept = Kept::none();
        kept.watch = self.watch();
        kept.columns.fill(KEPT_COLUMN);
        kept.limits.fill(KEPT_LIMIT);
        let [columns, limits] = [18, 19].map(|at| size(self.words[at]));
        code_calls::set_codes(
            held,
            &kept,
            &self.code_columns()[..columns],
            &[0; MOST_CODES + 2][..limits],
        )
    }

    /// Each limit is 0.
    fn ask(&self, held: &Held) -> Told {
        let mut kept = Kept::none();
        kept.watch = self.watch();
        kept.columns.copy_from_slice(&self.code_columns()[..KEPT_COLUMNS]);
        code_calls::ask(held, &kept, &vec![MARK; size(self.words[33])])
    }

    /// The sketch that a merge merges from.
    fn others(&self) -> Held {
        held(&self.words[15..26])
    }

    /// Makes the call.
    fn told(&self, held: &Held, other: &Held) -> Told {
        let key = self.key();
        let [argument, column, room] = [31, 32, 33].map(|at| self.words[at]);
        match self.call() {
            "with_dimensions" => plain_calls::start(held, argument),
            "update" => plain_calls::update(held, &key),
            "update_at" => plain_calls::update_at(held, &key, argument),
            "advance_to" => plain_calls::advance_to(held, argument),
            "estimate" => plain_readings::estimate(held, &key),
            "estimate_with" => plain_readings::estimate_with(held, &key, f64::from_bits(argument)),
            "mean" => plain_readings::mean(held, &key),
            "bucket_check" => plain_readings::bucket_check(held, argument, column),
            "max_zoom" => plain_readings::max_zoom(held),
            "audit" => plain_readings::audit(held),
            "merge" => plain_calls::merge(held, other),
            "store_length" => plain_readings::store_length(held),
            "save" => plain_readings::save(held, size(room)),
            "load" => damage::load(self.store, held.grid.len()),
            "set_codes" => self.set_codes(held),
            "ask" => self.ask(held),
            "store_shape" => damage::shape(self.store),
            _ => Err("no such call is recorded".into()),
        }
    }

    fn as_recorded(&self) -> Outcome {
        let (mine, others) = (self.mine(), self.others());
        let (number, index) = self.told(&mine, &others)?;
        same("the number and index", (number, index), (self.words[1], self.words[2]))?;
        // Lent to be read only, or the copy of what was lent to be written.
        same_bytes("the grid lent", &mine.grid, &self.mine().grid)?;
        same_bytes("the other's grid", &others.grid, &self.others().grid)
    }
}

/// All calls are made, also behind one that differs: each pair of causes is to come.
fn recorded() -> Outcome {
    let mut rest = RECORDED;
    let mut all = Ok(());
    let mut count = 0;
    while !rest.is_empty() {
        let (case, behind) = first_of(rest);
        let outcome = case.as_recorded();
        all = all.and(outcome.map_err(|what| format!("{} of case {count}: {what}; {:?}", case.call(), case.words)));
        (rest, count) = (behind, count + 1);
    }
    all
}
