//! The watched codes of a sketch, in memory that is theirs.

#![forbid(unsafe_code)]

use crate::Error;
use crate::calls::{self, Asked, KEPT_COLUMNS, MOST_CODES, Sketch, Watch};
use alloc::boxed::Box;
use core::fmt;

/// Columns and limits, of this size whatever the sketch.
#[derive(Clone)]
struct Kept {
    columns: [u32; KEPT_COLUMNS],
    limits: [u64; MOST_CODES],
}

/// What is lent where codes were never set.
static NEVER_SET: Kept = Kept {
    columns: [0; KEPT_COLUMNS],
    limits: [0; MOST_CODES],
};

#[derive(Clone)]
pub(crate) struct Codes {
    watch: Watch,
    /// Allocated when codes are first set.
    kept: Option<Box<Kept>>,
}

impl Codes {
    /// As a fresh start or a load leaves them.
    pub fn none() -> Self {
        Self {
            watch: Watch::default(),
            kept: None,
        }
    }

    pub fn set(&mut self, sketch: &Sketch, columns: &[u32], limits: &[u64]) -> Result<(), Error> {
        let kept = self.kept.get_or_insert_with(|| Box::new(NEVER_SET.clone()));
        let (kept_columns, kept_limits) = (&mut kept.columns, &mut kept.limits);
        calls::set_codes(sketch, &mut self.watch, columns, limits, kept_columns, kept_limits)
    }

    pub fn ask(&mut self, sketch: &Sketch, grid: &[u8], list: &mut [u8]) -> Result<usize, Error> {
        let kept = self.kept.as_deref().unwrap_or(&NEVER_SET);
        let mut asked = Asked::default();
        calls::ask(
            sketch,
            &mut self.watch,
            &kept.columns,
            &kept.limits,
            grid,
            list,
            &mut asked,
        )?;
        Ok(asked.listed as usize)
    }

    /// For a fresh start or a load, which leave no codes.
    pub fn watch_mut(&mut self) -> &mut Watch {
        &mut self.watch
    }

    pub fn watch(&self) -> Watch {
        self.watch
    }

    pub fn columns(&self) -> &[u32; KEPT_COLUMNS] {
        &self.kept().columns
    }

    pub fn limits(&self) -> &[u64; MOST_CODES] {
        &self.kept().limits
    }

    /// Bytes of the memory, beside the struct.
    pub fn memory_bytes(&self) -> usize {
        self.kept.as_ref().map_or(0, |_| size_of::<Kept>())
    }

    fn kept(&self) -> &Kept {
        self.kept.as_deref().unwrap_or(&NEVER_SET)
    }

    /// The codes that are set, and what the last asking found. What else stands in the memory is left from lists before.
    fn set_ones(&self) -> (&[u32], &[u64], u64) {
        let Watch { count, rows, reached } = self.watch;
        let (count, rows) = (count as usize, rows as usize);
        (&self.columns()[..count * rows], &self.limits()[..count], reached)
    }
}

impl PartialEq for Codes {
    fn eq(&self, other: &Self) -> bool {
        self.set_ones() == other.set_ones()
    }
}

impl Eq for Codes {}

impl fmt::Debug for Codes {
    fn fmt(&self, f: &mut fmt::Formatter<'_>) -> fmt::Result {
        let (columns, limits, reached) = self.set_ones();
        f.debug_struct("Codes")
            .field("columns", &columns)
            .field("limits", &limits)
            .field("reached", &reached)
            .finish()
    }
}
