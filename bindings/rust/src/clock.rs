//! What numbers the sub-windows.

#![forbid(unsafe_code)]

use crate::plain::{ITEMS, Sketch, TIME};

/// The clock of a sketch, under the published names.
///
/// ```
/// use microscope::SubWindowClock;
///
/// let clock = SubWindowClock::TimeBased { sub_window_len: 60, epoch: 1000, now: 1075 };
/// assert_eq!(clock.n(), 1);
/// assert_eq!(clock.residual_fraction(), 0.75);
/// assert_eq!(SubWindowClock::time_based(60, 1000).n(), 0);
/// ```
#[derive(Clone, Copy, Debug, PartialEq, Eq)]
pub enum SubWindowClock {
    /// A sub-window is a number of items.
    CountBased {
        /// Items in a sub-window.
        items_per_sub_window: u64,
        /// Items recorded so far.
        seen: u64,
    },
    /// A sub-window is a span of time, in the unit of the caller's time stamps.
    TimeBased {
        /// Length of a sub-window.
        sub_window_len: u64,
        /// When sub-window 0 began.
        epoch: u64,
        /// The latest time stamp.
        now: u64,
    },
}

/// A clock as it goes over the edge.
pub(crate) struct PlainClock {
    pub kind: u64,
    pub length: u64,
    pub epoch: u64,
}

impl SubWindowClock {
    /// A clock of items, at the start. A length of 0 is refused when the sketch is made, by 3.
    pub fn count_based(items_per_sub_window: u64) -> Self {
        Self::CountBased {
            items_per_sub_window,
            seen: 0,
        }
    }

    /// A clock of time, at the start.
    pub fn time_based(sub_window_len: u64, epoch: u64) -> Self {
        Self::TimeBased {
            sub_window_len,
            epoch,
            now: epoch,
        }
    }

    /// The sub-window reached. The length must not be 0: a sketch's clock never has that.
    pub fn n(&self) -> u64 {
        let (passed, length) = self.passed();
        passed / length
    }

    /// How much of the oldest sub-window is still inside the window: 1 at a boundary, falling towards 0.
    pub fn residual_fraction(&self) -> f64 {
        let (passed, length) = self.passed();
        1.0 - (passed % length) as f64 / length as f64
    }

    /// What has passed since the start, and the length of a sub-window.
    fn passed(&self) -> (u64, u64) {
        match *self {
            Self::CountBased {
                items_per_sub_window,
                seen,
            } => (seen, items_per_sub_window),
            Self::TimeBased {
                sub_window_len,
                epoch,
                now,
            } => (now.saturating_sub(epoch), sub_window_len),
        }
    }

    pub(crate) fn of(sketch: &Sketch) -> Self {
        if sketch.kind == TIME {
            return Self::TimeBased {
                sub_window_len: sketch.length,
                epoch: sketch.epoch,
                now: sketch.reading,
            };
        }
        Self::CountBased {
            items_per_sub_window: sketch.length,
            seen: sketch.reading,
        }
    }

    /// A fresh sketch starts its clock anew, so what was seen does not go over.
    pub(crate) fn plain(&self) -> PlainClock {
        match *self {
            Self::CountBased {
                items_per_sub_window, ..
            } => PlainClock {
                kind: ITEMS,
                length: items_per_sub_window,
                epoch: 0,
            },
            Self::TimeBased {
                sub_window_len, epoch, ..
            } => PlainClock {
                kind: TIME,
                length: sub_window_len,
                epoch,
            },
        }
    }
}
