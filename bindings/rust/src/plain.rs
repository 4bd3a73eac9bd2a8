//! What stands in the caller's memory and is lent over the edge, laid out as in include/microscope.h.

#![forbid(unsafe_code)]

use core::mem::{offset_of, size_of};

/// The version of the library that these declarations go with; [`version`](crate::calls::version) gives that of the one
/// that was linked.
pub const VERSION: u64 = 20_002;

/// The kind of a clock whose sub-windows are a number of items.
pub const ITEMS: u64 = 0;

/// The kind of a clock whose sub-windows are a span of time.
pub const TIME: u64 = 1;

/// The most codes that can be watched, and so the limits that are kept.
pub const MOST_CODES: usize = 64;

/// The columns that are kept of watched codes: one a row for each, whatever the sketch; none has more than 128 rows.
pub const KEPT_COLUMNS: usize = 8192;

/// A sketch without its grid. Once it was made only `reading` and `state` ever change.
///
/// ```
/// use microscope::calls::{self, Change, Sketch, Watch};
///
/// let (mut sketch, mut watch) = (Sketch::default(), Watch::default());
/// let mut grid = [0; 2 * 64 * 20]; // rows x cols x depth: of t = 12 that is 20
/// calls::new(&mut sketch, &mut watch, 2, 64, 12, 2, calls::ITEMS, 1000, 0, 1, &mut grid)?;
/// calls::update(&mut sketch, &[17, 5], &mut grid, &mut Change::default())?;
/// assert_eq!(sketch.reading, 1);
/// # Ok::<(), microscope::Refusal>(())
/// ```
#[repr(C)]
#[derive(Clone, Copy, Debug, Default, PartialEq, Eq)]
pub struct Sketch {
    /// Rows of the grid.
    pub rows: u64,
    /// Columns of the grid, a power of two.
    pub cols: u64,
    /// Sub-windows in the window.
    pub t: u64,
    /// The zoom's base.
    pub c: u64,
    /// [`ITEMS`] or [`TIME`].
    pub kind: u64,
    /// Of a sub-window: items, or units of time.
    pub length: u64,
    /// When sub-window 0 began; 0 for a clock of items.
    pub epoch: u64,
    /// Items seen, or the latest time stamp.
    pub reading: u64,
    /// The random state, never 0.
    pub state: u64,
}

/// Watched codes without their columns and limits; the default is no codes.
///
/// ```
/// use microscope::calls::{self, KEPT_COLUMNS, MOST_CODES, Sketch, Watch};
///
/// # let (mut sketch, mut watch) = (Sketch::default(), Watch::default());
/// # let mut grid = [0; 2 * 64 * 20];
/// # calls::new(&mut sketch, &mut watch, 2, 64, 12, 2, calls::ITEMS, 1000, 0, 1, &mut grid)?;
/// let (mut columns, mut limits) = ([0; KEPT_COLUMNS], [0; MOST_CODES]);
/// calls::set_codes(&sketch, &mut watch, &[17, 5, 9, 30], &[100, 20], &mut columns, &mut limits)?;
/// assert_eq!(watch, Watch { count: 2, rows: 2, reached: 0 });
/// # Ok::<(), microscope::Refusal>(())
/// ```
#[repr(C)]
#[derive(Clone, Copy, Debug, Default, PartialEq, Eq)]
pub struct Watch {
    /// How many.
    pub count: u64,
    /// Rows of the sketch for which they were set.
    pub rows: u64,
    /// Code i was at its limit or above at the last asking: the bit of value 2^i.
    pub reached: u64,
}

/// What a call tells that may change a sketch or a cell, or that divides.
///
/// ```
/// use microscope::Refusal;
/// use microscope::calls::{self, Change, Sketch, Watch};
///
/// # let (mut sketch, mut watch) = (Sketch::default(), Watch::default());
/// # let mut grid = [0; 2 * 64 * 20];
/// # calls::new(&mut sketch, &mut watch, 2, 64, 12, 2, calls::ITEMS, 1000, 0, 1, &mut grid)?;
/// let mut change = Change::default();
/// calls::update(&mut sketch, &[17, 5], &mut grid, &mut change)?;
/// assert_eq!(change.draws, 0); // no cell has zoomed yet
///
/// grid[(17 * 20) + 14] = 255; // the zoom of the cell at row 0, column 17
/// let answer = calls::update(&mut sketch, &[17, 5], &mut grid, &mut change);
/// assert_eq!((answer, change.index), (Err(Refusal::Unsound { index: 17 }), 17));
/// # Ok::<(), microscope::Refusal>(())
/// ```
///
/// A unit is lost where a full pixel is to have one more and the cell is at the ceiling of its base
/// ([`base_max_zoom`](crate::calls::base_max_zoom)), so that it cannot zoom out. What the cell counts is then too low by the
/// items of that unit, c^max_zoom, until the pixel's sub-window has left the window. Who shows figures adds up `lost`: once it
/// is not 0, they may read low.
///
/// ```
/// use microscope::calls::{self, Change};
///
/// // t = 1, c = 2: the pixels 255 0 0 at zoom 31, and a shutter that lacks one item of a unit, 2^31.
/// let mut cell = [255, 0, 0, 31, 0xff, 0xff, 0xff, 0x7f];
/// let (mut state, mut change) = (1, Change::default());
/// calls::cell_insert(&mut cell, 1, 2, 0, &mut state, &mut change)?;
/// assert_eq!(cell, [255, 0, 0, 31, 0, 0, 0, 0]);
/// assert_eq!(change, Change { index: 0, draws: 0, lost: 1 });
/// # Ok::<(), microscope::Refusal>(())
/// ```
#[repr(C)]
#[derive(Clone, Copy, Debug, Default, PartialEq, Eq)]
pub struct Change {
    /// With 14 the smallest unsound cell of those judged, else 0.
    pub index: u64,
    /// Random draws that the call made.
    pub draws: u64,
    /// Units that the call lost, of all cells together; 0 if refused. Of a merge they are what it cut off above 255, of all
    /// pixels. One is c^max_zoom items, since a cell loses at its ceiling only. A division loses none.
    pub lost: u64,
}

/// One reading of a key, in items; all 0 if refused.
///
/// ```
/// use microscope::calls::{self, Change, Figures, Items, Sketch, Watch};
///
/// # let (mut sketch, mut watch) = (Sketch::default(), Watch::default());
/// # let mut grid = [0; 2 * 64 * 20];
/// # calls::new(&mut sketch, &mut watch, 2, 64, 12, 2, calls::ITEMS, 1000, 0, 1, &mut grid)?;
/// calls::update(&mut sketch, &[17, 5], &mut grid, &mut Change::default())?;
/// let (mut figures, mut items) = (Figures::default(), Items::default());
/// calls::estimate(&sketch, &[17, 5], &grid, &mut figures, &mut items)?;
/// assert_eq!((figures.over, figures.under, figures.linear), (1.0, 1.0, 1.0));
/// # Ok::<(), microscope::Refusal>(())
/// ```
#[repr(C)]
#[derive(Clone, Copy, Debug, Default, PartialEq)]
pub struct Figures {
    /// The t latest sub-windows and the one before them.
    pub over: f64,
    /// The t latest sub-windows.
    pub under: f64,
    /// Under, and the one before by the fraction.
    pub linear: f64,
    /// How much of the oldest sub-window was counted in `linear`.
    pub fraction: f64,
}

/// The same reading as whole numbers, below 2^53.
///
/// ```
/// use microscope::calls::{self, Change, Figures, Items, Sketch, Watch};
///
/// # let (mut sketch, mut watch) = (Sketch::default(), Watch::default());
/// # let mut grid = [0; 2 * 64 * 20];
/// # calls::new(&mut sketch, &mut watch, 2, 64, 12, 2, calls::ITEMS, 1000, 0, 1, &mut grid)?;
/// calls::update(&mut sketch, &[17, 5], &mut grid, &mut Change::default())?;
/// let (mut figures, mut items) = (Figures::default(), Items::default());
/// calls::estimate(&sketch, &[17, 5], &grid, &mut figures, &mut items)?;
/// assert_eq!(items, Items { index: 0, over: 1, under: 1 });
/// # Ok::<(), microscope::Refusal>(())
/// ```
#[repr(C)]
#[derive(Clone, Copy, Debug, Default, PartialEq, Eq)]
pub struct Items {
    /// With 14 the smallest unsound cell of those judged, else 0.
    pub index: u64,
    /// The t latest sub-windows and the one before them.
    pub over: u64,
    /// The t latest sub-windows.
    pub under: u64,
}

/// A whole number; 0 if refused.
///
/// ```
/// use microscope::calls::{self, Change, Sketch, Value, Watch};
///
/// # let (mut sketch, mut watch) = (Sketch::default(), Watch::default());
/// # let mut grid = [0; 2 * 64 * 20];
/// # calls::new(&mut sketch, &mut watch, 2, 64, 12, 2, calls::ITEMS, 1000, 0, 1, &mut grid)?;
/// for _ in 0..12 {
///     calls::update(&mut sketch, &[17, 5], &mut grid, &mut Change::default())?;
/// }
/// let mut mean = Value::default();
/// calls::mean(&sketch, &[17, 5], &grid, &mut mean)?;
/// assert_eq!(mean.value, 12); // 12 items, and of 12 sub-windows the first has begun
/// # Ok::<(), microscope::Refusal>(())
/// ```
#[repr(C)]
#[derive(Clone, Copy, Debug, Default, PartialEq, Eq)]
pub struct Value {
    /// With 14 the smallest unsound cell of those judged, else 0.
    pub index: u64,
    /// The number asked for.
    pub value: u64,
}

/// What an audit found.
///
/// ```
/// use microscope::calls::{self, Found, Sketch, Watch};
///
/// # let (mut sketch, mut watch) = (Sketch::default(), Watch::default());
/// # let mut grid = [0; 2 * 64 * 20];
/// # calls::new(&mut sketch, &mut watch, 2, 64, 12, 2, calls::ITEMS, 1000, 0, 1, &mut grid)?;
/// grid[(66 * 20) + 14] = 255; // the zoom of the cell at row 1, column 2
/// grid[(17 * 20) + 14] = 255; // and at row 0, column 17, which comes first
/// let mut found = Found::default();
/// calls::audit(&sketch, &grid, &mut found)?;
/// assert_eq!(found, Found { index: 17, unsound: 1 });
/// # Ok::<(), microscope::Refusal>(())
/// ```
#[repr(C)]
#[derive(Clone, Copy, Debug, Default, PartialEq, Eq)]
pub struct Found {
    /// The smallest of all unsound cells, row × cols + column; 0 if there is none.
    pub index: u64,
    /// 1 if there is one.
    pub unsound: u64,
}

/// What an asking tells beside the bytes of its list.
///
/// ```
/// use microscope::calls::{self, Asked, Change, KEPT_COLUMNS, MOST_CODES, Sketch, Watch};
///
/// # let (mut sketch, mut watch) = (Sketch::default(), Watch::default());
/// # let mut grid = [0; 2 * 64 * 20];
/// # calls::new(&mut sketch, &mut watch, 2, 64, 12, 2, calls::ITEMS, 1000, 0, 1, &mut grid)?;
/// let (mut columns, mut limits) = ([0; KEPT_COLUMNS], [0; MOST_CODES]);
/// calls::set_codes(&sketch, &mut watch, &[17, 5, 9, 30], &[100, 1], &mut columns, &mut limits)?;
/// calls::update(&mut sketch, &[9, 30], &mut grid, &mut Change::default())?;
///
/// let (mut list, mut asked) = ([0; MOST_CODES], Asked::default());
/// calls::ask(&sketch, &mut watch, &columns, &limits, &grid, &mut list, &mut asked)?;
/// assert_eq!(list[..asked.listed as usize], [1]);
/// # Ok::<(), microscope::Refusal>(())
/// ```
#[repr(C)]
#[derive(Clone, Copy, Debug, Default, PartialEq, Eq)]
pub struct Asked {
    /// With 14 the smallest unsound cell of all codes, else 0.
    pub index: u64,
    /// Codes on the list; 0 if refused.
    pub listed: u64,
}

/// What a store says of the sketch in it; all 0 if refused.
///
/// ```
/// use microscope::calls::{self, Shape};
/// # use microscope::{MicroCm, MicroParams, SubWindowClock};
/// # let params = MicroParams { t: 12, c: 2 };
/// # let counter = MicroCm::with_dimensions(2, 64, params, SubWindowClock::count_based(1000), 1)?;
///
/// let store = counter.save()?;
/// let mut shape = Shape::default();
/// calls::store_shape(&store, &mut shape)?;
/// assert_eq!(shape, Shape { rows: 2, cols: 64, t: 12, c: 2, grid_bytes: 2560 });
/// # Ok::<(), microscope::Refusal>(())
/// ```
#[repr(C)]
#[derive(Clone, Copy, Debug, Default, PartialEq, Eq)]
pub struct Shape {
    /// Rows of the grid.
    pub rows: u64,
    /// Columns of the grid.
    pub cols: u64,
    /// Sub-windows in the window.
    pub t: u64,
    /// The zoom's base.
    pub c: u64,
    /// Bytes of the grid to lend for a load.
    pub grid_bytes: u64,
}

/// Fails to compile unless the type has this size and its fields stand at these places.
macro_rules! layout {
    ($type:ty, $size:expr, $($field:ident at $at:expr),*) => {
        const _: () = {
            assert!(size_of::<$type>() == $size);
            $(assert!(offset_of!($type, $field) == $at);)*
        };
    };
}

const _: () = assert!(size_of::<usize>() == 8);
layout!(Sketch, 72, rows at 0, cols at 8, t at 16, c at 24, kind at 32, length at 40, epoch at 48, reading at 56, state at 64);
layout!(Watch, 24, count at 0, rows at 8, reached at 16);
layout!(Change, 24, index at 0, draws at 8, lost at 16);
layout!(Figures, 32, over at 0, under at 8, linear at 16, fraction at 24);
layout!(Items, 24, index at 0, over at 8, under at 16);
layout!(Value, 16, index at 0, value at 8);
layout!(Found, 16, index at 0, unsound at 8);
layout!(Asked, 16, index at 0, listed at 8);
layout!(Shape, 40, rows at 0, cols at 8, t at 16, c at 24, grid_bytes at 32);
