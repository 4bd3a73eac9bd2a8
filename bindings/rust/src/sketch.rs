//! A sketch that owns its grid and the codes that it watches.

#![forbid(unsafe_code)]

use crate::calls::{self, Change, Figures, Found, Items, KEPT_COLUMNS, MOST_CODES, Shape, Sketch, Value, Watch};
use crate::codes::Codes;
use crate::{Error, Refusal, SubWindowClock};
use alloc::vec;
use alloc::vec::Vec;

/// The shape of a cell.
///
/// ```
/// use microscope::{MicroCm, MicroParams, SubWindowClock};
///
/// let params = MicroParams { t: 12, c: 2 };
/// let counter = MicroCm::with_dimensions(2, 64, params, SubWindowClock::count_based(1000), 1)?;
/// assert_eq!(counter.params(), params);
/// assert_eq!(counter.cell_bytes(), 20);
/// # Ok::<(), microscope::Refusal>(())
/// ```
#[derive(Clone, Copy, Debug, PartialEq, Eq)]
pub struct MicroParams {
    /// Sub-windows in the window, 1 to 4,096.
    pub t: usize,
    /// The zoom's base, 2 to 256.
    pub c: u32,
}

/// The figures of a key, in items.
///
/// ```
/// use microscope::{MicroCm, MicroParams, SubWindowClock};
///
/// // A window of two sub-windows of 10 seconds, which is read in the middle of the third.
/// let clock = SubWindowClock::time_based(10, 0);
/// let mut counter = MicroCm::with_dimensions(2, 64, MicroParams { t: 2, c: 2 }, clock, 1)?;
/// for second in [3, 9, 12, 25] {
///     counter.update_at(&[17, 5], second)?;
/// }
/// let reading = counter.estimate(&[17, 5])?;
/// assert_eq!((reading.over, reading.under), (4.0, 2.0));
/// assert_eq!((reading.linear, reading.fraction), (3.0, 0.5));
/// assert_eq!((reading.over_items, reading.under_items), (4, 2));
/// # Ok::<(), microscope::Refusal>(())
/// ```
#[derive(Clone, Copy, Debug, PartialEq)]
pub struct Reading {
    /// The t latest sub-windows and the one before them: the published `DeltaStrategy::Over`.
    pub over: f64,
    /// The t latest sub-windows: the published `DeltaStrategy::Under`.
    pub under: f64,
    /// Under, and the one before by the fraction: the published `DeltaStrategy::Linear`.
    pub linear: f64,
    /// How much of the oldest sub-window was counted in `linear`.
    pub fraction: f64,
    /// Over as a whole number.
    pub over_items: u64,
    /// Under as a whole number.
    pub under_items: u64,
}

/// What an accepted call did beside counting.
///
/// A unit is lost where a pixel of 255 is to have more and its cell is at the ceiling of its base, so that it cannot zoom out
/// ([`calls::base_max_zoom`]). Each lost unit is c^max_zoom items that a cell should count and does not, and a figure that rests
/// on that cell can read low by as many, until their sub-window has left the window. Which keys that are is not told: who shows
/// figures adds up `lost`, and once it is not 0 says beside them that they may read low. Items and time lose nothing where no
/// cell is at the ceiling as the call begins, and a merge nothing where it leaves none there ([`MicroCm::max_zoom`] tells the
/// highest zoom of all cells).
///
/// ```
/// use microscope::{Done, MicroCm, MicroParams, SubWindowClock};
///
/// let clock = SubWindowClock::count_based(1000);
/// let mut counter = MicroCm::with_dimensions(1, 2, MicroParams { t: 1, c: 2 }, clock, 1)?;
/// let mut lost = 0;
/// for _ in 0..255 {
///     lost += counter.update(&[0])?.lost;
/// }
/// // The pixel is full. Each doubling raises the zoom by 1, up to 31, the ceiling of base 2.
/// for _ in 0..31 {
///     lost += counter.merge(&counter.clone())?.lost;
/// }
/// assert_eq!(lost, 0);
///
/// let before = counter.estimate(&[0])?.over_items;
/// let done = counter.merge(&counter.clone())?;
/// assert_eq!(done, Done { draws: 0, lost: 255 });
/// let after = counter.estimate(&[0])?.over_items;
/// assert_eq!(after + done.lost * (1 << 31), before + before); // one unit is 2^31 items
/// # Ok::<(), microscope::Refusal>(())
/// ```
#[derive(Clone, Copy, Debug, Default, PartialEq, Eq)]
pub struct Done {
    /// Random draws made.
    pub draws: u64,
    /// Units lost, of all cells together; those of a merge are what it cut off above 255, of all pixels.
    pub lost: u64,
}

impl Done {
    fn of(change: Change) -> Self {
        Self {
            draws: change.draws,
            lost: change.lost,
        }
    }
}

/// A sliding-window frequency sketch. A key is its columns, one a row, each below `cols`; how a key becomes columns (a
/// hash) is the caller's.
///
/// It may watch up to 64 codes, which are keys with a limit. A fresh or loaded sketch watches none; a clone watches the
/// same, and equal sketches do.
///
/// ```
/// use microscope::{MicroCm, MicroParams, SubWindowClock};
///
/// let params = MicroParams { t: 12, c: 2 };
/// let mut counter = MicroCm::with_dimensions(2, 64, params, SubWindowClock::count_based(1000), 1)?;
/// counter.set_codes(&[17, 5, 9, 30], &[3, 1])?;
/// for _ in 0..3 {
///     counter.update(&[17, 5])?;
/// }
/// assert_eq!(counter.estimate(&[17, 5])?.linear, 3.0);
/// assert_eq!(counter.ask()?, [0]);
///
/// let store = counter.save()?;
/// assert_eq!(MicroCm::load(&store)?.estimate(&[17, 5])?.over_items, 3);
/// # Ok::<(), microscope::Refusal>(())
/// ```
#[derive(Clone, Debug, PartialEq, Eq)]
pub struct MicroCm {
    sketch: Sketch,
    grid: Vec<u8>,
    codes: Codes,
}

impl MicroCm {
    /// A fresh sketch: nothing counted, and the clock at its start. The same seed and calls give the same bytes.
    pub fn with_dimensions(
        rows: usize,
        cols: usize,
        params: MicroParams,
        clock: SubWindowClock,
        rounding_seed: u64,
    ) -> Result<Self, Error> {
        let MicroParams { t, c } = params;
        let plain = clock.plain();
        let fill = |fresh: &mut Self| {
            calls::new(
                &mut fresh.sketch,
                fresh.codes.watch_mut(),
                rows as u64,
                cols as u64,
                t as u64,
                c as u64,
                plain.kind,
                plain.length,
                plain.epoch,
                rounding_seed,
                &mut fresh.grid,
            )
        };
        let mut fresh = Self::with_grid(Vec::new());
        // No grid is empty, so this one is refused: by 6 if there is nothing wrong with the settings.
        unless_only_bytes(fill(&mut fresh))?;
        fresh.grid = vec![0; grid_bytes(rows, cols, params)?];
        fill(&mut fresh)?;
        Ok(fresh)
    }

    /// One item, on a clock of items. Gives the random draws made, and the units lost: by the key's cells and, if the item was
    /// the last of its sub-window, by every cell whose shutter it closes.
    pub fn update(&mut self, key: &[u32]) -> Result<Done, Error> {
        let mut change = Change::default();
        calls::update(&mut self.sketch, key, &mut self.grid, &mut change)?;
        Ok(Done::of(change))
    }

    /// One item at this time, on a clock of time; an older time stamp counts as the latest. Gives the draws made and the units
    /// lost.
    pub fn update_at(&mut self, key: &[u32], timestamp: u64) -> Result<Done, Error> {
        let mut change = Change::default();
        calls::update_at(&mut self.sketch, key, timestamp, &mut self.grid, &mut change)?;
        Ok(Done::of(change))
    }

    /// Time passes without an item: before reading a key that has gone quiet. Gives the draws made and the units lost.
    pub fn advance_to(&mut self, timestamp: u64) -> Result<Done, Error> {
        let mut change = Change::default();
        calls::advance_to(&mut self.sketch, timestamp, &mut self.grid, &mut change)?;
        Ok(Done::of(change))
    }

    /// The figures of a key; `linear` is what the published `estimate` gives.
    pub fn estimate(&self, key: &[u32]) -> Result<Reading, Error> {
        read(|figures, items| calls::estimate(&self.sketch, key, &self.grid, figures, items))
    }

    /// The figures of a key with a given fraction, 0 to 1, of the oldest sub-window.
    pub fn estimate_with(&self, key: &[u32], fraction: f64) -> Result<Reading, Error> {
        read(|figures, items| calls::estimate_with(&self.sketch, key, fraction, &self.grid, figures, items))
    }

    /// Items a sub-window: Under divided by the sub-windows begun, which are the lesser of n + 1 and t; rounded down. On a
    /// clock of time they are counted from the epoch, so it is to be the moment of the start.
    ///
    /// ```
    /// use microscope::{MicroCm, MicroParams, SubWindowClock};
    ///
    /// let clock = SubWindowClock::time_based(10, 0);
    /// let mut counter = MicroCm::with_dimensions(2, 64, MicroParams { t: 12, c: 2 }, clock, 1)?;
    /// counter.update_at(&[17, 5], 3)?;
    /// assert_eq!(counter.mean(&[17, 5])?, 1); // right after the start, when the first of twelve sub-windows has begun
    /// counter.update_at(&[17, 5], 12)?;
    /// assert_eq!(counter.mean(&[17, 5])?, 1); // two items by two
    /// counter.advance_to(29)?;
    /// assert_eq!(counter.mean(&[17, 5])?, 0); // two items by three
    /// # Ok::<(), microscope::Refusal>(())
    /// ```
    pub fn mean(&self, key: &[u32]) -> Result<u64, Error> {
        let mut mean = Value::default();
        calls::mean(&self.sketch, key, &self.grid, &mut mean)?;
        Ok(mean.value)
    }

    /// Watches these codes from now on, in place of those before: `columns` are their keys, one code behind another, and
    /// `limits` their limits in items, one for each code, 64 at most. Until the first asking all count as below. The memory
    /// for them, 33 KB whatever their number, is allocated by the first call.
    pub fn set_codes(&mut self, columns: &[u32], limits: &[u64]) -> Result<(), Error> {
        self.codes.set(&self.sketch, columns, limits)
    }

    /// The codes that newly reached their limit: each whose Over figure is at its limit or above now and was below at the
    /// asking before, or that is asked after for the first time since it was set. By their places in the list, ascending.
    pub fn ask(&mut self) -> Result<Vec<usize>, Error> {
        let mut list = [0; MOST_CODES];
        let listed = self.ask_into(&mut list)?;
        Ok(list[..listed].iter().map(|&code| code as usize).collect())
    }

    /// The same without allocation: writes the codes to the list's start, a byte each, and gives how many they are. The
    /// list must have a byte for each code that is watched; those behind the listed ones stay as they are.
    pub fn ask_into(&mut self, list: &mut [u8]) -> Result<usize, Error> {
        self.codes.ask(&self.sketch, &self.grid, list)
    }

    /// Adds the counts of another sketch of the same settings that has reached the same sub-window. Gives the draws, and the
    /// units cut off above 255. The codes stay this sketch's.
    pub fn merge(&mut self, other: &Self) -> Result<Done, Error> {
        let mut change = Change::default();
        calls::merge(
            &mut self.sketch,
            &mut self.grid,
            &other.sketch,
            &other.grid,
            &mut change,
        )?;
        Ok(Done::of(change))
    }

    /// The highest zoom that any cell has now.
    pub fn max_zoom(&self) -> Result<u8, Error> {
        let mut zoom = Value::default();
        calls::max_zoom(&self.sketch, &self.grid, &mut zoom)?;
        Ok(zoom.value as u8)
    }

    /// The first unsound cell in grid order, by row, then column, as row × cols + column, if there is one. A sketch that
    /// only these methods wrote has none.
    pub fn audit(&self) -> Result<Option<usize>, Error> {
        let mut found = Found::default();
        calls::audit(&self.sketch, &self.grid, &mut found)?;
        Ok((found.unsound != 0).then_some(found.index as usize))
    }

    /// The bytes of one cell: t + 2 pixels, the zoom, the shutter (4 bytes, low byte first), pad bytes. For a display: how far
    /// a crossing zooms in, and what that does to the pixels, says [`calls::cell_enter_sub_window`].
    pub fn bucket_slice(&self, row: usize, col: usize) -> Result<&[u8], Error> {
        calls::bucket_check(&self.sketch, row as u64, col as u64, &self.grid)?;
        let depth = self.cell_bytes();
        let start = (row * self.cols() + col) * depth;
        Ok(&self.grid[start..start + depth])
    }

    /// How many bytes `save` gives.
    pub fn store_length(&self) -> Result<usize, Error> {
        let mut length = 0;
        calls::store_length(&self.sketch, &mut length)?;
        Ok(length as usize)
    }

    /// The store of this sketch: a form that outlives the process.
    pub fn save(&self) -> Result<Vec<u8>, Error> {
        let mut store = vec![0; self.store_length()?];
        self.save_to(&mut store)?;
        Ok(store)
    }

    /// The same into a buffer of exactly `store_length` bytes.
    pub fn save_to(&self, store: &mut [u8]) -> Result<(), Error> {
        calls::save(&self.sketch, &self.grid, store, &mut 0)
    }

    /// The sketch that was saved. No codes are in a store: it watches none.
    pub fn load(store: &[u8]) -> Result<Self, Error> {
        let mut shape = Shape::default();
        calls::store_shape(store, &mut shape)?;
        let mut loaded = Self::with_grid(vec![0; shape.grid_bytes as usize]);
        calls::load(
            &mut loaded.sketch,
            loaded.codes.watch_mut(),
            &mut loaded.grid,
            store,
            &mut 0,
        )?;
        Ok(loaded)
    }

    /// Number of rows.
    pub fn rows(&self) -> usize {
        self.sketch.rows as usize
    }

    /// Number of columns a row.
    pub fn cols(&self) -> usize {
        self.sketch.cols as usize
    }

    /// The shape of a cell.
    pub fn params(&self) -> MicroParams {
        MicroParams {
            t: self.sketch.t as usize,
            c: self.sketch.c as u32,
        }
    }

    /// The clock as it stands.
    pub fn clock(&self) -> SubWindowClock {
        SubWindowClock::of(&self.sketch)
    }

    /// The random state to go on with.
    pub fn state(&self) -> u64 {
        self.sketch.state
    }

    /// All cells, row by row.
    pub fn grid(&self) -> &[u8] {
        &self.grid
    }

    /// The sketch as [`calls`] take it.
    pub fn plain(&self) -> Sketch {
        self.sketch
    }

    /// The watched codes as [`calls`] take them, without their columns and limits.
    pub fn watch(&self) -> Watch {
        self.codes.watch()
    }

    /// Where the columns of the watched codes are kept, one code behind another; what stands behind them means nothing.
    pub fn kept_columns(&self) -> &[u32; KEPT_COLUMNS] {
        self.codes.columns()
    }

    /// Where their limits are kept.
    pub fn kept_limits(&self) -> &[u64; MOST_CODES] {
        self.codes.limits()
    }

    /// Bytes a cell.
    pub fn cell_bytes(&self) -> usize {
        self.grid.len() / (self.rows() * self.cols())
    }

    /// Bytes this sketch holds: the struct, its cells, and the memory for codes, once codes were set.
    pub fn memory_bytes(&self) -> usize {
        size_of::<Self>() + self.grid.len() + self.codes.memory_bytes()
    }

    /// The sub-window reached.
    pub fn sub_window(&self) -> u64 {
        self.clock().n()
    }

    /// How much of the oldest sub-window is still inside the window.
    pub fn residual_fraction(&self) -> f64 {
        self.clock().residual_fraction()
    }

    /// What a fresh start or a load fills.
    fn with_grid(grid: Vec<u8>) -> Self {
        Self {
            sketch: Sketch::default(),
            grid,
            codes: Codes::none(),
        }
    }
}

/// A refusal, unless it is for the grid's length alone.
fn unless_only_bytes(answer: Result<(), Error>) -> Result<(), Error> {
    match answer {
        Err(Refusal::Bytes) => Ok(()),
        other => other,
    }
}

/// The bytes of a grid whose settings were accepted; that keeps the product below 2^32.
fn grid_bytes(rows: usize, cols: usize, params: MicroParams) -> Result<usize, Error> {
    let mut depth = 0;
    calls::depth(params.t as u64, params.c as u64, &mut depth)?;
    Ok(rows * cols * depth as usize)
}

/// A reading that this call makes.
fn read(call: impl FnOnce(&mut Figures, &mut Items) -> Result<(), Error>) -> Result<Reading, Error> {
    let (mut figures, mut items) = (Figures::default(), Items::default());
    call(&mut figures, &mut items)?;
    Ok(Reading {
        over: figures.over,
        under: figures.under,
        linear: figures.linear,
        fraction: figures.fraction,
        over_items: items.over,
        under_items: items.under,
    })
}
