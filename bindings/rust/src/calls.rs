//! The library's calls as they are, with references and slices in place of addresses and lengths.
//!
//! What a call changes it changes in its place, and if it was refused it leaves that as it was. What it tells ([`Change`],
//! [`Figures`], an index ..) is its last argument or arguments and is written either way: 0 where it was refused, but for
//! the index of an unsound cell, which the [`Refusal`] has too.
//!
//! Why each is safe: the address of a reference, a slice or an array is never null, it is aligned, and all of the length
//! is there; what is lent to be written is borrowed exclusively and overlaps with nothing. The structs are laid out as the
//! library has them (`plain.rs` asserts it), and any bits are a value of each. That is all that the calls ask for: they have
//! an answer for every value of every argument, and keep no address.

use crate::Refusal;

pub use crate::plain::{
    Asked, Change, Figures, Found, ITEMS, Items, KEPT_COLUMNS, MOST_CODES, Shape, Sketch, TIME, VERSION, Value, Watch,
};

#[link(name = "microscope", kind = "static")]
unsafe extern "C" {
    fn microscope_version() -> u64;
    fn microscope_new(
        sketch: *mut Sketch,
        watch: *mut Watch,
        rows: u64,
        cols: u64,
        t: u64,
        c: u64,
        kind: u64,
        length: u64,
        epoch: u64,
        seed: u64,
        grid: *mut u8,
        grid_bytes: usize,
    ) -> u64;
    fn microscope_update(
        sketch: *mut Sketch,
        key: *const u32,
        columns: usize,
        grid: *mut u8,
        grid_bytes: usize,
        change: *mut Change,
    ) -> u64;
    fn microscope_update_at(
        sketch: *mut Sketch,
        key: *const u32,
        columns: usize,
        timestamp: u64,
        grid: *mut u8,
        grid_bytes: usize,
        change: *mut Change,
    ) -> u64;
    fn microscope_advance_to(
        sketch: *mut Sketch,
        timestamp: u64,
        grid: *mut u8,
        grid_bytes: usize,
        change: *mut Change,
    ) -> u64;
    fn microscope_merge(
        sketch: *mut Sketch,
        grid: *mut u8,
        grid_bytes: usize,
        other: *const Sketch,
        other_grid: *const u8,
        other_grid_bytes: usize,
        change: *mut Change,
    ) -> u64;
    fn microscope_estimate(
        sketch: *const Sketch,
        key: *const u32,
        columns: usize,
        grid: *const u8,
        grid_bytes: usize,
        figures: *mut Figures,
        items: *mut Items,
    ) -> u64;
    fn microscope_estimate_with(
        sketch: *const Sketch,
        key: *const u32,
        columns: usize,
        fraction: f64,
        grid: *const u8,
        grid_bytes: usize,
        figures: *mut Figures,
        items: *mut Items,
    ) -> u64;
    fn microscope_mean(
        sketch: *const Sketch,
        key: *const u32,
        columns: usize,
        grid: *const u8,
        grid_bytes: usize,
        mean: *mut Value,
    ) -> u64;
    fn microscope_bucket_check(sketch: *const Sketch, row: u64, col: u64, grid: *const u8, grid_bytes: usize) -> u64;
    fn microscope_max_zoom(sketch: *const Sketch, grid: *const u8, grid_bytes: usize, zoom: *mut Value) -> u64;
    fn microscope_audit(sketch: *const Sketch, grid: *const u8, grid_bytes: usize, found: *mut Found) -> u64;
    fn microscope_store_length(sketch: *const Sketch, length: *mut u64) -> u64;
    fn microscope_save(
        sketch: *const Sketch,
        grid: *const u8,
        grid_bytes: usize,
        store: *mut u8,
        store_bytes: usize,
        index: *mut u64,
    ) -> u64;
    fn microscope_load(
        sketch: *mut Sketch,
        watch: *mut Watch,
        grid: *mut u8,
        grid_bytes: usize,
        store: *const u8,
        store_bytes: usize,
        index: *mut u64,
    ) -> u64;
    fn microscope_store_shape(store: *const u8, store_bytes: usize, shape: *mut Shape) -> u64;
    fn microscope_set_codes(
        sketch: *const Sketch,
        watch: *mut Watch,
        columns: *const u32,
        column_count: usize,
        limits: *const u64,
        limit_count: usize,
        kept_columns: *mut [u32; KEPT_COLUMNS],
        kept_limits: *mut [u64; MOST_CODES],
    ) -> u64;
    fn microscope_ask(
        sketch: *const Sketch,
        watch: *mut Watch,
        kept_columns: *const [u32; KEPT_COLUMNS],
        kept_limits: *const [u64; MOST_CODES],
        grid: *const u8,
        grid_bytes: usize,
        list: *mut u8,
        list_bytes: usize,
        asked: *mut Asked,
    ) -> u64;
    fn microscope_depth(t: u64, c: u64, depth: *mut u64) -> u64;
    fn microscope_base_max_zoom(c: u64, zoom: *mut u64) -> u64;
    fn microscope_cell_check(cell: *const u8, cell_bytes: usize, t: u64, c: u64) -> u64;
    fn microscope_cell_zoom(cell: *const u8, cell_bytes: usize, t: u64, c: u64, zoom: *mut u64) -> u64;
    fn microscope_cell_shutter(cell: *const u8, cell_bytes: usize, t: u64, c: u64, shutter: *mut u64) -> u64;
    fn microscope_cell_scaled_pixel(cell: *const u8, cell_bytes: usize, t: u64, c: u64, n: u64, items: *mut f64)
    -> u64;
    fn microscope_cell_insert(
        cell: *mut u8,
        cell_bytes: usize,
        t: u64,
        c: u64,
        n: u64,
        state: *mut u64,
        change: *mut Change,
    ) -> u64;
    fn microscope_cell_enter_sub_window(
        cell: *mut u8,
        cell_bytes: usize,
        t: u64,
        c: u64,
        new_n: u64,
        crossed: u64,
        state: *mut u64,
        change: *mut Change,
    ) -> u64;
    fn microscope_cell_merge(
        dst: *mut u8,
        dst_bytes: usize,
        src: *const u8,
        src_bytes: usize,
        t: u64,
        c: u64,
        n: u64,
        state: *mut u64,
        change: *mut Change,
    ) -> u64;
    fn microscope_rounding_new(seed: u64) -> u64;
    fn microscope_next_u64(state: *mut u64, value: *mut u64) -> u64;
    fn microscope_unbiased_div_u64(
        value: u64,
        divisor: u64,
        state: *mut u64,
        quotient: *mut u64,
        change: *mut Change,
    ) -> u64;
}

/// The number of a call in which there is no cell to name: it judges none, or one only.
fn told(number: u64) -> Result<(), Refusal> {
    Refusal::unless_accepted(number, 0)
}

// ---- a sketch ----

/// The version of the library: [`VERSION`], if it goes with this wrapper.
pub fn version() -> u64 {
    // SAFETY: nothing is lent.
    unsafe { microscope_version() }
}

/// A fresh sketch and no codes: every byte of the grid is written 0. Any seed will do.
#[allow(clippy::too_many_arguments)]
pub fn new(
    sketch: &mut Sketch,
    watch: &mut Watch,
    rows: u64,
    cols: u64,
    t: u64,
    c: u64,
    kind: u64,
    length: u64,
    epoch: u64,
    seed: u64,
    grid: &mut [u8],
) -> Result<(), Refusal> {
    let (bytes, at) = (grid.len(), grid.as_mut_ptr());
    // SAFETY: sketch, watch and the grid with its own length are borrowed exclusively.
    told(unsafe { microscope_new(sketch, watch, rows, cols, t, c, kind, length, epoch, seed, at, bytes) })
}

/// One item, on a clock of items. [`Change::lost`] counts the units that the key's cells drop and, if the item was the last of
/// its sub-window, those that closed shutters drop in the whole grid.
pub fn update(sketch: &mut Sketch, key: &[u32], grid: &mut [u8], change: &mut Change) -> Result<(), Refusal> {
    // SAFETY: key and grid come with their own lengths; sketch, grid and change are borrowed exclusively.
    let number = unsafe { microscope_update(sketch, key.as_ptr(), key.len(), grid.as_mut_ptr(), grid.len(), change) };
    Refusal::unless_accepted(number, change.index)
}

/// One item at this time, on a clock of time. [`Change::lost`] is as in [`update`].
pub fn update_at(
    sketch: &mut Sketch,
    key: &[u32],
    timestamp: u64,
    grid: &mut [u8],
    change: &mut Change,
) -> Result<(), Refusal> {
    // SAFETY: key and grid come with their own lengths; sketch, grid and change are borrowed exclusively.
    let number = unsafe {
        microscope_update_at(
            sketch,
            key.as_ptr(),
            key.len(),
            timestamp,
            grid.as_mut_ptr(),
            grid.len(),
            change,
        )
    };
    Refusal::unless_accepted(number, change.index)
}

/// Time passes without an item. [`Change::lost`] counts the units that closed shutters drop, if it crosses into another
/// sub-window.
pub fn advance_to(sketch: &mut Sketch, timestamp: u64, grid: &mut [u8], change: &mut Change) -> Result<(), Refusal> {
    // SAFETY: the grid comes with its own length; sketch, grid and change are borrowed exclusively.
    let number = unsafe { microscope_advance_to(sketch, timestamp, grid.as_mut_ptr(), grid.len(), change) };
    Refusal::unless_accepted(number, change.index)
}

/// Adds the other sketch's counts to this one's. The other is only read. [`Change::lost`] counts the units that are cut off
/// above 255, of all pixels of all cells; a merge that leaves every cell below its ceiling cuts none.
pub fn merge(
    sketch: &mut Sketch,
    grid: &mut [u8],
    other: &Sketch,
    other_grid: &[u8],
    change: &mut Change,
) -> Result<(), Refusal> {
    // SAFETY: both grids come with their own lengths; sketch, grid and change are borrowed exclusively, so the other sketch
    // and its grid stand elsewhere.
    let number = unsafe {
        microscope_merge(
            sketch,
            grid.as_mut_ptr(),
            grid.len(),
            other,
            other_grid.as_ptr(),
            other_grid.len(),
            change,
        )
    };
    Refusal::unless_accepted(number, change.index)
}

/// The figures of a key, with the clock's own fraction.
pub fn estimate(
    sketch: &Sketch,
    key: &[u32],
    grid: &[u8],
    figures: &mut Figures,
    items: &mut Items,
) -> Result<(), Refusal> {
    // SAFETY: key and grid come with their own lengths; figures and items are borrowed exclusively.
    let number = unsafe {
        microscope_estimate(
            sketch,
            key.as_ptr(),
            key.len(),
            grid.as_ptr(),
            grid.len(),
            figures,
            items,
        )
    };
    Refusal::unless_accepted(number, items.index)
}

/// The same with a given fraction.
pub fn estimate_with(
    sketch: &Sketch,
    key: &[u32],
    fraction: f64,
    grid: &[u8],
    figures: &mut Figures,
    items: &mut Items,
) -> Result<(), Refusal> {
    // SAFETY: key and grid come with their own lengths; figures and items are borrowed exclusively.
    let number = unsafe {
        microscope_estimate_with(
            sketch,
            key.as_ptr(),
            key.len(),
            fraction,
            grid.as_ptr(),
            grid.len(),
            figures,
            items,
        )
    };
    Refusal::unless_accepted(number, items.index)
}

/// Items a sub-window: Under divided by the sub-windows begun, which are the lesser of n + 1 and t; rounded down.
pub fn mean(sketch: &Sketch, key: &[u32], grid: &[u8], mean: &mut Value) -> Result<(), Refusal> {
    // SAFETY: key and grid come with their own lengths; mean is borrowed exclusively.
    let number = unsafe { microscope_mean(sketch, key.as_ptr(), key.len(), grid.as_ptr(), grid.len(), mean) };
    Refusal::unless_accepted(number, mean.index)
}

/// Whether there is a cell at this row and column.
pub fn bucket_check(sketch: &Sketch, row: u64, col: u64, grid: &[u8]) -> Result<(), Refusal> {
    // SAFETY: the grid comes with its own length, and nothing is written.
    told(unsafe { microscope_bucket_check(sketch, row, col, grid.as_ptr(), grid.len()) })
}

/// The highest zoom that any cell has now.
pub fn max_zoom(sketch: &Sketch, grid: &[u8], zoom: &mut Value) -> Result<(), Refusal> {
    // SAFETY: the grid comes with its own length; zoom is borrowed exclusively.
    let number = unsafe { microscope_max_zoom(sketch, grid.as_ptr(), grid.len(), zoom) };
    Refusal::unless_accepted(number, zoom.index)
}

/// Whether every cell is sound. What it found is no refusal.
pub fn audit(sketch: &Sketch, grid: &[u8], found: &mut Found) -> Result<(), Refusal> {
    // SAFETY: the grid comes with its own length; found is borrowed exclusively.
    told(unsafe { microscope_audit(sketch, grid.as_ptr(), grid.len(), found) })
}

// ---- a store ----

/// How many bytes a sketch's store takes.
pub fn store_length(sketch: &Sketch, length: &mut u64) -> Result<(), Refusal> {
    // SAFETY: length is borrowed exclusively.
    told(unsafe { microscope_store_length(sketch, length) })
}

/// Writes the whole store, or no byte of it.
pub fn save(sketch: &Sketch, grid: &[u8], store: &mut [u8], index: &mut u64) -> Result<(), Refusal> {
    // SAFETY: grid and store come with their own lengths; store and index are borrowed exclusively.
    let number = unsafe {
        microscope_save(
            sketch,
            grid.as_ptr(),
            grid.len(),
            store.as_mut_ptr(),
            store.len(),
            index,
        )
    };
    Refusal::unless_accepted(number, *index)
}

/// The sketch of a store, its grid, whose length must be that of the stored one, and no codes.
pub fn load(
    sketch: &mut Sketch,
    watch: &mut Watch,
    grid: &mut [u8],
    store: &[u8],
    index: &mut u64,
) -> Result<(), Refusal> {
    // SAFETY: grid and store come with their own lengths; sketch, watch, grid and index are borrowed exclusively.
    let number = unsafe {
        microscope_load(
            sketch,
            watch,
            grid.as_mut_ptr(),
            grid.len(),
            store.as_ptr(),
            store.len(),
            index,
        )
    };
    Refusal::unless_accepted(number, *index)
}

/// Which sketch a store of unknown origin holds, and how long a grid to lend for a load of it. Only blocks, header and
/// length are judged: a load may still refuse it.
pub fn store_shape(store: &[u8], shape: &mut Shape) -> Result<(), Refusal> {
    // SAFETY: the store comes with its own length; shape is borrowed exclusively.
    told(unsafe { microscope_store_shape(store.as_ptr(), store.len(), shape) })
}

// ---- watched codes ----

/// Watches these codes from now on: their columns, one code behind another, and a limit for each. They are kept in the
/// two arrays, which no other call writes.
pub fn set_codes(
    sketch: &Sketch,
    watch: &mut Watch,
    columns: &[u32],
    limits: &[u64],
    kept_columns: &mut [u32; KEPT_COLUMNS],
    kept_limits: &mut [u64; MOST_CODES],
) -> Result<(), Refusal> {
    // SAFETY: columns and limits come with their own lengths, the arrays have the size that the library takes them to
    // have; watch and both arrays are borrowed exclusively.
    told(unsafe {
        microscope_set_codes(
            sketch,
            watch,
            columns.as_ptr(),
            columns.len(),
            limits.as_ptr(),
            limits.len(),
            kept_columns,
            kept_limits,
        )
    })
}

/// Lists the codes that are at their limit or above and were below at the asking before: their indices, ascending, from
/// the list's start on. The list needs a byte for each code that is watched; those behind the listed ones stay.
pub fn ask(
    sketch: &Sketch,
    watch: &mut Watch,
    kept_columns: &[u32; KEPT_COLUMNS],
    kept_limits: &[u64; MOST_CODES],
    grid: &[u8],
    list: &mut [u8],
    asked: &mut Asked,
) -> Result<(), Refusal> {
    // SAFETY: grid and list come with their own lengths, the arrays have the size that the library takes them to have;
    // watch, list and asked are borrowed exclusively.
    let number = unsafe {
        microscope_ask(
            sketch,
            watch,
            kept_columns,
            kept_limits,
            grid.as_ptr(),
            grid.len(),
            list.as_mut_ptr(),
            list.len(),
            asked,
        )
    };
    Refusal::unless_accepted(number, asked.index)
}

// ---- one cell ----

/// How many bytes a cell takes.
pub fn depth(t: u64, c: u64, depth: &mut u64) -> Result<(), Refusal> {
    // SAFETY: depth is borrowed exclusively.
    told(unsafe { microscope_depth(t, c, depth) })
}

/// The largest zoom of a base, its ceiling: the largest z with c^z ≤ 2^32 − 1. At it a full pixel drops its unit, which the
/// call then tells ([`Change::lost`]). The card (document 02, T-03; proved for every base):
///
/// | c | 2 | 3 | 4 | 5 | 6 | 7 | 8-9 | 10-11 | 12-15 | 16-23 | 24-40 | 41-84 | 85-255 | 256 |
/// |---|---|---|---|---|---|---|---|---|---|---|---|---|---|---|
/// | ceiling | 31 | 20 | 15 | 13 | 12 | 11 | 10 | 9 | 8 | 7 | 6 | 5 | 4 | 3 |
///
/// ```
/// let mut zoom = 0;
/// microscope::calls::base_max_zoom(10, &mut zoom)?;
/// assert_eq!(zoom, 9);
/// # Ok::<(), microscope::Refusal>(())
/// ```
pub fn base_max_zoom(c: u64, zoom: &mut u64) -> Result<(), Refusal> {
    // SAFETY: zoom is borrowed exclusively.
    told(unsafe { microscope_base_max_zoom(c, zoom) })
}

/// Whether a cell is sound.
pub fn cell_check(cell: &[u8], t: u64, c: u64) -> Result<(), Refusal> {
    // SAFETY: the cell comes with its own length, and nothing is written.
    told(unsafe { microscope_cell_check(cell.as_ptr(), cell.len(), t, c) })
}

/// A cell's zoom.
pub fn cell_zoom(cell: &[u8], t: u64, c: u64, zoom: &mut u64) -> Result<(), Refusal> {
    // SAFETY: the cell comes with its own length; zoom is borrowed exclusively.
    told(unsafe { microscope_cell_zoom(cell.as_ptr(), cell.len(), t, c, zoom) })
}

/// A cell's shutter.
pub fn cell_shutter(cell: &[u8], t: u64, c: u64, shutter: &mut u64) -> Result<(), Refusal> {
    // SAFETY: the cell comes with its own length; shutter is borrowed exclusively.
    told(unsafe { microscope_cell_shutter(cell.as_ptr(), cell.len(), t, c, shutter) })
}

/// The items that a cell counts for sub-window n.
pub fn cell_scaled_pixel(cell: &[u8], t: u64, c: u64, n: u64, items: &mut f64) -> Result<(), Refusal> {
    // SAFETY: the cell comes with its own length; items is borrowed exclusively.
    told(unsafe { microscope_cell_scaled_pixel(cell.as_ptr(), cell.len(), t, c, n, items) })
}

/// Records an item of sub-window n. [`Change::lost`] is 1 if the item completes a unit, the pixel of n is full and the cell is
/// at its ceiling: the unit is dropped. Where the zoom is not raised, the total afterwards plus c^Z × lost equals the total
/// before plus 1 (document 02, T-04); a cell's total is its shutter plus c^Z × the sum of its pixels.
pub fn cell_insert(
    cell: &mut [u8],
    t: u64,
    c: u64,
    n: u64,
    state: &mut u64,
    change: &mut Change,
) -> Result<(), Refusal> {
    // SAFETY: the cell comes with its own length; cell, state and change are borrowed exclusively.
    told(unsafe { microscope_cell_insert(cell.as_mut_ptr(), cell.len(), t, c, n, state, change) })
}

/// Moves a cell into sub-window `new_n`, `crossed` sub-windows on; by 0 nothing changes.
///
/// How far it zooms in (document 02, T-11): with the zoom Z and the t + 2 pixels as they are once the shutter is closed, which
/// may raise Z by 1, and the pixels of the sub-windows that begin are cleared (by t + 2 or more: once all are 0), Z falls by
/// exactly k, the largest k ≤ Z for which c^k × the largest pixel ≤ 255. Every pixel becomes c^k × itself, so that it is worth
/// as many items as before; all pixels 0 gives k = Z.
///
/// [`Change::lost`] is 1 if the closed shutter is rounded up into a full pixel of a cell at its ceiling. What is cleared is not
/// lost: it has left the window.
///
/// ```
/// use microscope::calls::{Change, cell_enter_sub_window};
///
/// let k = |c: u64, largest: u64, zoom: u32| (0..=zoom).rev().find(|k| c.pow(*k) * largest <= 255).unwrap();
///
/// // t = 1, c = 2: the pixels 31 9 5 at zoom 7. Entering sub-window 1 clears the 9, and 31 is the largest that is left.
/// let (mut cell, mut state, mut change) = ([31, 9, 5, 7, 0, 0, 0, 0], 1, Change::default());
/// cell_enter_sub_window(&mut cell, 1, 2, 1, 1, &mut state, &mut change)?;
/// assert_eq!(k(2, 31, 7), 3);
/// assert_eq!(cell, [31 * 8, 0, 5 * 8, 7 - 3, 0, 0, 0, 0]);
/// # Ok::<(), microscope::Refusal>(())
/// ```
pub fn cell_enter_sub_window(
    cell: &mut [u8],
    t: u64,
    c: u64,
    new_n: u64,
    crossed: u64,
    state: &mut u64,
    change: &mut Change,
) -> Result<(), Refusal> {
    // SAFETY: the cell comes with its own length; cell, state and change are borrowed exclusively.
    told(unsafe {
        microscope_cell_enter_sub_window(cell.as_mut_ptr(), cell.len(), t, c, new_n, crossed, state, change)
    })
}

/// Adds the counts of src to those of dst. [`Change::lost`] counts the units cut off above 255, of all pixels, which happens at
/// the ceiling only.
///
/// ```
/// use microscope::calls::{Change, cell_merge};
///
/// // t = 1, c = 2, both at zoom 31, the ceiling: of 255 + 1 and 200 + 100 the units above 255 are cut off.
/// let (mut dst, src) = ([255, 200, 7, 31, 0, 0, 0, 0], [1, 100, 7, 31, 0, 0, 0, 0]);
/// let (mut state, mut change) = (1, Change::default());
/// cell_merge(&mut dst, &src, 1, 2, 0, &mut state, &mut change)?;
/// assert_eq!(dst, [255, 255, 14, 31, 0, 0, 0, 0]);
/// assert_eq!(change.lost, 1 + 45);
/// # Ok::<(), microscope::Refusal>(())
/// ```
pub fn cell_merge(
    dst: &mut [u8],
    src: &[u8],
    t: u64,
    c: u64,
    n: u64,
    state: &mut u64,
    change: &mut Change,
) -> Result<(), Refusal> {
    let (to, bytes) = (dst.as_mut_ptr(), dst.len());
    // SAFETY: both cells come with their own lengths; dst, state and change are borrowed exclusively.
    told(unsafe { microscope_cell_merge(to, bytes, src.as_ptr(), src.len(), t, c, n, state, change) })
}

// ---- the draws by themselves ----

/// The random state of a seed, never 0.
pub fn rounding_new(seed: u64) -> u64 {
    // SAFETY: nothing is lent.
    unsafe { microscope_rounding_new(seed) }
}

/// One draw.
pub fn next_u64(state: &mut u64, value: &mut u64) -> Result<(), Refusal> {
    // SAFETY: state and value are borrowed exclusively.
    told(unsafe { microscope_next_u64(state, value) })
}

/// value / divisor, the remainder rounded up with the probability that it has of the divisor.
pub fn unbiased_div_u64(
    value: u64,
    divisor: u64,
    state: &mut u64,
    quotient: &mut u64,
    change: &mut Change,
) -> Result<(), Refusal> {
    // SAFETY: state, quotient and change are borrowed exclusively.
    told(unsafe { microscope_unbiased_div_u64(value, divisor, state, quotient, change) })
}
