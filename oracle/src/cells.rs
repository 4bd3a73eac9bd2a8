//! The file `cells`: insertions, crossings and merges of single cells, and what can be read off one.

use crate::choose::{BASES, Dice};
use crate::judge::{self, After};
use crate::write::{Out, Record};

const INSERT: u8 = 1;
const ENTER: u8 = 2;
const MERGE: u8 = 3;
const LAYOUT: u8 = 4;
const FIELDS: u8 = 5;

/// The sizes of the large cells, of which there are few.
const LARGE: [u16; 10] = [14, 31, 64, 127, 255, 256, 1000, 2047, 4095, 4096];

/// t and c, and the numbers of a record that are not bytes of a cell.
struct Line {
    kind: u8,
    t: u16,
    c: u16,
    draws: u64,
    a: u64,
    b: u64,
    from: u64,
    to: u64,
}

fn put(out: &mut Out, line: Line, cells: &[&[u8]]) {
    let header = Record::default()
        .u8(line.kind)
        .u8(cells.len() as u8)
        .u16(line.t)
        .u16(line.c)
        .u16(judge::depth(line.t))
        .u32(line.draws as u32)
        .u32(0)
        .u64(line.a)
        .u64(line.b)
        .u64(line.from)
        .u64(line.to);
    out.put(cells.iter().fold(header, |record, cell| record.bytes(cell)));
}

/// Where a call takes place: the settings, the sub-window and the random state.
#[derive(Clone, Copy)]
struct Place {
    t: u16,
    c: u16,
    n: u64,
    state: u64,
}

fn line(kind: u8, place: Place, crossed: u64, after: &After) -> Line {
    Line {
        kind,
        t: place.t,
        c: place.c,
        draws: after.draws,
        a: place.n,
        b: crossed,
        from: place.state,
        to: after.state,
    }
}

fn insert(out: &mut Out, place: Place, cell: &[u8]) {
    let after = judge::insert(place.t, place.c, place.n, place.state, cell);
    put(out, line(INSERT, place, 0, &after), &[cell, &after.cell]);
}

/// `place.n` is the sub-window entered.
fn enter(out: &mut Out, place: Place, crossed: u64, cell: &[u8]) {
    let after = judge::enter(place.t, place.c, place.n, crossed, place.state, cell);
    put(
        out,
        line(ENTER, place, crossed, &after),
        &[cell, &after.cell],
    );
}

fn merge(out: &mut Out, place: Place, dst: &[u8], src: &[u8]) {
    let after = judge::merge(place.t, place.c, place.n, place.state, dst, src);
    put(out, line(MERGE, place, 0, &after), &[dst, src, &after.cell]);
}

fn layout(out: &mut Out, t: u16, c: u16) {
    let line = Line {
        kind: LAYOUT,
        t,
        c,
        draws: 0,
        a: judge::pixels(t) as u64,
        b: judge::max_zoom(c) as u64,
        from: 0,
        to: 0,
    };
    put(out, line, &[]);
}

fn fields(out: &mut Out, t: u16, c: u16, n: u64, cell: &[u8]) {
    let (zoom, shutter, scaled) = judge::fields(t, c, n, cell);
    let line = Line {
        kind: FIELDS,
        t,
        c,
        draws: 0,
        a: n,
        b: scaled,
        from: zoom as u64,
        to: shutter as u64,
    };
    put(out, line, &[cell]);
}

/// The first state, counted from 1, whose first draw is odd or even as asked.
fn state_with_draw(even: bool) -> u64 {
    let found = (1..).find(|&state| (judge::draw(state).1 % 2 == 0) == even);
    found.expect("half of them are")
}

fn bench_sheet(out: &mut Out) {
    let at = |n, state| Place {
        t: 1,
        c: 2,
        n,
        state,
    };
    let cell = |pixels: [u8; 3], z, s| judge::cell(1, 2, &pixels, z, s, 0);
    let odd = state_with_draw(false);
    let even = state_with_draw(true);
    insert(out, at(0, 1), &cell([0, 0, 0], 0, 0));
    insert(out, at(0, 1), &cell([255, 10, 0], 0, 0));
    insert(out, at(0, 1), &cell([255, 11, 0], 0, 0));
    insert(out, at(0, 1), &cell([7, 8, 9], 1, 0));
    insert(out, at(0, 1), &cell([255, 0, 0], 31, (1 << 31) - 1));
    enter(out, at(1, 1), 1, &cell([127, 0, 0], 1, 0));
    enter(out, at(1, 1), 1, &cell([128, 0, 0], 1, 0));
    enter(out, at(2, 1), 2, &cell([100, 0, 0], 0, 0));
    enter(out, at(3, 1), 3, &cell([100, 0, 0], 0, 0));
    let full = cell([255, 0, 0], 0, 0);
    merge(out, at(1, 1), &full, &full);
    let full = cell([255, 0, 0], 1, 1);
    for state in [1, odd, even] {
        merge(out, at(0, state), &full, &full);
    }
}

/// c = 2 and a sum of 511 at the pixel of n: an even draw makes it 256, and a second raise follows, or at max_zoom a
/// cut.
fn sums_of_511(out: &mut Out) {
    for t in [1, 2, 5, 12] {
        for z in 1..=30 {
            let n = z as u64 * 7;
            let mut pixels = vec![z; t as usize + 2];
            pixels[(n % (t as u64 + 2)) as usize] = 255;
            let half = 1u32 << (z - 1);
            let dst = judge::cell(t, 2, &pixels, z, half, 0);
            let src = judge::cell(t, 2, &pixels, z, half + (z % 2) as u32 * (half - 1), 0);
            for state in [state_with_draw(false), state_with_draw(true)] {
                merge(out, Place { t, c: 2, n, state }, &dst, &src);
            }
        }
    }
}

/// At max_zoom a merge cuts at 255, an insertion's unit is dropped, and so is a crossing's.
fn at_max_zoom(out: &mut Out) {
    for c in BASES {
        let top = judge::max_zoom(c);
        let most = (judge::unit(c, top) - 1) as u32;
        let place = |n, state| Place { t: 1, c, n, state };
        let full = judge::cell(1, c, &[255, 254, 1], top, most, 0xA5);
        let nearly = judge::cell(1, c, &[255, 254, 1], top, most - 1, 0xA5);
        let lower = judge::cell(1, c, &[255, 255, 255], top - 1, 0, 0);
        for state in 1..=4 {
            for n in 0..3 {
                insert(out, place(n, state), &full);
                insert(out, place(n, state), &nearly);
                merge(out, place(n, state), &full, &full);
                merge(out, place(n, state), &full, &lower);
                merge(out, place(n, state), &lower, &full);
                merge(out, place(n, state), &lower, &lower);
            }
            enter(out, place(1, state), 1, &full);
            enter(out, place(2, state), 1, &full);
            enter(out, place(2, state), 2, &full);
        }
    }
}

/// A crossing that closes its shutter into a full pixel: with s = c^Z − 1 nearly always, with s = 1 hardly ever.
fn credits_while_crossing(out: &mut Out) {
    for c in BASES {
        for z in 1..=judge::max_zoom(c) {
            let unit = judge::unit(c, z);
            for (state, s) in [(1, unit - 1), (2, unit - 1), (3, unit / 2), (4, 1)] {
                let cell = judge::cell(2, c, &[3, 255, 200, 255], z, s as u32, 0x77);
                for crossed in 1..=3 {
                    let n = 5 + crossed;
                    enter(out, Place { t: 2, c, n, state }, crossed, &cell);
                }
            }
        }
    }
}

/// Zooming in over k levels: the largest pixel is the largest that allows k, or one more.
fn zooming_in(out: &mut Out) {
    for c in BASES {
        let top = judge::max_zoom(c);
        let place = Place {
            t: 1,
            c,
            n: 1,
            state: 9,
        };
        for k in 0..=top {
            let largest = 255 / judge::unit(c, k);
            for pixel in [largest, largest + 1] {
                let Ok(pixel) = u8::try_from(pixel) else {
                    continue;
                };
                for z in [k, top] {
                    enter(
                        out,
                        place,
                        1,
                        &judge::cell(1, c, &[pixel, 9, pixel / 2], z, 0, 0),
                    );
                    enter(out, place, 1, &judge::cell(1, c, &[0, 9, pixel], z, 0, 0));
                }
            }
        }
        // Nothing left at all: the zoom falls to 0, by clearing one by one and by the far jump.
        let s = (judge::unit(c, top) - 1) as u32;
        for crossed in [2, 3, 4, u64::MAX] {
            let cell = judge::cell(1, c, &[0, 200, 201], top, s, 0);
            enter(out, Place { n: 2, ..place }, crossed, &cell);
        }
    }
}

/// A zoom-out for every base, the credited pixel at each place, the others with every kind of remainder.
fn zooming_out(out: &mut Out) {
    for c in 2..=256u16 {
        let q = 255 / c;
        let others = [(c - 1).min(255) as u8, (q * c) as u8, 255, 0];
        for n in 0..4u64 {
            let mut pixels = others;
            pixels[n as usize] = 255;
            let cell = judge::cell(2, c, &pixels, 0, 0, 0);
            insert(
                out,
                Place {
                    t: 2,
                    c,
                    n,
                    state: c as u64,
                },
                &cell,
            );
        }
    }
}

/// Merges whose zooms differ by 1 to max_zoom levels, either side the higher.
fn uneven_merges(out: &mut Out) {
    for c in BASES {
        let top = judge::max_zoom(c);
        for gap in 1..=top {
            for low in [0, top - gap] {
                let high = low + gap;
                let s = (judge::unit(c, low) - 1) as u32;
                let fine = judge::cell(2, c, &[255, 254, 128, 1], low, s, 0x11);
                let s = (judge::unit(c, high) - 1) as u32;
                let coarse = judge::cell(2, c, &[254, 255, 127, 0], high, s, 0x22);
                for (n, state) in [(0, 5), (1, 6)] {
                    merge(out, Place { t: 2, c, n, state }, &fine, &coarse);
                    merge(out, Place { t: 2, c, n, state }, &coarse, &fine);
                }
            }
        }
    }
}

/// The ends of the ranges of n and crossed.
fn far_numbers(out: &mut Out, dice: &mut Dice) {
    let top = u64::MAX;
    for t in [1, 2, 3, 12] {
        for c in [2, 7, 256] {
            for n in [0, 1, top - 1, top] {
                let (cell, src, state) = (dice.cell(t, c), dice.cell(t, c), dice.state());
                let place = Place { t, c, n, state };
                insert(out, place, &cell);
                merge(out, place, &cell, &src);
                fields(out, t, c, n, &cell);
                let ring = t as u64 + 2;
                for crossed in [0, 1, ring - 1, ring, ring + 1, top - 1, top] {
                    if enterable(t, n, crossed) {
                        enter(out, place, crossed, &cell);
                    }
                }
            }
        }
    }
}

/// The Rust subtracts: fewer than t + 2 sub-windows crossed are at most those there have been.
fn enterable(t: u16, new_n: u64, crossed: u64) -> bool {
    crossed <= new_n || crossed >= t as u64 + 2
}

fn large_cells(out: &mut Out, dice: &mut Dice) {
    for t in LARGE {
        let c = dice.base();
        let (cell, src) = (dice.cell(t, c), dice.cell(t, c));
        let place = Place {
            t,
            c,
            n: dice.within(5000, 9000),
            state: dice.state(),
        };
        layout(out, t, c);
        fields(out, t, c, place.n, &cell);
        insert(out, place, &filled_at(place, &cell));
        merge(out, place, &cell, &src);
        for crossed in [1, t as u64 + 1, t as u64 + 2] {
            enter(out, place, crossed, &cell);
        }
    }
}

/// The cell with its pixel of n full and its shutter one short, so that an insertion zooms out.
fn filled_at(place: Place, cell: &[u8]) -> Vec<u8> {
    let ring = place.t as usize + 2;
    let z = cell[ring];
    let mut full = cell.to_vec();
    full[(place.n % ring as u64) as usize] = 255;
    let s = (judge::unit(place.c, z) - 1) as u32;
    full[ring + 1..ring + 5].copy_from_slice(&s.to_le_bytes());
    full
}

fn layouts(out: &mut Out) {
    for c in 2..=256 {
        layout(out, c % 13 + 1, c);
    }
    for t in 1..=64 {
        layout(out, t * 64, 2);
        layout(out, t, 3);
    }
}

fn directed(out: &mut Out, dice: &mut Dice) {
    bench_sheet(out);
    sums_of_511(out);
    at_max_zoom(out);
    credits_while_crossing(out);
    zooming_in(out);
    zooming_out(out);
    uneven_merges(out);
    far_numbers(out, dice);
    layouts(out);
}

fn random_crossed(dice: &mut Dice, t: u16) -> u64 {
    let ring = t as u64 + 2;
    match dice.below(12) {
        0 => 0,
        1..5 => 1,
        5 => ring - 1,
        6 => ring,
        7 => ring + 1,
        8 => u64::MAX - dice.below(2),
        9 => dice.any_size(),
        _ => dice.within(1, ring),
    }
}

fn random_enter(out: &mut Out, dice: &mut Dice, place: Place, cell: &[u8]) {
    let crossed = random_crossed(dice, place.t);
    let n = if enterable(place.t, place.n, crossed) {
        place.n
    } else {
        crossed
    };
    // Half of the time the pixel that the shutter closes into is full or nearly so.
    let mut cell = cell.to_vec();
    if crossed <= n && dice.chance(50) {
        let ended = (n - crossed) % (place.t as u64 + 2);
        cell[ended as usize] = dice.one_of(&[254, 255, 255]);
    }
    enter(out, Place { n, ..place }, crossed, &cell);
}

fn random_merge(out: &mut Out, dice: &mut Dice, place: Place, cell: &[u8]) {
    let top = judge::max_zoom(place.c);
    let z = cell[place.t as usize + 2];
    let near = match dice.below(5) {
        0 => z,
        1 => (z + 1).min(top),
        2 => z.saturating_sub(1),
        3 => z.saturating_sub(dice.below(6) as u8),
        _ => dice.zoom(top),
    };
    let src = dice.cell_at_zoom(place.t, place.c, near);
    merge(out, place, cell, &src);
}

fn random(out: &mut Out, dice: &mut Dice) {
    let (t, c) = (dice.sub_windows(), dice.base());
    let place = Place {
        t,
        c,
        n: dice.sub_window(t),
        state: dice.state(),
    };
    let cell = dice.cell(t, c);
    match dice.below(20) {
        0..3 => insert(out, place, &cell),
        3..6 => insert(out, place, &filled_at(place, &cell)),
        6..13 => random_enter(out, dice, place, &cell),
        13..19 => random_merge(out, dice, place, &cell),
        _ => fields(out, t, c, place.n, &cell),
    }
}

pub fn write(out: &mut Out, dice: &mut Dice, calls: u64) {
    directed(out, dice);
    while out.calls() < calls {
        random(out, dice);
    }
    large_cells(out, dice);
}
