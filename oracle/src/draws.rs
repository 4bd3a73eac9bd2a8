//! The file `draws`: single draws, runs of draws, seeds and rounded divisions.

use crate::choose::Dice;
use crate::judge;
use crate::write::{Out, Record};

const DRAW: u8 = 1;
const DIVIDE: u8 = 2;
const DIVIDE_U32: u8 = 3;
const SEED: u8 = 4;
const RUN: u8 = 5;

/// The longest run of draws in one record.
const LONGEST_RUN: u64 = 4096;

struct Line {
    kind: u8,
    draws: u64,
    from: u64,
    to: u64,
    v: u64,
    d: u64,
    value: u64,
}

fn put(out: &mut Out, line: Line) {
    out.put(
        Record::default()
            .u8(line.kind)
            .bytes(&[0; 3])
            .u32(line.draws as u32)
            .u64(line.from)
            .u64(line.to)
            .u64(line.v)
            .u64(line.d)
            .u64(line.value),
    );
}

fn draw(out: &mut Out, from: u64) -> u64 {
    let (to, value) = judge::draw(from);
    let draws = judge::draws_between(from, to);
    put(
        out,
        Line {
            kind: DRAW,
            draws,
            from,
            to,
            v: 0,
            d: 0,
            value,
        },
    );
    to
}

fn seed(out: &mut Out, seed: u64) {
    let to = judge::seeded(seed);
    put(
        out,
        Line {
            kind: SEED,
            draws: 0,
            from: seed,
            to,
            v: 0,
            d: 0,
            value: 0,
        },
    );
}

fn run(out: &mut Out, from: u64, draws: u64) {
    let mut to = from;
    let mut value = 0;
    for _ in 0..draws {
        (to, value) = judge::draw(to);
    }
    put(
        out,
        Line {
            kind: RUN,
            draws,
            from,
            to,
            v: 0,
            d: 0,
            value,
        },
    );
}

fn divide(out: &mut Out, v: u64, d: u64, from: u64) {
    let (to, value) = judge::divide(v, d, from);
    let draws = judge::draws_between(from, to);
    put(
        out,
        Line {
            kind: DIVIDE,
            draws,
            from,
            to,
            v,
            d,
            value,
        },
    );
}

fn divide_u32(out: &mut Out, v: u32, d: u32, from: u64) {
    let (to, value) = judge::divide_u32(v, d, from);
    let draws = judge::draws_between(from, to);
    let (v, d, value) = (v as u64, d as u64, value as u64);
    put(
        out,
        Line {
            kind: DIVIDE_U32,
            draws,
            from,
            to,
            v,
            d,
            value,
        },
    );
}

/// Divisions whose remainder is the draw mod d (not rounded up) and one more (rounded up), where they exist.
fn divide_at_the_edge(out: &mut Out, quotient: u64, d: u64, from: u64) {
    let edge = judge::draw(from).1 % d;
    for remainder in [edge.saturating_sub(1), edge, edge + 1] {
        let v = quotient
            .checked_mul(d)
            .and_then(|v| v.checked_add(remainder));
        if let Some(v) = v.filter(|_| remainder < d) {
            divide(out, v, d, from);
        }
    }
}

fn directed(out: &mut Out) {
    for value in [0, 1, 2, 0x9E37_79B9_7F4A_7C15, 1 << 63, u64::MAX] {
        seed(out, value);
    }
    // Each bit alone, and each run of low ones: a shift that is off by one shows in one of them.
    for bit in 0..64 {
        draw(out, 1 << bit);
        draw(out, u64::MAX >> bit);
    }
    let mut state = 1;
    for _ in 0..500 {
        state = draw(out, state);
    }
    for length in [1, 2, 100, 1000, LONGEST_RUN] {
        run(out, 1, length);
        run(out, judge::seeded(0), length);
    }
    let wide = [
        1,
        2,
        3,
        255,
        256,
        1 << 32,
        (1 << 53) + 1,
        1 << 63,
        u64::MAX - 1,
        u64::MAX,
    ];
    for d in wide {
        for v in [0, 1, d - 1, d, d.saturating_add(1), u64::MAX - 1, u64::MAX] {
            for from in [1, 2, u64::MAX] {
                divide(out, v, d, from);
            }
        }
        divide_at_the_edge(out, 0, d, 1);
        divide_at_the_edge(out, 1, d, 2);
    }
    // What a zoom-out asks: a credited pixel, and a full one, by each base.
    for c in 2..=256 {
        divide_u32(out, 256, c, 1);
        divide_u32(out, 255, c, 2);
    }
    divide_u32(out, u32::MAX, 1, 1);
    divide_u32(out, u32::MAX, u32::MAX - 1, 1);
}

fn divisor(dice: &mut Dice) -> u64 {
    match dice.below(4) {
        0 => dice.base() as u64,
        1 => {
            let c = dice.base();
            let z = dice.zoom_for(c);
            judge::unit(c, z)
        }
        _ => dice.any_size().max(1),
    }
}

fn random(out: &mut Out, dice: &mut Dice) {
    let from = dice.state();
    match dice.below(20) {
        0..5 => {
            draw(out, from);
        }
        5..11 => {
            let (v, d) = (dice.any_size(), divisor(dice));
            divide(out, v, d, from);
        }
        11..14 => {
            let (quotient, d) = (dice.any_size() >> 32, divisor(dice));
            divide_at_the_edge(out, quotient, d, from);
        }
        14..18 => {
            let (v, d) = (dice.any_size() as u32, dice.base() as u32);
            divide_u32(out, v, d, from);
        }
        18 => {
            let value = dice.any_size();
            seed(out, value);
        }
        _ => {
            let length = dice.within(2, 40);
            run(out, from, length);
        }
    }
}

pub fn write(out: &mut Out, dice: &mut Dice, calls: u64) {
    directed(out);
    while out.calls() < calls {
        random(out, dice);
    }
}
