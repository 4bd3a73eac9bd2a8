//! The file `clock`: readings, ticks, advances and comparisons of clocks of both kinds.

use crate::choose::Dice;
use crate::judge::Clock;
use crate::write::{Out, Record};

const READ: u8 = 1;
const TICK: u8 = 2;
const ADVANCE: u8 = 3;
const SAME_FRAME: u8 = 4;

/// The longest sub-window that document 01 allows.
const LONGEST: u64 = 1 << 53;

/// One record. `a`, `b` and `reading` mean different things to different kinds.
struct Line {
    kind: u8,
    other_timed: bool,
    same: bool,
    before: Clock,
    a: u64,
    b: u64,
    reading: u64,
    crossed: u64,
    /// The clock whose n and fraction are recorded.
    shown: Clock,
}

fn put(out: &mut Out, line: Line) {
    out.put(
        Record::default()
            .u8(line.kind)
            .u8(line.before.timed as u8)
            .u8(line.other_timed as u8)
            .u8(line.same as u8)
            .u32(0)
            .u64(line.before.length)
            .u64(line.before.epoch)
            .u64(line.before.reading)
            .u64(line.a)
            .u64(line.b)
            .u64(line.reading)
            .u64(line.crossed)
            .u64(line.shown.n())
            .u64(line.shown.fraction()),
    );
}

/// A call on one clock that leaves it as `after`.
fn moved(kind: u8, before: Clock, a: u64, after: Clock, crossed: u64) -> Line {
    Line {
        kind,
        other_timed: false,
        same: false,
        before,
        a,
        b: 0,
        reading: after.reading,
        crossed,
        shown: after,
    }
}

fn read(out: &mut Out, clock: Clock) {
    put(out, moved(READ, clock, 0, clock, 0));
}

fn tick(out: &mut Out, clock: Clock) {
    let (after, crossed) = clock.tick();
    put(out, moved(TICK, clock, 0, after, crossed as u64));
}

fn advance(out: &mut Out, clock: Clock, to: u64) {
    let (after, crossed) = clock.advance_to(to);
    put(out, moved(ADVANCE, clock, to, after, crossed));
}

fn same_frame(out: &mut Out, clock: Clock, other: Clock) {
    let line = Line {
        kind: SAME_FRAME,
        other_timed: other.timed,
        same: clock.same_frame(other),
        before: clock,
        a: other.length,
        b: other.epoch,
        reading: other.reading,
        crossed: 0,
        shown: clock,
    };
    put(out, line);
}

fn counting(length: u64, reading: u64) -> Clock {
    Clock {
        timed: false,
        length,
        epoch: 0,
        reading,
    }
}

fn timing(length: u64, epoch: u64, reading: u64) -> Clock {
    Clock {
        timed: true,
        length,
        epoch,
        reading,
    }
}

fn directed(out: &mut Out) {
    let top = u64::MAX;
    let lengths = [1, 2, 3, 4, 7, 10, 4096, 1 << 32, LONGEST - 1, LONGEST];
    for length in lengths {
        // The last whole sub-window below 2^64 begins here.
        let last = top / length * length;
        let readings = [
            0,
            1,
            length - 1,
            length,
            length + 1,
            2 * length - 1,
            last - 1,
            last,
            top - 2,
            top - 1,
            top,
        ];
        for reading in readings {
            read(out, counting(length, reading));
            tick(out, counting(length, reading));
            for epoch in [0, 1, 1000, top - 1, top] {
                let clock = timing(length, epoch, reading);
                read(out, clock);
                for to in [0, reading, epoch, epoch.saturating_add(length), last, top] {
                    advance(out, clock, to);
                }
            }
        }
    }
    same_frames(out);
}

fn same_frames(out: &mut Out) {
    let clocks = [
        counting(3, 0),
        counting(3, 7),
        counting(4, 7),
        timing(3, 0, 0),
        timing(3, 0, 7),
        timing(3, 1, 7),
        timing(4, 1, 7),
        timing(4, u64::MAX, 7),
        timing(LONGEST, 0, 7),
        counting(LONGEST, 7),
    ];
    for clock in clocks {
        for other in clocks {
            same_frame(out, clock, other);
        }
    }
}

pub fn random_length(dice: &mut Dice) -> u64 {
    match dice.below(10) {
        0..5 => dice.within(1, 12),
        5 => dice.one_of(&[100, 255, 4096, 1 << 32]),
        6 => LONGEST - dice.below(3),
        _ => (dice.any_size() >> 11).max(1),
    }
}

/// A reading near a whole number of sub-windows after `epoch`, or near an end of the range.
fn random_reading(dice: &mut Dice, length: u64, epoch: u64) -> u64 {
    let whole = dice.any_size() / length * length;
    match dice.below(8) {
        0..4 => {
            let near = dice.below(4);
            epoch
                .saturating_add(whole)
                .saturating_add(near)
                .saturating_sub(2)
        }
        4 => epoch.saturating_sub(dice.any_size()),
        5 => u64::MAX - dice.below(4),
        6 => dice.below(20),
        _ => dice.any_size(),
    }
}

fn random_clock(dice: &mut Dice) -> Clock {
    let length = random_length(dice);
    if dice.chance(40) {
        return counting(length, random_reading(dice, length, 0));
    }
    let epoch = match dice.below(4) {
        0 => 0,
        1 => u64::MAX - dice.below(100),
        _ => dice.any_size(),
    };
    timing(length, epoch, random_reading(dice, length, epoch))
}

/// A clock that differs from `clock` in one respect at most.
fn cousin(dice: &mut Dice, clock: Clock) -> Clock {
    let reading = random_reading(dice, clock.length, clock.epoch);
    match dice.below(5) {
        0 => random_clock(dice),
        1 => Clock {
            length: clock.length % LONGEST + 1,
            ..clock
        },
        2 if clock.timed => Clock {
            epoch: clock.epoch ^ 1,
            ..clock
        },
        3 => Clock {
            timed: !clock.timed,
            epoch: 0,
            ..clock
        },
        _ => Clock { reading, ..clock },
    }
}

fn random(out: &mut Out, dice: &mut Dice) {
    let clock = random_clock(dice);
    match dice.below(10) {
        0 => {
            let other = cousin(dice, clock);
            same_frame(out, clock, other);
        }
        1..4 => read(out, clock),
        _ if clock.timed => {
            let to = random_reading(dice, clock.length, clock.epoch);
            advance(out, clock, to);
        }
        _ => tick(out, clock),
    }
}

pub fn write(out: &mut Out, dice: &mut Dice, calls: u64) {
    directed(out);
    while out.calls() < calls {
        random(out, dice);
    }
}
