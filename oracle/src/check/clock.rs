//! The file `clock`.

use super::{Header, Input, Tally, within};
use crate::judge::Clock;

#[derive(Debug)]
enum Call {
    Read(Clock),
    Tick(Clock),
    Advance(Clock, u64),
    SameFrame(Clock, Clock),
}

#[derive(Debug, PartialEq)]
struct Answer {
    same: bool,
    reading: u64,
    crossed: u64,
    n: u64,
    fraction: u64,
}

fn kind_of_clock(byte: u8) -> Result<bool, String> {
    within(byte < 2, "kind of clock")?;
    Ok(byte == 1)
}

fn decode(header: &Header) -> Result<(Call, Answer), String> {
    header.zeros(4, 4)?;
    let clock = Clock {
        timed: kind_of_clock(header.u8(1))?,
        length: header.u64(8),
        epoch: header.u64(16),
        reading: header.u64(24),
    };
    within((1..=1 << 53).contains(&clock.length), "length")?;
    let call = match header.u8(0) {
        1 => Call::Read(clock),
        2 => Call::Tick(clock),
        3 => Call::Advance(clock, header.u64(32)),
        4 => {
            let other = Clock {
                timed: kind_of_clock(header.u8(2))?,
                length: header.u64(32),
                epoch: header.u64(40),
                reading: header.u64(48),
            };
            within((1..=1 << 53).contains(&other.length), "length")?;
            Call::SameFrame(clock, other)
        }
        kind => return Err(format!("kind {kind}")),
    };
    let answer = Answer {
        same: header.u8(3) == 1,
        reading: header.u64(48),
        crossed: header.u64(56),
        n: header.u64(64),
        fraction: header.u64(72),
    };
    Ok((call, answer))
}

fn moved(after: Clock, crossed: u64) -> Answer {
    Answer {
        same: false,
        reading: after.reading,
        crossed,
        n: after.n(),
        fraction: after.fraction(),
    }
}

fn perform(call: &Call) -> Answer {
    match *call {
        Call::Read(clock) => moved(clock, 0),
        Call::Tick(clock) => {
            let (after, crossed) = clock.tick();
            moved(after, crossed as u64)
        }
        Call::Advance(clock, to) => {
            let (after, crossed) = clock.advance_to(to);
            moved(after, crossed)
        }
        Call::SameFrame(clock, other) => Answer {
            same: clock.same_frame(other),
            reading: other.reading,
            ..moved(clock, 0)
        },
    }
}

pub fn replay(input: &mut Input, tally: &mut Tally) -> Result<(), String> {
    while !input.bytes.is_empty() {
        let (call, expected) = decode(&Header(input.take(80)?))?;
        tally.compare(&call, &expected, &perform(&call));
    }
    Ok(())
}
