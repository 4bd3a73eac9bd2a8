//! The file `draws`.

use super::{Header, Input, Tally, within};
use crate::judge;

#[derive(Debug)]
enum Call {
    Draw { state: u64 },
    Divide { v: u64, d: u64, state: u64 },
    DivideU32 { v: u32, d: u32, state: u64 },
    Seed { seed: u64 },
    Run { state: u64, length: u32 },
}

#[derive(Debug, PartialEq)]
struct Answer {
    state: u64,
    value: u64,
    draws: u64,
}

fn decode(header: &Header) -> Result<(Call, Answer), String> {
    header.zeros(1, 3)?;
    let state = header.u64(8);
    let (v, d) = (header.u64(24), header.u64(32));
    let kind = header.u8(0);
    let length = header.u32(4);
    within(kind == 4 || state != 0, "state")?;
    within(length <= 4096, "draws")?;
    let call = match kind {
        1 => Call::Draw { state },
        2 => Call::Divide { v, d, state },
        3 => {
            within(v < 1 << 32 && d < 1 << 32, "v, d")?;
            let (v, d) = (v as u32, d as u32);
            Call::DivideU32 { v, d, state }
        }
        4 => Call::Seed { seed: state },
        5 => Call::Run { state, length },
        _ => return Err(format!("kind {kind}")),
    };
    within(d != 0 || !matches!(kind, 2 | 3), "divisor")?;
    let answer = Answer {
        state: header.u64(16),
        value: header.u64(40),
        draws: length as u64,
    };
    Ok((call, answer))
}

fn perform(call: &Call) -> Answer {
    let counted = |from: u64, (state, value): (u64, u64)| Answer {
        state,
        value,
        draws: judge::draws_between(from, state),
    };
    match *call {
        Call::Draw { state } => counted(state, judge::draw(state)),
        Call::Divide { v, d, state } => counted(state, judge::divide(v, d, state)),
        Call::DivideU32 { v, d, state } => {
            let (after, quotient) = judge::divide_u32(v, d, state);
            counted(state, (after, quotient as u64))
        }
        Call::Seed { seed } => Answer {
            state: judge::seeded(seed),
            value: 0,
            draws: 0,
        },
        Call::Run { state, length } => {
            let last = (0..length).fold((state, 0), |(at, _), _| judge::draw(at));
            counted(state, last)
        }
    }
}

pub fn replay(input: &mut Input, tally: &mut Tally) -> Result<(), String> {
    while !input.bytes.is_empty() {
        let (call, expected) = decode(&Header(input.take(48)?))?;
        tally.compare(&call, &expected, &perform(&call));
    }
    Ok(())
}
