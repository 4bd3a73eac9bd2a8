//! Stories of sketches that watch codes, told to the wrapper and reckoned beside it: lists set and asked after, with items,
//! time, merges, loads, clones and refused calls in between.

use crate::choose::Dice;
use crate::code_calls::{self, Asked, Kept};
use crate::code_lists::{new_list, room};
use crate::codes::{self, Code, MOST};
use crate::pair::Pair;
use crate::score::{Outcome, called, number, same, same_number};
use crate::stories;
use microscope::MicroCm;

/// A sketch, and beside it the codes on paper.
pub struct Watched {
    pub pair: Pair,
    codes: Vec<Code>,
    kept: Kept,
}

impl Watched {
    /// A fresh start or a load leaves no codes.
    pub fn started(pair: Pair) -> Self {
        Self {
            pair,
            codes: Vec::new(),
            kept: Kept::none(),
        }
    }

    /// The wrapper has the codes that it should have.
    pub fn agree(&self) -> Outcome {
        let ours = &self.pair.ours;
        self.kept.same_as(ours.watch(), ours.kept_columns(), ours.kept_limits())
    }

    pub fn set(&mut self, columns: &[u32], limits: &[u64]) -> Outcome {
        let s = self.pair.ours.plain();
        let answer = called(self.pair.ours.set_codes(columns, limits));
        let (right, kept) = code_calls::setting(&s, &self.kept, columns, limits);
        same_number("the setting's number", number(&answer), right)?;
        if right == 0 {
            self.codes = codes::list(s.rows as usize, columns, limits);
        }
        self.kept = kept;
        self.pair.code_bytes = 4 * 8192 + 8 * 64;
        Ok(())
    }

    /// What an asking with this list should tell; on paper it is made.
    fn reckoned(&mut self, list: &[u8]) -> Asked {
        let Self { pair, codes, kept } = self;
        let right = code_calls::asking(&pair.ours.plain(), kept, pair.ours.grid(), list, || {
            let listed = codes::asking(codes, &pair.theirs);
            (listed, codes::flags(codes))
        });
        kept.watch = right.watch;
        right
    }

    pub fn ask_into(&mut self, list: &[u8]) -> Outcome {
        let right = self.reckoned(list);
        let mut left = list.to_vec();
        let answer = called(self.pair.ours.ask_into(&mut left));
        same_number("the asking's number", number(&answer), right.number)?;
        same("the list", &left, &right.list)?;
        same("how many are listed", answer.unwrap_or(0) as u64, right.listed)
    }

    pub fn ask(&mut self) -> Result<Vec<usize>, String> {
        let right = self.reckoned(&[0; MOST]);
        let answer = called(self.pair.ours.ask());
        same_number("the asking's number", number(&answer), right.number)?;
        let listed = answer.map_err(|why| why.to_string())?;
        let right: Vec<usize> = right.list[..right.listed as usize]
            .iter()
            .map(|&code| code as usize)
            .collect();
        same("the codes listed", &listed, &right)?;
        Ok(listed)
    }

    /// Through a store and back.
    pub fn reload(&mut self) -> Outcome {
        let store = called(self.pair.ours.save()).map_err(|why| why.to_string())?;
        self.pair.ours = called(MicroCm::load(&store)).map_err(|why| why.to_string())?;
        (self.codes, self.kept) = (Vec::new(), Kept::none());
        self.pair.code_bytes = 0;
        Ok(())
    }

    /// A clone watches the same, and goes its own way. The story goes on with one.
    pub fn cloned(&mut self) -> Outcome {
        let mut other = self.pair.ours.clone();
        same("a clone", &other, &self.pair.ours)?;
        called(other.set_codes(&[], &[])).map_err(|why| why.to_string())?;
        self.agree()?;
        self.pair.ours = self.pair.ours.clone();
        Ok(())
    }
}

/// An item of a watched code, or any, a few times.
fn items(dice: &mut Dice, watched: &mut Watched) -> Outcome {
    let pair = &mut watched.pair;
    let watches = !watched.codes.is_empty() && dice.chance(70);
    let key = if watches {
        let at = dice.below(watched.codes.len() as u64);
        watched.codes[at as usize].columns.clone()
    } else {
        stories::key(dice, pair.ours.rows(), pair.ours.cols())
    };
    let time = stories::time(dice, pair);
    for _ in 0..dice.within(1, 5) {
        if pair.settings.timed {
            pair.update_at(&key, time)?;
        } else {
            pair.update(&key)?;
        }
    }
    Ok(())
}

fn set(dice: &mut Dice, watched: &mut Watched) -> Outcome {
    let pair = &watched.pair;
    let figure = |key: &[u32]| codes::over(&pair.theirs, key);
    let (columns, limits) = new_list(dice, pair.ours.rows(), pair.ours.cols(), figure);
    watched.set(&columns, &limits)
}

fn ask(dice: &mut Dice, watched: &mut Watched) -> Outcome {
    if dice.chance(30) {
        return watched.ask().map(drop);
    }
    watched.ask_into(&room(dice, watched.codes.len() as u64))
}

/// Adds a sketch with codes of its own, of which the receiver takes none; mostly one that can be added.
fn merge(dice: &mut Dice, mine: &mut Watched, other: &mut Watched) -> Outcome {
    if dice.chance(70) {
        *other = Watched::started(stories::beside(dice, &mine.pair, mine.pair.settings)?);
        set(dice, other)?;
    }
    mine.pair.merge(&other.pair)
}

fn step(dice: &mut Dice, mine: &mut Watched, other: &mut Watched) -> Outcome {
    match dice.below(100) {
        0..35 => items(dice, mine),
        35..45 => set(dice, mine),
        45..85 => ask(dice, mine),
        85..88 => ask(dice, other),
        88 => set(dice, other),
        89..93 => merge(dice, mine, other),
        93 | 94 => mine.pair.advance_to(stories::time(dice, &mine.pair)),
        95 => mine.reload(),
        96 => mine.cloned(),
        97 => {
            *mine = Watched::started(stories::start(dice, mine.pair.settings)?);
            Ok(())
        }
        _ => stories::step(dice, &mut mine.pair, &mut other.pair),
    }?;
    mine.agree()?;
    other.agree()
}

pub fn story(dice: &mut Dice) -> Outcome {
    let settings = stories::settings_within(dice, 2_000);
    let mut mine = Watched::started(stories::start(dice, settings)?);
    let others = stories::neighbour(dice, settings);
    let mut other = Watched::started(stories::start(dice, others)?);
    for _ in 0..dice.within(1, 150) {
        step(dice, &mut mine, &mut other).map_err(|what| format!("{what}; {settings:?}, {:?}", mine.kept.watch))?;
    }
    Ok(())
}
