//! Watched codes, with what each asking lists worked out by hand.

use crate::code_stories::Watched;
use crate::codes::MOST;
use crate::directed::SMALL;
use crate::judge::Settings;
use crate::pair::{Pair, make};
use crate::score::{Outcome, called, same};
use microscope::MicroCm;

pub const ALL: [(&str, fn() -> Outcome); 3] = [
    ("codes by hand", by_hand),
    ("the most codes", most_codes),
    ("equal codes", equal_codes),
];

/// An asking lists these, which were worked out by hand.
fn lists(watched: &mut Watched, right: &[usize]) -> Outcome {
    let listed = watched.ask()?;
    watched.agree()?;
    same("the codes listed", &listed[..], right)
}

fn items_of(watched: &mut Watched, key: &[u32], times: u64) -> Outcome {
    (0..times).try_for_each(|_| watched.pair.update(key))
}

/// Sub-windows of four items, of which Over adds up two. Codes 0, 2 and 4 are one key with the limits 2, 3 and 2 again;
/// 1 has the limit 0, and 3 one that is never reached.
fn by_hand() -> Outcome {
    let pair = Pair::fresh(Settings {
        t: 1,
        length: 4,
        ..SMALL
    })?;
    let mut watched = Watched::started(pair);
    let columns = [0, 0, 1, 1, 0, 0, 2, 2, 0, 0];
    let limits = [2, 0, 3, u64::MAX, 2];
    lists(&mut watched, &[])?;
    watched.set(&columns, &limits)?;
    lists(&mut watched, &[1])?;
    items_of(&mut watched, &[0, 0], 1)?;
    lists(&mut watched, &[])?;
    items_of(&mut watched, &[0, 0], 1)?;
    lists(&mut watched, &[0, 4])?;
    items_of(&mut watched, &[0, 0], 1)?;
    lists(&mut watched, &[2])?;
    lists(&mut watched, &[])?;
    // Two sub-windows on all have fallen; they rise again.
    items_of(&mut watched, &[3, 3], 5)?;
    lists(&mut watched, &[])?;
    items_of(&mut watched, &[0, 0], 2)?;
    lists(&mut watched, &[0, 4])?;
    // A refused list or asking is none.
    watched.set(&columns[1..], &limits)?;
    watched.set(&[0; 2 * 65], &[0; 65])?;
    items_of(&mut watched, &[0, 0], 1)?;
    watched.ask_into(&[9; 4])?;
    lists(&mut watched, &[2])?;
    // The same list anew comes after "below"; a load leaves none.
    watched.set(&columns, &limits)?;
    lists(&mut watched, &[0, 1, 2, 4])?;
    watched.cloned()?;
    lists(&mut watched, &[])?;
    watched.reload()?;
    lists(&mut watched, &[])?;
    watched.set(&columns, &limits)?;
    lists(&mut watched, &[0, 1, 2, 4])
}

/// 64 codes of 128 rows fill the kept columns to the last. Code i is column 0 in all rows but row i.
fn most_codes() -> Outcome {
    const ROWS: usize = 128;
    let pair = Pair::fresh(Settings {
        rows: ROWS as u16,
        cols: 2,
        t: 1,
        ..SMALL
    })?;
    let mut watched = Watched::started(pair);
    let key = |code: usize| -> Vec<u32> { (0..ROWS).map(|row| (row == code) as u32).collect() };
    let mut columns: Vec<u32> = (0..MOST).flat_map(key).collect();
    watched.set(&columns, &[1; MOST])?;
    lists(&mut watched, &[])?;
    items_of(&mut watched, &key(63), 1)?;
    lists(&mut watched, &[63])?;
    items_of(&mut watched, &key(0), 1)?;
    lists(&mut watched, &[0])?;
    *columns.last_mut().expect("a column") = 2;
    watched.set(&columns, &[0; MOST])?;
    lists(&mut watched, &[])
}

/// Sketches are equal if their codes are: the same list, and the same found.
fn equal_codes() -> Outcome {
    let mut one = make(&SMALL).map_err(|why| why.to_string())?;
    let mut two = one.clone();
    let set = |ours: &mut MicroCm, limit| called(ours.set_codes(&[0, 0], &[limit])).map_err(|why| why.to_string());
    set(&mut one, 0)?;
    same("equal to one without codes", one == two, false)?;
    set(&mut two, 1)?;
    same("equal to one with another limit", one == two, false)?;
    set(&mut two, 0)?;
    same("equal to one with the same codes", one == two, true)?;
    same("what is listed", called(one.ask()), Ok(vec![0]))?;
    same("equal to one that was not asked", one == two, false)?;
    same("what is listed", called(two.ask()), Ok(vec![0]))?;
    same("equal to one that was asked", one == two, true)
}
