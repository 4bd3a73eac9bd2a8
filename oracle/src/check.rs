//! Reads recorded answers back, written from docs/ORACLE.md alone, and replays each against the Rust.
//! With the code that writes the records it shares the calls of the Rust, and nothing of the format.

mod cells;
mod clock;
mod draws;
mod sketches;

use crate::judge;
use std::fmt::Debug;
use std::path::Path;

/// How many wrong calls are shown; the rest are only counted.
const SHOWN: u64 = 10;

/// What is left of a file.
struct Input<'a> {
    bytes: &'a [u8],
}

impl<'a> Input<'a> {
    fn take(&mut self, length: usize) -> Result<&'a [u8], String> {
        let (head, rest) = self
            .bytes
            .split_at_checked(length)
            .ok_or("the file ends within a record")?;
        self.bytes = rest;
        Ok(head)
    }
}

/// A header: numbers at given places, little-endian.
struct Header<'a>(&'a [u8]);

impl Header<'_> {
    fn number(&self, at: usize, size: usize) -> u64 {
        let bytes = &self.0[at..at + size];
        bytes.iter().rev().fold(0, |sum, &b| sum << 8 | b as u64)
    }

    fn u8(&self, at: usize) -> u8 {
        self.0[at]
    }

    fn u16(&self, at: usize) -> u16 {
        self.number(at, 2) as u16
    }

    fn u32(&self, at: usize) -> u32 {
        self.number(at, 4) as u32
    }

    fn u64(&self, at: usize) -> u64 {
        self.number(at, 8)
    }

    /// The bytes that docs/ORACLE.md says are 0.
    fn zeros(&self, at: usize, size: usize) -> Result<(), String> {
        within(self.number(at, size) == 0, "a byte that is to be 0")
    }
}

/// A bound of docs/ORACLE.md.
fn within(holds: bool, what: &str) -> Result<(), String> {
    if holds {
        Ok(())
    } else {
        Err(format!("out of bounds: {what}"))
    }
}

/// What has been replayed from one file.
#[derive(Default)]
struct Tally {
    calls: u64,
    wrong: u64,
}

impl Tally {
    fn compare<C: Debug, A: Debug + PartialEq>(&mut self, call: &C, expected: &A, came: &A) {
        self.calls += 1;
        if expected == came {
            return;
        }
        self.wrong += 1;
        if self.wrong <= SHOWN {
            println!("call {}: {call:?}", self.calls);
            println!("  expected {expected:?}");
            println!("  came     {came:?}");
        }
    }
}

/// Replays one file; true if nothing was wrong.
fn file(
    folder: &Path,
    name: &str,
    replay: fn(&mut Input, &mut Tally) -> Result<(), String>,
) -> std::io::Result<bool> {
    let bytes = std::fs::read(folder.join(name))?;
    let mut input = Input { bytes: &bytes };
    let mut tally = Tally::default();
    let read = replay(&mut input, &mut tally);
    println!("{name}: {} calls, {} wrong", tally.calls, tally.wrong);
    if let Err(what) = &read {
        println!("{name}: call {}: {what}", tally.calls + 1);
    }
    Ok(read.is_ok() && tally.wrong == 0)
}

/// Replays the four files of a folder; true if nothing was wrong.
pub fn folder(folder: &Path) -> std::io::Result<bool> {
    judge::quietly(|| {
        let good = [
            file(folder, "draws", draws::replay)?,
            file(folder, "cells", cells::replay)?,
            file(folder, "clock", clock::replay)?,
            file(folder, "sketches", sketches::replay)?,
        ];
        Ok(good.into_iter().all(|good| good))
    })
}
