//! Document 01's tally, under "Band": exact counts, fed the settings and each call's arguments, and nothing from cells or
//! figures.

use crate::judge::Settings;
use std::collections::HashMap;

pub struct Tally {
    pub settings: Settings,
    pub reading: u64,
    /// By row, column and sub-window.
    counts: HashMap<(usize, u32, u64), u64>,
}

impl Tally {
    pub fn fresh(settings: Settings) -> Self {
        Self {
            settings,
            reading: if settings.timed { settings.epoch } else { 0 },
            counts: HashMap::new(),
        }
    }

    pub fn n(&self) -> u64 {
        let start = if self.settings.timed { self.settings.epoch } else { 0 };
        self.reading.saturating_sub(start) / self.settings.length
    }

    fn record(&mut self, key: &[u32]) {
        let n = self.n();
        for (row, &column) in key.iter().enumerate() {
            *self.counts.entry((row, column, n)).or_default() += 1;
        }
    }

    pub fn update(&mut self, key: &[u32]) {
        self.record(key);
        self.reading = self.reading.saturating_add(1);
    }

    pub fn advance_to(&mut self, time: u64) {
        self.reading = self.reading.max(time);
    }

    pub fn update_at(&mut self, key: &[u32], time: u64) {
        self.advance_to(time);
        self.record(key);
    }

    /// The smallest across rows of the key's numbers.
    fn least(&self, key: &[u32], n: u64) -> u64 {
        let number = |(row, &column)| self.counts.get(&(row, column, n)).copied().unwrap_or(0);
        key.iter().enumerate().map(number).min().expect("a row")
    }

    pub fn exact(&self, key: &[u32]) -> u64 {
        let n = self.n();
        let first = n.saturating_sub(self.settings.t as u64);
        (first..=n).map(|n| self.least(key, n)).sum()
    }
}
