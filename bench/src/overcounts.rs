//! How far Over is from the exact count, measured: the tables of docs/CHOOSING.md, in the form that they have there.
//!
//! Seeds are fixed and weights are whole numbers, so that every run prints the same bytes.

#![forbid(unsafe_code)]

mod choice;

use choice::Choice;
use microscope::{Error, MicroCm, MicroParams, SubWindowClock, calls};

const T: usize = 12;

/// Sub-windows that Over adds up once n >= t.
const COVERED: usize = T + 1;

/// A run goes on for three windows, so that items have left the one that is read.
const SUB_WINDOWS: usize = 3 * COVERED;

/// Runs for each row of a table, each with keys of its own: one set of keys would show the luck of its columns.
const RUNS: u64 = 30;

/// One of so many.
fn below(choice: &mut Choice, bound: usize) -> usize {
    (choice.next() % bound as u64) as usize
}

// ---- keys ----

/// Different fault codes: there are 65,536, from P0000 to U3FFF.
fn codes(count: usize, choice: &mut Choice) -> Vec<String> {
    let mut all: Vec<usize> = (0..65_536).collect();
    for place in 0..count {
        let other = place + below(choice, all.len() - place);
        all.swap(place, other);
    }
    let spelt = |code: usize| format!("{}{:04X}", ["P", "C", "B", "U"][code >> 14], code & 0x3fff);
    all[..count].iter().map(|&code| spelt(code)).collect()
}

/// FNV-1a of the row and the code.
fn fnv(row: usize, code: &str) -> u64 {
    let start = (14695981039346656037 ^ row as u64).wrapping_mul(1099511628211);
    code.bytes()
        .fold(start, |hash, byte| (hash ^ byte as u64).wrapping_mul(1099511628211))
}

/// How a row and a code become a column, but for the bits above cols.
type Hashing = fn(usize, &str) -> u64;

/// A hash of its own for each row, the high bits folded in, as in examples/faults.rs.
fn own(row: usize, code: &str) -> u64 {
    let hash = fnv(row, code);
    hash ^ hash >> 32
}

/// One hash, of which each row takes other bits.
fn cut(row: usize, code: &str) -> u64 {
    fnv(0, code) >> (16 * row)
}

/// The same, each of its bits first made to depend on all others.
fn mixed_and_cut(row: usize, code: &str) -> u64 {
    Choice(fnv(0, code)).next() >> (16 * row)
}

fn shifted(row: usize, code: &str) -> u64 {
    own(0, code).wrapping_add(row as u64)
}

fn shared(_: usize, code: &str) -> u64 {
    own(0, code)
}

#[derive(Clone, Copy)]
struct Grid {
    rows: usize,
    cols: usize,
    hashing: Hashing,
}

impl Grid {
    fn columns(self, code: &str) -> Vec<u32> {
        let column = |row| (self.hashing)(row, code) as u32 & (self.cols as u32 - 1);
        (0..self.rows).map(column).collect()
    }
}

// ---- many keys, no zoom ----

/// Items a sub-window: so few that no cell zooms.
const LENGTH: usize = 500;

/// The base, of no account where no cell zooms.
const C: u32 = 2;

#[derive(Clone, Copy)]
enum Traffic {
    Equal,
    /// The second key comes half as often as the first, the third a third as often, and so on.
    Zipf,
}

impl Traffic {
    fn weight(self, rank: usize) -> u64 {
        match self {
            Self::Equal => 1,
            Self::Zipf => 1_000_000 / (rank as u64 + 1),
        }
    }

    /// Which key each item is of.
    fn items(self, keys: usize, count: usize, choice: &mut Choice) -> Vec<usize> {
        let mut upto = Vec::new();
        let mut total = 0;
        for rank in 0..keys {
            total += self.weight(rank);
            upto.push(total);
        }
        let mut item = |_| {
            let at = choice.next() % total;
            upto.partition_point(|&end| end <= at)
        };
        (0..count).map(&mut item).collect()
    }
}

/// What was found of all keys of all runs.
#[derive(Default)]
struct Found {
    /// Over less the exact count, of each key; sorted when all are in.
    excess: Vec<u64>,
    /// Keys that came inside the window.
    came: usize,
}

impl Found {
    fn mean(&self) -> f64 {
        self.excess.iter().sum::<u64>() as f64 / self.excess.len() as f64
    }

    /// 95 of 100 keys have no more than this.
    fn most(&self) -> u64 {
        self.excess[(self.excess.len() * 95).div_ceil(100) - 1]
    }

    fn exact(&self) -> f64 {
        self.excess.partition_point(|&excess| excess == 0) as f64 / self.excess.len() as f64
    }

    fn columns(&self) -> String {
        let share = |items: f64| 100.0 * items / (COVERED * LENGTH) as f64;
        let (mean, most, largest) = (self.mean(), self.most(), self.excess[self.excess.len() - 1]);
        let exact = 100.0 * self.exact();
        format!(
            "{mean:.1} ({:.2}%) | {most} | {largest} ({:.1}%) | {exact:.1}%",
            share(mean),
            share(largest as f64)
        )
    }
}

/// A sketch that has counted these items, one for each unit of time.
fn counted(grid: Grid, keys: &[Vec<u32>], items: &[usize], seed: u64) -> Result<MicroCm, Error> {
    let clock = SubWindowClock::time_based(LENGTH as u64, 0);
    let mut counter = MicroCm::with_dimensions(grid.rows, grid.cols, MicroParams { t: T, c: C }, clock, seed)?;
    for (time, &item) in items.iter().enumerate() {
        counter.update_at(&keys[item], time as u64)?;
        // Only a crossing lowers a zoom, so the moment before each is the one to look at.
        if (time + 1) % LENGTH == 0 {
            assert_eq!(counter.max_zoom()?, 0, "a cell has zoomed");
        }
    }
    Ok(counter)
}

fn one_run(grid: Grid, keys: usize, traffic: Traffic, choice: &mut Choice, found: &mut Found) -> Result<(), Error> {
    let keys: Vec<Vec<u32>> = codes(keys, choice).iter().map(|code| grid.columns(code)).collect();
    let items = traffic.items(keys.len(), SUB_WINDOWS * LENGTH, choice);
    let counter = counted(grid, &keys, &items, choice.next())?;

    let mut exact = vec![0; keys.len()];
    for &item in &items[items.len() - COVERED * LENGTH..] {
        exact[item] += 1;
    }
    for (key, exact) in keys.iter().zip(exact) {
        let over = counter.estimate(key)?.over_items;
        assert!(over >= exact, "below the exact count without a zoom");
        found.excess.push(over - exact);
        found.came += (exact > 0) as usize;
    }
    Ok(())
}

fn runs(grid: Grid, keys: usize, traffic: Traffic) -> Result<Found, Error> {
    let mut found = Found::default();
    for seed in 1..=RUNS {
        one_run(grid, keys, traffic, &mut Choice(seed), &mut found)?;
    }
    found.excess.sort_unstable();
    Ok(found)
}

fn collisions() -> Result<(), Error> {
    let each = "came | mean | 95 of 100 | largest | exact |";
    println!("| grid | bytes | keys | equal: {each} Zipf: {each}");
    println!("|{}", "---|".repeat(13));
    for (rows, cols) in [(1, 64), (2, 64), (4, 64), (1, 256), (4, 256), (2, 1024), (4, 1024)] {
        let grid = Grid { rows, cols, hashing: own };
        let mut depth = 0;
        calls::depth(T as u64, C as u64, &mut depth)?;
        let bytes = rows * cols * depth as usize;
        for keys in [50, 200, 1000, 5000] {
            print!("| {rows} × {cols} | {bytes} | {keys} |");
            for traffic in [Traffic::Equal, Traffic::Zipf] {
                let found = runs(grid, keys, traffic)?;
                print!(" {} | {} |", found.came as u64 / RUNS, found.columns());
            }
            println!();
        }
    }
    println!();
    Ok(())
}

fn hashings() -> Result<(), Error> {
    println!("| columns | grid | mean | 95 of 100 | largest | exact |");
    println!("|---|---|---|---|---|---|");
    let cases: [(&str, usize, Hashing); 6] = [
        ("an FNV-1a of row and key for each row, folded", 4, own),
        ("one FNV-1a, mixed by splitmix64, 16 bits of it a row", 4, mixed_and_cut),
        ("one FNV-1a, 16 bits of it a row", 4, cut),
        ("one FNV-1a, plus the row", 4, shifted),
        ("one FNV-1a for all rows", 4, shared),
        ("one row", 1, own),
    ];
    for (name, rows, hashing) in cases {
        let found = runs(Grid { rows, cols: 256, hashing }, 200, Traffic::Equal)?;
        println!("| {name} | {rows} × 256 | {} |", found.columns());
    }
    println!();
    Ok(())
}

// ---- one key, and its cell zooms ----

/// About how many items come in a sub-window, and in each twentieth.
#[derive(Clone, Copy)]
struct Load(usize, usize);

impl Load {
    /// So many, give or take a tenth.
    fn items(self, sub_window: usize, choice: &mut Choice) -> u64 {
        let about = if sub_window % 20 == 0 { self.1 } else { self.0 };
        (about - about / 10 + below(choice, about / 5 + 1)) as u64
    }
}

/// What was found of a key that has its cell for itself, at the end of each sub-window from n = t on.
#[derive(Default)]
struct Rounded {
    readings: u64,
    sum: i64,
    sum_of_sizes: u64,
    largest: u64,
    /// The largest, in parts of the exact count.
    share: f64,
    zoom: u8,
    items: u64,
    draws: u64,
}

impl Rounded {
    fn take(&mut self, over: u64, exact: u64) {
        let size = over.abs_diff(exact);
        self.readings += 1;
        self.sum += over as i64 - exact as i64;
        self.sum_of_sizes += size;
        self.largest = self.largest.max(size);
        self.share = self.share.max(size as f64 / exact as f64);
    }

    fn run(&mut self, load: Load, c: u32, choice: &mut Choice) -> Result<(), Error> {
        let clock = SubWindowClock::time_based(1, 0);
        let mut counter = MicroCm::with_dimensions(1, 2, MicroParams { t: T, c }, clock, choice.next())?;
        let mut exact = Vec::new();
        for n in 0..SUB_WINDOWS {
            exact.push(load.items(n, choice));
            for _ in 0..exact[n] {
                self.draws += counter.update_at(&[0], n as u64)?.draws;
            }
            self.items += exact[n];
            self.zoom = self.zoom.max(counter.max_zoom()?);
            if n >= T {
                self.take(counter.estimate(&[0])?.over_items, exact[n - T..].iter().sum());
            }
        }
        Ok(())
    }

    fn columns(&self, c: u32) -> String {
        let unit = (c as u64).pow(self.zoom as u32);
        let readings = self.readings as f64;
        let (mean, size) = (self.sum as f64 / readings, self.sum_of_sizes as f64 / readings);
        let (largest, share) = (self.largest, 100.0 * self.share);
        let draws = 1000.0 * self.draws as f64 / self.items as f64;
        format!("{unit} | {mean:+.1} | {size:.1} | {largest} | {share:.2}% | {draws:.2}")
    }
}

fn zooming() -> Result<(), Error> {
    println!("| items a sub-window | c | a pixel's unit | mean error | mean size | largest size | largest share | draws |");
    println!("|---|---|---|---|---|---|---|---|");
    for (name, load) in [
        ("400", Load(400, 400)),
        ("6,000", Load(6000, 6000)),
        ("100,000", Load(100_000, 100_000)),
        ("100, each 20th 6,000", Load(100, 6000)),
    ] {
        for c in [2, 16, 256] {
            let mut found = Rounded::default();
            for seed in 1..=RUNS {
                found.run(load, c, &mut Choice(seed))?;
            }
            println!("| {name} | {c} | {} |", found.columns(c));
        }
    }
    Ok(())
}

fn main() -> Result<(), Error> {
    collisions()?;
    hashings()?;
    zooming()
}
