//! The choices behind the random calls: a splitmix64, so that nothing is shared with the generator under test, and
//! values drawn more often where the code has an edge.

use crate::judge;

pub struct Dice(u64);

/// The zoom bases that get most of the cells: each has its own kind of edge (255 / c, 256 mod c, max_zoom).
pub const BASES: [u16; 11] = [2, 3, 4, 5, 7, 8, 10, 16, 85, 255, 256];

impl Dice {
    /// Dice for the `stream`-th file of a seed.
    pub fn new(seed: u64, stream: u64) -> Self {
        let mut dice = Self(seed);
        let start = dice.any() ^ stream.wrapping_mul(0xD1B5_4A32_D192_ED03);
        Self(start)
    }

    pub fn any(&mut self) -> u64 {
        self.0 = self.0.wrapping_add(0x9E37_79B9_7F4A_7C15);
        let mut z = self.0;
        z = (z ^ (z >> 30)).wrapping_mul(0xBF58_476D_1CE4_E5B9);
        z = (z ^ (z >> 27)).wrapping_mul(0x94D0_49BB_1331_11EB);
        z ^ (z >> 31)
    }

    /// A number below `end`.
    pub fn below(&mut self, end: u64) -> u64 {
        self.any() % end
    }

    /// A number from `first` to `last`.
    pub fn within(&mut self, first: u64, last: u64) -> u64 {
        first + self.below(last - first + 1)
    }

    /// True `in_100` times out of 100.
    pub fn chance(&mut self, in_100: u64) -> bool {
        self.below(100) < in_100
    }

    pub fn one_of<T: Copy>(&mut self, choices: &[T]) -> T {
        choices[self.below(choices.len() as u64) as usize]
    }

    /// A number of any size: as often short as long.
    pub fn any_size(&mut self) -> u64 {
        let shift = self.below(64);
        self.any() >> shift
    }

    pub fn state(&mut self) -> u64 {
        if self.chance(5) {
            return self.one_of(&[1, 2, 3, 1 << 63, u64::MAX, 33_554_433]);
        }
        self.any().max(1)
    }

    pub fn base(&mut self) -> u16 {
        if self.chance(75) {
            return self.one_of(&BASES);
        }
        self.within(2, 256) as u16
    }

    /// Mostly very small, so that the files stay small.
    pub fn sub_windows(&mut self) -> u16 {
        if self.chance(60) {
            return self.within(1, 3) as u16;
        }
        self.within(1, 13) as u16
    }

    pub fn zoom(&mut self, top: u8) -> u8 {
        let top = top as u64;
        let near = [
            0,
            1.min(top),
            top.saturating_sub(1),
            top,
            self.below(top + 1),
        ];
        self.one_of(&near) as u8
    }

    /// A shutter below `unit`.
    pub fn shutter(&mut self, unit: u64) -> u32 {
        let near = [0, 1, unit - 1, unit - 1, unit.saturating_sub(2), unit / 2];
        let value = if self.chance(70) {
            self.one_of(&near)
        } else {
            self.any()
        };
        (value % unit) as u32
    }

    fn pixel(&mut self, style: u64, c: u16) -> u8 {
        let fits = 255 / c as u64;
        let edge = [
            0,
            1,
            254,
            255,
            fits.saturating_sub(1),
            fits,
            (fits + 1).min(255),
        ];
        let value = match style {
            0 => self.below(256),
            1 | 2 => self.one_of(&edge),
            3 => self.below(fits + 1),
            4 => self.below(fits / c as u64 + 1),
            5 => 0,
            _ => self.within(250, 255),
        };
        value as u8
    }

    /// A sound cell with random pad bytes.
    pub fn cell(&mut self, t: u16, c: u16) -> Vec<u8> {
        let z = self.zoom_for(c);
        self.cell_at_zoom(t, c, z)
    }

    pub fn zoom_for(&mut self, c: u16) -> u8 {
        self.zoom(judge::max_zoom(c))
    }

    pub fn cell_at_zoom(&mut self, t: u16, c: u16, z: u8) -> Vec<u8> {
        let style = self.below(7);
        let s = self.shutter(judge::unit(c, z));
        let mut pixels: Vec<u8> = (0..t + 2).map(|_| self.pixel(style, c)).collect();
        if self.chance(30) {
            let at = self.below(t as u64 + 2) as usize;
            pixels[at] = 255;
        }
        let pads = self.any();
        judge::cell(t, c, &pixels, z, s, pads)
    }

    /// A sub-window number, often at an edge of the ring or of its own range.
    pub fn sub_window(&mut self, t: u16) -> u64 {
        let t = t as u64;
        match self.below(10) {
            0..5 => self.below(4 * t + 8),
            5 => self.one_of(&[0, 1, t, t + 1, t + 2]),
            6 => u64::MAX - self.below(3),
            7 => self.one_of(&[u32::MAX as u64, 1 << 32, 1 << 53, 1 << 63]),
            _ => self.any_size(),
        }
    }
}
