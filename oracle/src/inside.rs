//! Stands where microscope.rs looks for its module `cell`: it brings in the published cell.rs and hands on all of it.
//! Being a child of microscope.rs it sees what that file keeps private, and `reach` opens it to our crate.

#[path = "published.rs"]
mod published;
pub use published::*;

pub mod reach {
    use crate::SketchHasher;
    use crate::sketches::microscope::{MicroCm, Rounding, SubWindowClock};

    pub fn tick(clock: &mut SubWindowClock) -> bool {
        clock.tick()
    }

    pub fn advance_to(clock: &mut SubWindowClock, timestamp: u64) -> u64 {
        clock.advance_to(timestamp)
    }

    pub fn clock<H: SketchHasher>(sketch: &MicroCm<H>) -> SubWindowClock {
        sketch.clock
    }

    pub fn set_clock<H: SketchHasher>(sketch: &mut MicroCm<H>, clock: SubWindowClock) {
        sketch.clock = clock;
    }

    pub fn state<H: SketchHasher>(sketch: &MicroCm<H>) -> u64 {
        sketch.rounding.state()
    }

    pub fn set_state<H: SketchHasher>(sketch: &mut MicroCm<H>, state: u64) {
        sketch.rounding = Rounding::new(state);
    }

    pub fn set_grid<H: SketchHasher>(sketch: &mut MicroCm<H>, grid: &[u8]) {
        sketch.cells.as_mut_slice().copy_from_slice(grid);
    }
}
