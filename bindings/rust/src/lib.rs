//! MicroScope counting core: how often did a key come inside a sliding window?
//!
//! [`MicroCm`] is the sketch with a grid of its own; its methods have the names of the Rust that the core was ported
//! from. [`calls`] are the library's calls one by one, for those who keep the grid in memory of their own.
//!
//! The counting is done by libmicroscope.a, whose every call is proved to be what its definition says. This wrapper is
//! tested only; docs/EDGE.md says where the line runs.
//!
//! It needs no standard library: [`MicroCm`] allocates its grid and the memory for codes, [`calls`] allocate nothing.

#![no_std]
#![deny(unsafe_code)]
#![warn(missing_docs, clippy::undocumented_unsafe_blocks)]

extern crate alloc;

// `forbid` at the root could not be lifted for the one module that needs it, so each of the others has its own.
#[allow(unsafe_code)]
pub mod calls;
mod clock;
mod codes;
mod plain;
mod refusal;
mod sketch;

pub use clock::SubWindowClock;
pub use refusal::Refusal;
pub use sketch::{Done, MicroCm, MicroParams, Reading};

/// A refusal, by the name that errors usually have.
///
/// ```
/// use microscope::{Error, MicroCm};
///
/// fn over(store: &[u8], key: &[u32]) -> Result<u64, Error> {
///     Ok(MicroCm::load(store)?.estimate(key)?.over_items)
/// }
/// assert_eq!(over(&[], &[17, 5]), Err(Error::StoreLength));
/// ```
pub type Error = Refusal;
