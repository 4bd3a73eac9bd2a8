//! What the published files use from the rest of their crate, and from `smallvec`, reduced to what they need here.

use crate::MatrixFastHash;
use std::fmt::Debug;
use std::ops::Deref;

/// `crate::analytics::ops`: without its cargo feature the published `add` counts nothing either.
pub mod analytics {
    pub mod ops {
        #[inline(always)]
        pub fn add(_: usize) {}
    }
}

/// As `crate::common` has it: the length of its list of hash seeds.
pub const MATRIX_MAX_ROWS: usize = 20;

/// A key is its list of columns, one for each row.
#[derive(Clone, Debug)]
pub struct DataInput {
    pub columns: Vec<u16>,
    /// log2(cols)
    pub bits: u32,
}

impl DataInput {
    /// Row r's column stands in the bits from r × `bits` on, where `col_for_row` looks for it.
    fn packed(&self) -> u128 {
        self.columns
            .iter()
            .rev()
            .fold(0, |packed, &column| (packed << self.bits) | column as u128)
    }
}

/// The part of the published trait that `MicroCm` and `FastPathHasher` ask for.
pub trait SketchHasher: Clone + Debug {
    type HashType: MatrixFastHash;
    fn hash128_seeded(seed_index: usize, key: &DataInput) -> u128;
}

/// The hasher that hashes nothing: a key brings its columns along.
#[derive(Clone, Debug)]
pub struct Columns;

impl SketchHasher for Columns {
    type HashType = u128;
    fn hash128_seeded(_: usize, key: &DataInput) -> u128 {
        key.packed()
    }
}

/// `smallvec::Array`: what a `SmallVec` has room for inline.
pub trait Array {
    type Item;
}

impl<T, const N: usize> Array for [T; N] {
    type Item = T;
}

/// `smallvec::SmallVec`, always on the heap.
pub struct SmallVec<A: Array>(Vec<A::Item>);

impl<A: Array> Deref for SmallVec<A> {
    type Target = [A::Item];
    fn deref(&self) -> &[A::Item] {
        &self.0
    }
}

impl<A: Array> FromIterator<A::Item> for SmallVec<A> {
    fn from_iter<I: IntoIterator<Item = A::Item>>(items: I) -> Self {
        Self(items.into_iter().collect())
    }
}

impl<A: Array<Item: Clone>> Clone for SmallVec<A> {
    fn clone(&self) -> Self {
        Self(self.0.clone())
    }
}

impl<A: Array<Item: Debug>> Debug for SmallVec<A> {
    fn fmt(&self, f: &mut std::fmt::Formatter<'_>) -> std::fmt::Result {
        self.0.fmt(f)
    }
}
