//! What the published files use from the rest of their crate, and from `smallvec`. As oracle/src/standins.rs, but quick:
//! a key has its columns packed already, and up to eight items stand inline, as in the published `SmallVec`.

use crate::MatrixFastHash;
use std::fmt::Debug;
use std::ops::Deref;

pub mod analytics {
    pub mod ops {
        #[inline(always)]
        pub fn add(_: usize) {}
    }
}

pub const MATRIX_MAX_ROWS: usize = 20;

#[derive(Clone, Debug)]
pub struct DataInput {
    pub packed: u128,
}

pub trait SketchHasher: Clone + Debug {
    type HashType: MatrixFastHash;
    fn hash128_seeded(seed_index: usize, key: &DataInput) -> u128;
}

#[derive(Clone, Debug)]
pub struct Columns;

impl SketchHasher for Columns {
    type HashType = u128;
    #[inline(always)]
    fn hash128_seeded(_: usize, key: &DataInput) -> u128 {
        key.packed
    }
}

pub trait Array {
    type Item: Copy + Default + Debug;
}

impl<T: Copy + Default + Debug, const N: usize> Array for [T; N] {
    type Item = T;
}

#[derive(Clone, Debug)]
pub enum SmallVec<A: Array> {
    Inline([A::Item; 8], usize),
    Heap(Vec<A::Item>),
}

impl<A: Array> Deref for SmallVec<A> {
    type Target = [A::Item];
    #[inline(always)]
    fn deref(&self) -> &[A::Item] {
        match self {
            Self::Inline(items, count) => &items[..*count],
            Self::Heap(items) => items,
        }
    }
}

impl<A: Array> FromIterator<A::Item> for SmallVec<A> {
    #[inline(always)]
    fn from_iter<I: IntoIterator<Item = A::Item>>(items: I) -> Self {
        let mut inline = [A::Item::default(); 8];
        let mut count = 0;
        let mut items = items.into_iter();
        while let Some(item) = items.next() {
            if count == 8 {
                let mut heap = inline.to_vec();
                heap.push(item);
                heap.extend(items);
                return Self::Heap(heap);
            }
            inline[count] = item;
            count += 1;
        }
        Self::Inline(inline, count)
    }
}
