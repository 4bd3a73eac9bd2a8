//! Why a call was refused.

#![forbid(unsafe_code)]

use core::fmt;

/// A refused call: nothing was changed. Prints the number and its meaning, and with 14 the cell.
///
/// The variants are named after the enumeration in include/microscope.h, which says more of each. If more than one
/// applies it is the one that comes first in this order of their numbers: 1 to 7, 19, 20, 8 to 18.
///
/// ```
/// use microscope::{MicroCm, MicroParams, Refusal, SubWindowClock};
///
/// let params = MicroParams { t: 12, c: 2 };
/// let answer = MicroCm::with_dimensions(2, 63, params, SubWindowClock::count_based(1000), 1);
/// let why = answer.unwrap_err();
/// assert_eq!(why, Refusal::Dimensions);
/// assert_eq!((why.number(), why.index()), (4, None));
/// assert_eq!(Refusal::Unsound { index: 17 }.to_string(), "refused by 14: unsound cell 17");
/// ```
#[derive(Clone, Copy, Debug, PartialEq, Eq)]
#[non_exhaustive]
pub enum Refusal {
    /// 1: `t` is not 1 to 4,096.
    T,
    /// 2: `c` is not 2 to 256.
    C,
    /// 3: the length of a sub-window is not 1 to 2^53, or the clock is of no known kind.
    Length,
    /// 4: `rows` is 0, `cols` is no power of two from 2 to 65,536, or rows × log2(cols) passes 128.
    Dimensions,
    /// 5: the random state is 0.
    State,
    /// 6: the bytes lent are not as many as the cell or grid has.
    Bytes,
    /// 7: not one column a row, or a row or column out of range.
    Columns,
    /// 8: a call for the other kind of clock.
    ClockKind,
    /// 9: more sub-windows crossed than there were.
    Crossed,
    /// 10: the sketches differ in rows, cols, t or c.
    Shapes,
    /// 11: the clocks differ in kind, length or epoch.
    Frames,
    /// 12: the sketches have not reached the same sub-window.
    SubWindows,
    /// 13: the fraction is not within 0 and 1.
    Fraction,
    /// 14: an unsound cell.
    Unsound {
        /// The smallest of the unsound cells among those that the call judges: row × cols + column. A merge names the other
        /// grid's only where every cell of the receiving one is sound. 0 in a call on one cell.
        index: usize,
    },
    /// 15: a divisor of 0.
    Divisor,
    /// 16: the store is not the exact length.
    StoreLength,
    /// 17: a block of the store fails its check or has another's number: the store is damaged.
    Block,
    /// 18: not a store of this form.
    Form,
    /// 19: more than 64 codes; ranks after 7.
    Codes,
    /// 20: the list has less room than there are codes; ranks after 19 and before 8.
    List,
    /// Any other: no library of this version gives one.
    Unknown(u64),
}

impl Refusal {
    /// The number, 1 to 20: document 01's, and from 19 on document 02's.
    pub fn number(&self) -> u64 {
        match *self {
            Self::T => 1,
            Self::C => 2,
            Self::Length => 3,
            Self::Dimensions => 4,
            Self::State => 5,
            Self::Bytes => 6,
            Self::Columns => 7,
            Self::ClockKind => 8,
            Self::Crossed => 9,
            Self::Shapes => 10,
            Self::Frames => 11,
            Self::SubWindows => 12,
            Self::Fraction => 13,
            Self::Unsound { .. } => 14,
            Self::Divisor => 15,
            Self::StoreLength => 16,
            Self::Block => 17,
            Self::Form => 18,
            Self::Codes => 19,
            Self::List => 20,
            Self::Unknown(number) => number,
        }
    }

    /// The unsound cell that is named ([`Refusal::Unsound`]), if that is what the call was refused for.
    pub fn index(&self) -> Option<usize> {
        match *self {
            Self::Unsound { index } => Some(index),
            _ => None,
        }
    }

    /// The number in words.
    pub fn meaning(&self) -> &'static str {
        match self.number() {
            1 => "t is not 1 to 4,096",
            2 => "c is not 2 to 256",
            3 => "the length of a sub-window is not 1 to 2^53, or the clock is of no known kind",
            4 => "rows is 0, cols is no power of two from 2 to 65,536, or rows x log2(cols) passes 128",
            5 => "the random state is 0",
            6 => "the bytes lent are not as many as the cell or grid has",
            7 => "not one column a row, or a row or column out of range",
            8 => "a call for the other kind of clock",
            9 => "more sub-windows crossed than there were",
            10 => "the sketches differ in rows, cols, t or c",
            11 => "the clocks differ in kind, length or epoch",
            12 => "the sketches have not reached the same sub-window",
            13 => "the fraction is not within 0 and 1",
            14 => "unsound cell",
            15 => "the divisor is 0",
            16 => "the store is not the exact length",
            17 => "a block of the store fails its check or has another's number",
            18 => "not a store of this form",
            19 => "more than 64 codes",
            20 => "the list has less room than there are codes",
            _ => "a number that this wrapper does not know",
        }
    }

    /// Whether the library accepted the call. The index means something with 14 only.
    pub(crate) fn unless_accepted(number: u64, index: u64) -> Result<(), Self> {
        match number {
            0 => Ok(()),
            _ => Err(Self::of(number, index)),
        }
    }

    fn of(number: u64, index: u64) -> Self {
        match number {
            1 => Self::T,
            2 => Self::C,
            3 => Self::Length,
            4 => Self::Dimensions,
            5 => Self::State,
            6 => Self::Bytes,
            7 => Self::Columns,
            8 => Self::ClockKind,
            9 => Self::Crossed,
            10 => Self::Shapes,
            11 => Self::Frames,
            12 => Self::SubWindows,
            13 => Self::Fraction,
            14 => Self::Unsound { index: index as usize },
            15 => Self::Divisor,
            16 => Self::StoreLength,
            17 => Self::Block,
            18 => Self::Form,
            19 => Self::Codes,
            20 => Self::List,
            _ => Self::Unknown(number),
        }
    }
}

impl fmt::Display for Refusal {
    fn fmt(&self, f: &mut fmt::Formatter<'_>) -> fmt::Result {
        write!(f, "refused by {}: {}", self.number(), self.meaning())?;
        match self.index() {
            Some(index) => write!(f, " {index}"),
            None => Ok(()),
        }
    }
}

impl core::error::Error for Refusal {}
