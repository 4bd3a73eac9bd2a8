//! What stands in the caller's memory before a call that is to write there, or that is to leave it.

use microscope::calls::{Asked, Change, Figures, Found, Items, Shape, Sketch, Value, Watch};

pub const WORD: u64 = 0xA5C3_5A3C_96E1_6978;

pub const FIGURE: f64 = f64::from_bits(WORD);

pub const BYTE: u8 = 0xA5;

pub const SKETCH: Sketch = Sketch {
    rows: WORD,
    cols: WORD,
    t: WORD,
    c: WORD,
    kind: WORD,
    length: WORD,
    epoch: WORD,
    reading: WORD,
    state: WORD,
};

pub const WATCH: Watch = Watch {
    count: WORD,
    rows: WORD,
    reached: WORD,
};

pub const CHANGE: Change = Change {
    index: WORD,
    draws: WORD,
    lost: WORD,
};

pub const FIGURES: Figures = Figures {
    over: FIGURE,
    under: FIGURE,
    linear: FIGURE,
    fraction: FIGURE,
};

pub const ITEMS: Items = Items {
    index: WORD,
    over: WORD,
    under: WORD,
};

pub const VALUE: Value = Value {
    index: WORD,
    value: WORD,
};

pub const FOUND: Found = Found {
    index: WORD,
    unsound: WORD,
};

pub const ASKED: Asked = Asked {
    index: WORD,
    listed: WORD,
};

pub const SHAPE: Shape = Shape {
    rows: WORD,
    cols: WORD,
    t: WORD,
    c: WORD,
    grid_bytes: WORD,
};
