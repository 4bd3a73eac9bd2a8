//! Which causes held beside the one that a call was refused by.

use crate::numbers::{self, Causes};
use crate::score::Outcome;
use std::cell::RefCell;
use std::collections::BTreeMap;

/// Two of a call's causes, each by its place among them and its number: a load has 16 and 18 twice.
type Pair = [(usize, u64); 2];

thread_local! {
    /// How often a call was refused by the first of two causes while the second held too.
    static HITS: RefCell<BTreeMap<&'static str, BTreeMap<Pair, u64>>> = const { RefCell::new(BTreeMap::new()) };
}

pub const CALLS: [&str; 18] = [
    "with_dimensions",
    "update",
    "update_at",
    "advance_to",
    "estimate",
    "estimate_with",
    "mean",
    "bucket_check",
    "max_zoom",
    "audit",
    "merge",
    "store_length",
    "save",
    "load",
    "set_codes",
    "ask",
    "store_shape",
    "unbiased_div_u64",
];

/// Two causes of a call that cannot hold at once: an advance on a clock of items crosses nothing, and an advance that
/// crosses nothing judges no cell.
const NEVER: [(&str, [u64; 2]); 1] = [("advance_to", [8, 14])];

/// Each two causes of a call that have not the same number.
fn every_pair(causes: &Causes) -> impl Iterator<Item = Pair> {
    let placed = move |at: usize| (at, causes[at].0);
    let behind = move |at: usize| (at + 1..causes.len()).map(move |other| [placed(at), placed(other)]);
    (0..causes.len()).flat_map(behind).filter(|[a, b]| a.1 != b.1)
}

/// The number that this call is refused by, if these are its causes. What holds beside its cause is counted.
pub fn number(call: &'static str, causes: &Causes) -> u64 {
    let first = causes.iter().position(|&(_, holds)| holds);
    HITS.with_borrow_mut(|hits| {
        let hits = hits.entry(call).or_default();
        for pair in every_pair(causes) {
            let [(at, _), (other, _)] = pair;
            let both = first == Some(at) && causes[other].1;
            *hits.entry(pair).or_default() += both as u64;
        }
    });
    numbers::first(causes)
}

fn name([(_, first), (_, other)]: &Pair) -> String {
    format!("{first}-{other}")
}

/// Whether each pair of the call's causes came that can come, and no other.
fn all_came(call: &str, hits: &BTreeMap<Pair, u64>) -> Outcome {
    let never = |pair: &Pair| NEVER.contains(&(call, pair.map(|(_, number)| number)));
    let wrong = hits.iter().filter(|&(pair, &count)| never(pair) != (count == 0));
    let wrong: Vec<String> = wrong.map(|(pair, count)| format!("{} {count}", name(pair))).collect();
    if hits.is_empty() || !wrong.is_empty() {
        return Err(format!("pairs of causes that came so often: {}", wrong.join(", ")));
    }
    Ok(())
}

/// How often each of the call's pairs came, in one line, and whether each came that should.
pub fn told(call: &'static str) -> (String, Outcome) {
    let hits = HITS.with_borrow(|hits| hits.get(call).cloned().unwrap_or_default());
    let each: Vec<String> = hits.iter().map(|(pair, count)| format!("{} {count}", name(pair))).collect();
    (
        format!("{call}: pairs of causes, and how often: {}", each.join(", ")),
        all_came(call, &hits),
    )
}
