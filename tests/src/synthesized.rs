//! Loops as document 001's section 5.3 makes them, of one statement: a sum of loads, each from an array of its own, with random
//! alignments and a bias to one of them. And that section's measures of such a loop: SEQ, and the lower bound LB.

use crate::graph::{Node, Sheet};
use crate::random::Random;

pub const WINDOW_BYTES: u64 = 65_536;

/// "a possible bias b .. toward a single, randomly selected alignment"
const BIAS_PERCENT: u64 = 30;

/// "a loop trip count in the range of [997, 1000] (for 4-element vectors)": the last of B numbers.
const TRIPS_MOST: u64 = 1_000;

/// What each array has of a window: 1,000 elements of four bytes, and their offset.
const ARRAY_BYTES: u64 = 4_096;

/// "we use add as the sole arithmetic operation"
const ADD: u64 = 0;

/// A sum of loads, each reference at the offset of its number: the store is 0, the loads follow. The store's array is the first of
/// work; the loads' arrays are in table and in work by turns.
pub fn sum(d: u64, n: u64, loads: u64, mut offset: impl FnMut(u64) -> u64) -> Sheet {
    let mut address = |reference: u64| ARRAY_BYTES * (reference / 2) + offset(reference);
    let store = address(0);
    let mut nodes = Vec::new();
    for load in 1..=loads {
        nodes.push(Node::Load { window: load % 2, address: address(load) });
        if load > 1 {
            nodes.push(Node::Op(ADD));
        }
    }
    Sheet { d, n, store, nodes }
}

/// Every reference, the store too, has the loop's favoured alignment with the bias, else any.
pub fn sheet(random: &mut Random, d: u64, loads: u64) -> Sheet {
    let b = 16 / d;
    let n = TRIPS_MOST - random.below(b);
    let favoured = random.below(b);
    sum(d, n, loads, |_| d * if random.below(100) < BIAS_PERCENT { favoured } else { random.below(b) })
}

/// SEQ, operations an element: "6 loads, 5 adds, and 1 store" are 12.
pub fn sequential(sheet: &Sheet) -> u64 {
    sheet.nodes.len() as u64 + 1
}

fn offsets(sheet: &Sheet) -> Vec<u64> {
    sheet.loads().map(|(_, _, address)| address % 16).chain([sheet.offset()]).collect()
}

/// LB, operations a vector: "each distinct 16-byte aligned load and store", the additions, and "for a statement with accesses of
/// n distinct alignments, a minimum of n - 1 vshiftpair operations".
pub fn least(sheet: &Sheet) -> u64 {
    let mut distinct = offsets(sheet);
    distinct.sort_unstable();
    distinct.dedup();
    sequential(sheet) + distinct.len() as u64 - 1
}

/// LB for ZERO: "one for each of the m misaligned memory streams. For that policy only, LB reflects m instead of n - 1."
pub fn least_by_zero(sheet: &Sheet) -> u64 {
    let misaligned = offsets(sheet).into_iter().filter(|&offset| offset != 0);
    sequential(sheet) + misaligned.count() as u64
}
