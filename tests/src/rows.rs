//! Rows of a section, one maker for each kind of instruction. What a kind does not use is zero.

use crate::Row;

/// An address is held with 2^31 added.
pub fn held(address: i64) -> u32 {
    (address + (1 << 31)) as u32
}

pub fn load(destination: u32, window: u32, address: i64) -> Row {
    [1, destination, window, 0, held(address), 0]
}

pub fn splat(destination: u32, value: u64) -> Row {
    [2, destination, 0, 0, value as u32, (value >> 32) as u32]
}

pub fn op(destination: u32, operation: u32, left: u32, right: u32) -> Row {
    [3, destination, left, right, operation, 0]
}

pub fn pair(destination: u32, first: u32, second: u32, amount: u32) -> Row {
    [4, destination, first, second, amount, 0]
}

pub fn splice(destination: u32, first: u32, second: u32, amount: u32) -> Row {
    [5, destination, first, second, amount, 0]
}

pub fn store(source: u32, address: i64) -> Row {
    [6, 0, source, 0, held(address), 0]
}
