//! The plain loop of document 01, element by element over the windows as they stand.

use crate::graph::{answer, handed, last, Checking, Node, Sheet};
use crate::machine::{element, largest, put_element, signed};
use crate::Answer;

pub trait Looping: Checking {
    /// "the plain loop 6 to 8"
    fn loop_judged(sheet: &Sheet, lengths: [u64; 2]) -> Result<(), Answer> {
        Self::windows(lengths)?;
        Self::alignment(sheet)?;
        Self::bounds(sheet, lengths)
    }

    /// "For i from 0 upward, work[S+iD ..] takes the value of the tree at i."
    fn looped(sheet: &Sheet, work: &mut [u8], table: &[u8]) {
        for i in 0..sheet.n {
            let value = Self::value(sheet, i, work, table);
            put_element(sheet.d, &mut work[sheet.store as usize..], i, value);
        }
    }

    fn value(sheet: &Sheet, i: u64, work: &[u8], table: &[u8]) -> u64 {
        let mut waiting = Vec::with_capacity(sheet.nodes.len());
        for node in &sheet.nodes {
            let value = match *node {
                Node::Load { window, address } => {
                    let bytes = if window == 0 { work } else { table };
                    Self::loaded(sheet.d, bytes, address, i)
                }
                Node::Splat(value) => value,
                Node::Op(operation) => {
                    let right = last(&mut waiting);
                    let left = last(&mut waiting);
                    Self::operated(sheet.d, operation, left, right)
                }
                Node::Shift { .. } => last(&mut waiting),
            };
            waiting.push(value);
        }
        last(&mut waiting)
    }

    /// "A load at i reads D bytes at A+iD from the window as it then stands."
    fn loaded(d: u64, window: &[u8], address: u64, i: u64) -> u64 {
        element(d, &window[address as usize..], i)
    }

    /// "Operations on unsigned elements modulo 2^(8D)"
    fn operated(d: u64, operation: u64, left: u64, right: u64) -> u64 {
        let (signed_left, signed_right) = (signed(d, left), signed(d, right));
        let result = match operation {
            0 => left.wrapping_add(right),
            1 => left.wrapping_sub(right),
            2 => left.min(right),
            3 => left.max(right),
            4 => signed_left.min(signed_right) as u64,
            _ => signed_left.max(signed_right) as u64,
        };
        result & largest(d)
    }
}

/// The call that runs the plain loop.
pub fn plain<R: Looping>(head: &[u64], nodes: &[u64], work: &mut [u8], table: &[u8]) -> Answer {
    let lengths = [work.len() as u64, table.len() as u64];
    let judged = handed::<R>(head, nodes).and_then(|sheet| R::loop_judged(&sheet, lengths).map(|()| sheet));
    answer(judged.map(|sheet| R::looped(&sheet, work, table)))
}
