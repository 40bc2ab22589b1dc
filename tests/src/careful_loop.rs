//! The plain loop a careful Rust programmer would ship, for the benchmark: the element's width chosen once, values on a stack of
//! fixed size. What comes before the loop is the independent implementation's: it is little beside a long loop.

use crate::graph::{handed, Node, Sheet};
use crate::machine::{refused, Document};
use crate::plain::Looping;
use crate::tables::NODES_MOST;
use crate::{Answer, DONE};

macro_rules! width {
    ($name:ident, $unsigned:ty, $signed:ty) => {
        fn $name(sheet: &Sheet, work: &mut [u8], table: &[u8]) {
            const BYTES: usize = size_of::<$unsigned>();
            let mut stack = [0; NODES_MOST];
            for i in (0..sheet.n as usize * BYTES).step_by(BYTES) {
                let mut top = 0;
                for node in &sheet.nodes {
                    match *node {
                        Node::Load { window, address } => {
                            let bytes = if window == 0 { &*work } else { table };
                            let at = address as usize + i;
                            let element = bytes[at..].first_chunk().copied().unwrap_or_default();
                            stack[top] = <$unsigned>::from_le_bytes(element);
                            top += 1;
                        }
                        Node::Splat(value) => {
                            stack[top] = value as $unsigned;
                            top += 1;
                        }
                        Node::Op(operation) => {
                            top -= 1;
                            let (x, y) = (stack[top - 1], stack[top]);
                            stack[top - 1] = match operation {
                                0 => x.wrapping_add(y),
                                1 => x.wrapping_sub(y),
                                2 => x.min(y),
                                3 => x.max(y),
                                4 => (x as $signed).min(y as $signed) as $unsigned,
                                _ => (x as $signed).max(y as $signed) as $unsigned,
                            };
                        }
                        Node::Shift { .. } => {}
                    }
                }
                let at = sheet.store as usize + i;
                work[at..at + BYTES].copy_from_slice(&stack[0].to_le_bytes());
            }
        }
    };
}

width!(looped_one, u8, i8);
width!(looped_two, u16, i16);
width!(looped_four, u32, i32);
width!(looped_eight, u64, i64);

pub fn plain(head: &[u64], nodes: &[u64], work: &mut [u8], table: &[u8]) -> Answer {
    let lengths = [work.len() as u64, table.len() as u64];
    let sheet = match handed::<Document>(head, nodes).and_then(|sheet| Document::loop_judged(&sheet, lengths).map(|()| sheet)) {
        Ok(sheet) => sheet,
        Err(answer) => return answer,
    };
    match sheet.d {
        1 => looped_one(&sheet, work, table),
        2 => looped_two(&sheet, work, table),
        4 => looped_four(&sheet, work, table),
        _ => looped_eight(&sheet, work, table),
    }
    refused(DONE, 0)
}
