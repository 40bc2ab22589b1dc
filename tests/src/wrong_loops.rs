//! Wrong plain loops.

use crate::graph::{Checking, Node, Sheet};
use crate::machine::{put_element, Document};
use crate::plain::Looping;
use crate::{wrong_calls, Answer};

wrong_calls! { loops, Looping, [plain];
    WorkAsItStoodAtTheStart {
        fn looped(sheet: &Sheet, work: &mut [u8], table: &[u8]) {
            let before = work.to_vec();
            for i in 0..sheet.n {
                let value = Self::value(sheet, i, &before, table);
                put_element(sheet.d, &mut work[sheet.store as usize..], i, value);
            }
        }
    }
    LoopDownward {
        fn looped(sheet: &Sheet, work: &mut [u8], table: &[u8]) {
            for i in (0..sheet.n).rev() {
                let value = Self::value(sheet, i, work, table);
                put_element(sheet.d, &mut work[sheet.store as usize..], i, value);
            }
        }
    }
    WorkAsItStoodAVectorAgo {
        fn looped(sheet: &Sheet, work: &mut [u8], table: &[u8]) {
            let lanes = 16 / sheet.d;
            for first in (0..sheet.n).step_by(lanes as usize) {
                let before = work.to_vec();
                for i in first..(first + lanes).min(sheet.n) {
                    let value = Self::value(sheet, i, &before, table);
                    put_element(sheet.d, &mut work[sheet.store as usize..], i, value);
                }
            }
        }
    }
    LastElementLeftOut {
        fn looped(sheet: &Sheet, work: &mut [u8], table: &[u8]) {
            Document::looped(&Sheet { n: sheet.n.saturating_sub(1), ..sheet.clone() }, work, table);
        }
    }
    StoreCountsBytes {
        fn looped(sheet: &Sheet, work: &mut [u8], table: &[u8]) {
            for i in 0..sheet.n {
                let value = Self::value(sheet, i, work, table);
                put_element(sheet.d, &mut work[(sheet.store + i) as usize..], 0, value);
            }
        }
    }
    LoadCountsBytes {
        fn loaded(d: u64, window: &[u8], address: u64, i: u64) -> u64 {
            Document::loaded(d, window, address + i, 0)
        }
    }
    LoadRoundedToVectors {
        fn loaded(d: u64, window: &[u8], address: u64, i: u64) -> u64 {
            Document::loaded(d, window, address - address % 16, i)
        }
    }
    LoadOfFirstElement {
        fn loaded(d: u64, window: &[u8], address: u64, _: u64) -> u64 {
            Document::loaded(d, window, address, 0)
        }
    }
    ElementsBigEndian {
        fn loaded(d: u64, window: &[u8], address: u64, i: u64) -> u64 {
            Document::loaded(d, window, address, i).swap_bytes() >> (64 - 8 * d)
        }
    }
    WindowsExchanged {
        fn value(sheet: &Sheet, i: u64, work: &[u8], table: &[u8]) -> u64 {
            let both = |address: u64| (address + sheet.bytes()) as usize <= work.len().min(table.len());
            if sheet.loads().all(|(_, _, address)| both(address)) {
                Document::value(sheet, i, table, work)
            } else {
                Document::value(sheet, i, work, table)
            }
        }
    }
    LeftAndRightExchanged {
        fn operated(d: u64, operation: u64, left: u64, right: u64) -> u64 {
            Document::operated(d, operation, right, left)
        }
    }
    SignedAsUnsigned {
        fn operated(d: u64, operation: u64, left: u64, right: u64) -> u64 {
            Document::operated(d, if operation > 3 { operation - 2 } else { operation }, left, right)
        }
    }
    MinimumIsMaximum {
        fn operated(d: u64, operation: u64, left: u64, right: u64) -> u64 {
            Document::operated(d, if operation == 2 { 3 } else { operation }, left, right)
        }
    }
    SumsNotReduced {
        fn operated(d: u64, operation: u64, left: u64, right: u64) -> u64 {
            match operation {
                0 => left.wrapping_add(right),
                _ => Document::operated(d, operation, left, right),
            }
        }
    }
    DifferencesNotReduced {
        fn operated(d: u64, operation: u64, left: u64, right: u64) -> u64 {
            match operation {
                1 => left.wrapping_sub(right),
                _ => Document::operated(d, operation, left, right),
            }
        }
    }
    ShiftMovesTheLoad {
        fn value(sheet: &Sheet, i: u64, work: &[u8], table: &[u8]) -> u64 {
            let mut moved = sheet.clone();
            for k in 1..moved.nodes.len() {
                if let (Node::Load { window, address }, Node::Shift { from, to }) = (moved.nodes[k - 1], moved.nodes[k]) {
                    let back = address.saturating_sub(from.saturating_sub(to));
                    moved.nodes[k - 1] = Node::Load { window, address: back };
                }
            }
            Document::value(&moved, i, work, table)
        }
    }
    CarryJudged {
        fn loop_judged(sheet: &Sheet, lengths: [u64; 2]) -> Result<(), Answer> {
            Document::loop_judged(sheet, lengths)?;
            Self::carry(sheet)
        }
    }
    OffsetsJudged {
        fn loop_judged(sheet: &Sheet, lengths: [u64; 2]) -> Result<(), Answer> {
            Document::loop_judged(sheet, lengths)?;
            Self::offsets(sheet)
        }
    }
    LengthJudged {
        fn loop_judged(sheet: &Sheet, lengths: [u64; 2]) -> Result<(), Answer> {
            Document::loop_judged(sheet, lengths)?;
            Self::length(sheet)
        }
    }
    BoundsBeforeAlignment {
        fn loop_judged(sheet: &Sheet, lengths: [u64; 2]) -> Result<(), Answer> {
            Self::windows(lengths)?;
            Self::bounds(sheet, lengths)?;
            Self::alignment(sheet)
        }
    }
    AlignmentBeforeWindows {
        fn loop_judged(sheet: &Sheet, lengths: [u64; 2]) -> Result<(), Answer> {
            Self::alignment(sheet)?;
            Self::windows(lengths)?;
            Self::bounds(sheet, lengths)
        }
    }
    BoundsOneElementLate {
        fn loop_judged(sheet: &Sheet, lengths: [u64; 2]) -> Result<(), Answer> {
            Self::windows(lengths)?;
            Self::alignment(sheet)?;
            Self::bounds(sheet, lengths.map(|length| length + sheet.d))
        }
        fn looped(sheet: &Sheet, work: &mut [u8], table: &[u8]) {
            // without the last element, which may lie outside
            Document::looped(&Sheet { n: sheet.n.saturating_sub(1), ..sheet.clone() }, work, table);
        }
    }
    AlignmentUnjudged {
        fn loop_judged(sheet: &Sheet, lengths: [u64; 2]) -> Result<(), Answer> {
            Self::windows(lengths)?;
            Self::bounds(sheet, lengths)
        }
    }
}
