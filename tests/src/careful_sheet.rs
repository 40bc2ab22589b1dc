//! The reader a careful Rust programmer would ship, for the benchmark: safe code, one pass over the text, rows written where they
//! stay, nothing allocated.

use crate::tables::{HEAD_ENTRIES, NODES_MOST, NODE_ENTRIES};
use crate::{Answer, DONE, LINE, RANGE, ROOM, SHAPE};

/// What a byte is worth as a digit; 16 and more is none.
const WORTH: [u8; 256] = {
    let mut worth = [16; 256];
    let mut digit = 0;
    while digit < 16 {
        worth[b"0123456789ABCDEF"[digit] as usize] = digit as u8;
        digit += 1;
    }
    worth
};

/// How many digits a frame of each kind has behind its first two.
const DIGITS: [usize; 6] = [10, 6, 16, 2, 4, 2];

struct Reader<'a> {
    rest: &'a [u8],
    line: u64,
}

impl Reader<'_> {
    fn refuse(&self, number: u64) -> Answer {
        Answer { number, place: self.line, steps: 0 }
    }

    /// The kind of the next line and its digits as one number, if it is a line of the format. No field goes beyond 64 bits.
    #[inline(always)]
    fn frame(&mut self) -> Option<(usize, u64)> {
        let &[b'0', second @ b'0'..=b'5', ref behind @ ..] = self.rest else { return None };
        let kind = usize::from(second - b'0');
        let (digits, behind) = behind.split_at_checked(DIGITS[kind])?;
        let (mut value, mut seen) = (0, 0);
        for &byte in digits {
            let worth = WORTH[usize::from(byte)];
            seen |= worth;
            value = value << 4 | u64::from(worth);
        }
        // a line feed among the digits is none of them, so the line is as long as it should be
        self.rest = behind.strip_prefix(b"\n")?;
        (seen < 16).then_some((kind, value))
    }
}

/// The fields of a node as its row has them, if they are in range.
#[inline(always)]
fn row(d: u64, kind: usize, value: u64) -> Option<[u64; 2]> {
    let (upper, lower) = (value >> 8, value & 0xFF);
    let below = |end: u64| end < 16 && end & (d - 1) == 0;
    match kind {
        1 => (value >> 16 <= 1).then_some([value >> 16, value & 0xFFFF]),
        2 => (value <= u64::MAX >> (64 - 8 * d)).then_some([value, 0]),
        3 => (value <= 5).then_some([value, 0]),
        _ => (below(upper) && below(lower) && upper != lower).then_some([upper, lower]),
    }
}

/// The head's four entries, and the nodes in their table.
fn sheet(text: &[u8], nodes: &mut [[u64; NODE_ENTRIES]]) -> Result<[u64; 4], Answer> {
    let mut reader = Reader { rest: text, line: 1 };
    let Some((0, header)) = reader.frame() else { return Err(reader.refuse(LINE)) };
    let (d, n, store) = (header >> 32, header >> 16 & 0xFFFF, header & 0xFFFF);
    if !matches!(d, 1 | 2 | 4 | 8) || n > 4096 {
        return Err(reader.refuse(RANGE));
    }
    let (mut count, mut waiting) = (0, 0_usize);
    loop {
        reader.line += 1;
        let Some((kind @ 1.., value)) = reader.frame() else { return Err(reader.refuse(LINE)) };
        if kind == 5 {
            if waiting != 1 || value != count as u64 {
                return Err(reader.refuse(SHAPE));
            }
            reader.line += 1;
            return if reader.rest.is_empty() { Ok([d, n, store, value]) } else { Err(reader.refuse(LINE)) };
        }
        let [x, y] = row(d, kind, value).ok_or(reader.refuse(RANGE))?;
        let taken = [0, 0, 0, 2, 1][kind];
        if count == NODES_MOST || waiting < taken {
            return Err(reader.refuse(SHAPE));
        }
        waiting = waiting - taken + 1;
        nodes[count] = [kind as u64, x, y];
        count += 1;
    }
}

pub fn read(text: &[u8], head: &mut [u64], nodes: &mut [u64]) -> Answer {
    if head.len() < HEAD_ENTRIES || nodes.len() < NODE_ENTRIES * NODES_MOST {
        return Answer { number: ROOM, place: 0, steps: 0 };
    }
    let (contents, used, answer) = match sheet(text, nodes.as_chunks_mut().0) {
        Ok(contents) => (contents, NODE_ENTRIES * contents[3] as usize, Answer { number: DONE, place: 0, steps: 0 }),
        Err(answer) => ([0; 4], 0, answer),
    };
    head[..4].copy_from_slice(&contents);
    head[4..].fill(0);
    nodes[used..].fill(0);
    answer
}
