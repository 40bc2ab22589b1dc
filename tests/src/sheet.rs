//! The reader of loop sheets, written from document 01 ("Loop sheet" and "Reading"): a text, line by line, to a sheet.

use crate::graph::{Checking, Growing, NodeRow, Sheet};
use crate::machine::refused;
use crate::{Answer, DONE, LINE, ROOM};

/// A line of the format by its kind.
pub enum Frame {
    Header { d: u64, n: u64, store: u64 },
    Node(NodeRow),
    End(u64),
}

pub trait Reading: Checking {
    /// "the first line at fault"; "a missing end is at the line after the last"
    fn sheet(text: &[u8]) -> Result<Sheet, Answer> {
        let (frame, mut rest) = Self::frame(text).ok_or(refused(LINE, 1))?;
        let mut growing = match frame {
            Frame::Header { d, n, store } => Self::header(d, n, store)?,
            _ => return Err(refused(LINE, 1)),
        };
        loop {
            let wrong = refused(LINE, growing.line());
            let (frame, behind) = Self::frame(rest).ok_or(wrong)?;
            rest = behind;
            match frame {
                Frame::Header { .. } => Self::second_header(&growing)?,
                Frame::Node(row) => Self::add(&mut growing, row)?,
                Frame::End(count) => {
                    Self::end(&growing, count)?;
                    return Self::finished(growing, rest);
                }
            }
        }
    }

    /// "The header is line 1 and only there."
    fn second_header(growing: &Growing) -> Result<(), Answer> {
        Err(refused(LINE, growing.line()))
    }

    /// "text after end" stands on the line after it
    fn finished(growing: Growing, rest: &[u8]) -> Result<Sheet, Answer> {
        if rest.is_empty() {
            Ok(growing.sheet)
        } else {
            Err(refused(LINE, growing.line() + 1))
        }
    }

    /// The frame of the first line and the text behind it; none if the line is none of the format.
    #[inline(never)]
    fn frame(text: &[u8]) -> Option<(Frame, &[u8])> {
        let (line, rest) = Self::line(text)?;
        let digits: Vec<u64> = line.iter().map(|&byte| Self::digit(byte)).collect::<Option<_>>()?;
        let kind = number(digits.get(..2)?);
        let fields = Self::fields(kind, &digits[2..])?;
        let frame = match kind {
            0 => Frame::Header { d: fields[0], n: fields[1], store: fields[2] },
            5 => Frame::End(fields[0]),
            _ => Frame::Node([kind, fields[0], fields.get(1).copied().unwrap_or(0)]),
        };
        Some((frame, rest))
    }

    /// "each ended by one line feed"
    fn line(text: &[u8]) -> Option<(&[u8], &[u8])> {
        let end = text.iter().position(|&byte| byte == b'\n')?;
        Some((&text[..end], &text[end + 1..]))
    }

    /// "upper-case hexadecimal"
    fn digit(byte: u8) -> Option<u64> {
        match byte {
            b'0'..=b'9' => Some(u64::from(byte - b'0')),
            b'A'..=b'F' => Some(u64::from(byte - b'A') + 10),
            _ => None,
        }
    }

    /// The fields behind the kind byte, if the kind is known and they have the right length.
    fn fields(kind: u64, digits: &[u64]) -> Option<Vec<u64>> {
        let widths = Self::widths(kind)?;
        if digits.len() != widths.iter().sum::<usize>() {
            return None;
        }
        let mut rest = digits;
        let fields = widths.iter().map(|&width| {
            let (field, behind) = rest.split_at(width);
            rest = behind;
            number(field)
        });
        Some(fields.collect())
    }

    /// How many digits each field has.
    fn widths(kind: u64) -> Option<&'static [usize]> {
        Some(match kind {
            0 => &[2, 4, 4],
            1 => &[2, 4],
            2 => &[16],
            3 => &[2],
            4 => &[2, 2],
            5 => &[2],
            _ => return None,
        })
    }
}

/// "most significant digit first"
pub fn number(digits: &[u64]) -> u64 {
    digits.iter().fold(0, |number, digit| 16 * number + digit)
}

/// Leaves a sheet in lent tables, or what its refusal leaves.
#[inline(never)]
pub fn leave<R: Checking>(result: Result<Sheet, Answer>, head: &mut [u64], nodes: &mut [u64]) -> Answer {
    match result {
        Ok(sheet) => {
            R::fill(head, &sheet.head());
            R::fill(nodes, &sheet.rows());
            refused(DONE, 0)
        }
        Err(answer) => {
            R::refuse(head, answer.number);
            R::refuse(nodes, answer.number);
            answer
        }
    }
}

/// The call that reads a sheet.
pub fn read<R: Reading>(text: &[u8], head: &mut [u64], nodes: &mut [u64]) -> Answer {
    let result = if R::sheet_fits(head, nodes) { R::sheet(text) } else { Err(refused(ROOM, 0)) };
    leave::<R>(result, head, nodes)
}
