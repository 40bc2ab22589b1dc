//! Wrong readers.

use crate::graph::{Growing, NodeRow, Sheet};
use crate::machine::{refused, Document};
use crate::sheet::{number, Frame, Reading};
use crate::{wrong_calls, Answer, LINE, RANGE, SHAPE};

/// The document's reader, and then another answer for some refusals.
fn otherwise(text: &[u8], change: impl Fn(Answer) -> Answer) -> Result<Sheet, Answer> {
    Document::sheet(text).map_err(change)
}

/// The text without some bytes.
fn without(text: &[u8], unwanted: impl Fn(u8) -> bool) -> Vec<u8> {
    text.iter().copied().filter(|&byte| !unwanted(byte)).collect()
}

wrong_calls! { reading, Reading, [read];
    LowerCaseTaken {
        fn digit(byte: u8) -> Option<u64> {
            Document::digit(byte.to_ascii_uppercase())
        }
    }
    LetterGTaken {
        fn digit(byte: u8) -> Option<u64> {
            if byte == b'G' { Some(16) } else { Document::digit(byte) }
        }
    }
    ColonTaken {
        fn digit(byte: u8) -> Option<u64> {
            if byte == b':' { Some(10) } else { Document::digit(byte) }
        }
    }
    AtTaken {
        fn digit(byte: u8) -> Option<u64> {
            if byte == b'@' { Some(9) } else { Document::digit(byte) }
        }
    }
    HighBitDropped {
        fn digit(byte: u8) -> Option<u64> {
            Document::digit(byte & 0x7F)
        }
    }
    CarriageReturnTaken {
        fn line(text: &[u8]) -> Option<(&[u8], &[u8])> {
            let (line, rest) = Document::line(text)?;
            Some((line.strip_suffix(b"\r").unwrap_or(line), rest))
        }
    }
    LastLineWithoutFeedTaken {
        fn line(text: &[u8]) -> Option<(&[u8], &[u8])> {
            if text.is_empty() { None } else { Document::line(text).or(Some((text, &[]))) }
        }
    }
    EmptyLinesSkipped {
        fn line(text: &[u8]) -> Option<(&[u8], &[u8])> {
            let (line, rest) = Document::line(text)?;
            if line.is_empty() { Self::line(rest) } else { Some((line, rest)) }
        }
    }
    BlanksSkipped {
        fn sheet(text: &[u8]) -> Result<Sheet, Answer> {
            Document::sheet(&without(text, |byte| byte == b' '))
        }
    }
    ZeroBytesSkipped {
        fn sheet(text: &[u8]) -> Result<Sheet, Answer> {
            Document::sheet(&without(text, |byte| byte == 0))
        }
    }
    TextAfterEndIgnored {
        fn finished(growing: Growing, _: &[u8]) -> Result<Sheet, Answer> {
            Ok(growing.sheet)
        }
    }
    FeedAfterEndIgnored {
        fn finished(growing: Growing, rest: &[u8]) -> Result<Sheet, Answer> {
            Document::finished(growing, if rest == b"\n" { b"" } else { rest })
        }
    }
    TextAfterEndOnItsLine {
        fn finished(growing: Growing, rest: &[u8]) -> Result<Sheet, Answer> {
            Document::finished(growing, rest).map_err(|answer| refused(LINE, answer.place - 1))
        }
    }
    SecondHeaderIgnored {
        fn second_header(_: &Growing) -> Result<(), Answer> {
            Ok(())
        }
    }
    SecondHeaderIsShape {
        fn second_header(growing: &Growing) -> Result<(), Answer> {
            Err(refused(SHAPE, growing.line()))
        }
    }
    DigitsBehindFrameIgnored {
        fn fields(kind: u64, digits: &[u64]) -> Option<Vec<u64>> {
            let width = Self::widths(kind)?.iter().sum::<usize>();
            Document::fields(kind, digits.get(..width)?)
        }
    }
    MissingDigitsAreZero {
        fn fields(kind: u64, digits: &[u64]) -> Option<Vec<u64>> {
            let width = Self::widths(kind)?.iter().sum::<usize>();
            let mut digits = digits.to_vec();
            digits.resize(width.max(digits.len()), 0);
            Document::fields(kind, &digits)
        }
    }
    LeastSignificantDigitFirst {
        fn fields(kind: u64, digits: &[u64]) -> Option<Vec<u64>> {
            let mut rest = digits;
            Document::fields(kind, digits)?;
            let fields = Self::widths(kind)?.iter().map(|&width| {
                let (field, behind) = rest.split_at(width);
                rest = behind;
                number(&field.iter().rev().copied().collect::<Vec<_>>())
            });
            Some(fields.collect())
        }
    }
    KindByItsLastDigit {
        fn frame(text: &[u8]) -> Option<(Frame, &[u8])> {
            let mut changed = text.to_vec();
            if let Some(b'0'..=b'9' | b'A'..=b'F') = changed.first() {
                changed[0] = b'0';
            }
            let (frame, rest) = Document::frame(&changed)?;
            Some((frame, &text[text.len() - rest.len()..]))
        }
    }
    KindSixIsEnd {
        fn frame(text: &[u8]) -> Option<(Frame, &[u8])> {
            match text.strip_prefix(b"06") {
                Some(behind) => {
                    let (frame, rest) = Document::frame(&[b"05", behind].concat())
                        .map(|(frame, rest)| (frame, rest.len()))?;
                    Some((frame, &text[text.len() - rest..]))
                }
                None => Document::frame(text),
            }
        }
    }
    NodeBeforeHeaderIsShape {
        fn sheet(text: &[u8]) -> Result<Sheet, Answer> {
            let node_first = matches!(Document::frame(text), Some((Frame::Node(_) | Frame::End(_), _)));
            otherwise(text, |answer| if node_first { refused(SHAPE, 1) } else { answer })
        }
    }
    EmptyTextAtLineZero {
        fn sheet(text: &[u8]) -> Result<Sheet, Answer> {
            otherwise(text, |answer| if text.is_empty() { refused(LINE, 0) } else { answer })
        }
    }
    MissingEndAtLastLine {
        fn sheet(text: &[u8]) -> Result<Sheet, Answer> {
            let lines = text.iter().filter(|&&byte| byte == b'\n').count() as u64;
            let missing = text.ends_with(b"\n");
            otherwise(text, |answer| {
                let at_end = missing && answer == refused(LINE, lines + 1);
                if at_end { refused(LINE, lines) } else { answer }
            })
        }
    }
    MissingEndIsShape {
        fn sheet(text: &[u8]) -> Result<Sheet, Answer> {
            let lines = text.iter().filter(|&&byte| byte == b'\n').count() as u64;
            let missing = text.ends_with(b"\n");
            otherwise(text, |answer| {
                let at_end = missing && answer == refused(LINE, lines + 1);
                if at_end { refused(SHAPE, lines + 1) } else { answer }
            })
        }
    }
    PlacesFromZero {
        fn sheet(text: &[u8]) -> Result<Sheet, Answer> {
            otherwise(text, |answer| refused(answer.number, answer.place - 1))
        }
    }
    RangeBeforeMissingFeed {
        fn sheet(text: &[u8]) -> Result<Sheet, Answer> {
            match LastLineWithoutFeedTaken::sheet(text) {
                Err(answer) if answer.number == RANGE => Err(answer),
                _ => Document::sheet(text),
            }
        }
    }
    EndOfMoreThan64IsRange {
        fn sheet(text: &[u8]) -> Result<Sheet, Answer> {
            let said = text.rsplit(|&byte| byte == b'\n').nth(1).and_then(|line| line.strip_prefix(b"05"));
            let above = said.is_some_and(|said| said > b"40");
            otherwise(text, |answer| if above && answer.number == SHAPE { refused(RANGE, answer.place) } else { answer })
        }
    }
    EndOfZeroIsRange {
        fn sheet(text: &[u8]) -> Result<Sheet, Answer> {
            let none = text.ends_with(b"\n0500\n");
            otherwise(text, |answer| if none && answer.number == SHAPE { refused(RANGE, answer.place) } else { answer })
        }
    }
    AddressOfOneByte {
        fn frame(text: &[u8]) -> Option<(Frame, &[u8])> {
            let (frame, rest) = Document::frame(text)?;
            let narrow = |[kind, x, y]: NodeRow| [kind, x, if kind == 1 { y % 256 } else { y }];
            let frame = if let Frame::Node(row) = frame { Frame::Node(narrow(row)) } else { frame };
            Some((frame, rest))
        }
    }
    SplatOfSevenBytes {
        fn frame(text: &[u8]) -> Option<(Frame, &[u8])> {
            let (frame, rest) = Document::frame(text)?;
            let narrow = |[kind, x, y]: NodeRow| [kind, if kind == 2 { x << 8 >> 8 } else { x }, y];
            let frame = if let Frame::Node(row) = frame { Frame::Node(narrow(row)) } else { frame };
            Some((frame, rest))
        }
    }
    FieldsExchanged {
        fn frame(text: &[u8]) -> Option<(Frame, &[u8])> {
            let (frame, rest) = Document::frame(text)?;
            let frame = match frame {
                Frame::Node([4, from, to]) => Frame::Node([4, to, from]),
                frame => frame,
            };
            Some((frame, rest))
        }
    }
    FirstKilobyteOnly {
        fn sheet(text: &[u8]) -> Result<Sheet, Answer> {
            Document::sheet(&text[..text.len().min(1024)])
        }
    }
    LaterLineFirst {
        fn sheet(text: &[u8]) -> Result<Sheet, Answer> {
            let lines: Vec<&[u8]> = text.split_inclusive(|&byte| byte == b'\n').collect();
            let last = lines.len() as u64;
            match lines.last() {
                Some(line) if Document::frame(line).is_none() => Err(refused(LINE, last)),
                _ => Document::sheet(text),
            }
        }
    }
}
