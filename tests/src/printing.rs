//! What the programs `places` and `edges` print, once more from document 01. Nothing of the library is called: what is printed for
//! a text comes from the independent reader, rules, checks and formula beside this file.

use crate::graph::{size, Node, Sheet};
use crate::machine::Document;
use crate::placing::DOMINANT;
use crate::sheet::Reading;
use crate::translate::{steps, Planning, Translating};
use crate::{Answer, DONE};

/// "the first 2,048 bytes of standard input"
pub const PLACES_BYTES: usize = 2048;
/// as many as a cases file may have
pub const EDGES_BYTES: usize = 65_536;
/// "takes both windows at 65,536 bytes"
pub const WINDOWS: [u64; 2] = [65_536; 2];
/// The rule's byte of a graph that is translated as it is drawn.
const DRAWN: u64 = 0xFF;

/// What a line says of a graph that is done.
#[derive(Default)]
pub struct Figures {
    pub shifts: usize,
    pub g: u128,
    pub steps: u64,
}

impl Figures {
    pub fn of(graph: &Sheet) -> Figures {
        let shifts = graph.nodes.iter().filter(|node| matches!(node, Node::Shift { .. })).count();
        Figures { shifts, g: size(&graph.nodes), steps: steps::<Document>(graph) }
    }
}

/// "rule (1 byte), answer (1), place (1), shifts (1), G (2), steps (4); the last three are zero on a refusal"
pub fn line(rule: u64, outcome: Result<Figures, Answer>) -> String {
    let (number, place, Figures { shifts, g, steps }) = match outcome {
        Ok(figures) => (DONE, 0, figures),
        Err(answer) => (answer.number, answer.place, Figures::default()),
    };
    format!("{rule:02X}{number:02X}{place:02X}{shifts:02X}{g:04X}{steps:08X}\n")
}

/// The first bytes of an input, as far as a program reads.
fn first(input: &[u8], most: usize) -> &[u8] {
    &input[..input.len().min(most)]
}

/// The four lines of `places`; "a reading refusal stands on all four".
pub fn places(input: &[u8]) -> String {
    let text = first(input, PLACES_BYTES);
    let sheet = Document::sheet(text);
    let planned = |rule| Ok(Figures::of(&Document::planned(rule, sheet.as_ref().map_err(|&answer| answer)?, WINDOWS)?));
    (0..=DOMINANT).map(|rule| line(rule, planned(rule))).collect()
}

/// The line of a graph as it is drawn: the answer of reading, or else of translating.
pub fn drawn(text: &[u8]) -> String {
    let outcome = Document::sheet(text).and_then(|graph| {
        Document::translating_judged(&graph, WINDOWS)?;
        Ok(Figures::of(&graph))
    });
    line(DRAWN, outcome)
}

/// Five lines for each case: as it is drawn, then as `places` prints it.
pub fn edges(input: &[u8]) -> String {
    cases(first(input, EDGES_BYTES)).into_iter().map(|(_, text)| drawn(text) + &places(text)).collect()
}

/// Name and text of each case. It begins at `-`; its name goes to the end of that line and may have `-` in it; its text goes on to
/// the next `-` or to the end of the input.
pub fn cases(input: &[u8]) -> Vec<(&[u8], &[u8])> {
    let (mut cases, mut rest) = (Vec::new(), input);
    while let (_, Some(named)) = cut(rest, b'-') {
        let (name, behind) = cut(named, b'\n');
        rest = behind.unwrap_or(&[]);
        cases.push((name, cut(rest, b'-').0));
    }
    cases
}

/// What stands before the first such byte, and what stands behind it if there is one.
fn cut(bytes: &[u8], at: u8) -> (&[u8], Option<&[u8]>) {
    match bytes.iter().position(|&byte| byte == at) {
        Some(k) => (&bytes[..k], Some(&bytes[k + 1..])),
        None => (bytes, None),
    }
}
