//! Document 01's own cases: its list of edges, the printed sheet and what `places` prints for it, by any set of calls.

use crate::calls::Calls;
use crate::graph::{size, Checking, Node, Sheet};
use crate::machine::{put_element, refused, Document};
use crate::printing::{line, Figures};
use crate::sheets::{lines, text};
use crate::tables::{HEAD_ENTRIES, NODES_MOST, NODE_ENTRIES, PROGRAM_ENTRIES, SECTION_ENTRIES};
use crate::texts::SHEETS;
use crate::{Answer, Head, BOUNDS, CARRY, DONE, LINE, LONG, SHAPE};

pub const PRINTED: &str = "0000000400170000013C\n01000003000B000000A0\n02000003000B000000A0\n03000002000F000000D4\n";

const WINDOW_BYTES: u64 = 65_536;

/// What the cases of the paper are, and whether each comes out as it is written there.
pub fn cases(calls: &Calls) -> Vec<(&'static str, bool)> {
    vec![
        ("the four printed lines", places(calls, SHEETS[0].as_bytes()) == PRINTED),
        ("empty text: LINE, line 1", places(calls, b"") == refused_lines(LINE, 1)),
        ("0500 after the header: SHAPE", places(calls, b"000200640206\n0500\n") == refused_lines(SHAPE, 2)),
        ("D = 1: 200+100 = 44; 0-1 = 255", operated(calls, 1, 0, 200, 100) == 44 && operated(calls, 1, 1, 0, 1) == 255),
        ("D = 1: minimum of 128 and 127", operated(calls, 1, 4, 128, 127) == 128 && operated(calls, 1, 2, 128, 127) == 127),
        ("D = 2: 65,535+1 = 0, and no carry", operated(calls, 2, 0, 65_535, 1) == 0),
        ("D = 2, c = 0: n = 96, 100, 92", [96, 100, 92].map(|n| counts(calls, 0, n)) == [(12, 0), (12, 4), (11, 4)]),
        ("D = 2, c = 6: n = 100, 4, 5", [100, 4, 5].map(|n| counts(calls, 6, n)) == [(12, 7), (0, 7), (1, 0)]),
        ("A = S, A = S+D and CARRY", carries(calls)),
        ("address + nD and the length", bounds(calls)),
        (
            "8 and 9 chained shifts",
            chained(calls, 8) == (511, refused(DONE, 0)) && chained(calls, 9) == (1023, refused(LONG, 0)),
        ),
    ]
}

/// A sheet read into its tables.
fn read(calls: &Calls, text: &[u8]) -> (Answer, Vec<u64>, Vec<u64>) {
    let (mut head, mut nodes) = (vec![0; HEAD_ENTRIES], vec![0; NODE_ENTRIES * NODES_MOST]);
    let answer = (calls.read)(text, &mut head, &mut nodes);
    (answer, head, nodes)
}

fn read_sheet(calls: &Calls, sheet: &Sheet) -> (Vec<u64>, Vec<u64>) {
    let (_, head, nodes) = read(calls, &text(&lines(sheet)));
    (head, nodes)
}

fn translate(calls: &Calls, sheet: &Sheet, work_len: u64) -> (Answer, Head, [Vec<u32>; 3]) {
    let (head, nodes) = read_sheet(calls, sheet);
    let (mut program, mut sections) = ([0; PROGRAM_ENTRIES], [(); 3].map(|()| vec![0; SECTION_ENTRIES]));
    let lent = sections.each_mut().map(|section| &mut section[..]);
    let answer = (calls.translate)(&head, &nodes, [work_len, WINDOW_BYTES], &mut program, lent);
    let [d, f, prologue, body, epilogue] = program;
    (answer, Head { d, f, prologue, body, epilogue }, sections)
}

/// The four lines that `places` prints.
fn places(calls: &Calls, text: &[u8]) -> String {
    let (answer, head, nodes) = read(calls, text);
    (0..4).map(|rule| places_line(calls, rule, answer, &head, &nodes)).collect()
}

fn places_line(calls: &Calls, rule: u64, reading: Answer, head: &[u64], nodes: &[u64]) -> String {
    if reading.number != DONE {
        return line(rule, Err(reading));
    }
    let (mut placed_head, mut placed_nodes) = (vec![0; HEAD_ENTRIES], vec![0; NODE_ENTRIES * NODES_MOST]);
    let (mut program, mut sections) = ([0; PROGRAM_ENTRIES], [(); 3].map(|()| vec![0; SECTION_ENTRIES]));
    let lent = sections.each_mut().map(|section| &mut section[..]);
    let answer = (calls.plan)(rule, head, nodes, [WINDOW_BYTES; 2], &mut program, lent);
    if answer.number != DONE {
        return line(rule, Err(answer));
    }
    (calls.place)(rule, head, nodes, &mut placed_head, &mut placed_nodes);
    let placed = Document::checked(&placed_head, &placed_nodes).expect("a sheet that was placed");
    let [d, f, prologue, body, epilogue] = program;
    let program = Head { d, f, prologue, body, epilogue };
    line(rule, Ok(Figures { steps: run(calls, &program, &sections), ..Figures::of(&placed) }))
}

/// "a reading refusal stands on all four lines"
fn refused_lines(number: u64, place: u64) -> String {
    (0..4).map(|rule| line(rule, Err(refused(number, place)))).collect()
}

/// The steps of a whole run over windows of zeros.
fn run(calls: &Calls, program: &Head, sections: &[Vec<u32>; 3]) -> u64 {
    let (mut work, table) = (vec![0; WINDOW_BYTES as usize], vec![0; WINDOW_BYTES as usize]);
    let [prologue, body, epilogue] = sections;
    (calls.run)(program, prologue, body, epilogue, &mut work, &table, u64::MAX).steps
}

fn load(window: u64, address: u64) -> Node {
    Node::Load { window, address }
}

/// An operation on two elements of the table, by the plain loop; the element behind it must stay.
fn operated(calls: &Calls, d: u64, operation: u64, left: u64, right: u64) -> u64 {
    let sheet = Sheet { d, n: 1, store: 0, nodes: vec![load(1, 0), load(1, 16), Node::Op(operation)] };
    let (head, nodes) = read_sheet(calls, &sheet);
    let (mut work, mut table) = ([0; 16], [0; 32]);
    put_element(d, &mut table, 0, left);
    put_element(d, &mut table[16..], 0, right);
    (calls.plain)(&head, &nodes, &mut work, &table);
    u64::from_le_bytes([0, 1, 2, 3, 4, 5, 6, 7].map(|k| work[k]))
}

/// F, and e as the epilogue's splice has it, of a loop with D = 2.
fn counts(calls: &Calls, c: u64, n: u64) -> (u64, u64) {
    let sheet = Sheet { d: 2, n, store: c, nodes: vec![Node::Splat(0)] };
    let (_, program, [prologue, _, epilogue]) = translate(calls, &sheet, WINDOW_BYTES);
    // the fields of the splice that keeps what is behind the loop: the third row of an epilogue, the fourth of a lone prologue
    let bytes = if program.f == 0 { prologue[6 * 3 + 4] } else { epilogue[6 * 2 + 4] };
    (program.f, u64::from(bytes) / 2)
}

/// "A = S passes; A = S+D passes; A = S-D with n = 2 is CARRY, with n = 1 it passes."
fn carries(calls: &Calls) -> bool {
    let answers = [(16, 100), (32, 100), (0, 17), (0, 16)].map(|(address, n)| {
        let sheet = Sheet { d: 1, n, store: 16, nodes: vec![load(0, address)] };
        translate(calls, &sheet, WINDOW_BYTES).0
    });
    let beside = [(18, 2), (14, 2), (14, 1)].map(|(address, n)| {
        let from = address % 16;
        let nodes = vec![load(0, address), Node::Shift { from, to: 0 }];
        translate(calls, &Sheet { d: 2, n, store: 16, nodes }, WINDOW_BYTES).0
    });
    let (passes, carry) = (refused(DONE, 0), refused(CARRY, 2));
    answers == [passes, passes, carry, passes] && beside == [passes, carry, passes]
}

/// "Address + nD equal to the length passes; D more is BOUNDS."
fn bounds(calls: &Calls) -> bool {
    let answers = [(4, 6), (4, 7), (0, 8), (0, 9)]
        .map(|(store, n)| translate(calls, &Sheet { d: 2, n, store, nodes: vec![Node::Splat(0)] }, 16).0);
    let (passes, beyond) = (refused(DONE, 0), refused(BOUNDS, 1));
    answers == [passes, beyond, passes, beyond]
}

/// G of a load under so many shifts, and the answer to it.
fn chained(calls: &Calls, shifts: u64) -> (u128, Answer) {
    let ends = |k: u64| if k.is_multiple_of(2) { (0, 8) } else { (8, 0) };
    let shift = |k| Node::Shift { from: ends(k).0, to: ends(k).1 };
    let nodes: Vec<Node> = [load(1, 0)].into_iter().chain((0..shifts).map(shift)).collect();
    let store = ends(shifts).0;
    let g = size(&nodes);
    (g, translate(calls, &Sheet { d: 8, n: 1, store, nodes }, WINDOW_BYTES).0)
}
