//! Operations an element of the library's code on the loops of document 001's section 5.3, by rule, beside that document's
//! measures and figures. Each loop is a text that the library reads, plans by each rule and runs; the memory must be the plain
//! loop's, and everything as in the tests' independent implementation. Nothing is timed: the tables are the same in every run.
//!
//!     figures            fifty loops in a row of the tables, as in document 001
//!     figures --loops N  N loops, the first fifty among them

use outside::board::{library, LINKED};
use outside::calls::{Call, Calls, ALL, INDEPENDENT};
use outside::cases::{keeps_plain_loop, observe, Case, Lent};
use outside::graph::Sheet;
use outside::random::Random;
use outside::sheets::{lines, text};
use outside::synthesized::{least, least_by_zero, sequential, sheet, WINDOW_BYTES};
use outside::tables::{HEAD_ENTRIES, NODES_MOST, NODE_ENTRIES};
use outside::DONE;
use std::process::ExitCode;

const LOOPS: u64 = 50;
const WIDTHS: [u64; 2] = [4, 2];
const LOADS: [u64; 4] = [2, 4, 6, 8];
const RULES: [&str; 4] = ["ZERO", "EAGER", "LAZY", "DOMINANT"];

/// Speed-ups of document 001's tables 1 and 2, one statement, alignments known: the best policy's (LAZY with predictive commoning
/// in all six), and at LB.
const PUBLISHED: [(u64, u64, f64, f64); 6] =
    [(4, 2, 2.72, 3.17), (4, 4, 3.02, 3.27), (4, 6, 3.14, 3.35), (2, 2, 5.10, 5.85), (2, 4, 5.49, 6.12), (2, 6, 5.67, 6.25)];

/// A loop, and what each rule makes of it.
struct Counted {
    sheet: Sheet,
    shifts: [u64; 4],
    steps: [u64; 4],
}

/// Reads the loop's text, places it for its shifts, plans it, and runs it beside the plain loop.
fn case(random: &mut Random, sheet: &Sheet) -> Case {
    const CALLS: &[Call] = &[Call::Read, Call::Place, Call::Plan, Call::Run, Call::Plain];
    let empty = (&[0; HEAD_ENTRIES][..], &[0; NODE_ENTRIES * NODES_MOST][..]);
    let mut case = Case::handed(random, CALLS, empty, [WINDOW_BYTES; 2]);
    case.tables.text = Lent::new(&text(&lines(sheet)));
    case
}

/// Shifts placed and steps run by the case's rule.
fn count(calls: &Calls, case: &Case) -> (u64, u64) {
    const SHIFT: u64 = 4;
    let outcome = observe(calls, case);
    assert!(outcome.answers.iter().all(|answer| answer.number == DONE), "refused: {:?}", outcome.answers);
    assert!(keeps_plain_loop(case, &outcome), "not the plain loop's memory, or not the formula's steps");
    assert!(outcome == observe(&INDEPENDENT, case), "not as in the independent implementation");
    let shifts = outcome.tables.placed_nodes.chunks(NODE_ENTRIES).filter(|row| row[0] == SHIFT);
    let run = case.calls.iter().position(|&call| call == Call::Run).expect("every case is run");
    (shifts.count() as u64, outcome.answers[run].steps)
}

/// A loop is named for good by D, the number of its loads and its own number.
fn counted(calls: &Calls, d: u64, loads: u64, number: u64) -> Counted {
    let random = &mut Random::new((100 * d + loads) * 1_000_000 + number);
    let sheet = sheet(random, d, loads);
    let mut case = case(random, &sheet);
    let (mut shifts, mut steps) = ([0; 4], [0; 4]);
    for rule in 0..RULES.len() {
        case.rule = rule as u64;
        (shifts[rule], steps[rule]) = count(calls, &case);
    }
    Counted { sheet, shifts, steps }
}

/// The loops of one row.
struct Row {
    d: u64,
    loads: u64,
    loops: Vec<Counted>,
}

impl Row {
    fn harmonic_mean(&self, measure: impl Fn(&Counted) -> f64) -> f64 {
        self.loops.len() as f64 / self.loops.iter().map(|counted| 1.0 / measure(counted)).sum::<f64>()
    }

    fn mean(&self, measure: impl Fn(&Counted) -> f64) -> f64 {
        self.loops.iter().map(measure).sum::<f64>() / self.loops.len() as f64
    }

    /// "the total number of instructions over all loops of the scalar code divided by these of the simdized code"
    fn speed_up(&self, operations: impl Fn(&Counted) -> f64) -> f64 {
        let scalar: u64 = self.loops.iter().map(|counted| sequential(&counted.sheet) * counted.sheet.n).sum();
        scalar as f64 / self.loops.iter().map(operations).sum::<f64>()
    }

    /// Elements of a vector.
    fn b(&self) -> f64 {
        (16 / self.d) as f64
    }
}

fn by_rule(figure: impl Fn(usize) -> String) -> String {
    [0, 1, 2, 3].map(figure).join(" | ")
}

fn print_operations(rows: &[Row]) {
    println!("Operations an element, harmonic means.\n");
    println!("| D | loads | {} | LB | LB for ZERO | SEQ |", RULES.join(" | "));
    println!("|---|---|---|---|---|---|---|---|---|");
    for row in rows {
        let steps = by_rule(|rule| format!("{:.3}", row.harmonic_mean(|c| c.steps[rule] as f64 / c.sheet.n as f64)));
        let bound = row.harmonic_mean(|c| least(&c.sheet) as f64 / row.b());
        let zero_bound = row.harmonic_mean(|c| least_by_zero(&c.sheet) as f64 / row.b());
        let scalar = sequential(&row.loops[0].sheet);
        println!("| {} | {} | {steps} | {bound:.3} | {zero_bound:.3} | {scalar} |", row.d, row.loads);
    }
}

fn print_speed_ups(rows: &[Row]) {
    println!("\nSpeed-up over SEQ; the last two columns are document 001's.\n");
    println!("| D | loads | {} | at LB | 001's best | 001 at LB |", RULES.join(" | "));
    println!("|---|---|---|---|---|---|---|---|---|");
    for row in rows {
        let (d, loads) = (row.d, row.loads);
        let speed_ups = by_rule(|rule| format!("{:.2}", row.speed_up(|c| c.steps[rule] as f64)));
        let bound = row.speed_up(|c| (least(&c.sheet) * c.sheet.n) as f64 / row.b());
        let published = PUBLISHED.iter().find(|published| (published.0, published.1) == (d, loads));
        let published = published.map_or("| | |".into(), |(_, _, best, bound)| format!("| {best:.2} | {bound:.2} |"));
        println!("| {d} | {loads} | {speed_ups} | {bound:.2} {published}");
    }
}

fn print_shifts(rows: &[Row]) {
    println!("\nShifts of the placed graph, means; and operations an element of a pass if each shift made its input once.\n");
    let once = RULES.map(|rule| format!("{rule} once")).join(" | ");
    println!("| D | loads | {} | {once} |", RULES.join(" | "));
    println!("|---|---|---|---|---|---|---|---|---|---|");
    for row in rows {
        let shifts = by_rule(|rule| format!("{:.2}", row.mean(|c| c.shifts[rule] as f64)));
        let once =
            by_rule(|rule| format!("{:.3}", row.harmonic_mean(|c| (sequential(&c.sheet) + c.shifts[rule]) as f64 / row.b())));
        println!("| {} | {} | {shifts} | {once} |", row.d, row.loads);
    }
}

fn loops() -> Option<u64> {
    let arguments: Vec<String> = std::env::args().skip(1).collect();
    match arguments.iter().map(String::as_str).collect::<Vec<_>>()[..] {
        [] => Some(LOOPS),
        ["--loops", loops] => loops.parse().ok().filter(|&loops| loops > 0),
        _ => None,
    }
}

fn main() -> ExitCode {
    let Some(loops) = loops() else {
        eprintln!("figures [--loops N]");
        return ExitCode::from(2);
    };
    let Some(calls) = library().filter(|_| LINKED == ALL) else {
        eprintln!("built without the whole library: `tools/build`, then build again");
        return ExitCode::from(2);
    };
    let mut rows = Vec::new();
    for (d, loads) in WIDTHS.into_iter().flat_map(|d| LOADS.map(|loads| (d, loads))) {
        let loops = (0..loops).map(|number| counted(&calls, d, loads, number)).collect();
        rows.push(Row { d, loads, loops });
    }
    print_operations(&rows);
    print_speed_ups(&rows);
    print_shifts(&rows);
    println!("\n{} runs: each left the plain loop's memory, in the formula's steps.", loops * 4 * rows.len() as u64);
    ExitCode::SUCCESS
}
