//! Times of the calls before a run: reading, the plain loop, placing, translating and both in one step. Each row gives two sets of
//! calls the same tables, and first compares what they give and leave.

use crate::calls::{Call, Calls};
use crate::cases::{observe, Budget, Case};
use crate::graph::Sheet;
use crate::loops::printed;
use crate::random::Random;
use crate::sheets::{lines, text, Setting};
use crate::tables::{HEAD_ENTRIES, NODES_MOST, NODE_ENTRIES};
use crate::texts::SHEETS;
use std::hint::black_box;
use std::time::Instant;

const ROUNDS: usize = 15;
pub const WINDOW_BYTES: u64 = 65_536;

pub struct Row {
    name: String,
    pub case: Case,
    /// how often it is called in one round
    times: u32,
}

fn reading(name: &str, text: &[u8]) -> Row {
    let case = Case::read(text, HEAD_ENTRIES, NODE_ENTRIES * NODES_MOST);
    Row { name: format!("read {name}, {} bytes", text.len()), case, times: 2_000 }
}

pub fn handed(name: &str, calls: &'static [Call], sheet: &Sheet, rule: u64, times: u32) -> Row {
    let (mut head, mut nodes) = (sheet.head().to_vec(), sheet.rows());
    head.resize(HEAD_ENTRIES, 0);
    nodes.resize(NODE_ENTRIES * NODES_MOST, 0);
    let mut case = Case::handed(&mut Random::new(1), calls, (&head, &nodes), [WINDOW_BYTES; 2]);
    case.rule = rule;
    case.budget = Budget::Steps(u64::MAX);
    Row { name: name.into(), case, times }
}

/// A bare sheet of 31 nodes, a graph of 64, and one of size 1,019, each the same in every run.
fn sheets() -> (Sheet, Sheet, Sheet) {
    let random = &mut Random::new(7);
    let setting = Setting { d: 2, n: 100, store: 0x8006, lengths: [WINDOW_BYTES; 2] };
    let bare = setting.sheet(setting.bare(random, 16));
    let graph = setting.sheet(setting.graph(random, 64, setting.offset(), false));
    let long = setting.sheet(setting.graph_of_size(random, 1019, setting.offset()));
    (bare, graph, long)
}

fn rows() -> Vec<Row> {
    let (bare, graph, long) = sheets();
    let bare_printed = printed(100, 0x8006).bare();
    let mut rows = vec![
        reading("the printed sheet", SHEETS[0].as_bytes()),
        reading("64 nodes", &text(&lines(&graph))),
        handed("plain loop, printed sheet, n = 4,096", &[Call::Plain], &printed(4096, 0x8006), 0, 10),
        handed("check, 64 nodes", &[Call::Check], &graph, 0, 2_000),
        handed("offset check, 64 nodes", &[Call::OffsetCheck], &graph, 0, 2_000),
        handed("translate, printed sheet", &[Call::Translate], &printed(100, 0x8006), 0, 200),
        handed("translate, G = 1,019", &[Call::Translate], &long, 0, 50),
    ];
    for (rule, name) in ["ZERO", "EAGER", "LAZY", "DOMINANT"].into_iter().enumerate() {
        rows.push(handed(&format!("place by {name}, 31 nodes"), &[Call::Place], &bare, rule as u64, 1_000));
        rows.push(handed(&format!("one step by {name}, printed sheet"), &[Call::Plan], &bare_printed, rule as u64, 200));
    }
    rows
}

/// Nanoseconds a call; its tables are those that the calls before it left.
pub fn round(row: &Row, calls: &Calls) -> f64 {
    let mut tables = row.case.tables.clone();
    let start = Instant::now();
    for _ in 0..row.times {
        black_box(tables.call(row.case.calls[0], black_box(calls), black_box(&row.case)));
    }
    start.elapsed().as_nanos() as f64 / f64::from(row.times)
}

/// A table of every row whose call is there.
pub fn print(names: [&str; 2], calls: [Calls; 2], there: &[Call]) {
    println!("\nNanoseconds a call, best of {ROUNDS} rounds.\n");
    println!("| call | {} | {} | ratio |", names[0], names[1]);
    println!("|---|---|---|---|");
    for row in rows().iter().filter(|row| there.contains(&row.case.calls[0])) {
        let [one, other] = [&calls[0], &calls[1]].map(|calls| observe(calls, &row.case));
        assert!(one == other, "{}: not the same", row.name);
        let mut best = [f64::INFINITY; 2];
        for _ in 0..ROUNDS {
            for (best, calls) in best.iter_mut().zip(&calls) {
                *best = best.min(round(row, calls));
            }
        }
        println!("| {} | {:.0} | {:.0} | {:.2} |", row.name, best[0], best[1], best[0] / best[1]);
    }
}
