//! How the translator and its code grow: with the nodes of a sheet, with shifts above one another, and with n. What is counted is
//! the same in every run; translating the graph and planning the bare sheet, where there is one, are timed.

use crate::calls::{Call, Calls};
use crate::cases::{keeps_plain_loop, observe};
use crate::graph::{size, Node, Sheet};
use crate::loops::printed;
use crate::machine::Document;
use crate::placing::{Placing, LAZY, ZERO};
use crate::random::Random;
use crate::sheets::Setting;
use crate::synthesized::sum;
use crate::timings::{handed, round, Row, WINDOW_BYTES};
use crate::DONE;

const TRIPS: u64 = 1_000;

/// Enough of them that the least times come again in the next run, also while the machine does other work.
const ROUNDS: usize = 100;

/// Calls in one round.
const TIMES: u32 = 200;

/// A graph with its times, the least so far.
struct Grown {
    name: &'static str,
    graph: Sheet,
    translate: (Row, f64),
    plan: Option<(Row, f64)>,
}

impl Grown {
    fn drawn(name: &'static str, graph: Sheet) -> Grown {
        let translate = handed(name, &[Call::Translate], &graph, 0, TIMES);
        Grown { name, graph, translate: (translate, f64::INFINITY), plan: None }
    }

    fn placed(name: &'static str, rule: u64, bare: &Sheet) -> Grown {
        let plan = handed(name, &[Call::Plan], bare, rule, TIMES);
        Grown { plan: Some((plan, f64::INFINITY)), ..Grown::drawn(name, Document::placed(rule, bare)) }
    }

    fn shifts(&self) -> usize {
        self.graph.nodes.iter().filter(|node| matches!(node, Node::Shift { .. })).count()
    }

    /// The steps of a run, which must leave the plain loop's memory.
    fn steps(&self, calls: &Calls) -> u64 {
        let case = handed(self.name, &[Call::Translate, Call::Run, Call::Plain], &self.graph, 0, 1).case;
        let outcome = observe(calls, &case);
        assert!(outcome.answers.iter().all(|answer| answer.number == DONE), "{}: {:?}", self.name, outcome.answers);
        assert!(keeps_plain_loop(&case, &outcome), "{}: not the plain loop's memory", self.name);
        outcome.answers[1].steps
    }

    fn round(&mut self, calls: &Calls) {
        for (row, best) in [Some(&mut self.translate), self.plan.as_mut()].into_iter().flatten() {
            *best = best.min(round(row, calls));
        }
    }

    fn print(&self, calls: &Calls) {
        let (n, steps, shifts) = (self.graph.n, self.steps(calls), self.shifts());
        let (name, nodes, g) = (self.name, self.graph.nodes.len() - shifts, size(&self.graph.nodes));
        let each = if n > 0 { format!("{:.3}", steps as f64 / n as f64) } else { String::new() };
        let plan = self.plan.as_ref().map_or(String::new(), |(_, best)| format!("{best:.0}"));
        println!("| {name} | {nodes} | {shifts} | {n} | {g} | {steps} | {each} | {:.0} | {plan} |", self.translate.1);
    }
}

/// Loads at offsets 4 and 8 by turns, stored at offset 12.
fn misaligned(loads: u64) -> Sheet {
    sum(4, TRIPS, loads, |reference| if reference == 0 { 12 } else { 8 - 4 * (reference % 2) })
}

/// A load under an even number of shifts, from offset 0 to 8 and back.
fn chain(shifts: u64) -> Sheet {
    let mut nodes = vec![Node::Load { window: 1, address: 0 }];
    nodes.extend((0..shifts).map(|k| Node::Shift { from: 8 * (k % 2), to: 8 - 8 * (k % 2) }));
    Sheet { d: 4, n: TRIPS, store: 0, nodes }
}

/// The largest G, by a graph that has few nodes.
fn largest() -> Sheet {
    let setting = Setting { d: 4, n: TRIPS, store: 0x8004, lengths: [WINDOW_BYTES; 2] };
    setting.sheet(setting.graph_of_size(&mut Random::new(7), 1019, setting.offset()))
}

fn all() -> Vec<Grown> {
    let mut all = Vec::new();
    for (name, rule) in [("a sum by LAZY", LAZY), ("a sum by ZERO", ZERO)] {
        all.extend([1, 2, 4, 8, 16].map(|loads| Grown::placed(name, rule, &misaligned(loads))));
    }
    all.extend([0, 2, 4, 6, 8].map(|shifts| Grown::drawn("a load under shifts", chain(shifts))));
    all.push(Grown::drawn("the largest G", largest()));
    all.extend(
        [0, 1, 10, 100, 1_000, 4_096].map(|n| Grown::placed("the printed sheet by LAZY", LAZY, &printed(n, 0x8006).bare())),
    );
    all
}

pub fn print(calls: &Calls) {
    let mut all = all();
    for _ in 0..ROUNDS {
        all.iter_mut().for_each(|grown| grown.round(calls));
    }
    println!("\nHow translating grows; nanoseconds a call, best of {ROUNDS} rounds, all else counted.\n");
    println!("| graph | nodes | shifts | n | G | steps | steps/n | translate | plan |");
    println!("|---|---|---|---|---|---|---|---|---|");
    all.iter().for_each(|grown| grown.print(calls));
}
