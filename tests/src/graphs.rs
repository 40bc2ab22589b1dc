//! Bare sheets for the four placing rules, drawn graphs for the translator, and whole ways from a sheet to memory: placed or
//! drawn, translated, run, and compared with the plain loop.

use crate::calls::Call;
use crate::cases::{Budget, Case, Family, Lent};
use crate::graph::{Node, Sheet};
use crate::random::Random;
use crate::sheets::{lines, tables, text, Setting};

pub const FAMILIES: &[Family] = &[
    Family { name: "bare sheets", cases: 40_000, make: bare_sheets },
    Family { name: "not bare", cases: 12_000, make: not_bare },
    Family { name: "graphs", cases: 40_000, make: graphs },
    Family { name: "offsets broken", cases: 40_000, make: offsets_broken },
    Family { name: "graphs too long", cases: 6_000, make: graphs_too_long },
    Family { name: "placed, translated and run", cases: 30_000, make: placed_and_run },
    Family { name: "planned and run", cases: 30_000, make: planned_and_run },
    Family { name: "drawn, translated and run", cases: 30_000, make: drawn_and_run },
    Family { name: "read, planned and run", cases: 10_000, make: read_and_run },
];

fn case(random: &mut Random, calls: &'static [Call], sheet: &Sheet, lengths: [u64; 2]) -> Case {
    let (head, nodes) = tables(random, sheet);
    Case::handed(random, calls, (&head, &nodes), lengths)
}

/// One to 31 nodes: 16 leaves are the most.
fn bare_sheet(random: &mut Random, setting: &Setting) -> Sheet {
    let leaves = random.pick(&[1, 1, 2, 2, 3, 3, 4, 5, 6, 8, 12, 15, 16]);
    setting.sheet(setting.bare(random, leaves))
}

fn bare_sheets(random: &mut Random, number: u64) -> Case {
    const CALLS: [&[Call]; 2] = [&[Call::Place], &[Call::Plan]];
    let setting = Setting::random(random);
    let sheet = bare_sheet(random, &setting);
    let mut case = case(random, CALLS[number as usize % 2], &sheet, setting.lengths);
    if random.one_in(30) {
        case.rule = random.pick(&[4, 5, 7, 256, u64::MAX]);
    }
    case
}

/// 31 to 35 nodes, and a shift before or behind the 32nd.
fn not_bare(random: &mut Random, number: u64) -> Case {
    const CALLS: [&[Call]; 2] = [&[Call::Place], &[Call::Plan]];
    let setting = Setting::random(random);
    let leaves = random.pick(&[1, 2, 3, 15, 16, 17, 18]);
    let mut sheet = setting.sheet(setting.bare(random, leaves));
    for _ in 0..random.pick(&[0, 1, 1, 1, 2]) {
        let at = 1 + random.below(sheet.nodes.len() as u64) as usize;
        sheet.nodes.insert(at, Node::Shift { from: 0, to: 8 });
    }
    if random.one_in(10) {
        sheet.store ^= 1;
    }
    case(random, CALLS[number as usize % 2], &sheet, setting.lengths)
}

fn graph(random: &mut Random, setting: &Setting) -> Sheet {
    let size = random.pick(&[1, 1, 2, 3, 4, 5, 6, 7, 8, 10, 14, 20, 30]);
    setting.sheet(setting.graph(random, size, setting.offset(), false))
}

fn graphs(random: &mut Random, number: u64) -> Case {
    const CALLS: [&[Call]; 3] = [&[Call::Translate], &[Call::Translate], &[Call::OffsetCheck]];
    let setting = Setting::random(random);
    let sheet = graph(random, &setting);
    case(random, CALLS[number as usize % 3], &sheet, setting.lengths)
}

/// Graphs with one to three offsets changed: of a load, of a shift, of the store; or with a splat in a load's place, which
/// agrees with everything but is no child of a shift.
fn offsets_broken(random: &mut Random, number: u64) -> Case {
    const CALLS: [&[Call]; 2] = [&[Call::Translate], &[Call::OffsetCheck]];
    let setting = Setting::random(random);
    let mut sheet = graph(random, &setting);
    for _ in 0..random.pick(&[1, 1, 1, 2, 3]) {
        let k = random.below(sheet.nodes.len() as u64) as usize;
        let offset = setting.any_offset(random);
        sheet.nodes[k] = match sheet.nodes[k] {
            Node::Load { .. } if random.one_in(3) => setting.splat(random),
            Node::Load { .. } | Node::Splat(_) => setting.load(random, offset),
            Node::Shift { to, .. } if random.one_in(2) => Node::Shift { from: setting.other_offset(random, to), to },
            Node::Shift { from, .. } => Node::Shift { from, to: setting.other_offset(random, from) },
            op => op,
        };
    }
    if random.one_in(6) {
        sheet.store = setting.any_offset(random);
    }
    case(random, CALLS[number as usize % 2], &sheet, setting.lengths)
}

/// G at and around the edge, and far above it.
fn graphs_too_long(random: &mut Random, _: u64) -> Case {
    let setting = Setting::random(random);
    let g = random.pick(&[511, 767, 1015, 1017, 1019, 1019, 1021, 1021, 1023, 2043, 2047, 4093]);
    let mut nodes = setting.graph_of_size(random, g, setting.offset());
    if random.one_in(4) {
        // up to 2^64 - 1
        nodes = chain(random, &setting);
    }
    case(random, &[Call::Translate], &setting.sheet(nodes), setting.lengths)
}

/// A load under 7 to 63 shifts.
fn chain(random: &mut Random, setting: &Setting) -> Vec<Node> {
    let shifts = random.pick(&[7, 8, 9, 31, 32, 62, 63]);
    let mut from = setting.any_offset(random);
    let mut nodes = vec![setting.load(random, from)];
    for k in 0..shifts {
        let to = if k == shifts - 1 && from != setting.offset() { setting.offset() } else { from ^ 8 };
        nodes.push(Node::Shift { from, to });
        from = to;
    }
    nodes
}

/// Mostly enough, else one less, one more, none, or any.
fn budget(random: &mut Random) -> Budget {
    let any = random.below(300);
    let cut = random.between(-40, 0);
    let budgets = [
        Budget::Steps(0),
        Budget::Steps(1),
        Budget::Steps(any),
        Budget::Whole(-1),
        Budget::Whole(cut),
        Budget::Whole(1),
        Budget::Whole(0),
    ];
    if random.one_in(4) {
        random.pick(&budgets)
    } else {
        Budget::Steps(u64::MAX)
    }
}

fn whole_way(random: &mut Random, calls: &'static [Call], sheet: &Sheet, lengths: [u64; 2]) -> Case {
    let mut case = case(random, calls, sheet, lengths);
    case.budget = budget(random);
    case
}

fn placed_and_run(random: &mut Random, _: u64) -> Case {
    let setting = Setting::random(random);
    let sheet = bare_sheet(random, &setting);
    whole_way(random, &[Call::Place, Call::Translate, Call::Run, Call::Plain], &sheet, setting.lengths)
}

fn planned_and_run(random: &mut Random, _: u64) -> Case {
    let setting = Setting::random(random);
    let sheet = bare_sheet(random, &setting);
    whole_way(random, &[Call::Plan, Call::Run, Call::Plain], &sheet, setting.lengths)
}

fn drawn_and_run(random: &mut Random, _: u64) -> Case {
    let setting = Setting::random(random);
    let sheet = graph(random, &setting);
    whole_way(random, &[Call::Check, Call::OffsetCheck, Call::Translate, Call::Run, Call::Plain], &sheet, setting.lengths)
}

fn read_and_run(random: &mut Random, _: u64) -> Case {
    let setting = Setting::random(random);
    let sheet = bare_sheet(random, &setting);
    let mut case = whole_way(random, &[Call::Read, Call::Plan, Call::Run, Call::Plain], &sheet, setting.lengths);
    case.tables.text = Lent::new(&text(&lines(&sheet)));
    case
}
