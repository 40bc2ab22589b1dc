//! Sheets and graphs handed over as tables, sound and damaged, to every call that takes them.

use crate::calls::Call;
use crate::cases::{Case, Family, Lent};
use crate::graph::{Node, Sheet};
use crate::machine::largest;
use crate::random::Random;
use crate::sheets::{tables, Setting};
use crate::tables::{HEAD_ENTRIES, NODES_MOST, NODE_ENTRIES, PROGRAM_ENTRIES, SECTION_ENTRIES};

pub const FAMILIES: &[Family] = &[
    Family { name: "tables", cases: 18_000, make: sound },
    Family { name: "one field of tables", cases: 60_000, make: one_field },
    Family { name: "two fields of tables", cases: 30_000, make: two_fields },
    Family { name: "rows exchanged", cases: 18_000, make: rows_exchanged },
    Family { name: "counts", cases: 18_000, make: counts },
    Family { name: "table lengths", cases: 12_000, make: table_lengths },
    Family { name: "long outputs", cases: 3_000, make: long_outputs },
];

/// The calls that take a sheet's tables, one case for each in turn.
const TAKERS: [&[Call]; 6] =
    [&[Call::Check], &[Call::OffsetCheck], &[Call::Plain], &[Call::Place], &[Call::Translate], &[Call::Plan]];

fn taker(number: u64) -> &'static [Call] {
    TAKERS[number as usize % TAKERS.len()]
}

/// A sheet that the call does not refuse, most often: bare for those that place.
fn sheet(random: &mut Random, number: u64) -> (Setting, Sheet) {
    let setting = Setting::random(random);
    let places = taker(number).contains(&Call::Place) || taker(number).contains(&Call::Plan);
    let nodes = if places {
        let leaves = random.pick(&[1, 2, 2, 3, 4, 8, 16]);
        setting.bare(random, leaves)
    } else {
        let nodes = random.pick(&[1, 2, 3, 3, 4, 5, 6, 9, 12, 40, 64]);
        setting.graph(random, nodes, setting.offset(), false)
    };
    let sheet = setting.sheet(nodes);
    (setting, sheet)
}

fn handed(random: &mut Random, number: u64, setting: &Setting, head: &[u64], nodes: &[u64]) -> Case {
    let mut case = Case::handed(random, taker(number), (head, nodes), setting.lengths);
    if random.one_in(20) {
        // also where something else is wrong: "before these"
        case.rule = random.pick(&[4, 5, 255, 256, 1 << 32, u64::MAX]);
    }
    case
}

fn sound(random: &mut Random, number: u64) -> Case {
    let (setting, sheet) = sheet(random, number);
    let (head, nodes) = tables(random, &sheet);
    handed(random, number, &setting, &head, &nodes)
}

/// A number at an edge of what an entry of a head may be, on one side or the other.
fn damage_head(random: &mut Random, head: &mut [u64]) {
    let field = random.below(3) as usize;
    head[field] = match field {
        0 => random.pick(&[0, 1, 2, 3, 4, 5, 7, 8, 9, 16, 256 + 1, (1 << 32) + 2, u64::MAX]),
        1 => random.pick(&[0, 1, 4095, 4096, 4097, 65_536, 1 << 32, u64::MAX]),
        _ => random.pick(&[0, 1, 7, 15, 65_535, 65_536, (1 << 32) + 8, u64::MAX]),
    };
}

/// The same for an entry of a row.
fn damage_row(random: &mut Random, d: u64, row: &mut [u64]) {
    const FAR: [u64; 5] = [255, 256, 1 << 16, 1 << 32, u64::MAX];
    let past = largest(d).wrapping_add(1);
    let far = random.pick(&FAR);
    let field = random.below(3) as usize;
    row[field] = match (row[0], field) {
        (_, 0) => random.pick(&[0, 1, 2, 3, 4, 5, 6, 256 + row[0], (1 << 32) + row[0], u64::MAX]),
        (1, 1) => random.pick(&[0, 1, 2, 3, 256, (1 << 32) + 1, u64::MAX]),
        (1, 2) => random.pick(&[0, 1, d - 1, d, 65_535, 65_536, 65_536 + d, (1 << 32) + d, u64::MAX]),
        (2, 1) => random.pick(&[0, largest(d), past, past.wrapping_add(1), past << 1, far]),
        (3, 1) => random.pick(&[0, 1, 2, 3, 4, 5, 6, 7, far]),
        (4, _) => random.pick(&[0, d, 16 - d, 15, 16, 16 + d, d + 1, d / 2, row[1], row[2], far]),
        _ => random.number(),
    };
}

fn damage(random: &mut Random, d: u64, count: usize, head: &mut [u64], nodes: &mut [u64]) {
    if random.one_in(6) {
        return damage_head(random, head);
    }
    let any = random.below(count as u64) as usize;
    let k = random.pick(&[0, any, any, count - 1]);
    damage_row(random, d, &mut nodes[NODE_ENTRIES * k..NODE_ENTRIES * k + NODE_ENTRIES]);
}

fn one_field(random: &mut Random, number: u64) -> Case {
    let (setting, sheet) = sheet(random, number);
    let (mut head, mut nodes) = tables(random, &sheet);
    damage(random, sheet.d, sheet.nodes.len(), &mut head, &mut nodes);
    handed(random, number, &setting, &head, &nodes)
}

/// Two faults on one line or on two, which tells the order of the checks.
fn two_fields(random: &mut Random, number: u64) -> Case {
    let (setting, sheet) = sheet(random, number);
    let (mut head, mut nodes) = tables(random, &sheet);
    for _ in 0..2 {
        damage(random, sheet.d, sheet.nodes.len(), &mut head, &mut nodes);
    }
    handed(random, number, &setting, &head, &nodes)
}

/// Nodes in another order, dropped or doubled: too few wait, or too many at the end.
fn rows_exchanged(random: &mut Random, number: u64) -> Case {
    let (setting, mut sheet) = sheet(random, number);
    let count = sheet.nodes.len() as u64;
    let (one, other) = (random.below(count) as usize, random.below(count) as usize);
    match random.below(5) {
        0 => sheet.nodes.swap(one, other),
        1 => {
            sheet.nodes.remove(one);
        }
        2 => sheet.nodes.insert(one, sheet.nodes[other]),
        3 => sheet.nodes.insert(one, Node::Op(random.pick(&[0, 5, 6]))),
        _ => sheet.nodes.insert(one, Node::Shift { from: 0, to: random.pick(&[0, 8, 16]) }),
    }
    let (head, nodes) = tables(random, &sheet);
    handed(random, number, &setting, &head, &nodes)
}

/// Numbers of nodes that are not the sheet's, and what stands in the rows that they take in or leave out.
fn counts(random: &mut Random, number: u64) -> Case {
    let (setting, mut sheet) = sheet(random, number);
    if random.one_in(2) {
        let nodes = random.pick(&[31, 32, 33, 63, 64, 65, 66]);
        sheet.nodes = setting.graph(random, nodes, setting.offset(), false);
    }
    let (mut head, mut nodes) = tables(random, &sheet);
    let count = sheet.nodes.len() as u64;
    head[3] = random.pick(&[0, 1, count - 1, count, count + 1, 63, 64, 65, 66, 256, 1 << 32, (1 << 32) + count, u64::MAX]);
    if random.one_in(4) {
        let any = random.below(NODES_MOST as u64) as usize;
        damage_row(random, sheet.d, &mut nodes[NODE_ENTRIES * any..NODE_ENTRIES * any + NODE_ENTRIES]);
    }
    handed(random, number, &setting, &head, &nodes)
}

/// Every table around the least room, in sheets that are done and sheets that are not.
fn table_lengths(random: &mut Random, number: u64) -> Case {
    const HEADS: [usize; 4] = [0, 4, HEAD_ENTRIES - 1, HEAD_ENTRIES + 1];
    const NODES: [usize; 5] = [0, 3, 191, 193, 300];
    let (setting, sheet) = sheet(random, number);
    let (mut head, mut nodes) = tables(random, &sheet);
    if random.one_in(3) {
        damage(random, sheet.d, sheet.nodes.len(), &mut head, &mut nodes);
    }
    match random.below(4) {
        0 => head.resize(random.pick(&HEADS), 1),
        1 => nodes.resize(random.pick(&NODES), 1),
        _ => {}
    }
    let mut case = handed(random, number, &setting, &head, &nodes);
    let lent = &mut case.tables;
    if taker(number).contains(&Call::Place) {
        match random.below(3) {
            0 => lent.placed_head = Lent::junk(random.pick(&HEADS)),
            1 => lent.placed_nodes = Lent::junk(random.pick(&NODES)),
            _ => {}
        }
    }
    if !lent.program.is_empty() {
        match random.below(3) {
            0 => lent.program = Lent::junk(random.pick(&[0, 4, 5, 6, 20])),
            1 => {
                let entries = random.pick(&[0, 6, SECTION_ENTRIES - 6, SECTION_ENTRIES - 1, SECTION_ENTRIES + 1]);
                lent.sections[random.below(3) as usize] = Lent::junk(entries);
            }
            _ => {}
        }
    }
    case
}

/// Tables longer than their least room, at each call that writes some.
fn long_outputs(random: &mut Random, number: u64) -> Case {
    let number = 3 + number % 3;
    let (setting, sheet) = sheet(random, number);
    let (mut head, mut nodes) = tables(random, &sheet);
    if random.one_in(3) {
        damage(random, sheet.d, sheet.nodes.len(), &mut head, &mut nodes);
    }
    let mut case = handed(random, number, &setting, &head, &nodes);
    let lent = &mut case.tables;
    if taker(number).contains(&Call::Place) {
        lent.placed_head = Lent::junk(HEAD_ENTRIES + random.below(20) as usize);
        lent.placed_nodes = Lent::junk(NODE_ENTRIES * NODES_MOST + random.below(200) as usize);
    } else {
        lent.program = Lent::junk(PROGRAM_ENTRIES + random.below(8) as usize);
        for section in &mut lent.sections {
            *section = Lent::junk(SECTION_ENTRIES + random.pick(&[0, 1, 5, 6, 7, 600]));
        }
    }
    case
}
