//! Loops that pass every check: document 01's printed sheet, placed, and random ones. They give the machine's tests and the
//! benchmark translated programs.

use crate::graph::{Node, Sheet};
use crate::machine::largest;
use crate::random::Random;

/// A load and the shift that brings it to an offset, if it needs one.
fn load_shifted(window: u64, address: u64, to: u64) -> Vec<Node> {
    let from = address % 16;
    let load = Node::Load { window, address };
    if from == to {
        vec![load]
    } else {
        vec![load, Node::Shift { from, to }]
    }
}

/// Document 01's printed sheet, placed by LAZY, with another n and store address: its offset must stay 6. With n = 4,096 the
/// printed address would be CARRY.
pub fn printed(n: u64, store: u64) -> Sheet {
    let (first, second, third) = (load_shifted(1, 0x0002, 6), load_shifted(0, 0x000A, 6), load_shifted(0, 0x0102, 6));
    let add = vec![Node::Op(0)];
    Sheet { d: 2, n, store, nodes: [first, second, add.clone(), third, add].concat() }
}

/// A loop that passes every check with windows of so many bytes, each load brought to the store's offset by no shift, by
/// one or by two.
pub fn random(random: &mut Random, length: usize) -> Sheet {
    let d = random.pick(&[1, 2, 4, 8]);
    let most = (length as u64 / d).min(4096);
    let n = match random.below(4) {
        0 => random.below(3),
        1 => random.below(most + 1),
        _ => random.below(most.min(40) + 1),
    };
    let last = (length as u64 - n * d) / d;
    let store = random.below(last + 1) * d;
    let ops = random.below(5);
    let mut sheet = Sheet { d, n, store, nodes: Vec::new() };
    add_tree(random, &mut sheet, ops, last);
    sheet
}

fn add_tree(random: &mut Random, sheet: &mut Sheet, ops: u64, last: u64) {
    if ops > 0 {
        let before = random.below(ops);
        let operation = random.below(6);
        add_tree(random, sheet, before, last);
        add_tree(random, sheet, ops - 1 - before, last);
        sheet.nodes.push(Node::Op(operation));
    } else if random.one_in(5) {
        sheet.nodes.push(Node::Splat(random.number() & largest(sheet.d)));
    } else {
        add_load(random, sheet, last);
    }
}

fn add_load(random: &mut Random, sheet: &mut Sheet, last: u64) {
    let (mut window, address) = (random.below(2), random.below(last + 1) * sheet.d);
    if address < sheet.store && sheet.store < address + sheet.bytes() {
        // in work this would be CARRY
        window = 1;
    }
    let to = sheet.offset();
    let between = random.below(16 / sheet.d) * sheet.d;
    let first_to = if random.one_in(3) { between } else { to };
    sheet.nodes.extend(load_shifted(window, address, first_to));
    if first_to != to {
        sheet.nodes.push(Node::Shift { from: first_to, to });
    }
}
