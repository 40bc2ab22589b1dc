//! Loops and their windows: how a plain loop reads what it wrote, and where windows end. Cases for the plain loop, and for the
//! calls that judge the same addresses.

use crate::calls::Call;
use crate::cases::{Case, Family};
use crate::graph::{Node, Sheet};
use crate::random::Random;
use crate::sheets::{tables, Setting, WIDTHS};

pub const FAMILIES: &[Family] = &[
    Family { name: "plain loops", cases: 16_000, make: plain_loops },
    Family { name: "overlaps", cases: 40_000, make: overlaps },
    Family { name: "ends of windows", cases: 40_000, make: ends_of_windows },
    Family { name: "lengths of windows", cases: 9_600, make: lengths_of_windows },
    Family { name: "checks together", cases: 40_000, make: checks_together },
];

/// The calls that judge windows, one case for each in turn.
const JUDGES: [&[Call]; 3] = [&[Call::Plain], &[Call::Translate], &[Call::Plan]];

fn judged(random: &mut Random, calls: &'static [Call], sheet: &Sheet, lengths: [u64; 2]) -> Case {
    let (head, nodes) = tables(random, sheet);
    Case::handed(random, calls, (&head, &nodes), lengths)
}

/// Graphs and bare sheets of any size; offsets that are wrong do not matter here.
fn plain_loops(random: &mut Random, _: u64) -> Case {
    let setting = Setting::random(random);
    let size: u64 = random.pick(&[1, 2, 3, 4, 5, 7, 10, 20, 40, 64]);
    let offset = setting.any_offset(random);
    let nodes =
        if random.one_in(3) { setting.bare(random, size.div_ceil(2)) } else { setting.graph(random, size, offset, false) };
    judged(random, &[Call::Plain], &setting.sheet(nodes), setting.lengths)
}

/// Loads of work beside the store: at it, one element to either side, one loop to either side, anywhere between.
fn overlaps(random: &mut Random, number: u64) -> Case {
    let d = random.pick(&WIDTHS);
    let n = random.pick(&[0, 1, 2, 2, 3, 7, 16 / d, 16 / d + 1, 33, 100]);
    let bytes = (n * d) as i64;
    let element = d as i64;
    let between = random.between(0, n as i64) * element;
    let beside = [0, 0, element, -element, bytes, -bytes, bytes - element, element - bytes, bytes + element, -bytes - element];
    let store = (2 * bytes + 64 + random.between(0, 16) * element) as u64;
    let load = |random: &mut Random| {
        let by = if random.one_in(4) { between - random.pick(&[0, bytes]) } else { random.pick(&beside) };
        Node::Load { window: random.pick(&[0, 0, 0, 1]), address: store.saturating_add_signed(by) }
    };
    let nodes = match random.below(3) {
        0 => vec![load(random)],
        1 => vec![load(random), load(random), Node::Op(random.below(6))],
        _ => vec![Node::Splat(1), load(random), Node::Op(random.below(2))],
    };
    let length = (store + 3 * n * d + 16).next_multiple_of(16);
    let sheet = Sheet { d, n, store, nodes };
    judged(random, JUDGES[number as usize % 3], &sheet, [length, length])
}

/// A store and loads whose last byte is the window's last, or one element to either side of it, or one byte.
fn ends_of_windows(random: &mut Random, number: u64) -> Case {
    let d = random.pick(&WIDTHS);
    let n = random.pick(&[0, 0, 1, 2, 3, 16 / d - 1, 16 / d, 16 / d + 1, 50, 4096]);
    let least = (n * d).next_multiple_of(16);
    let lengths = [0; 2].map(|_: u64| least + random.pick(&[0, 16, 32, 160]));
    let address = |random: &mut Random, length: u64| {
        let end = length as i64 - (n * d) as i64;
        let element = d as i64;
        let by = random.pick(&[0, 0, 0, 0, 0, -element, -element, element, 1, -1, 16, -16, 2 * element]);
        let first = random.pick(&[0, element, end + by, end + by, end + by]);
        first.max(0) as u64
    };
    let store = address(random, lengths[0]);
    let mut nodes = Vec::new();
    for k in 0..random.pick(&[1, 2, 3]) {
        let window = random.below(2);
        nodes.push(Node::Load { window, address: address(random, lengths[window as usize]) });
        if k > 0 {
            nodes.push(Node::Op(random.below(6)));
        }
    }
    judged(random, JUDGES[number as usize % 3], &Sheet { d, n, store, nodes }, lengths)
}

/// Every two lengths of a list, allowed and not.
fn lengths_of_windows(random: &mut Random, number: u64) -> Case {
    const LENGTHS: [u64; 20] =
        [0, 1, 8, 15, 16, 17, 24, 31, 32, 33, 48, 64, 65_520, 65_528, 65_535, 65_536, 65_537, 65_544, 65_552, 131_072];
    let lengths = [LENGTHS[number as usize % 20], LENGTHS[number as usize / 20 % 20]];
    let d = random.pick(&WIDTHS);
    let sheet = Sheet {
        d,
        n: random.pick(&[0, 1, 2]),
        store: random.pick(&[0, 0, d, 1]),
        nodes: vec![Node::Load { window: random.below(2), address: random.pick(&[0, 0, 0, 16, 65_535]) }],
    };
    let call = JUDGES[number as usize / 400 % 3];
    let mut case = judged(random, call, &sheet, lengths);
    if call != [Call::Plain] && random.one_in(4) {
        case.lengths[random.below(2) as usize] = random.pick(&[1 << 32, (1 << 32) + 16, u64::MAX, u64::MAX - 15]);
    }
    case
}

/// Several of 5 to 11 at once, on any lines, which tells their order.
fn checks_together(random: &mut Random, number: u64) -> Case {
    const CALLS: [&[Call]; 5] = [&[Call::Place], &[Call::Translate], &[Call::Plan], &[Call::Plain], &[Call::OffsetCheck]];
    let setting = Setting::random(random);
    let mut lengths = setting.lengths;
    let size = random.pick(&[1, 2, 3, 5, 7, 12, 31, 35]);
    let nodes = if random.one_in(2) {
        setting.bare(random, size / 2 + 1)
    } else {
        setting.graph(random, size, setting.offset(), false)
    };
    let mut sheet = setting.sheet(nodes);
    for node in &mut sheet.nodes {
        if let (Node::Load { window, address }, true) = (node, random.one_in(4)) {
            match random.below(4) {
                0 => *address ^= random.pick(&[1, 2, 4, 8]),
                1 => *address = random.pick(&[65_535, 65_528, 65_520]),
                2 => (*window, *address) = (0, setting.store.saturating_sub(random.below(40))),
                _ => *window ^= 1,
            }
        }
    }
    if random.one_in(6) {
        sheet.store = random.pick(&[sheet.store ^ 1, sheet.store ^ 8, 65_535, 65_528]);
    }
    if random.one_in(8) {
        lengths[random.below(2) as usize] = random.pick(&[8, 24, 65_552]);
    }
    if random.one_in(4) {
        sheet.n = random.pick(&[0, 1, sheet.n + 1, sheet.n.saturating_sub(1)]).min(4096);
    }
    judged(random, CALLS[number as usize % 5], &sheet, lengths)
}
