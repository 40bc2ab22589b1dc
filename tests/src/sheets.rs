//! Random sheets for the cases: headers at the edges of F and e, trees of every shape, loads near the store, and graphs with
//! shifts that keep the offset rules. What a sheet becomes, a text or tables, is at the end.

use crate::graph::{Node, Sheet};
use crate::machine::largest;
use crate::random::Random;
use crate::tables::{HEAD_ENTRIES, NODES_MOST, NODE_ENTRIES};

pub const WIDTHS: [u64; 4] = [1, 2, 4, 8];

/// A header with windows that its loop fits, and the loads that fit them.
pub struct Setting {
    pub d: u64,
    pub n: u64,
    pub store: u64,
    pub lengths: [u64; 2],
}

impl Setting {
    pub fn random(random: &mut Random) -> Setting {
        let d = random.pick(&WIDTHS);
        let b = 16 / d;
        let p = random.below(b);
        let n = edge_n(random, b, p);
        // room for the loop at every offset, so that an address can be found for each
        let lengths = [0; 2].map(|_: u64| {
            let slack = random.pick(&[16, 16, 32, 32, 64, 256]);
            let least = (n * d).next_multiple_of(16) + slack;
            if random.one_in(40) {
                65_536
            } else {
                least
            }
        });
        let mut setting = Setting { d, n, store: 0, lengths };
        setting.store = setting.address(random, 0, p * d);
        setting
    }

    pub fn offset(&self) -> u64 {
        self.store % 16
    }

    pub fn any_offset(&self, random: &mut Random) -> u64 {
        random.below(16 / self.d) * self.d
    }

    pub fn other_offset(&self, random: &mut Random, than: u64) -> u64 {
        (than + self.d * (1 + random.below(16 / self.d - 1))) % 16
    }

    /// An address of the offset at which the loop fits the window, at times the first or the last.
    pub fn address(&self, random: &mut Random, window: u64, offset: u64) -> u64 {
        let last = (self.lengths[window as usize] - self.n * self.d - offset) / 16;
        let any = random.below(last + 1);
        let near = (self.store / 16 + random.below(3)).saturating_sub(1).min(last);
        offset + 16 * random.pick(&[0, last, any, near, near])
    }

    /// A load of the offset; seldom one that is CARRY.
    pub fn load(&self, random: &mut Random, offset: u64) -> Node {
        let window = random.below(2);
        let address = self.address(random, window, offset);
        let carried = window == 0 && address < self.store && self.store < address + self.n * self.d;
        if carried && !random.one_in(20) {
            return Node::Load { window: 1, address: self.address(random, 1, offset) };
        }
        Node::Load { window, address }
    }

    pub fn splat(&self, random: &mut Random) -> Node {
        let any = random.number() & largest(self.d);
        Node::Splat(random.pick(&[0, 1, largest(self.d), largest(self.d) / 2, largest(self.d) / 2 + 1, any, any]))
    }

    pub fn sheet(&self, nodes: Vec<Node>) -> Sheet {
        Sheet { d: self.d, n: self.n, store: self.store, nodes }
    }

    /// A tree of so many leaves without a shift. Few offsets, so that loads often agree and DOMINANT has ties.
    pub fn bare(&self, random: &mut Random, leaves: u64) -> Vec<Node> {
        let offsets = [0; 3].map(|_: u64| self.any_offset(random));
        let splats = random.pick(&[2, 5, 5, 100]);
        self.bare_tree(random, leaves, &offsets, splats)
    }

    fn bare_tree(&self, random: &mut Random, leaves: u64, offsets: &[u64], splats: u64) -> Vec<Node> {
        if leaves == 1 {
            if random.one_in(splats) {
                return vec![self.splat(random)];
            }
            let offset = if random.one_in(4) { self.offset() } else { random.pick(offsets) };
            return vec![self.load(random, offset)];
        }
        let any = 1 + random.below(leaves - 1);
        let before = random.pick(&[1, leaves - 1, any, any]);
        let mut nodes = self.bare_tree(random, before, offsets, splats);
        nodes.extend(self.bare_tree(random, leaves - before, offsets, splats));
        nodes.push(Node::Op(random.below(6)));
        nodes
    }

    /// A graph of so many nodes whose root agrees with the offset, with shifts at any depth; if it must be, its offset is
    /// defined.
    pub fn graph(&self, random: &mut Random, nodes: u64, offset: u64, defined: bool) -> Vec<Node> {
        if nodes == 1 {
            return if !defined && random.one_in(4) { vec![self.splat(random)] } else { vec![self.load(random, offset)] };
        }
        if nodes == 2 || random.one_in(4) {
            let from = self.other_offset(random, offset);
            let mut graph = self.graph(random, nodes - 1, from, true);
            graph.push(Node::Shift { from, to: offset });
            return graph;
        }
        let any = 1 + random.below(nodes - 2);
        let before = random.pick(&[1, nodes - 2, any, any]);
        let left_defined = random.one_in(2);
        let mut graph = self.graph(random, before, offset, defined && left_defined);
        graph.extend(self.graph(random, nodes - 1 - before, offset, defined && !left_defined));
        graph.push(Node::Op(random.below(6)));
        graph
    }

    /// A graph of size G, which is odd, with shifts wherever they fit: so it has few nodes.
    pub fn graph_of_size(&self, random: &mut Random, g: u64, offset: u64) -> Vec<Node> {
        if g == 1 {
            return vec![self.load(random, offset)];
        }
        let child = (g - 1) / 2;
        if child % 2 == 1 {
            let from = self.other_offset(random, offset);
            let mut graph = self.graph_of_size(random, child, from);
            graph.push(Node::Shift { from, to: offset });
            return graph;
        }
        // one input is of a size 2^k - 1, which is all shifts
        let chain = (child + 1).next_power_of_two() - 1;
        let (left, right) = if random.one_in(2) { (chain, g - 1 - chain) } else { (g - 1 - chain, chain) };
        let mut graph = self.graph_of_size(random, left, offset);
        graph.extend(self.graph_of_size(random, right, offset));
        graph.push(Node::Op(random.below(6)));
        graph
    }
}

/// n at and around every edge of F and e, with p elements before it in the first vector.
fn edge_n(random: &mut Random, b: u64, p: u64) -> u64 {
    let f = random.pick(&[0, 1, 1, 2, 2, 3, 4, 6]);
    let e = random.pick(&[0, 0, 1, b - 1]);
    let around = (b * f + e).saturating_sub(p);
    let few = random.below(40);
    match random.below(40) {
        0 => 0,
        1 => 1,
        2 => 100,
        3 => random.pick(&[4096, 4095, 4096 - p]),
        4..10 => few,
        _ => around,
    }
}

/// The text of a sheet, line by line.
pub fn lines(sheet: &Sheet) -> Vec<String> {
    let mut lines = vec![format!("00{:02X}{:04X}{:04X}", sheet.d, sheet.n, sheet.store)];
    lines.extend(sheet.nodes.iter().map(|node| match node {
        Node::Load { window, address } => format!("01{window:02X}{address:04X}"),
        Node::Splat(value) => format!("02{value:016X}"),
        Node::Op(operation) => format!("03{operation:02X}"),
        Node::Shift { from, to } => format!("04{from:02X}{to:02X}"),
    }));
    lines.push(format!("05{:02X}", sheet.nodes.len()));
    lines
}

pub fn text(lines: &[String]) -> Vec<u8> {
    lines.iter().flat_map(|line| [line.as_bytes(), b"\n"]).flatten().copied().collect()
}

/// The tables of a sheet: head and nodes, at times longer than they need to be and with junk wherever nothing is read.
pub fn tables(random: &mut Random, sheet: &Sheet) -> (Vec<u64>, Vec<u64>) {
    let (mut head, mut nodes) = (sheet.head().to_vec(), sheet.rows());
    let junk = random.one_in(2);
    if junk {
        for (row, node) in nodes.chunks_mut(NODE_ENTRIES).zip(&sheet.nodes) {
            if matches!(node, Node::Splat(_) | Node::Op(_)) {
                row[2] = random.number();
            }
        }
    }
    let (more_head, more_nodes) = random.pick(&[(0, 0), (0, 0), (0, 0), (1, 1), (5, 108)]);
    let mut entry = || if junk { random.pick(&[0, 1, 2, 3, 4, 5, u64::MAX]) } else { 0 };
    head.resize_with(HEAD_ENTRIES + more_head, &mut entry);
    nodes.resize_with((NODE_ENTRIES * NODES_MOST).max(nodes.len()) + more_nodes, entry);
    (head, nodes)
}
