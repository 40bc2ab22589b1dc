//! Sheets and graphs handed over as tables: the checks 3, 4 and 6 to 11 of document 01, the offset rules, and the tree that the
//! postfix order stands for. The readings of docs/DECISIONS.md are those taken here.
//!
//! What is marked `#[inline(never)]`, here and in the files beside this, would otherwise be copied into its callers for each wrong
//! implementation, and the compiler takes half as long again.

use crate::machine::{largest, refused};
use crate::tables::{Lending, NODES_MOST, NODE_ENTRIES};
use crate::{Answer, ALIGN, BOUNDS, CARRY, DONE, LONG, OFFSET, RANGE, ROOM, SHAPE, WINDOW};

#[derive(Clone, Copy, Debug, PartialEq, Eq)]
pub enum Node {
    Load { window: u64, address: u64 },
    Splat(u64),
    Op(u64),
    Shift { from: u64, to: u64 },
}

/// A row of a node table: kind, x, y.
pub type NodeRow = [u64; 3];

impl Node {
    pub fn row(self) -> NodeRow {
        match self {
            Node::Load { window, address } => [1, window, address],
            Node::Splat(value) => [2, value, 0],
            Node::Op(operation) => [3, operation, 0],
            Node::Shift { from, to } => [4, from, to],
        }
    }
}

/// A header and its nodes in postfix order.
#[derive(Clone, Debug)]
pub struct Sheet {
    pub d: u64,
    pub n: u64,
    pub store: u64,
    pub nodes: Vec<Node>,
}

/// "The header is line 1", and node k, from 0, is line k + 2.
pub fn line(node: usize) -> u64 {
    node as u64 + 2
}

/// A node's offset: a number of bytes, or undefined.
pub type Offset = Option<u64>;

impl Sheet {
    /// c
    pub fn offset(&self) -> u64 {
        self.store % 16
    }

    /// nD
    pub fn bytes(&self) -> u64 {
        self.n * self.d
    }

    pub fn head(&self) -> [u64; 4] {
        [self.d, self.n, self.store, self.nodes.len() as u64]
    }

    pub fn rows(&self) -> Vec<u64> {
        self.nodes.iter().flat_map(|node| node.row()).collect()
    }

    /// Without its shifts.
    pub fn bare(mut self) -> Sheet {
        self.nodes.retain(|node| !matches!(node, Node::Shift { .. }));
        self
    }

    /// Line, window and address of each load.
    pub fn loads(&self) -> impl Iterator<Item = (u64, u64, u64)> + '_ {
        self.nodes.iter().enumerate().filter_map(|(k, node)| match *node {
            Node::Load { window, address } => Some((line(k), window, address)),
            _ => None,
        })
    }
}

/// A sheet as far as its lines are known, and how many of its nodes wait.
pub struct Growing {
    pub sheet: Sheet,
    pub waiting: usize,
}

impl Growing {
    /// Where the next node or the end stands.
    pub fn line(&self) -> u64 {
        line(self.sheet.nodes.len())
    }
}

pub trait Checking: Lending {
    // ---- 3 and 4

    /// "as if read, right after ROOM": a sheet's tables, which have room, line by line
    #[inline(never)]
    fn checked(head: &[u64], rows: &[u64]) -> Result<Sheet, Answer> {
        let mut growing = Self::header(head[0], head[1], head[2])?;
        let count = head[3];
        for row in rows.chunks_exact(NODE_ENTRIES).take(count.min(Self::nodes_most() as u64) as usize) {
            Self::add(&mut growing, [row[0], row[1], row[2]])?;
        }
        Self::end(&growing, count)?;
        Ok(growing.sheet)
    }

    fn header(d: u64, n: u64, store: u64) -> Result<Growing, Answer> {
        if !Self::header_in_range(d, n, store) {
            return Err(refused(RANGE, 1));
        }
        Ok(Growing { sheet: Sheet { d, n, store, nodes: Vec::new() }, waiting: 0 })
    }

    /// One node more; "on one line 2 before 3 before 4".
    #[inline(never)]
    fn add(growing: &mut Growing, row: NodeRow) -> Result<(), Answer> {
        let line = growing.line();
        let node = Self::node(growing.sheet.d, row).ok_or(refused(RANGE, line))?;
        growing.waiting = Self::shaped(growing, node).ok_or(refused(SHAPE, line))?;
        growing.sheet.nodes.push(node);
        Ok(())
    }

    /// "not one waiting at the end, or a wrong node number"
    fn end(growing: &Growing, count: u64) -> Result<(), Answer> {
        let fine = growing.waiting == 1 && count == growing.sheet.nodes.len() as u64;
        if fine {
            Ok(())
        } else {
            Err(refused(SHAPE, growing.line()))
        }
    }

    fn header_in_range(d: u64, n: u64, store: u64) -> bool {
        matches!(d, 1 | 2 | 4 | 8) && n <= 4096 && Self::address_in_range(store)
    }

    /// The node of a row; none is RANGE, an unknown kind too.
    fn node(d: u64, [kind, x, y]: NodeRow) -> Option<Node> {
        match kind {
            1 => (x <= 1 && Self::address_in_range(y)).then_some(Node::Load { window: x, address: y }),
            2 => Self::splat_in_range(d, x).then_some(Node::Splat(x)),
            3 => Self::operation_in_range(x).then_some(Node::Op(x)),
            4 => Self::shift_in_range(d, x, y).then_some(Node::Shift { from: x, to: y }),
            _ => None,
        }
    }

    /// two bytes
    fn address_in_range(address: u64) -> bool {
        address <= 0xFFFF
    }

    /// "below 2^(8D)"
    fn splat_in_range(d: u64, value: u64) -> bool {
        value <= largest(d)
    }

    /// "0 to 5"
    fn operation_in_range(operation: u64) -> bool {
        operation <= 5
    }

    /// "From and to are at most 15, multiples of D, and differ."
    fn shift_in_range(d: u64, from: u64, to: u64) -> bool {
        from <= 15 && to <= 15 && from % d == 0 && to % d == 0 && from != to
    }

    /// How many wait behind one more node; none is SHAPE.
    fn shaped(growing: &Growing, node: Node) -> Option<usize> {
        if growing.sheet.nodes.len() == Self::nodes_most() {
            return None;
        }
        Self::waiting(growing.waiting, node)
    }

    /// "1 to 64 of them"
    fn nodes_most() -> usize {
        NODES_MOST
    }

    /// "an op takes the last two nodes that wait ..; a shift takes the last one"
    fn waiting(before: usize, node: Node) -> Option<usize> {
        match node {
            Node::Load { .. } | Node::Splat(_) => Some(before + 1),
            Node::Op(_) => (before >= 2).then(|| before - 1),
            Node::Shift { .. } => (before >= 1).then_some(before),
        }
    }

    // ---- 6 to 9

    /// "a window length not allowed (work first; place 0 or 1)"
    fn windows(lengths: [u64; 2]) -> Result<(), Answer> {
        match lengths.into_iter().position(|length| !Self::window_allowed(length)) {
            Some(window) => Err(refused(WINDOW, window as u64)),
            None => Ok(()),
        }
    }

    fn window_allowed(length: u64) -> bool {
        length <= 65_536 && length.is_multiple_of(16)
    }

    /// "an address not a multiple of D"; "the store (line 1) comes before the nodes"
    #[inline(never)]
    fn alignment(sheet: &Sheet) -> Result<(), Answer> {
        if !Self::aligned(sheet.d, sheet.store) {
            return Err(refused(ALIGN, 1));
        }
        let mut loads = sheet.loads();
        match loads.find(|&(_, _, address)| !Self::aligned(sheet.d, address)) {
            Some((line, ..)) => Err(refused(ALIGN, line)),
            None => Ok(()),
        }
    }

    fn aligned(d: u64, address: u64) -> bool {
        address.is_multiple_of(d)
    }

    /// "address + nD beyond its window"
    #[inline(never)]
    fn bounds(sheet: &Sheet, lengths: [u64; 2]) -> Result<(), Answer> {
        if Self::beyond(sheet, sheet.store, lengths[0]) {
            return Err(refused(BOUNDS, 1));
        }
        let mut loads = sheet.loads();
        match loads.find(|&(_, window, address)| Self::beyond(sheet, address, lengths[window as usize])) {
            Some((line, ..)) => Err(refused(BOUNDS, line)),
            None => Ok(()),
        }
    }

    fn beyond(sheet: &Sheet, address: u64, length: u64) -> bool {
        address + sheet.bytes() > length
    }

    #[inline(never)]
    fn carry(sheet: &Sheet) -> Result<(), Answer> {
        let mut loads = sheet.loads();
        match loads.find(|&(_, window, address)| Self::carried(sheet, window, address)) {
            Some((line, ..)) => Err(refused(CARRY, line)),
            None => Ok(()),
        }
    }

    /// "a work load with A < S < A+nD"
    fn carried(sheet: &Sheet, window: u64, address: u64) -> bool {
        window == 0 && address < sheet.store && sheet.store < address + sheet.bytes()
    }

    // ---- 10 and 11

    /// "In 7 and 8 the store (line 1) comes before the nodes, in 10 after them."
    #[inline(never)]
    fn offsets(sheet: &Sheet) -> Result<(), Answer> {
        let mut waiting: Vec<Offset> = Vec::new();
        for (k, &node) in sheet.nodes.iter().enumerate() {
            let offset = Self::node_offset(&mut waiting, node).ok_or(refused(OFFSET, line(k)))?;
            waiting.push(offset);
        }
        let root = last(&mut waiting);
        if Self::agree(root, Some(sheet.offset())) {
            Ok(())
        } else {
            Err(refused(OFFSET, 1))
        }
    }

    /// A node's offset from those that wait, of which it takes its inputs'; none where a rule is broken.
    fn node_offset(waiting: &mut Vec<Offset>, node: Node) -> Option<Offset> {
        match node {
            Node::Load { address, .. } => Some(Some(address % 16)),
            Node::Splat(_) => Some(None),
            Node::Op(_) => {
                let right = last(waiting);
                let left = last(waiting);
                Self::agree(left, right).then(|| Self::op_offset(left, right))
            }
            Node::Shift { from, to } => Self::shiftable(last(waiting), from).then_some(Some(to)),
        }
    }

    /// "undefined agrees with everything"
    fn agree(one: Offset, other: Offset) -> bool {
        one.is_none() || other.is_none() || one == other
    }

    /// "its offset is the defined one if either is, else undefined"
    fn op_offset(left: Offset, right: Offset) -> Offset {
        left.or(right)
    }

    /// "A shift's child must have a defined offset equal to from"
    fn shiftable(child: Offset, from: u64) -> bool {
        child == Some(from)
    }

    fn length(sheet: &Sheet) -> Result<(), Answer> {
        if Self::too_long(size(&sheet.nodes)) {
            Err(refused(LONG, 0))
        } else {
            Ok(())
        }
    }

    /// "G above 1,020"
    fn too_long(g: u128) -> bool {
        g > 1020
    }
}

/// What waits last. The check of the shape has seen that something does.
pub fn last<T>(waiting: &mut Vec<T>) -> T {
    waiting.pop().expect("an op has two inputs and a shift has one")
}

/// "Size G: load or splat 1, op left + right + 1, shift 2·child + 1." Sixty-three shifts make it 2^64 - 1.
pub fn size(nodes: &[Node]) -> u128 {
    let mut waiting: Vec<u128> = Vec::new();
    for node in nodes {
        let size = match node {
            Node::Load { .. } | Node::Splat(_) => 1,
            Node::Op(_) => last(&mut waiting) + last(&mut waiting) + 1,
            Node::Shift { .. } => 2 * last(&mut waiting) + 1,
        };
        waiting.push(size);
    }
    last(&mut waiting)
}

/// What the postfix order stands for.
pub enum Tree {
    Load { window: u64, address: u64 },
    Splat(u64),
    Op { operation: u64, left: Box<Tree>, right: Box<Tree> },
    Shift { from: u64, to: u64, child: Box<Tree> },
}

/// "an op takes the last two nodes that wait, the earlier as its left; a shift takes the last one"
pub fn tree(nodes: &[Node]) -> Tree {
    let mut waiting: Vec<Tree> = Vec::new();
    for node in nodes {
        let tree = match *node {
            Node::Load { window, address } => Tree::Load { window, address },
            Node::Splat(value) => Tree::Splat(value),
            Node::Op(operation) => {
                let right = Box::new(last(&mut waiting));
                Tree::Op { operation, left: Box::new(last(&mut waiting)), right }
            }
            Node::Shift { from, to } => Tree::Shift { from, to, child: Box::new(last(&mut waiting)) },
        };
        waiting.push(tree);
    }
    last(&mut waiting)
}

/// The sheet of lent tables, by ROOM, 3 and 4.
pub fn handed<R: Checking>(head: &[u64], nodes: &[u64]) -> Result<Sheet, Answer> {
    if !R::sheet_fits(head, nodes) {
        return Err(refused(ROOM, 0));
    }
    R::checked(head, nodes)
}

/// The answer of a call that leaves nothing.
pub fn answer(result: Result<(), Answer>) -> Answer {
    result.err().unwrap_or(refused(DONE, 0))
}

/// The call that checks tables.
pub fn check<R: Checking>(head: &[u64], nodes: &[u64]) -> Answer {
    answer(handed::<R>(head, nodes).map(|_| ()))
}

/// The offset check: ROOM, 3, 4, then 10.
pub fn offset_check<R: Checking>(head: &[u64], nodes: &[u64]) -> Answer {
    answer(handed::<R>(head, nodes).and_then(|sheet| R::offsets(&sheet)))
}
