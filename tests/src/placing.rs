//! The four placing rules of document 01, from the leaves up.

use crate::graph::{last, line, Checking, Node, Offset, Sheet};
use crate::machine::refused;
use crate::sheet::leave;
use crate::{Answer, BARE, RANGE, ROOM};

pub const ZERO: u64 = 0;
pub const EAGER: u64 = 1;
pub const LAZY: u64 = 2;
pub const DOMINANT: u64 = 3;

/// A subtree with its shifts, in postfix order, and its offset.
pub struct Part {
    pub nodes: Vec<Node>,
    pub offset: Offset,
}

pub trait Placing: Checking {
    /// "A placing rule above 3 is RANGE with place 0"
    fn rule(rule: u64) -> Result<(), Answer> {
        if rule > 3 {
            Err(refused(RANGE, 0))
        } else {
            Ok(())
        }
    }

    /// "a bare sheet has no shift and at most 31 nodes"; "place is the first line with a shift or a 32nd node"
    fn bare(sheet: &Sheet) -> Result<(), Answer> {
        let mut nodes = sheet.nodes.iter().enumerate();
        match nodes.find(|&(k, node)| k >= Self::bare_most() || matches!(node, Node::Shift { .. })) {
            Some((k, _)) => Err(refused(BARE, line(k))),
            None => Ok(()),
        }
    }

    fn bare_most() -> usize {
        31
    }

    #[inline(never)]
    fn placed(rule: u64, sheet: &Sheet) -> Sheet {
        let target = Self::op_target(rule, sheet);
        let mut waiting: Vec<Part> = Vec::new();
        for &node in &sheet.nodes {
            let part = match node {
                Node::Load { address, .. } => Self::placed_load(rule, sheet.offset(), node, address % 16),
                Node::Op(_) => {
                    let right = last(&mut waiting);
                    let left = last(&mut waiting);
                    Self::placed_op(rule, target, node, left, right)
                }
                _ => Part { nodes: vec![node], offset: None },
            };
            waiting.push(part);
        }
        let root = Self::placed_root(last(&mut waiting), sheet.offset());
        Sheet { nodes: root.nodes, ..*sheet }
    }

    /// "0 ZERO: each load to 0", "1 EAGER: each load to c"
    fn placed_load(rule: u64, c: u64, load: Node, offset: u64) -> Part {
        let part = Part { nodes: vec![load], offset: Some(offset) };
        match rule {
            ZERO => Self::moved(part, 0),
            EAGER => Self::moved(part, c),
            _ => part,
        }
    }

    /// "2 LAZY: where an op's two offsets disagree, each goes to c", "3 DOMINANT: as LAZY, but .."
    #[inline(never)]
    fn placed_op(rule: u64, target: u64, op: Node, left: Part, right: Part) -> Part {
        let moves = matches!(rule, LAZY | DOMINANT) && !Self::agree(left.offset, right.offset);
        let (left, right) = if moves { (Self::moved(left, target), Self::moved(right, target)) } else { (left, right) };
        let offset = Self::op_offset(left.offset, right.offset);
        Part { nodes: [left.nodes, right.nodes, vec![op]].concat(), offset }
    }

    /// "the root to c"
    fn placed_root(root: Part, c: u64) -> Part {
        Self::moved(root, c)
    }

    /// "A shift goes on an edge only where the offset is defined and changes."
    #[inline(never)]
    fn moved(mut part: Part, to: u64) -> Part {
        if let Some(from) = part.offset.filter(|&from| from != to) {
            part.nodes.push(Node::Shift { from, to });
            part.offset = Some(to);
        }
        part
    }

    fn op_target(rule: u64, sheet: &Sheet) -> u64 {
        if rule == DOMINANT {
            Self::dominant(sheet)
        } else {
            sheet.offset()
        }
    }

    /// "the offset met most often among the loads and the store, the smallest on a tie"
    fn dominant(sheet: &Sheet) -> u64 {
        let mut met = [0; 16];
        for offset in Self::counted(sheet) {
            met[offset as usize] += 1;
        }
        Self::most_met(&met)
    }

    fn counted(sheet: &Sheet) -> Vec<u64> {
        let loads = sheet.loads().map(|(_, _, address)| address % 16);
        loads.chain([sheet.offset()]).collect()
    }

    fn most_met(met: &[u64; 16]) -> u64 {
        let most = met.iter().max();
        (0..16).find(|&offset| Some(&met[offset]) == most).unwrap_or(0) as u64
    }

    /// "A placing rule above 3 .., before these. Then, in order, placing gives 5 and 7"
    fn placing(rule: u64, head: &[u64], nodes: &[u64]) -> Result<Sheet, Answer> {
        Self::rule(rule)?;
        let sheet = Self::checked(head, nodes)?;
        Self::placing_judged(&sheet)?;
        Ok(Self::placed(rule, &sheet))
    }

    fn placing_judged(sheet: &Sheet) -> Result<(), Answer> {
        Self::bare(sheet)?;
        Self::alignment(sheet)
    }
}

/// The call that places.
pub fn place<R: Placing>(rule: u64, head: &[u64], nodes: &[u64], placed_head: &mut [u64], placed_nodes: &mut [u64]) -> Answer {
    let fits = R::sheet_fits(head, nodes) && R::sheet_fits(placed_head, placed_nodes);
    let result = if fits { R::placing(rule, head, nodes) } else { Err(refused(ROOM, 0)) };
    leave::<R>(result, placed_head, placed_nodes)
}
