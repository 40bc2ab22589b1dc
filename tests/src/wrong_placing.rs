//! Wrong placing rules.

use crate::graph::{line, Checking, Node, Sheet};
use crate::machine::{refused, Document};
use crate::placing::{Part, Placing, DOMINANT, EAGER, LAZY, ZERO};
use crate::{wrong_calls, Answer, BARE, RANGE};

/// The document's placing by one rule in another's place.
fn exchanged(rule: u64, wrong: u64, taken: u64, sheet: &Sheet) -> Sheet {
    Document::placed(if rule == wrong { taken } else { rule }, sheet)
}

wrong_calls! { placing, Placing, [place];
    RuleFour {
        fn rule(rule: u64) -> Result<(), Answer> {
            Document::rule(rule.saturating_sub(1))
        }
    }
    RuleByItsLowByte {
        fn rule(rule: u64) -> Result<(), Answer> {
            Document::rule(rule % 256)
        }
    }
    RuleAtLineOne {
        fn rule(rule: u64) -> Result<(), Answer> {
            Document::rule(rule).map_err(|_| refused(RANGE, 1))
        }
    }
    RuleAfterTheTables {
        fn placing(rule: u64, head: &[u64], nodes: &[u64]) -> Result<Sheet, Answer> {
            Self::checked(head, nodes)?;
            Document::placing(rule, head, nodes)
        }
    }
    Bare32 {
        fn bare_most() -> usize {
            32
        }
    }
    Bare30 {
        fn bare_most() -> usize {
            30
        }
    }
    BareShiftFirst {
        fn bare(sheet: &Sheet) -> Result<(), Answer> {
            match sheet.nodes.iter().position(|node| matches!(node, Node::Shift { .. })) {
                Some(k) => Err(refused(BARE, line(k))),
                None => Document::bare(sheet),
            }
        }
    }
    BareAtTheEnd {
        fn bare(sheet: &Sheet) -> Result<(), Answer> {
            Document::bare(sheet).map_err(|_| refused(BARE, line(sheet.nodes.len() - 1)))
        }
    }
    AlignmentBeforeBare {
        fn placing_judged(sheet: &Sheet) -> Result<(), Answer> {
            Self::alignment(sheet)?;
            Self::bare(sheet)
        }
    }
    AlignmentUnjudged {
        fn placing_judged(sheet: &Sheet) -> Result<(), Answer> {
            Self::bare(sheet)
        }
    }
    BoundsJudged {
        fn placing_judged(sheet: &Sheet) -> Result<(), Answer> {
            Document::placing_judged(sheet)?;
            Self::bounds(sheet, [65_536; 2])
        }
    }
    CarryJudged {
        fn placing_judged(sheet: &Sheet) -> Result<(), Answer> {
            Document::placing_judged(sheet)?;
            Self::carry(sheet)
        }
    }
    ZeroIsEager {
        fn placed(rule: u64, sheet: &Sheet) -> Sheet {
            exchanged(rule, ZERO, EAGER, sheet)
        }
    }
    EagerIsLazy {
        fn placed(rule: u64, sheet: &Sheet) -> Sheet {
            exchanged(rule, EAGER, LAZY, sheet)
        }
    }
    LazyIsEager {
        fn placed(rule: u64, sheet: &Sheet) -> Sheet {
            exchanged(rule, LAZY, EAGER, sheet)
        }
    }
    LazyIsDominant {
        fn placed(rule: u64, sheet: &Sheet) -> Sheet {
            exchanged(rule, LAZY, DOMINANT, sheet)
        }
    }
    DominantIsLazy {
        fn placed(rule: u64, sheet: &Sheet) -> Sheet {
            exchanged(rule, DOMINANT, LAZY, sheet)
        }
    }
    EagerToZero {
        fn placed_load(rule: u64, c: u64, load: Node, offset: u64) -> Part {
            Document::placed_load(rule, if rule == EAGER { 0 } else { c }, load, offset)
        }
    }
    ZeroLeavesLoadsAtTheStoresOffset {
        fn placed_load(rule: u64, c: u64, load: Node, offset: u64) -> Part {
            Document::placed_load(if rule == ZERO && offset == c { LAZY } else { rule }, c, load, offset)
        }
    }
    TableLoadsStay {
        fn placed_load(rule: u64, c: u64, load: Node, offset: u64) -> Part {
            let table = matches!(load, Node::Load { window: 1, .. });
            Document::placed_load(if table { LAZY } else { rule }, c, load, offset)
        }
    }
    AgreeingInputsMoved {
        fn placed_op(rule: u64, target: u64, op: Node, left: Part, right: Part) -> Part {
            if matches!(rule, LAZY | DOMINANT) {
                let (left, right) = (Self::moved(left, target), Self::moved(right, target));
                return Document::placed_op(rule, target, op, left, right);
            }
            Document::placed_op(rule, target, op, left, right)
        }
    }
    OnlyTheRightInputMoved {
        fn placed_op(rule: u64, target: u64, op: Node, left: Part, right: Part) -> Part {
            let target = match (left.offset, right.offset) {
                (Some(left), Some(_)) if rule == LAZY => left,
                _ => target,
            };
            Document::placed_op(rule, target, op, left, right)
        }
    }
    OffsetLostBesideASplat {
        fn placed_op(rule: u64, target: u64, op: Node, left: Part, right: Part) -> Part {
            let splat = left.offset.is_none();
            let part = Document::placed_op(rule, target, op, left, right);
            if splat { Part { offset: None, ..part } } else { part }
        }
    }
    RootStays {
        fn placed_root(root: Part, _: u64) -> Part {
            root
        }
    }
    LoneLoadStays {
        fn placed_root(root: Part, c: u64) -> Part {
            if root.nodes.len() == 1 { root } else { Document::placed_root(root, c) }
        }
    }
    ShiftsInARowJoined {
        fn moved(mut part: Part, to: u64) -> Part {
            if let (Some(&Node::Shift { from, .. }), Some(offset)) = (part.nodes.last(), part.offset) {
                if offset != to {
                    part.nodes.pop();
                    part.offset = Some(from);
                }
            }
            Document::moved(part, to)
        }
    }
    ShiftNowherePut {
        fn moved(mut part: Part, to: u64) -> Part {
            if part.offset == Some(to) {
                part.nodes.push(Node::Shift { from: to, to });
            }
            Document::moved(part, to)
        }
    }
    SplatsShifted {
        fn moved(mut part: Part, to: u64) -> Part {
            if part.offset.is_none() && to != 0 {
                part.offset = Some(0);
            }
            Document::moved(part, to)
        }
    }
    TieToTheLargest {
        fn most_met(met: &[u64; 16]) -> u64 {
            let most = met.iter().max();
            met.iter().rposition(|count| Some(count) == most).unwrap_or(0) as u64
        }
    }
    TieToTheStore {
        fn dominant(sheet: &Sheet) -> u64 {
            let counted = Self::counted(sheet);
            let met = |offset: u64| counted.iter().filter(|&&counted| counted == offset).count();
            let dominant = Document::dominant(sheet);
            if met(sheet.offset()) == met(dominant) { sheet.offset() } else { dominant }
        }
    }
    DominantWithoutTheStore {
        fn counted(sheet: &Sheet) -> Vec<u64> {
            let mut counted = Document::counted(sheet);
            counted.pop();
            counted
        }
    }
    DominantOfStoreTwice {
        fn counted(sheet: &Sheet) -> Vec<u64> {
            let mut counted = Document::counted(sheet);
            counted.push(sheet.offset());
            counted
        }
    }
    DominantOfWorkOnly {
        fn counted(sheet: &Sheet) -> Vec<u64> {
            let loads = sheet.loads().filter(|&(_, window, _)| window == 0).map(|(_, _, address)| address % 16);
            loads.chain([sheet.offset()]).collect()
        }
    }
    DominantOfDifferentAddresses {
        fn counted(sheet: &Sheet) -> Vec<u64> {
            let mut addresses: Vec<_> = sheet.loads().map(|(_, window, address)| (window, address)).collect();
            addresses.sort();
            addresses.dedup();
            addresses.into_iter().map(|(_, address)| address % 16).chain([sheet.offset()]).collect()
        }
    }
}
