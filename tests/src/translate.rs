//! The translator of document 01 ("Vector code"): a graph to the three sections of a program, and the one-step call.

use crate::graph::{size, tree, Checking, Sheet, Tree};
use crate::machine::refused;
use crate::placing::Placing;
use crate::rows::{load, op, pair, splat, splice, store};
use crate::{Answer, Row, DONE, ROOM};

/// F and the rows of prologue, body and epilogue.
pub struct Translated {
    pub d: u64,
    pub f: u64,
    pub sections: [Vec<Row>; 3],
}

impl Translated {
    /// D, F and the lengths of the sections.
    pub fn head(&self) -> [u64; 5] {
        let [prologue, body, epilogue] = self.sections.each_ref().map(|rows| rows.len() as u64);
        [self.d, self.f, prologue, body, epilogue]
    }
}

pub trait Translating: Checking {
    /// "translating 6 to 11"
    fn translating_judged(sheet: &Sheet, lengths: [u64; 2]) -> Result<(), Answer> {
        Self::windows(lengths)?;
        Self::alignment(sheet)?;
        Self::bounds(sheet, lengths)?;
        Self::carry(sheet)?;
        Self::offsets(sheet)?;
        Self::length(sheet)
    }

    /// "p = c/D, p+n = B·F + e, 0 ≤ e < B"
    fn counts(sheet: &Sheet) -> (u64, u64) {
        let b = 16 / sheet.d;
        let count = sheet.offset() / sheet.d + sheet.n;
        (count / b, count % b)
    }

    fn translated(sheet: &Sheet) -> Translated {
        let tree = tree(&sheet.nodes);
        let (f, e) = Self::counts(sheet);
        let mut sections = [Vec::new(), Vec::new(), Vec::new()];
        if sheet.n > 0 {
            sections[0] = Self::prologue(sheet, &tree, f);
            if f >= 2 {
                sections[1] = Self::body(sheet, &tree);
            }
            if Self::has_epilogue(f, e) {
                sections[2] = Self::epilogue(sheet, &tree, e);
            }
        }
        Translated { d: sheet.d, f, sections }
    }

    /// "tree, old block, splice(old, new, c), store"; with F = 0 "splice(that, old, c+nD)" before the store
    #[inline(never)]
    fn prologue(sheet: &Sheet, tree: &Tree, f: u64) -> Vec<Row> {
        let c = sheet.offset() as u32;
        let mut rows = Vec::new();
        let new = Self::code(tree, 0, &mut rows);
        let old = put(&mut rows, |k| load(k, 0, sheet.store as i64));
        let mut whole = put(&mut rows, |k| splice(k, old, new, c));
        if f == 0 {
            whole = Self::kept_behind(&mut rows, whole, old, c + sheet.bytes() as u32);
        }
        put(&mut rows, |_| store(whole, sheet.store as i64));
        rows
    }

    fn kept_behind(rows: &mut Vec<Row>, whole: u32, old: u32, end: u32) -> u32 {
        put(rows, |k| splice(k, whole, old, end))
    }

    /// "Body, if F ≥ 2: tree, store"
    #[inline(never)]
    fn body(sheet: &Sheet, tree: &Tree) -> Vec<Row> {
        let mut rows = Vec::new();
        let new = Self::code(tree, Self::lower_bound(sheet), &mut rows);
        put(&mut rows, |_| store(new, sheet.store as i64));
        rows
    }

    /// "The lower bound is equation 12, a whole vector": the passes count from the block that holds S, nothing is added.
    fn lower_bound(_: &Sheet) -> i64 {
        0
    }

    /// "Epilogue, if e > 0", "F ≥ 1"
    fn has_epilogue(f: u64, e: u64) -> bool {
        f >= 1 && e > 0
    }

    /// "tree, old block, splice(new, old, eD), store"
    #[inline(never)]
    fn epilogue(sheet: &Sheet, tree: &Tree, e: u64) -> Vec<Row> {
        let mut rows = Vec::new();
        let new = Self::code(tree, Self::lower_bound(sheet), &mut rows);
        let old = put(&mut rows, |k| load(k, 0, sheet.store as i64));
        let whole = put(&mut rows, |k| splice(k, new, old, (e * sheet.d) as u32));
        put(&mut rows, |_| store(whole, sheet.store as i64));
        rows
    }

    /// The code of a tree with something added to its addresses, behind the rows that are there; the register of its value.
    #[inline(never)]
    fn code(tree: &Tree, added: i64, rows: &mut Vec<Row>) -> u32 {
        match tree {
            Tree::Load { window, address } => put(rows, |k| load(k, *window as u32, *address as i64 + added)),
            Tree::Splat(value) => put(rows, |k| splat(k, *value)),
            Tree::Op { operation, left, right } => {
                let (left, right) = Self::inputs(left, right, added, rows);
                put(rows, |k| op(k, *operation as u32, left, right))
            }
            Tree::Shift { from, to, child } => Self::shift(*from as i64, *to as i64, child, added, rows),
        }
    }

    /// "An op's left input is generated first"
    fn inputs(left: &Tree, right: &Tree, added: i64, rows: &mut Vec<Row>) -> (u32, u32) {
        let left = Self::code(left, added, rows);
        (left, Self::code(right, added, rows))
    }

    /// "Left (from > to): vshiftpair(this, next, from-to) .. Right: vshiftpair(previous, this, 16-(to-from))", "of a shift's two
    /// copies always this" first
    #[inline(never)]
    fn shift(from: i64, to: i64, child: &Tree, added: i64, rows: &mut Vec<Row>) -> u32 {
        let this = Self::code(child, added, rows);
        if from > to {
            let next = Self::code(child, added + 16, rows);
            put(rows, |k| pair(k, this, next, (from - to) as u32))
        } else {
            let previous = Self::code(child, added + Self::previous(), rows);
            put(rows, |k| pair(k, previous, this, (16 - (to - from)) as u32))
        }
    }

    /// "previous has 16 taken off"
    fn previous() -> i64 {
        -16
    }
}

pub trait Planning: Placing + Translating {
    fn planning(rule: u64, head: &[u64], nodes: &[u64], lengths: [u64; 2]) -> Result<Translated, Answer> {
        Self::rule(rule)?;
        let sheet = Self::checked(head, nodes)?;
        let placed = Self::planned(rule, &sheet, lengths)?;
        Ok(Self::translated(&placed))
    }

    /// The placed graph that is translated.
    fn planned(rule: u64, sheet: &Sheet, lengths: [u64; 2]) -> Result<Sheet, Answer> {
        Self::planning_judged(sheet, lengths)?;
        let placed = Self::placed(rule, sheet);
        Self::offsets(&placed)?;
        Self::length(&placed)?;
        Ok(placed)
    }

    /// "with 5 to 9 judged on the bare sheet and its lines"
    fn planning_judged(sheet: &Sheet, lengths: [u64; 2]) -> Result<(), Answer> {
        Self::bare(sheet)?;
        Self::windows(lengths)?;
        Self::alignment(sheet)?;
        Self::bounds(sheet, lengths)?;
        Self::carry(sheet)
    }
}

/// "instruction k .., from 0, writes register k, and a store writes none"
pub fn put(rows: &mut Vec<Row>, row: impl FnOnce(u32) -> Row) -> u32 {
    let k = rows.len() as u32;
    rows.push(row(k));
    k
}

/// "Steps are instructions run: 0 for n = 0, G+4 for F = 0, otherwise the sum above."
pub fn steps<R: Translating>(sheet: &Sheet) -> u64 {
    let g = size(&sheet.nodes) as u64;
    match (sheet.n, R::counts(sheet)) {
        (0, _) => 0,
        (_, (0, _)) => g + 4,
        (_, (f, e)) => (g + 3) + (f - 1) * (g + 1) + if e > 0 { g + 3 } else { 0 },
    }
}

/// Leaves a program in lent tables, or what its refusal leaves.
#[inline(never)]
fn leave<R: Checking>(result: Result<Translated, Answer>, program: &mut [u64], sections: [&mut [u32]; 3]) -> Answer {
    match result {
        Ok(translated) => {
            R::fill(program, &translated.head());
            for (table, rows) in sections.into_iter().zip(&translated.sections) {
                R::fill(table, &rows.concat());
            }
            refused(DONE, 0)
        }
        Err(answer) => {
            R::refuse(program, answer.number);
            for table in sections {
                R::refuse(table, answer.number);
            }
            answer
        }
    }
}

fn translating<R: Translating>(head: &[u64], nodes: &[u64], lengths: [u64; 2]) -> Result<Translated, Answer> {
    let sheet = R::checked(head, nodes)?;
    R::translating_judged(&sheet, lengths)?;
    Ok(R::translated(&sheet))
}

/// The call that translates.
pub fn translate<R: Translating>(
    head: &[u64],
    nodes: &[u64],
    lengths: [u64; 2],
    program: &mut [u64],
    sections: [&mut [u32]; 3],
) -> Answer {
    let fits = R::sheet_fits(head, nodes) && R::program_fits(program, &sections);
    let result = if fits { translating::<R>(head, nodes, lengths) } else { Err(refused(ROOM, 0)) };
    leave::<R>(result, program, sections)
}

/// The one-step call, which places and translates.
pub fn plan<R: Planning>(
    rule: u64,
    head: &[u64],
    nodes: &[u64],
    lengths: [u64; 2],
    program: &mut [u64],
    sections: [&mut [u32]; 3],
) -> Answer {
    let fits = R::sheet_fits(head, nodes) && R::program_fits(program, &sections);
    let result = if fits { R::planning(rule, head, nodes, lengths) } else { Err(refused(ROOM, 0)) };
    leave::<R>(result, program, sections)
}
