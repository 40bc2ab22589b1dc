//! Wrong translators, and wrong one-step calls.

use crate::graph::{Checking, Sheet, Tree};
use crate::machine::Document;
use crate::placing::Placing;
use crate::rows::{held, pair, splice, store};
use crate::translate::{put, Planning, Translated, Translating};
use crate::{wrong_calls, Answer, Row, BOUNDS};

/// The document's code with something done to every row.
fn each_row(sheet: &Sheet, change: impl Fn(&mut Row, u32)) -> Translated {
    let mut translated = Document::translated(sheet);
    for section in &mut translated.sections {
        section.iter_mut().enumerate().for_each(|(k, row)| change(row, k as u32));
    }
    translated
}

wrong_calls! { code, Translating, [translate];
    EpilogueWithoutRest {
        fn has_epilogue(f: u64, _: u64) -> bool {
            f >= 1
        }
    }
    EpilogueWithoutVectors {
        fn has_epilogue(_: u64, e: u64) -> bool {
            e > 0
        }
    }
    NoEpilogue {
        fn has_epilogue(_: u64, _: u64) -> bool {
            false
        }
    }
    SecondSpliceMissing {
        fn kept_behind(_: &mut Vec<Row>, whole: u32, _: u32, _: u32) -> u32 {
            whole
        }
    }
    SecondSpliceByElements {
        fn prologue(sheet: &Sheet, tree: &Tree, f: u64) -> Vec<Row> {
            let mut rows = Document::prologue(sheet, tree, f);
            if let (0, [.., second, _]) = (f, &mut rows[..]) {
                second[4] = sheet.offset() as u32 + sheet.n as u32;
            }
            rows
        }
    }
    PrologueSpliceExchanged {
        fn prologue(sheet: &Sheet, tree: &Tree, f: u64) -> Vec<Row> {
            let mut rows = Document::prologue(sheet, tree, f);
            let first = rows.len() - if f == 0 { 3 } else { 2 };
            rows[first].swap(2, 3);
            rows
        }
    }
    PrologueWithoutOldBlock {
        fn prologue(sheet: &Sheet, tree: &Tree, f: u64) -> Vec<Row> {
            if sheet.offset() == 0 && f > 0 { Self::body(sheet, tree) } else { Document::prologue(sheet, tree, f) }
        }
    }
    EpilogueSpliceExchanged {
        fn epilogue(sheet: &Sheet, tree: &Tree, e: u64) -> Vec<Row> {
            let mut rows = Document::epilogue(sheet, tree, e);
            let splice = rows.len() - 2;
            rows[splice].swap(2, 3);
            rows
        }
    }
    EpilogueSpliceByElements {
        fn epilogue(sheet: &Sheet, tree: &Tree, e: u64) -> Vec<Row> {
            let mut rows = Document::epilogue(sheet, tree, e);
            let splice = rows.len() - 2;
            rows[splice][4] = e as u32;
            rows
        }
    }
    EpilogueWithoutSplice {
        fn epilogue(sheet: &Sheet, tree: &Tree, _: u64) -> Vec<Row> {
            Self::body(sheet, tree)
        }
    }
    BodyAtOneVector {
        fn translated(sheet: &Sheet) -> Translated {
            let mut translated = Document::translated(sheet);
            if translated.f == 1 {
                translated.sections[1] = Self::body(sheet, &crate::graph::tree(&sheet.nodes));
            }
            translated
        }
    }
    InstructionsWithoutElements {
        fn translated(sheet: &Sheet) -> Translated {
            let one = Document::translated(&Sheet { n: sheet.n.max(1), ..sheet.clone() });
            let f = Self::counts(sheet).0;
            Translated { f, ..one }
        }
    }
    CountsWithoutThePartBefore {
        fn counts(sheet: &Sheet) -> (u64, u64) {
            let b = 16 / sheet.d;
            (sheet.n / b, sheet.n % b)
        }
    }
    CountsRoundedUp {
        fn counts(sheet: &Sheet) -> (u64, u64) {
            let (f, e) = Document::counts(sheet);
            if f > 0 && e > 0 { (f + 1, e) } else { (f, e) }
        }
    }
    CountsOfBytes {
        fn counts(sheet: &Sheet) -> (u64, u64) {
            let count = sheet.offset() + sheet.n;
            (count / 16, count % 16 / sheet.d)
        }
    }
    LowerBoundOfEquation10 {
        fn lower_bound(sheet: &Sheet) -> i64 {
            -(sheet.offset() as i64)
        }
    }
    RightShiftWithoutPrevious {
        fn previous() -> i64 {
            0
        }
    }
    PreviousIsNext {
        fn previous() -> i64 {
            16
        }
    }
    RightShiftAmount {
        fn shift(from: i64, to: i64, child: &Tree, added: i64, rows: &mut Vec<Row>) -> u32 {
            let register = Document::shift(from, to, child, added, rows);
            if from < to {
                rows[register as usize][4] = (to - from) as u32;
            }
            register
        }
    }
    OtherCopyFirst {
        fn shift(from: i64, to: i64, child: &Tree, added: i64, rows: &mut Vec<Row>) -> u32 {
            if from < to {
                return Document::shift(from, to, child, added, rows);
            }
            let next = Self::code(child, added + 16, rows);
            let this = Self::code(child, added, rows);
            put(rows, |k| pair(k, this, next, (from - to) as u32))
        }
    }
    PreviousFirst {
        fn shift(from: i64, to: i64, child: &Tree, added: i64, rows: &mut Vec<Row>) -> u32 {
            if from > to {
                return Document::shift(from, to, child, added, rows);
            }
            let previous = Self::code(child, added - 16, rows);
            let this = Self::code(child, added, rows);
            put(rows, |k| pair(k, previous, this, (16 - (to - from)) as u32))
        }
    }
    PairExchanged {
        fn shift(from: i64, to: i64, child: &Tree, added: i64, rows: &mut Vec<Row>) -> u32 {
            let register = Document::shift(from, to, child, added, rows);
            rows[register as usize].swap(2, 3);
            register
        }
    }
    NestedShiftsForgetTheBlock {
        fn shift(from: i64, to: i64, child: &Tree, _: i64, rows: &mut Vec<Row>) -> u32 {
            let this = Self::code(child, 0, rows);
            let other = Self::code(child, if from > to { 16 } else { -16 }, rows);
            let (first, second) = if from > to { (this, other) } else { (other, this) };
            put(rows, |k| pair(k, first, second, (from - to).rem_euclid(16) as u32))
        }
    }
    RightInputFirst {
        fn inputs(left: &Tree, right: &Tree, added: i64, rows: &mut Vec<Row>) -> (u32, u32) {
            let right = Self::code(right, added, rows);
            (Self::code(left, added, rows), right)
        }
    }
    LeftAndRightExchanged {
        fn inputs(left: &Tree, right: &Tree, added: i64, rows: &mut Vec<Row>) -> (u32, u32) {
            let (left, right) = Document::inputs(left, right, added, rows);
            (right, left)
        }
    }
    AddressesRounded {
        fn translated(sheet: &Sheet) -> Translated {
            each_row(sheet, |row, _| if row[0] == 1 { row[4] -= row[4] % 16 })
        }
    }
    StoreAddressRounded {
        fn translated(sheet: &Sheet) -> Translated {
            each_row(sheet, |row, _| if row[0] == 6 { row[4] -= row[4] % 16 })
        }
    }
    StoreWritesARegister {
        fn translated(sheet: &Sheet) -> Translated {
            each_row(sheet, |row, k| if row[0] == 6 { row[1] = k })
        }
    }
    AddressesInTwosComplement {
        fn translated(sheet: &Sheet) -> Translated {
            each_row(sheet, |row, _| if matches!(row[0], 1 | 6) { row[4] ^= held(0) })
        }
    }
    UpperHalfOfSplatLost {
        fn translated(sheet: &Sheet) -> Translated {
            each_row(sheet, |row, _| if row[0] == 2 { row[5] = 0 })
        }
    }
    SplicesBehindTheStore {
        fn body(sheet: &Sheet, tree: &Tree) -> Vec<Row> {
            let mut rows = Document::body(sheet, tree);
            let value = rows.len() as u32 - 2;
            rows.pop();
            let same = put(&mut rows, |k| splice(k, value, value, 16));
            put(&mut rows, |_| store(same, sheet.store as i64));
            rows
        }
    }
    BoundsBeforeAlignment {
        fn translating_judged(sheet: &Sheet, lengths: [u64; 2]) -> Result<(), Answer> {
            Self::windows(lengths)?;
            Self::bounds(sheet, lengths)?;
            Document::translating_judged(sheet, lengths)
        }
    }
    CarryBeforeBounds {
        fn translating_judged(sheet: &Sheet, lengths: [u64; 2]) -> Result<(), Answer> {
            Self::windows(lengths)?;
            Self::alignment(sheet)?;
            Self::carry(sheet)?;
            Document::translating_judged(sheet, lengths)
        }
    }
    OffsetsBeforeCarry {
        fn translating_judged(sheet: &Sheet, lengths: [u64; 2]) -> Result<(), Answer> {
            Self::windows(lengths)?;
            Self::alignment(sheet)?;
            Self::bounds(sheet, lengths)?;
            Self::offsets(sheet)?;
            Document::translating_judged(sheet, lengths)
        }
    }
    LengthBeforeOffsets {
        fn translating_judged(sheet: &Sheet, lengths: [u64; 2]) -> Result<(), Answer> {
            Self::windows(lengths)?;
            Self::alignment(sheet)?;
            Self::bounds(sheet, lengths)?;
            Self::carry(sheet)?;
            Self::length(sheet)?;
            Document::translating_judged(sheet, lengths)
        }
    }
    BoundsOneElementLate {
        fn translating_judged(sheet: &Sheet, lengths: [u64; 2]) -> Result<(), Answer> {
            Self::windows(lengths)?;
            Document::translating_judged(sheet, lengths).or_else(|answer| match answer.number {
                BOUNDS => Self::bounds(sheet, lengths.map(|length| length + sheet.d)),
                _ => Err(answer),
            })
        }
    }
    WindowsLast {
        fn translating_judged(sheet: &Sheet, lengths: [u64; 2]) -> Result<(), Answer> {
            Self::alignment(sheet)?;
            Document::translating_judged(sheet, lengths)
        }
    }
    NothingJudgedWithoutElements {
        fn translating_judged(sheet: &Sheet, lengths: [u64; 2]) -> Result<(), Answer> {
            Self::windows(lengths)?;
            if sheet.n == 0 { Ok(()) } else { Document::translating_judged(sheet, lengths) }
        }
    }
}

wrong_calls! { planning, Planning, [plan];
    PlanJudgedOnThePlacedGraph {
        fn planning(rule: u64, head: &[u64], nodes: &[u64], lengths: [u64; 2]) -> Result<Translated, Answer> {
            Self::rule(rule)?;
            let sheet = Self::checked(head, nodes)?;
            Self::bare(&sheet)?;
            Self::alignment(&sheet)?;
            let placed = Self::placed(rule, &sheet);
            Self::translating_judged(&placed, lengths)?;
            Ok(Self::translated(&placed))
        }
    }
    PlanTranslatesTheBareSheet {
        fn planning(rule: u64, head: &[u64], nodes: &[u64], lengths: [u64; 2]) -> Result<Translated, Answer> {
            Document::planning(rule, head, nodes, lengths)?;
            Ok(Self::translated(&Self::checked(head, nodes)?))
        }
    }
    PlanByTheNextRule {
        fn planning(rule: u64, head: &[u64], nodes: &[u64], lengths: [u64; 2]) -> Result<Translated, Answer> {
            Document::planning(if rule <= 3 { 3 - rule } else { rule }, head, nodes, lengths)
        }
    }
    PlanJudgesTheRuleLast {
        fn planning(rule: u64, head: &[u64], nodes: &[u64], lengths: [u64; 2]) -> Result<Translated, Answer> {
            Document::planning(0, head, nodes, lengths)?;
            Document::planning(rule, head, nodes, lengths)
        }
    }
    PlanJudgesBareLast {
        fn planning_judged(sheet: &Sheet, lengths: [u64; 2]) -> Result<(), Answer> {
            Self::windows(lengths)?;
            Self::alignment(sheet)?;
            Document::planning_judged(sheet, lengths)
        }
    }
    PlanWithoutCarry {
        fn planning_judged(sheet: &Sheet, lengths: [u64; 2]) -> Result<(), Answer> {
            Self::bare(sheet)?;
            Self::windows(lengths)?;
            Self::alignment(sheet)?;
            Self::bounds(sheet, lengths)
        }
    }
    PlanAlignsBeforeWindows {
        fn planning_judged(sheet: &Sheet, lengths: [u64; 2]) -> Result<(), Answer> {
            Self::bare(sheet)?;
            Self::alignment(sheet)?;
            Document::planning_judged(sheet, lengths)
        }
    }
}
