//! Machines that are wrong on purpose, each in one rule. The self-check runs every family against every one of them: a test
//! that lets one pass is worth nothing for that rule.

use crate::machine::{
    element, largest, put_element, refused, run, signed, vector_at, Change, Document, Rules, State, Vector, BODY, EPILOGUE,
    PROLOGUE,
};
use crate::{Answer, Head, Row, Run, DONE, FAULT, OUT, ROOM};
use std::cell::RefCell;

/// Machines that follow the document but for the rules given.
macro_rules! wrong {
    ($($name:ident { $($rule:tt)* })*) => {
        $(
            struct $name;
            impl Rules for $name {
                $($rule)*
            }
        )*
    };
}

// ---- before a run

wrong! {
    WindowBeforeRoom {
        fn refusal(head: &Head, tables: [&[u32]; 3], work: usize, table: usize) -> Option<Answer> {
            Self::windows(work, table).or_else(|| Self::room(head, tables)).or_else(|| Self::start(head))
        }
    }
    StartBeforeWindow {
        fn refusal(head: &Head, tables: [&[u32]; 3], work: usize, table: usize) -> Option<Answer> {
            Self::room(head, tables).or_else(|| Self::start(head)).or_else(|| Self::windows(work, table))
        }
    }
    TableBeforeWork {
        fn windows(work: usize, table: usize) -> Option<Answer> {
            Document::windows(0, table).or_else(|| Document::windows(work, 0))
        }
    }
    WindowWithoutPlace {
        fn windows(work: usize, table: usize) -> Option<Answer> {
            Document::windows(work, table).map(|answer| Answer { place: 0, ..answer })
        }
    }
    Room1025 {
        fn fits(rows: u64, entries: usize) -> bool {
            rows <= 1025 && 6 * rows as usize <= entries
        }
    }
    Room1023 {
        fn fits(rows: u64, entries: usize) -> bool {
            rows <= 1023 && 6 * rows as usize <= entries
        }
    }
    RoomForLastRowInPart {
        fn fits(rows: u64, entries: usize) -> bool {
            rows <= 1024 && rows as usize <= entries.div_ceil(6)
        }
    }
    RoomOnlyExact {
        fn fits(rows: u64, entries: usize) -> bool {
            rows <= 1024 && rows as usize == entries / 6
        }
    }
    RoomByTheTableAlone {
        fn fits(rows: u64, entries: usize) -> bool {
            rows.wrapping_mul(6) <= entries as u64
        }
    }
    EpilogueRoomNotAsked {
        fn room(head: &Head, tables: [&[u32]; 3]) -> Option<Answer> {
            let fit = Self::fits(head.prologue, tables[PROLOGUE].len()) && Self::fits(head.body, tables[BODY].len());
            (!fit || head.epilogue > 1024).then_some(refused(ROOM, 0))
        }
    }
    WindowOf65552 {
        fn window_allowed(length: usize) -> bool {
            length.is_multiple_of(16) && length <= 65_552
        }
    }
    WindowBelow65536 {
        fn window_allowed(length: usize) -> bool {
            length.is_multiple_of(16) && length < 65_536
        }
    }
    WindowOfEights {
        fn window_allowed(length: usize) -> bool {
            length.is_multiple_of(8) && length <= 65_536
        }
    }
    WindowOfNothingRefused {
        fn window_allowed(length: usize) -> bool {
            length != 0 && Document::window_allowed(length)
        }
    }
    WidthsOneToEight {
        fn width_known(d: u64) -> bool {
            matches!(d, 1..=8)
        }
    }
    WidthZero {
        fn width_known(d: u64) -> bool {
            Document::width_known(d) || d == 0
        }
        fn operate_lanes(d: u64, operation: u32, left: Vector, right: Vector) -> Vector {
            if d == 0 { left } else { Document::operate_lanes(d, operation, left, right) }
        }
        fn splat_value(d: u64, low: u32, high: u32) -> Option<u64> {
            if d == 0 { None } else { Document::splat_value(d, low, high) }
        }
    }
    WidthByItsLowByte {
        fn width_known(d: u64) -> bool {
            Document::width_known(d % 256)
        }
        fn operate_lanes(d: u64, operation: u32, left: Vector, right: Vector) -> Vector {
            Document::operate_lanes(d % 256, operation, left, right)
        }
        fn splat_value(d: u64, low: u32, high: u32) -> Option<u64> {
            Document::splat_value(d % 256, low, high)
        }
    }
    TurnsOf2049 {
        fn turns_allowed(f: u64) -> bool {
            f <= 2049
        }
    }
    TurnsBelow2048 {
        fn turns_allowed(f: u64) -> bool {
            f < 2048
        }
    }
}

// ---- the order of a run

/// The document's order with other passes for one section.
fn order_with(f: u64, changed: usize, pass: impl Fn(u64) -> u64) -> Vec<(usize, u64)> {
    let order = Document::order(f).into_iter();
    order.map(|(section, j)| (section, if section == changed { pass(j) } else { j })).collect()
}

wrong! {
    OneBodyPassMore {
        fn order(f: u64) -> Vec<(usize, u64)> {
            let mut order = Document::order(f);
            order.insert(order.len() - 1, (BODY, f));
            order
        }
    }
    OneBodyPassLess {
        fn order(f: u64) -> Vec<(usize, u64)> {
            let mut order = Document::order(f);
            order.retain(|&pass| pass != (BODY, f.saturating_sub(1)));
            order
        }
    }
    BodyFromPassZero {
        fn order(f: u64) -> Vec<(usize, u64)> {
            order_with(f, BODY, |j| j - 1)
        }
    }
    BodyAtLeastOnce {
        fn order(f: u64) -> Vec<(usize, u64)> {
            let mut order = Document::order(f);
            if f == 1 {
                order.insert(1, (BODY, 1));
            }
            order
        }
    }
    EpilogueNotAtZero {
        fn order(f: u64) -> Vec<(usize, u64)> {
            let mut order = Document::order(f);
            order.retain(|&(section, _)| section != EPILOGUE || f > 0);
            order
        }
    }
    EpilogueInLastBodyPass {
        fn order(f: u64) -> Vec<(usize, u64)> {
            order_with(f, EPILOGUE, |j| j.saturating_sub(1))
        }
    }
    EpilogueInPassOneAtZero {
        fn order(f: u64) -> Vec<(usize, u64)> {
            order_with(f, EPILOGUE, |j| j.max(1))
        }
    }
    PrologueInPassOne {
        fn order(f: u64) -> Vec<(usize, u64)> {
            order_with(f, PROLOGUE, |_| 1)
        }
    }
    RegistersNotZero {
        fn registers() -> Vec<Vector> {
            vec![[1; 16]; 1024]
        }
    }
    LastRegisterNotZero {
        fn registers() -> Vec<Vector> {
            let mut registers = Document::registers();
            registers[1023] = [1; 16];
            registers
        }
    }
    RegistersOfRunBefore {
        fn registers() -> Vec<Vector> {
            KEPT_REGISTERS.with_borrow(|kept| kept.clone())
        }
        fn change(state: &State, row: Row, j: u64) -> Option<Change> {
            let change = Document::change(state, row, j);
            if let Some(Change::Register(number, vector)) = &change {
                KEPT_REGISTERS.with_borrow_mut(|kept| kept[*number] = *vector);
            }
            change
        }
    }
    FaultBeforeOut {
        fn stop(steps: u64, budget: u64, fault: bool) -> Option<u64> {
            if fault { Some(FAULT) } else { Document::stop(steps, budget, fault) }
        }
    }
    BudgetOneMore {
        fn stop(steps: u64, budget: u64, fault: bool) -> Option<u64> {
            Document::stop(steps, budget.saturating_add(1), fault)
        }
    }
    BudgetOneLess {
        fn stop(steps: u64, budget: u64, fault: bool) -> Option<u64> {
            Document::stop(steps, budget.saturating_sub(1), fault)
        }
    }
    BudgetOf16Bits {
        fn stop(steps: u64, budget: u64, fault: bool) -> Option<u64> {
            Document::stop(steps, budget.min(65_535), fault)
        }
    }
}

thread_local! {
    static KEPT_REGISTERS: RefCell<Vec<Vector>> = RefCell::new(Document::registers());
    static WORK_AT_START: RefCell<Vec<u8>> = const { RefCell::new(Vec::new()) };
}

// ---- one instruction

/// A change that changes nothing.
fn nothing(state: &State) -> Option<Change> {
    Some(Change::Register(0, state.registers[0]))
}

wrong! {
    StoreOutsideIgnored {
        fn change(state: &State, row: Row, j: u64) -> Option<Change> {
            let change = Document::change(state, row, j);
            if row[0] == 6 && row[2] < 1024 && change.is_none() { nothing(state) } else { change }
        }
    }
    UnknownKindIgnored {
        fn change(state: &State, row: Row, j: u64) -> Option<Change> {
            if matches!(row[0], 1..=6) { Document::change(state, row, j) } else { nothing(state) }
        }
    }
    KindZeroIgnored {
        fn change(state: &State, row: Row, j: u64) -> Option<Change> {
            if row[0] == 0 { nothing(state) } else { Document::change(state, row, j) }
        }
    }
    KindSevenStores {
        fn change(state: &State, mut row: Row, j: u64) -> Option<Change> {
            if row[0] == 7 {
                row[0] = 6;
            }
            Document::change(state, row, j)
        }
    }
    KindByItsLowByte {
        fn change(state: &State, mut row: Row, j: u64) -> Option<Change> {
            row[0] %= 256;
            Document::change(state, row, j)
        }
    }
    FieldsOf16Bits {
        fn change(state: &State, mut row: Row, j: u64) -> Option<Change> {
            for field in &mut row[1..4] {
                *field %= 65_536;
            }
            Document::change(state, row, j)
        }
    }
    StoreJudgesDestination {
        fn change(state: &State, row: Row, j: u64) -> Option<Change> {
            if row[0] == 6 && row[1] > 1023 { None } else { Document::change(state, row, j) }
        }
    }
    LoadJudgesB {
        fn change(state: &State, row: Row, j: u64) -> Option<Change> {
            if row[0] == 1 && row[3] > 1023 { None } else { Document::change(state, row, j) }
        }
    }
    SplatJudgesA {
        fn change(state: &State, row: Row, j: u64) -> Option<Change> {
            if row[0] == 2 && row[2] > 1023 { None } else { Document::change(state, row, j) }
        }
    }
    StoreJudgesB {
        fn change(state: &State, row: Row, j: u64) -> Option<Change> {
            if row[0] == 6 && row[3] > 1023 { None } else { Document::change(state, row, j) }
        }
    }
    OpJudgesHigh {
        fn change(state: &State, row: Row, j: u64) -> Option<Change> {
            if row[0] == 3 && row[5] > 0 { None } else { Document::change(state, row, j) }
        }
    }
    SpliceJudgesHigh {
        fn change(state: &State, row: Row, j: u64) -> Option<Change> {
            if row[0] == 5 && row[5] > 0 { None } else { Document::change(state, row, j) }
        }
    }
    AddressWithHigh {
        fn change(state: &State, row: Row, j: u64) -> Option<Change> {
            if matches!(row[0], 1 | 6) && row[5] > 0 { None } else { Document::change(state, row, j) }
        }
    }
    RegisterOfOnlyLeftJudged {
        fn inputs(state: &State, a: u32, b: u32) -> Option<(Vector, Vector)> {
            Some((state.registers[Self::register(a)?], state.registers[b as usize % 1024]))
        }
    }
    LastRegisterFaults {
        fn register(number: u32) -> Option<usize> {
            (number < 1023).then_some(number as usize)
        }
    }
    RegistersWrap {
        fn register(number: u32) -> Option<usize> {
            Some(number as usize % 1024)
        }
    }
    InputsExchanged {
        fn inputs(state: &State, a: u32, b: u32) -> Option<(Vector, Vector)> {
            Document::inputs(state, b, a)
        }
    }
    WindowTwoIsTable {
        fn window<'a>(state: &'a State, number: u32) -> Option<&'a [u8]> {
            Document::window(state, number.min(1))
        }
    }
    WindowsExchanged {
        fn window<'a>(state: &'a State, number: u32) -> Option<&'a [u8]> {
            Document::window(state, number ^ 1)
        }
    }
    LoadsFromWorkAtStart {
        fn change(state: &State, row: Row, j: u64) -> Option<Change> {
            let change = Document::change(state, row, j)?;
            match change {
                Change::Register(number, _) if row[0] == 1 && row[2] == 0 => {
                    let vector = WORK_AT_START.with_borrow(|work| Self::load(work, Self::block(row[4], j)));
                    Some(Change::Register(number, vector))
                }
                change => Some(change),
            }
        }
    }
    AddressTwosComplement {
        fn address(held: u32) -> i64 {
            i64::from(held as i32)
        }
    }
    AddressOf28Bits {
        fn address(held: u32) -> i64 {
            i64::from((held ^ 1 << 31) as i32) << 36 >> 36
        }
    }
    AddressesRoundedToZero {
        fn block(held: u32, j: u64) -> i64 {
            (Self::address(held) + 16 * j as i64) / 16
        }
    }
    AddressesRoundedUp {
        fn block(held: u32, j: u64) -> i64 {
            (Self::address(held) + 16 * j as i64 + 15).div_euclid(16)
        }
    }
    PassCountsBytes {
        fn block(held: u32, j: u64) -> i64 {
            (Self::address(held) + j as i64).div_euclid(16)
        }
    }
    PassOf8Bits {
        fn block(held: u32, j: u64) -> i64 {
            Document::block(held, j % 256)
        }
    }
    PassOf11Bits {
        fn block(held: u32, j: u64) -> i64 {
            Document::block(held, j % 2048)
        }
    }
    LastBlockOutside {
        fn inside(length: usize, block: i64) -> Option<usize> {
            Document::inside(length.saturating_sub(16), block)
        }
    }
    LoadOutsideFaults {
        fn change(state: &State, row: Row, j: u64) -> Option<Change> {
            if row[0] == 1 {
                Self::inside(Self::window(state, row[2])?.len(), Self::block(row[4], j))?;
            }
            Document::change(state, row, j)
        }
    }
    LoadOutsideKeepsRegister {
        fn change(state: &State, row: Row, j: u64) -> Option<Change> {
            let change = Document::change(state, row, j);
            if row[0] == 1 && change.is_some() {
                let window = Self::window(state, row[2])?;
                if Self::inside(window.len(), Self::block(row[4], j)).is_none() {
                    return nothing(state);
                }
            }
            change
        }
    }
    LoadOutsideGivesEdge {
        fn load(window: &[u8], block: i64) -> Vector {
            if window.is_empty() {
                return [0; 16];
            }
            let block = block.clamp(0, window.len() as i64 / 16 - 1);
            vector_at(window, 16 * block as usize)
        }
    }
    LoadOutsideWraps {
        fn load(window: &[u8], block: i64) -> Vector {
            if window.is_empty() {
                return [0; 16];
            }
            vector_at(window, 16 * block.rem_euclid(window.len() as i64 / 16) as usize)
        }
    }
    TableLoadsInWorkBounds {
        fn change(state: &State, row: Row, j: u64) -> Option<Change> {
            let change = Document::change(state, row, j)?;
            let inside = Self::inside(state.work.len(), Self::block(row[4], j)).is_some();
            match change {
                Change::Register(number, _) if row[0] == 1 && !inside => Some(Change::Register(number, [0; 16])),
                change => Some(change),
            }
        }
    }
    StoreNotRounded {
        fn change(state: &State, row: Row, j: u64) -> Option<Change> {
            match Document::change(state, row, j)? {
                Change::Work(at, vector) => {
                    let most = state.work.len() - 16;
                    Some(Change::Work((at + row[4] as usize % 16).min(most), vector))
                }
                change => Some(change),
            }
        }
    }
    LoadNotRounded {
        fn change(state: &State, row: Row, j: u64) -> Option<Change> {
            let change = Document::change(state, row, j)?;
            match change {
                Change::Register(number, _) if row[0] == 1 => {
                    let window = Self::window(state, row[2])?;
                    let Some(at) = Self::inside(window.len(), Self::block(row[4], j)) else {
                        return Some(change);
                    };
                    let at = (at + row[4] as usize % 16).min(window.len() - 16);
                    Some(Change::Register(number, vector_at(window, at)))
                }
                change => Some(change),
            }
        }
    }
    SplatCutToWidth {
        fn splat_value(d: u64, low: u32, high: u32) -> Option<u64> {
            Some((u64::from(high) << 32 | u64::from(low)) & largest(d))
        }
    }
    SplatWithoutHigh {
        fn splat_value(d: u64, low: u32, _: u32) -> Option<u64> {
            Document::splat_value(d, low, 0)
        }
    }
    SplatHighJudgedOnlyBelow4 {
        fn splat_value(d: u64, low: u32, high: u32) -> Option<u64> {
            Document::splat_value(d, low, if d == 4 { 0 } else { high })
        }
    }
    SplatOfLargestFaults {
        fn splat_value(d: u64, low: u32, high: u32) -> Option<u64> {
            Document::splat_value(d, low, high).filter(|&value| value < largest(d))
        }
    }
    OperationSixIsFive {
        fn operation(number: u32) -> Option<u32> {
            (number <= 6).then_some(number)
        }
    }
    OperationFiveFaults {
        fn operation(number: u32) -> Option<u32> {
            (number < 5).then_some(number)
        }
    }
    SignedAsUnsigned {
        fn operate(d: u64, operation: u32, x: u64, y: u64) -> u64 {
            Document::operate(d, if operation > 3 { operation - 2 } else { operation }, x, y)
        }
    }
    UnsignedAsSigned {
        fn operate(d: u64, operation: u32, x: u64, y: u64) -> u64 {
            Document::operate(d, if operation == 2 || operation == 3 { operation + 2 } else { operation }, x, y)
        }
    }
    SignOf8BytesForAll {
        fn operate(d: u64, operation: u32, x: u64, y: u64) -> u64 {
            Document::operate(if operation > 3 { 8 } else { d }, operation, x, y)
        }
    }
    SignedByDifference {
        fn operate(d: u64, operation: u32, x: u64, y: u64) -> u64 {
            let less = signed(d, x.wrapping_sub(y) & largest(d)) < 0;
            match operation {
                4 => if less { x } else { y },
                5 => if less { y } else { x },
                _ => Document::operate(d, operation, x, y),
            }
        }
    }
    MinimumIsMaximum {
        fn operate(d: u64, operation: u32, x: u64, y: u64) -> u64 {
            Document::operate(d, if operation == 2 { 3 } else { operation }, x, y)
        }
    }
    RightMinusLeft {
        fn operate(d: u64, operation: u32, x: u64, y: u64) -> u64 {
            if operation == 1 { Document::operate(d, 1, y, x) } else { Document::operate(d, operation, x, y) }
        }
    }
    SumSaturates {
        fn operate(d: u64, operation: u32, x: u64, y: u64) -> u64 {
            if operation == 0 { x.saturating_add(y).min(largest(d)) } else { Document::operate(d, operation, x, y) }
        }
    }
    DifferenceSaturates {
        fn operate(d: u64, operation: u32, x: u64, y: u64) -> u64 {
            if operation == 1 { x.saturating_sub(y) } else { Document::operate(d, operation, x, y) }
        }
    }
    CarryIntoNextLane {
        fn operate_lanes(d: u64, operation: u32, left: Vector, right: Vector) -> Vector {
            if operation == 0 {
                u128::from_le_bytes(left).wrapping_add(u128::from_le_bytes(right)).to_le_bytes()
            } else {
                Document::operate_lanes(d, operation, left, right)
            }
        }
    }
    BorrowFromNextLane {
        fn operate_lanes(d: u64, operation: u32, left: Vector, right: Vector) -> Vector {
            if operation == 1 {
                u128::from_le_bytes(left).wrapping_sub(u128::from_le_bytes(right)).to_le_bytes()
            } else {
                Document::operate_lanes(d, operation, left, right)
            }
        }
    }
    LastLaneLeftOut {
        fn operate_lanes(d: u64, operation: u32, left: Vector, right: Vector) -> Vector {
            let mut result = Document::operate_lanes(d, operation, left, right);
            let last = 16 / d - 1;
            put_element(d, &mut result, last, element(d, &left, last));
            result
        }
    }
    BigEndianElements {
        fn operate_lanes(d: u64, operation: u32, left: Vector, right: Vector) -> Vector {
            let reversed = |mut vector: Vector| {
                vector.chunks_mut(d as usize).for_each(<[u8]>::reverse);
                vector
            };
            reversed(Document::operate_lanes(d, operation, reversed(left), reversed(right)))
        }
    }
    PairOf16 {
        fn pair_amount(number: u32) -> Option<usize> {
            (number <= 16).then_some(number as usize)
        }
    }
    PairOf15Faults {
        fn pair_amount(number: u32) -> Option<usize> {
            (number < 15).then_some(number as usize)
        }
    }
    PairByLowFourBits {
        fn pair_amount(number: u32) -> Option<usize> {
            Some(number as usize % 16)
        }
    }
    PairExchanged {
        fn shift_pair(first: Vector, second: Vector, l: usize) -> Vector {
            Document::shift_pair(second, first, l)
        }
    }
    PairShiftsLeft {
        fn shift_pair(first: Vector, second: Vector, l: usize) -> Vector {
            if l == 0 { first } else { Document::shift_pair(first, second, 16 - l) }
        }
    }
    PairInPlace {
        fn change(state: &State, row: Row, j: u64) -> Option<Change> {
            let change = Document::change(state, row, j)?;
            match change {
                Change::Register(number, mut vector) if row[0] == 4 && row[1] == row[3] => {
                    for k in 16 - row[4] as usize..16 {
                        vector[k] = vector[k + row[4] as usize - 16];
                    }
                    Some(Change::Register(number, vector))
                }
                change => Some(change),
            }
        }
    }
    SpliceOf17 {
        fn splice_amount(number: u32) -> Option<usize> {
            (number <= 17).then_some(number.min(16) as usize)
        }
    }
    SpliceOf16Faults {
        fn splice_amount(number: u32) -> Option<usize> {
            (number < 16).then_some(number as usize)
        }
    }
    SpliceEndsSwapped {
        fn splice(first: Vector, second: Vector, l: usize) -> Vector {
            match l {
                0 => first,
                16 => second,
                _ => Document::splice(first, second, l),
            }
        }
    }
    SpliceExchanged {
        fn splice(first: Vector, second: Vector, l: usize) -> Vector {
            Document::splice(second, first, l)
        }
    }
}

// ---- whole runs

fn registers_cleared_between_sections(
    head: &Head,
    prologue: &[u32],
    body: &[u32],
    epilogue: &[u32],
    work: &mut [u8],
    table: &[u8],
    budget: u64,
) -> Answer {
    if let Some(refusal) = Document::refusal(head, [prologue, body, epilogue], work.len(), table.len()) {
        return refusal;
    }
    let none = Head { prologue: 0, body: 0, epilogue: 0, ..*head };
    let parts =
        [Head { prologue: head.prologue, ..none }, Head { body: head.body, ..none }, Head { epilogue: head.epilogue, ..none }];
    let mut steps = 0;
    for part in parts {
        let answer = run::<Document>(&part, prologue, body, epilogue, work, table, budget - steps);
        steps += answer.steps;
        if answer.number != DONE {
            return Answer { steps, ..answer };
        }
    }
    Answer { number: DONE, place: 0, steps }
}

fn work_remembered(
    head: &Head,
    prologue: &[u32],
    body: &[u32],
    epilogue: &[u32],
    work: &mut [u8],
    table: &[u8],
    budget: u64,
) -> Answer {
    WORK_AT_START.set(work.to_vec());
    run::<LoadsFromWorkAtStart>(head, prologue, body, epilogue, work, table, budget)
}

/// The document's run, and then a wrong end to it.
macro_rules! wrong_end {
    ($($name:ident($head:ident, $work:ident, $before:ident, $budget:ident, $answer:ident) $end:block)*) => {
        $(
            fn $name(
                $head: &Head,
                prologue: &[u32],
                body: &[u32],
                epilogue: &[u32],
                $work: &mut [u8],
                table: &[u8],
                $budget: u64,
            ) -> Answer {
                let $before = $work.to_vec();
                let $answer = run::<Document>($head, prologue, body, epilogue, $work, table, $budget);
                $end
            }
        )*
    };
}

wrong_end! {
    exact_budget_is_out(_head, work, _before, budget, answer) {
        if answer.number == DONE && answer.steps == budget { Answer { number: OUT, ..answer } } else { answer }
    }
    fault_counts_a_step(_head, work, _before, _budget, answer) {
        if answer.number == FAULT { Answer { steps: answer.steps + 1, ..answer } } else { answer }
    }
    budget_before_start_fault(head, work, _before, budget, answer) {
        let at_start = answer.number == FAULT && Document::start(head).is_some();
        if at_start && budget == 0 { Answer { number: OUT, ..answer } } else { answer }
    }
    empty_program_has_no_start_fault(head, work, _before, _budget, answer) {
        let empty = [head.prologue, head.body, head.epilogue] == [0; 3];
        if answer.number == FAULT && empty { Answer { number: DONE, ..answer } } else { answer }
    }
    steps_of_16_bits(_head, work, _before, _budget, answer) {
        Answer { steps: answer.steps % 65_536, ..answer }
    }
    steps_not_counted_on_out(_head, work, _before, _budget, answer) {
        if answer.number == OUT { Answer { steps: 0, ..answer } } else { answer }
    }
    stores_undone_on_out(_head, work, before, _budget, answer) {
        if answer.number == OUT {
            work.copy_from_slice(&before);
        }
        answer
    }
    stores_undone_on_fault(_head, work, before, _budget, answer) {
        if answer.number == FAULT {
            work.copy_from_slice(&before);
        }
        answer
    }
    fault_touches_work(_head, work, _before, _budget, answer) {
        if let (FAULT, Some(last)) = (answer.number, work.last_mut()) {
            *last ^= 1;
        }
        answer
    }
    refusal_touches_work(_head, work, _before, _budget, answer) {
        if let (1..=11, Some(first)) = (answer.number, work.first_mut()) {
            *first ^= 1;
        }
        answer
    }
}

/// Judges every row in the first pass of its section, before the first step.
fn faults_judged_ahead(
    head: &Head,
    prologue: &[u32],
    body: &[u32],
    epilogue: &[u32],
    work: &mut [u8],
    table: &[u8],
    budget: u64,
) -> Answer {
    let tables = [prologue, body, epilogue];
    if let Some(refusal) = Document::refusal(head, tables, work.len(), table.len()) {
        return refusal;
    }
    let rows = [head.prologue, head.body, head.epilogue];
    let state = State { d: head.d, registers: Document::registers(), work: &mut *work, table };
    for (section, j) in [(PROLOGUE, 0), (BODY, 1), (EPILOGUE, head.f)] {
        for row in tables[section].chunks_exact(6).take(rows[section] as usize) {
            let row = [row[0], row[1], row[2], row[3], row[4], row[5]];
            if Document::change(&state, row, j).is_none() {
                return refused(FAULT, 0);
            }
        }
    }
    run::<Document>(head, prologue, body, epilogue, work, table, budget)
}

/// Every wrong machine by its name.
pub const WRONG: [(&str, Run); 109] = [
    ("window before room", run::<WindowBeforeRoom>),
    ("start before window", run::<StartBeforeWindow>),
    ("table before work", run::<TableBeforeWork>),
    ("window without place", run::<WindowWithoutPlace>),
    ("room 1025", run::<Room1025>),
    ("room 1023", run::<Room1023>),
    ("room for last row in part", run::<RoomForLastRowInPart>),
    ("room only exact", run::<RoomOnlyExact>),
    ("room by the table alone", run::<RoomByTheTableAlone>),
    ("epilogue room not asked", run::<EpilogueRoomNotAsked>),
    ("window of 65552", run::<WindowOf65552>),
    ("window below 65536", run::<WindowBelow65536>),
    ("window of eights", run::<WindowOfEights>),
    ("window of nothing refused", run::<WindowOfNothingRefused>),
    ("widths one to eight", run::<WidthsOneToEight>),
    ("width zero", run::<WidthZero>),
    ("width by its low byte", run::<WidthByItsLowByte>),
    ("turns of 2049", run::<TurnsOf2049>),
    ("turns below 2048", run::<TurnsBelow2048>),
    ("one body pass more", run::<OneBodyPassMore>),
    ("one body pass less", run::<OneBodyPassLess>),
    ("body from pass zero", run::<BodyFromPassZero>),
    ("body at least once", run::<BodyAtLeastOnce>),
    ("epilogue not at zero", run::<EpilogueNotAtZero>),
    ("epilogue in last body pass", run::<EpilogueInLastBodyPass>),
    ("epilogue in pass one at zero", run::<EpilogueInPassOneAtZero>),
    ("prologue in pass one", run::<PrologueInPassOne>),
    ("registers not zero", run::<RegistersNotZero>),
    ("last register not zero", run::<LastRegisterNotZero>),
    ("registers of run before", run::<RegistersOfRunBefore>),
    ("fault before out", run::<FaultBeforeOut>),
    ("budget one more", run::<BudgetOneMore>),
    ("budget one less", run::<BudgetOneLess>),
    ("budget of 16 bits", run::<BudgetOf16Bits>),
    ("store outside ignored", run::<StoreOutsideIgnored>),
    ("unknown kind ignored", run::<UnknownKindIgnored>),
    ("kind zero ignored", run::<KindZeroIgnored>),
    ("kind seven stores", run::<KindSevenStores>),
    ("kind by its low byte", run::<KindByItsLowByte>),
    ("fields of 16 bits", run::<FieldsOf16Bits>),
    ("store judges destination", run::<StoreJudgesDestination>),
    ("load judges b", run::<LoadJudgesB>),
    ("splat judges a", run::<SplatJudgesA>),
    ("store judges b", run::<StoreJudgesB>),
    ("op judges high", run::<OpJudgesHigh>),
    ("splice judges high", run::<SpliceJudgesHigh>),
    ("address with high", run::<AddressWithHigh>),
    ("register of only left judged", run::<RegisterOfOnlyLeftJudged>),
    ("last register faults", run::<LastRegisterFaults>),
    ("registers wrap", run::<RegistersWrap>),
    ("inputs exchanged", run::<InputsExchanged>),
    ("window two is table", run::<WindowTwoIsTable>),
    ("windows exchanged", run::<WindowsExchanged>),
    ("loads from work at start", work_remembered),
    ("address twos complement", run::<AddressTwosComplement>),
    ("address of 28 bits", run::<AddressOf28Bits>),
    ("addresses rounded to zero", run::<AddressesRoundedToZero>),
    ("addresses rounded up", run::<AddressesRoundedUp>),
    ("pass counts bytes", run::<PassCountsBytes>),
    ("pass of 8 bits", run::<PassOf8Bits>),
    ("pass of 11 bits", run::<PassOf11Bits>),
    ("last block outside", run::<LastBlockOutside>),
    ("load outside faults", run::<LoadOutsideFaults>),
    ("load outside keeps register", run::<LoadOutsideKeepsRegister>),
    ("load outside gives edge", run::<LoadOutsideGivesEdge>),
    ("load outside wraps", run::<LoadOutsideWraps>),
    ("table loads in work bounds", run::<TableLoadsInWorkBounds>),
    ("store not rounded", run::<StoreNotRounded>),
    ("load not rounded", run::<LoadNotRounded>),
    ("splat cut to width", run::<SplatCutToWidth>),
    ("splat without high", run::<SplatWithoutHigh>),
    ("splat high judged only below 4", run::<SplatHighJudgedOnlyBelow4>),
    ("splat of largest faults", run::<SplatOfLargestFaults>),
    ("operation six is five", run::<OperationSixIsFive>),
    ("operation five faults", run::<OperationFiveFaults>),
    ("signed as unsigned", run::<SignedAsUnsigned>),
    ("unsigned as signed", run::<UnsignedAsSigned>),
    ("sign of 8 bytes for all", run::<SignOf8BytesForAll>),
    ("signed by difference", run::<SignedByDifference>),
    ("minimum is maximum", run::<MinimumIsMaximum>),
    ("right minus left", run::<RightMinusLeft>),
    ("sum saturates", run::<SumSaturates>),
    ("difference saturates", run::<DifferenceSaturates>),
    ("carry into next lane", run::<CarryIntoNextLane>),
    ("borrow from next lane", run::<BorrowFromNextLane>),
    ("last lane left out", run::<LastLaneLeftOut>),
    ("big endian elements", run::<BigEndianElements>),
    ("pair of 16", run::<PairOf16>),
    ("pair of 15 faults", run::<PairOf15Faults>),
    ("pair by low four bits", run::<PairByLowFourBits>),
    ("pair exchanged", run::<PairExchanged>),
    ("pair shifts left", run::<PairShiftsLeft>),
    ("pair in place", run::<PairInPlace>),
    ("splice of 17", run::<SpliceOf17>),
    ("splice of 16 faults", run::<SpliceOf16Faults>),
    ("splice ends swapped", run::<SpliceEndsSwapped>),
    ("splice exchanged", run::<SpliceExchanged>),
    ("registers cleared between sections", registers_cleared_between_sections),
    ("exact budget is out", exact_budget_is_out),
    ("fault counts a step", fault_counts_a_step),
    ("budget before start fault", budget_before_start_fault),
    ("empty program has no start fault", empty_program_has_no_start_fault),
    ("steps of 16 bits", steps_of_16_bits),
    ("steps not counted on out", steps_not_counted_on_out),
    ("stores undone on out", stores_undone_on_out),
    ("stores undone on fault", stores_undone_on_fault),
    ("fault touches work", fault_touches_work),
    ("refusal touches work", refusal_touches_work),
    ("faults judged ahead", faults_judged_ahead),
];
