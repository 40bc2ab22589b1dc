//! An independent vector machine in plain safe Rust, written from document 01 ("Vector code" and "Numbers the translator gives
//! back") and not from the Rattle code. Every rule of the paper is a function of `Rules`, one to each, so that `wrong.rs` can
//! break one and leave the rest; `run::<Document>` is the paper's machine.

use crate::{Answer, Head, Row, FAULT, OUT, ROOM, WINDOW};

pub type Vector = [u8; 16];

/// What a run changes, and the table it reads.
pub struct State<'a> {
    pub d: u64,
    pub registers: Vec<Vector>,
    pub work: &'a mut [u8],
    pub table: &'a [u8],
}

/// What one instruction does: a vector for a register, or for the block of work at an index.
pub enum Change {
    Register(usize, Vector),
    Work(usize, Vector),
}

/// The sections by their numbers.
pub const PROLOGUE: usize = 0;
pub const BODY: usize = 1;
pub const EPILOGUE: usize = 2;

pub trait Rules {
    // ---- before a run: "ROOM .., 6, then a FAULT at the start"

    fn refusal(head: &Head, tables: [&[u32]; 3], work: usize, table: usize) -> Option<Answer> {
        Self::room(head, tables).or_else(|| Self::windows(work, table)).or_else(|| Self::start(head))
    }

    fn room(head: &Head, tables: [&[u32]; 3]) -> Option<Answer> {
        let rows = [head.prologue, head.body, head.epilogue];
        let fit = rows.iter().zip(tables).all(|(&rows, table)| Self::fits(rows, table.len()));
        (!fit).then_some(refused(ROOM, 0))
    }

    /// "a section longer than 1,024 or than its table"
    fn fits(rows: u64, entries: usize) -> bool {
        rows <= 1024 && 6 * rows as usize <= entries
    }

    /// "work first; place 0 or 1"
    fn windows(work: usize, table: usize) -> Option<Answer> {
        if !Self::window_allowed(work) {
            Some(refused(WINDOW, 0))
        } else if !Self::window_allowed(table) {
            Some(refused(WINDOW, 1))
        } else {
            None
        }
    }

    /// "a multiple of 16 long, 0 to 65,536"
    fn window_allowed(length: usize) -> bool {
        length.is_multiple_of(16) && length <= 65_536
    }

    /// "at the start, D is wrong or F is above 2,048"
    fn start(head: &Head) -> Option<Answer> {
        let fine = Self::width_known(head.d) && Self::turns_allowed(head.f);
        (!fine).then_some(refused(FAULT, 0))
    }

    fn width_known(d: u64) -> bool {
        matches!(d, 1 | 2 | 4 | 8)
    }

    fn turns_allowed(f: u64) -> bool {
        f <= 2048
    }

    // ---- the order of a run

    /// "all zero when a run begins"
    fn registers() -> Vec<Vector> {
        vec![[0; 16]; 1024]
    }

    /// "j = 0 in the prologue, 1 to F-1 in the body, F in the epilogue"
    fn order(f: u64) -> Vec<(usize, u64)> {
        let mut order = vec![(PROLOGUE, 0)];
        order.extend((1..f).map(|j| (BODY, j)));
        order.push((EPILOGUE, f));
        order
    }

    /// "at each step 12 before 13"
    fn stop(steps: u64, budget: u64, fault: bool) -> Option<u64> {
        if steps >= budget {
            Some(OUT)
        } else if fault {
            Some(FAULT)
        } else {
            None
        }
    }

    // ---- one instruction in pass j; none is a fault

    fn change(state: &State, row: Row, j: u64) -> Option<Change> {
        let [kind, destination, a, b, low, high] = row;
        match kind {
            1 => {
                let window = Self::window(state, a)?;
                let block = Self::block(low, j);
                Some(Change::Register(Self::register(destination)?, Self::load(window, block)))
            }
            2 => {
                let value = Self::splat_value(state.d, low, high)?;
                Some(Change::Register(Self::register(destination)?, splat(state.d, value)))
            }
            3 => {
                let (left, right) = Self::inputs(state, a, b)?;
                let operation = Self::operation(low)?;
                let result = Self::operate_lanes(state.d, operation, left, right);
                Some(Change::Register(Self::register(destination)?, result))
            }
            4 => {
                let (first, second) = Self::inputs(state, a, b)?;
                let amount = Self::pair_amount(low)?;
                Some(Change::Register(Self::register(destination)?, Self::shift_pair(first, second, amount)))
            }
            5 => {
                let (first, second) = Self::inputs(state, a, b)?;
                let amount = Self::splice_amount(low)?;
                Some(Change::Register(Self::register(destination)?, Self::splice(first, second, amount)))
            }
            6 => {
                let vector = state.registers[Self::register(a)?];
                Some(Change::Work(Self::inside(state.work.len(), Self::block(low, j))?, vector))
            }
            _ => None,
        }
    }

    /// "registers 0 to 1,023"
    fn register(number: u32) -> Option<usize> {
        (number <= 1023).then_some(number as usize)
    }

    fn inputs(state: &State, a: u32, b: u32) -> Option<(Vector, Vector)> {
        Some((state.registers[Self::register(a)?], state.registers[Self::register(b)?]))
    }

    /// "work (0), .. and table (1)"
    fn window<'a>(state: &'a State, number: u32) -> Option<&'a [u8]> {
        match number {
            0 => Some(state.work),
            1 => Some(state.table),
            _ => None,
        }
    }

    /// "signed, 32 bits", held with 2^31 added
    fn address(held: u32) -> i64 {
        i64::from(held) - (1 << 31)
    }

    /// "the block holding a+16j; the low four bits are dropped, downward also below zero"
    fn block(held: u32, j: u64) -> i64 {
        (Self::address(held) + 16 * j as i64).div_euclid(16)
    }

    /// where a window of so many bytes has the block
    fn inside(length: usize, block: i64) -> Option<usize> {
        let blocks = (length / 16) as i64;
        (0 <= block && block < blocks).then_some((16 * block) as usize)
    }

    /// "A load of a block outside its window gives sixteen zeros"
    fn load(window: &[u8], block: i64) -> Vector {
        match Self::inside(window.len(), block) {
            Some(at) => vector_at(window, at),
            None => [0; 16],
        }
    }

    /// "value .., below 2^(8D)"
    fn splat_value(d: u64, low: u32, high: u32) -> Option<u64> {
        let value = u64::from(high) << 32 | u64::from(low);
        (value <= largest(d)).then_some(value)
    }

    /// "operation 0 to 5"
    fn operation(number: u32) -> Option<u32> {
        (number <= 5).then_some(number)
    }

    fn operate_lanes(d: u64, operation: u32, left: Vector, right: Vector) -> Vector {
        let mut result = [0; 16];
        for lane in 0..16 / d {
            let x = element(d, &left, lane);
            let y = element(d, &right, lane);
            put_element(d, &mut result, lane, Self::operate(d, operation, x, y));
        }
        result
    }

    /// "0 add, 1 left minus right, 2 minimum, 3 maximum; 4 and 5 are minimum and maximum read as two's complement"
    fn operate(d: u64, operation: u32, x: u64, y: u64) -> u64 {
        match operation {
            0 => x.wrapping_add(y) & largest(d),
            1 => x.wrapping_sub(y) & largest(d),
            2 => x.min(y),
            3 => x.max(y),
            4 if signed(d, x) < signed(d, y) => x,
            4 => y,
            _ if signed(d, x) < signed(d, y) => y,
            _ => x,
        }
    }

    /// "0 ≤ l ≤ 15"
    fn pair_amount(number: u32) -> Option<usize> {
        (number <= 15).then_some(number as usize)
    }

    /// "bytes l to l+15 of the two joined"
    fn shift_pair(first: Vector, second: Vector, l: usize) -> Vector {
        let mut joined = [0; 32];
        joined[..16].copy_from_slice(&first);
        joined[16..].copy_from_slice(&second);
        vector_at(&joined, l)
    }

    /// "0 ≤ l ≤ 16"
    fn splice_amount(number: u32) -> Option<usize> {
        (number <= 16).then_some(number as usize)
    }

    /// "the first l bytes of v1, the rest of v2; so 0 gives v2 and 16 gives v1"
    fn splice(first: Vector, second: Vector, l: usize) -> Vector {
        let mut result = second;
        result[..l].copy_from_slice(&first[..l]);
        result
    }
}

/// The paper's own rules.
pub struct Document;

impl Rules for Document {}

/// Runs a program by the rules given.
pub fn run<R: Rules>(
    head: &Head,
    prologue: &[u32],
    body: &[u32],
    epilogue: &[u32],
    work: &mut [u8],
    table: &[u8],
    budget: u64,
) -> Answer {
    let tables = [prologue, body, epilogue];
    if let Some(refusal) = R::refusal(head, tables, work.len(), table.len()) {
        return refusal;
    }
    let mut state = State { d: head.d, registers: R::registers(), work, table };
    let rows = [head.prologue, head.body, head.epilogue];
    let mut steps = 0;
    for (section, j) in R::order(head.f) {
        for row in tables[section].chunks_exact(6).take(rows[section] as usize) {
            let row = [row[0], row[1], row[2], row[3], row[4], row[5]];
            let change = R::change(&state, row, j);
            if let Some(number) = R::stop(steps, budget, change.is_none()) {
                return Answer { number, place: 0, steps };
            }
            match change {
                Some(Change::Register(number, vector)) => state.registers[number] = vector,
                Some(Change::Work(at, vector)) => state.work[at..at + 16].copy_from_slice(&vector),
                None => {}
            }
            steps += 1;
        }
    }
    Answer { number: 0, place: 0, steps }
}

pub fn refused(number: u64, place: u64) -> Answer {
    Answer { number, place, steps: 0 }
}

/// 2^(8D) - 1
pub fn largest(d: u64) -> u64 {
    u64::MAX >> (64 - 8 * d)
}

/// an element of D bytes read as two's complement
pub fn signed(d: u64, x: u64) -> i64 {
    let unused = 64 - 8 * d;
    ((x << unused) as i64) >> unused
}

pub fn vector_at(bytes: &[u8], at: usize) -> Vector {
    let mut vector = [0; 16];
    vector.copy_from_slice(&bytes[at..at + 16]);
    vector
}

/// "little-endian"
pub fn element(d: u64, bytes: &[u8], number: u64) -> u64 {
    let from = (number * d) as usize;
    let mut value = [0; 8];
    value[..d as usize].copy_from_slice(&bytes[from..from + d as usize]);
    u64::from_le_bytes(value)
}

pub fn put_element(d: u64, bytes: &mut [u8], number: u64, value: u64) {
    let from = (number * d) as usize;
    bytes[from..from + d as usize].copy_from_slice(&value.to_le_bytes()[..d as usize]);
}

/// the value in every lane
pub fn splat(d: u64, value: u64) -> Vector {
    let mut vector = [0; 16];
    for lane in 0..16 / d {
        put_element(d, &mut vector, lane, value);
    }
    vector
}
