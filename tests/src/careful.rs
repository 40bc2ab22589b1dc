//! The machine a careful Rust programmer would ship, for the benchmark: safe code, the element's width chosen once a run,
//! lanes as typed arrays, registers as a local array, nothing allocated. It decodes each row when it comes to it.

use crate::calls::{Call, Calls, INDEPENDENT};
use crate::{careful_loop, careful_sheet, Answer, Head, Row, DONE, FAULT, OUT, ROOM, WINDOW};

/// What is written carefully, in the place of the independent calls.
pub const CALLS: Calls = Calls { read: careful_sheet::read, plain: careful_loop::plain, run, ..INDEPENDENT };
pub const WRITTEN: &[Call] = &[Call::Read, Call::Plain, Call::Run];

type Vector = [u8; 16];

const REGISTERS: usize = 1024;

/// An element's width as a type, with the six operations on whole vectors.
trait Element {
    fn splat(value: u64) -> Option<Vector>;
    fn operate(operation: u32, left: &Vector, right: &Vector) -> Option<Vector>;
}

macro_rules! element {
    ($unsigned:ty, $signed:ty) => {
        impl Element for $unsigned {
            #[inline(always)]
            fn splat(value: u64) -> Option<Vector> {
                const BYTES: usize = size_of::<$unsigned>();
                let element = <$unsigned>::try_from(value).ok()?.to_le_bytes();
                let mut vector = [0; 16];
                vector.as_chunks_mut::<BYTES>().0.fill(element);
                Some(vector)
            }

            #[inline(always)]
            fn operate(operation: u32, left: &Vector, right: &Vector) -> Option<Vector> {
                const BYTES: usize = size_of::<$unsigned>();
                const LANES: usize = 16 / BYTES;
                type Lanes = [$unsigned; LANES];

                fn lanes(vector: &Vector) -> Lanes {
                    let (elements, _) = vector.as_chunks::<BYTES>();
                    std::array::from_fn(|k| <$unsigned>::from_le_bytes(elements[k]))
                }

                #[inline(always)]
                fn each(left: &Vector, right: &Vector, by: impl Fn($unsigned, $unsigned) -> $unsigned) -> Vector {
                    let (x, y) = (lanes(left), lanes(right));
                    let mut result = [0; 16];
                    let (elements, _) = result.as_chunks_mut::<BYTES>();
                    for k in 0..LANES {
                        elements[k] = by(x[k], y[k]).to_le_bytes();
                    }
                    result
                }

                Some(match operation {
                    0 => each(left, right, |x, y| x.wrapping_add(y)),
                    1 => each(left, right, |x, y| x.wrapping_sub(y)),
                    2 => each(left, right, |x, y| x.min(y)),
                    3 => each(left, right, |x, y| x.max(y)),
                    4 => each(left, right, |x, y| (x as $signed).min(y as $signed) as $unsigned),
                    5 => each(left, right, |x, y| (x as $signed).max(y as $signed) as $unsigned),
                    _ => return None,
                })
            }
        }
    };
}

element!(u8, i8);
element!(u16, i16);
element!(u32, i32);
element!(u64, i64);

/// Bytes l to l + 15 of the two joined, as one number of 256 bits shifted.
#[inline(always)]
fn shift_pair(first: &Vector, second: &Vector, l: u32) -> Option<Vector> {
    if l > 15 {
        return None;
    }
    let (first, second) = (u128::from_le_bytes(*first), u128::from_le_bytes(*second));
    Some((first >> (8 * l) | second << 8 << (120 - 8 * l)).to_le_bytes())
}

/// The first l bytes of one, the rest of the other, by a mask.
#[inline(always)]
fn splice(first: &Vector, second: &Vector, l: u32) -> Option<Vector> {
    if l > 16 {
        return None;
    }
    let (first, second) = (u128::from_le_bytes(*first), u128::from_le_bytes(*second));
    let taken = u128::MAX.checked_shr(128 - 8 * l).unwrap_or(0);
    Some((first & taken | second & !taken).to_le_bytes())
}

struct Machine<'a> {
    registers: [Vector; REGISTERS],
    work: &'a mut [Vector],
    table: &'a [Vector],
    steps: u64,
    budget: u64,
}

impl Machine<'_> {
    /// One instruction; none is a fault, and has changed nothing.
    #[inline(always)]
    fn execute<E: Element>(&mut self, row: &Row, pass: i64) -> Option<()> {
        let &[kind, destination, a, b, low, high] = row;
        let (destination, a, b) = (destination as usize, a as usize, b as usize);
        // below zero this is a number that no window reaches
        let block = (((i64::from(low) - (1 << 31)) >> 4) + pass) as usize;
        match kind {
            1 => {
                let window = match a {
                    0 => &*self.work,
                    1 => self.table,
                    _ => return None,
                };
                let vector = window.get(block).copied().unwrap_or_default();
                *self.registers.get_mut(destination)? = vector;
            }
            2 => {
                let vector = E::splat(u64::from(high) << 32 | u64::from(low))?;
                *self.registers.get_mut(destination)? = vector;
            }
            3 => {
                let vector = E::operate(low, self.registers.get(a)?, self.registers.get(b)?)?;
                *self.registers.get_mut(destination)? = vector;
            }
            4 => {
                let vector = shift_pair(self.registers.get(a)?, self.registers.get(b)?, low)?;
                *self.registers.get_mut(destination)? = vector;
            }
            5 => {
                let vector = splice(self.registers.get(a)?, self.registers.get(b)?, low)?;
                *self.registers.get_mut(destination)? = vector;
            }
            6 => *self.work.get_mut(block)? = *self.registers.get(a)?,
            _ => return None,
        }
        Some(())
    }

    /// A section in one pass; the number where the run stops in it.
    #[inline(always)]
    fn section<E: Element>(&mut self, rows: &[Row], pass: i64) -> Result<(), u64> {
        for row in rows {
            if self.steps == self.budget {
                return Err(OUT);
            }
            self.execute::<E>(row, pass).ok_or(FAULT)?;
            self.steps += 1;
        }
        Ok(())
    }

    fn program<E: Element>(&mut self, f: i64, sections: [&[Row]; 3]) -> Result<(), u64> {
        let [prologue, body, epilogue] = sections;
        self.section::<E>(prologue, 0)?;
        for pass in 1..f {
            self.section::<E>(body, pass)?;
        }
        self.section::<E>(epilogue, f)
    }
}

/// The rows of a section, if it has room for them.
fn rows(table: &[u32], count: u64) -> Option<&[Row]> {
    let count = usize::try_from(count).ok().filter(|&count| count <= 1024)?;
    table.as_chunks().0.get(..count)
}

/// The blocks of a window, if its length is allowed.
fn blocks(window: &[u8]) -> Option<&[Vector]> {
    let (blocks, rest) = window.as_chunks();
    (rest.is_empty() && blocks.len() <= 4096).then_some(blocks)
}

/// Runs a program.
pub fn run(
    head: &Head,
    prologue: &[u32],
    body: &[u32],
    epilogue: &[u32],
    work: &mut [u8],
    table: &[u8],
    budget: u64,
) -> Answer {
    let answer = |number, place| Answer { number, place, steps: 0 };
    let (Some(prologue), Some(body), Some(epilogue)) =
        (rows(prologue, head.prologue), rows(body, head.body), rows(epilogue, head.epilogue))
    else {
        return answer(ROOM, 0);
    };
    if blocks(work).is_none() {
        return answer(WINDOW, 0);
    }
    let Some(table) = blocks(table) else {
        return answer(WINDOW, 1);
    };
    if head.f > 2048 {
        return answer(FAULT, 0);
    }
    let program = match head.d {
        1 => Machine::program::<u8>,
        2 => Machine::program::<u16>,
        4 => Machine::program::<u32>,
        8 => Machine::program::<u64>,
        _ => return answer(FAULT, 0),
    };
    let (work, _) = work.as_chunks_mut();
    let mut machine = Machine { registers: [[0; 16]; REGISTERS], work, table, steps: 0, budget };
    let number = program(&mut machine, head.f as i64, [prologue, body, epilogue]).err().unwrap_or(DONE);
    Answer { number, place: 0, steps: machine.steps }
}
