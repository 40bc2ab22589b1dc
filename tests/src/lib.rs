//! What the tests and the benchmark share: the calls' types, the library behind safe functions, everything that it does once
//! more in Rust, and the cases that all of them are given.

pub mod board;
pub mod calls;
pub mod careful;
pub mod careful_loop;
pub mod careful_sheet;
pub mod cases;
pub mod documents;
pub mod graph;
pub mod graphs;
pub mod growth;
pub mod handed;
pub mod header;
pub mod loops;
pub mod machine;
pub mod paper;
pub mod placing;
pub mod plain;
pub mod printing;
pub mod programs;
pub mod random;
pub mod rows;
pub mod runs;
pub mod sheet;
pub mod sheets;
pub mod show;
pub mod synthesized;
pub mod tables;
pub mod texts;
pub mod timings;
pub mod translate;
pub mod windows;
pub mod wrong;
pub mod wrong_calls;
pub mod wrong_checks;
pub mod wrong_code;
pub mod wrong_loops;
pub mod wrong_placing;
pub mod wrong_reading;
pub mod wrong_tables;

/// D, F, and how many rows of each section are the program's.
#[derive(Clone, Copy, Debug)]
pub struct Head {
    pub d: u64,
    pub f: u64,
    pub prologue: u64,
    pub body: u64,
    pub epilogue: u64,
}

/// The number of document 01's table, its place, and the steps done.
#[derive(Clone, Copy, Debug, PartialEq, Eq)]
pub struct Answer {
    pub number: u64,
    pub place: u64,
    pub steps: u64,
}

pub const DONE: u64 = 0;
pub const ROOM: u64 = 1;
pub const LINE: u64 = 2;
pub const RANGE: u64 = 3;
pub const SHAPE: u64 = 4;
pub const BARE: u64 = 5;
pub const WINDOW: u64 = 6;
pub const ALIGN: u64 = 7;
pub const BOUNDS: u64 = 8;
pub const CARRY: u64 = 9;
pub const OFFSET: u64 = 10;
pub const LONG: u64 = 11;
pub const OUT: u64 = 12;
pub const FAULT: u64 = 13;

/// A machine: head, prologue, body, epilogue, work, table, budget.
pub type Run = fn(&Head, &[u32], &[u32], &[u32], &mut [u8], &[u8], u64) -> Answer;

/// A row of a section: kind, destination, a, b, low, high.
pub type Row = [u32; 6];
