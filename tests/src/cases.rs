//! Cases: what a call, or several in a row, is handed, and what they give and leave. Every lent table lies between guards, the
//! windows not always aligned.

use crate::calls::{Call, Calls};
use crate::graph::{Checking, Sheet};
use crate::machine::Document;
use crate::placing::Placing;
use crate::programs::Program;
use crate::random::Random;
use crate::tables::{HEAD_ENTRIES, NODES_MOST, NODE_ENTRIES, PROGRAM_ENTRIES, SECTION_ENTRIES};
use crate::translate::steps;
use crate::{Answer, Head, DONE};
use std::ops::{Deref, DerefMut};

/// A family of cases. A case is named for good by its family, its number and the seed.
pub struct Family {
    pub name: &'static str,
    /// how many cases an ordinary run tries
    pub cases: u64,
    pub make: fn(&mut Random, u64) -> Case,
}

impl Family {
    pub fn case(&self, number: u64, seed: u64) -> Case {
        let start = number.wrapping_add(seed.wrapping_mul(0xD6E8_FEB8_6659_FD93));
        let mixed = self.name.bytes().fold(start, |mixed, byte| mixed.wrapping_mul(257).wrapping_add(u64::from(byte)));
        (self.make)(&mut Random::new(mixed), number)
    }
}

/// What guards are made of, and tables whose contents a call must not leave.
pub trait Entry: Copy + PartialEq {
    const JUNK: Self;
}

impl Entry for u8 {
    const JUNK: u8 = 0xA5;
}

impl Entry for u32 {
    const JUNK: u32 = 0xA5A5_A5A5;
}

impl Entry for u64 {
    const JUNK: u64 = 0xA5A5_A5A5_A5A5_A5A5;
}

const GUARD: usize = 64;

/// A lent table between guards.
#[derive(Clone, Default, PartialEq)]
pub struct Lent<T> {
    buffer: Vec<T>,
    before: usize,
    length: usize,
}

impl<T: Entry> Lent<T> {
    pub fn new(contents: &[T]) -> Self {
        Self::aligned(contents, 0)
    }

    /// The contents so many entries from where they would stand.
    pub fn aligned(contents: &[T], by: usize) -> Self {
        let (before, length) = (GUARD + by, contents.len());
        let mut buffer = vec![T::JUNK; before + length + GUARD];
        buffer[before..before + length].copy_from_slice(contents);
        Lent { buffer, before, length }
    }

    pub fn junk(length: usize) -> Self {
        Lent { buffer: vec![T::JUNK; GUARD + length + GUARD], before: GUARD, length }
    }
}

impl<T: PartialEq> Lent<T> {
    /// The first entry that another has otherwise, guards too: where it is, and both.
    pub fn difference<'a>(&'a self, other: &'a Self) -> Option<(i64, &'a T, &'a T)> {
        let mut pairs = self.buffer.iter().zip(&other.buffer).enumerate();
        let (at, (one, another)) = pairs.find(|(_, (one, another))| one != another)?;
        Some((at as i64 - self.before as i64, one, another))
    }
}

impl<T> Deref for Lent<T> {
    type Target = [T];

    fn deref(&self) -> &[T] {
        &self.buffer[self.before..self.before + self.length]
    }
}

impl<T> DerefMut for Lent<T> {
    fn deref_mut(&mut self) -> &mut [T] {
        &mut self.buffer[self.before..self.before + self.length]
    }
}

/// Everything that calls can be lent. The plain loop has a work of its own, so that a case can compare the two.
#[derive(Clone, Default, PartialEq)]
pub struct Tables {
    pub text: Lent<u8>,
    pub head: Lent<u64>,
    pub nodes: Lent<u64>,
    pub placed_head: Lent<u64>,
    pub placed_nodes: Lent<u64>,
    pub program: Lent<u64>,
    pub sections: [Lent<u32>; 3],
    pub work: Lent<u8>,
    pub plain_work: Lent<u8>,
    pub table: Lent<u8>,
}

/// A run's budget: so many steps, or so many more or less than all of a program's.
#[derive(Clone, Copy, Debug)]
pub enum Budget {
    Steps(u64),
    Whole(i64),
}

/// Calls in a row, each on what those before it left, and what they are handed. The first that is not done is the last.
pub struct Case {
    pub calls: &'static [Call],
    pub rule: u64,
    pub lengths: [u64; 2],
    pub budget: Budget,
    pub tables: Tables,
}

impl Case {
    pub fn read(text: &[u8], head: usize, nodes: usize) -> Case {
        let tables = Tables { text: Lent::new(text), head: Lent::junk(head), nodes: Lent::junk(nodes), ..Tables::default() };
        Case { calls: &[Call::Read], rule: 0, lengths: [0; 2], budget: Budget::Steps(0), tables }
    }

    /// Calls on a sheet's head and nodes; tables that they write have the least room, windows so many bytes.
    pub fn handed(random: &mut Random, calls: &'static [Call], (head, nodes): (&[u64], &[u64]), lengths: [u64; 2]) -> Case {
        let mut tables = Tables { head: Lent::new(head), nodes: Lent::new(nodes), ..Tables::default() };
        if calls.contains(&Call::Place) {
            tables.placed_head = Lent::junk(HEAD_ENTRIES);
            tables.placed_nodes = Lent::junk(NODE_ENTRIES * NODES_MOST);
        }
        if calls.contains(&Call::Translate) || calls.contains(&Call::Plan) {
            tables.program = Lent::junk(PROGRAM_ENTRIES);
            tables.sections = [(); 3].map(|()| Lent::junk(SECTION_ENTRIES));
        }
        if calls.contains(&Call::Plain) {
            let [work, table] = lengths.map(|length| random.bytes(length as usize));
            tables.lend_windows(random, &work, &table);
        }
        Case { calls, rule: random.below(4), lengths, budget: Budget::Steps(u64::MAX), tables }
    }

    pub fn run(random: &mut Random, program: &Program) -> Case {
        let Head { d, f, prologue, body, epilogue } = program.head;
        let sections = program.sections.each_ref().map(|rows| Lent::new(rows));
        let mut tables = Tables { program: Lent::new(&[d, f, prologue, body, epilogue]), sections, ..Tables::default() };
        tables.lend_windows(random, &program.work, &program.table);
        Case { calls: &[Call::Run], rule: 0, lengths: [0; 2], budget: Budget::Steps(program.budget), tables }
    }
}

impl Tables {
    fn lend_windows(&mut self, random: &mut Random, work: &[u8], table: &[u8]) {
        let by = random.below(16) as usize;
        self.work = Lent::aligned(work, by);
        self.plain_work = Lent::aligned(work, by);
        self.table = Lent::aligned(table, by);
    }

    fn program_head(&self) -> Head {
        let [d, f, prologue, body, epilogue] = [0, 1, 2, 3, 4].map(|k| self.program[k]);
        Head { d, f, prologue, body, epilogue }
    }

    pub fn call(&mut self, call: Call, calls: &Calls, case: &Case) -> Answer {
        let Tables { head, nodes, placed_head, placed_nodes, program, plain_work, table, .. } = self;
        let [prologue, body, epilogue] = &mut self.sections;
        match call {
            Call::Read => (calls.read)(&self.text, head, nodes),
            Call::Check => (calls.check)(head, nodes),
            Call::OffsetCheck => (calls.offset_check)(head, nodes),
            Call::Plain => (calls.plain)(head, nodes, plain_work, table),
            Call::Place => (calls.place)(case.rule, head, nodes, placed_head, placed_nodes),
            Call::Translate => {
                let placed = case.calls.contains(&Call::Place);
                let (head, nodes) = if placed { (placed_head, placed_nodes) } else { (head, nodes) };
                (calls.translate)(head, nodes, case.lengths, program, [prologue, body, epilogue])
            }
            Call::Plan => (calls.plan)(case.rule, head, nodes, case.lengths, program, [prologue, body, epilogue]),
            Call::Run => {
                let head = self.program_head();
                let budget = case.budget.steps(whole_steps(&head));
                let [prologue, body, epilogue] = &self.sections;
                (calls.run)(&head, prologue, body, epilogue, &mut self.work, &self.table, budget)
            }
        }
    }
}

impl Budget {
    fn steps(self, whole: u64) -> u64 {
        match self {
            Budget::Steps(steps) => steps,
            Budget::Whole(more) => whole.saturating_add_signed(more),
        }
    }
}

/// The instructions of a whole run.
pub fn whole_steps(head: &Head) -> u64 {
    head.f.saturating_sub(1).saturating_mul(head.body).saturating_add(head.prologue).saturating_add(head.epilogue)
}

/// What calls gave and left.
#[derive(PartialEq)]
pub struct Outcome {
    pub answers: Vec<Answer>,
    pub tables: Tables,
}

pub fn observe(calls: &Calls, case: &Case) -> Outcome {
    let mut outcome = Outcome { answers: Vec::new(), tables: case.tables.clone() };
    for &call in case.calls {
        let answer = outcome.tables.call(call, calls, case);
        outcome.answers.push(answer);
        if answer.number != DONE {
            break;
        }
    }
    outcome
}

/// Whether a program, where nothing was refused and nothing cut short, left the plain loop's memory in the steps of the paper's
/// formula.
pub fn keeps_plain_loop(case: &Case, outcome: &Outcome) -> bool {
    let done = outcome.answers.len() == case.calls.len() && outcome.answers.iter().all(|answer| answer.number == DONE);
    let Some(run) = case.calls.iter().position(|&call| call == Call::Run) else { return true };
    if !done || !case.calls.contains(&Call::Plain) {
        return true;
    }
    let tables = &outcome.tables;
    tables.work == tables.plain_work && outcome.answers[run].steps == steps::<Document>(&translated_sheet(case, outcome))
}

/// The graph that was translated, of a case that was done.
fn translated_sheet(case: &Case, outcome: &Outcome) -> Sheet {
    let sheet = Document::checked(&outcome.tables.head, &outcome.tables.nodes).expect("a sheet that was done");
    let placed = case.calls.contains(&Call::Place) || case.calls.contains(&Call::Plan);
    if placed {
        Document::placed(case.rule, &sheet)
    } else {
        sheet
    }
}
