//! The benchmark: nanoseconds an instruction for every kind and D, and a whole run of a translated loop, in the library and in
//! a careful Rust machine; then the other calls that the library has; then how translating and its code grow, in the library
//! alone. Both have the same program and windows in the same process, in turn, the best of several rounds; windows are filled
//! before the first round and not cleared between.
//!
//!     bench                the library against careful Rust (placing and translating: against the tests' independent Rust)
//!     bench --runs N       N runs of that, each a process of its own: the least times, their ratios, and the median of the ratios
//!     bench --beside       one of those runs: no growth
//!     bench --growth       only how translating grows
//!     bench --independent  the tests' independent implementation in the library's place

use outside::board::{library, LINKED};
use outside::calls::{Call, Calls, ALL, INDEPENDENT};
use outside::loops::printed;
use outside::machine::{self, Document};
use outside::random::Random;
use outside::rows::{load, op, pair, splat, splice, store};
use outside::runs::together;
use outside::translate::Translating;
use outside::{careful, growth, timings, Answer, Head, Row, Run, DONE};
use std::hint::black_box;
use std::process::{Command, ExitCode};
use std::time::Instant;

const ROUNDS: usize = 15;
const WINDOW_BYTES: usize = 65_536;

/// The body's passes are F - 1; 1,024 rows in each make what comes before the first step and the prologue negligible.
const PASSES: u64 = 256;

struct Program {
    head: Head,
    sections: [Vec<u32>; 3],
}

impl Program {
    fn new(d: u64, f: u64, rows: &[Vec<Row>; 3]) -> Program {
        let [prologue, body, epilogue] = rows.each_ref().map(|rows| rows.len() as u64);
        let sections = rows.each_ref().map(|rows| rows.concat());
        Program { head: Head { d, f, prologue, body, epilogue }, sections }
    }

    fn run(&self, machine: Run, work: &mut [u8], table: &[u8]) -> Answer {
        let [prologue, body, epilogue] = &self.sections;
        machine(&self.head, prologue, body, epilogue, work, table, u64::MAX)
    }
}

/// What is measured of a program: how often it runs in one round, the steps of a run, and in two machines the nanoseconds of
/// a run, the best of all rounds.
struct Measure {
    program: Program,
    times: u32,
    steps: u64,
    best: [f64; 2],
}

impl Measure {
    fn new(program: Program, times: u32) -> Measure {
        Measure { program, times, steps: 0, best: [f64::INFINITY; 2] }
    }

    fn round(&mut self, machines: [Run; 2], work: &mut [u8], table: &[u8]) {
        for (machine, best) in machines.into_iter().zip(&mut self.best) {
            let start = Instant::now();
            for _ in 0..self.times {
                let answer = black_box(&self.program).run(machine, black_box(work), black_box(table));
                assert_eq!(answer.number, DONE);
                self.steps = answer.steps;
            }
            *best = best.min(start.elapsed().as_nanos() as f64 / f64::from(self.times));
        }
    }
}

/// Row k of a body of one kind. The lower half of the registers is read and the upper half written, so that what the
/// operations compare stays random.
type MakeRow = fn(u32, u64) -> Row;

const KINDS: [(&str, MakeRow); 11] = [
    ("load", |k, _| load(written(k), k % 2, 16 * i64::from(k))),
    ("splat", |k, d| splat(written(k), u64::from(k) & machine::largest(d))),
    ("add", |k, _| op(written(k), 0, left(k), right(k))),
    ("left minus right", |k, _| op(written(k), 1, left(k), right(k))),
    ("minimum", |k, _| op(written(k), 2, left(k), right(k))),
    ("maximum", |k, _| op(written(k), 3, left(k), right(k))),
    ("signed minimum", |k, _| op(written(k), 4, left(k), right(k))),
    ("signed maximum", |k, _| op(written(k), 5, left(k), right(k))),
    ("vshiftpair", |k, _| pair(written(k), left(k), right(k), k % 16)),
    ("vsplice", |k, _| splice(written(k), left(k), right(k), k % 17)),
    ("store", |k, _| store(left(k), 16 * i64::from(k))),
];

fn written(k: u32) -> u32 {
    512 + k % 512
}

fn left(k: u32) -> u32 {
    k % 512
}

fn right(k: u32) -> u32 {
    (7 * k + 1) % 512
}

/// A program for every kind at every D, kind by kind.
fn kinds() -> Vec<(&'static str, u64, Measure)> {
    let fill: Vec<Row> = (0..1024).map(|k| load(k, 1, 16 * i64::from(k))).collect();
    let mut measures = Vec::new();
    for (name, row) in KINDS {
        for d in [1, 2, 4, 8] {
            let body = (0..1024).map(|k| row(k, d)).collect();
            let program = Program::new(d, PASSES + 1, &[fill.clone(), body, Vec::new()]);
            measures.push((name, d, Measure::new(program, 1)));
        }
    }
    measures
}

fn compare(names: [&str; 2], machines: [Run; 2]) {
    let mut kinds = kinds();
    let made = printed(4096, 0x8006);
    let translated = Document::translated(&made);
    let mut whole = Measure::new(Program::new(made.d, translated.f, &translated.sections), 50);

    let mut random = Random::new(1);
    let (mut work, table) = (random.bytes(WINDOW_BYTES), random.bytes(WINDOW_BYTES));
    for _ in 0..ROUNDS {
        for (_, _, measure) in &mut kinds {
            measure.round(machines, &mut work, &table);
        }
        whole.round(machines, &mut work, &table);
    }

    println!("Nanoseconds an instruction, best of {ROUNDS} rounds.\n");
    println!("| instruction | D | {} | {} | ratio |", names[0], names[1]);
    println!("|---|---|---|---|---|");
    for (name, d, measure) in kinds {
        let [first, second] = measure.best.map(|nanoseconds| nanoseconds / measure.steps as f64);
        println!("| {name} | {d} | {first:.2} | {second:.2} | {:.2} |", first / second);
    }
    let [first, second] = whole.best.map(|nanoseconds| nanoseconds / 1000.0);
    let steps = whole.steps;
    println!("\nWhole run of the printed sheet placed by LAZY, n = 4,096, store at 8006 ({steps} steps), microseconds.\n");
    println!("| {} | {} | ratio |", names[0], names[1]);
    println!("|---|---|---|");
    println!("| {first:.1} | {second:.1} | {:.2} |", first / second);
}

fn compare_all(name: &str, calls: Calls, there: &[Call]) {
    let names = [name, "Rust"];
    if there.contains(&Call::Run) {
        compare(names, [calls.run, careful::run]);
    }
    timings::print(names, [calls, careful::CALLS], there);
}

fn usage() -> ExitCode {
    eprintln!("bench [--runs N | --beside | --growth | --independent]");
    ExitCode::from(2)
}

/// So many runs of this program, so that code and memory lie elsewhere in each, printed as one.
fn print_runs(number: &str) -> ExitCode {
    let Ok(number) = number.parse::<usize>() else {
        return usage();
    };
    let run = |_| {
        let done = Command::new(std::env::current_exe()?).arg("--beside").output()?;
        Ok(String::from_utf8_lossy(&done.stdout).into_owned())
    };
    let runs: std::io::Result<Vec<String>> = (0..number).map(run).collect();
    match runs.map_err(|error| error.to_string()).and_then(|runs| together(&runs)) {
        Ok(printed) => {
            print!("{printed}");
            ExitCode::SUCCESS
        }
        Err(error) => {
            eprintln!("{error}");
            ExitCode::FAILURE
        }
    }
}

fn main() -> ExitCode {
    let arguments: Vec<String> = std::env::args().skip(1).collect();
    let (beside, grown, independent) = match arguments.iter().map(String::as_str).collect::<Vec<_>>()[..] {
        [] => (true, true, false),
        ["--runs", number] => return print_runs(number),
        ["--beside"] => (true, false, false),
        ["--growth"] => (false, true, false),
        ["--independent"] => (true, true, true),
        _ => return usage(),
    };
    let (name, calls, there) = match (independent, library()) {
        (true, _) => ("independent", INDEPENDENT, &ALL[..]),
        (false, Some(calls)) => ("library", calls, LINKED),
        (false, None) => {
            eprintln!("built without the library: `tools/build`, then build again");
            return ExitCode::from(2);
        }
    };
    if beside {
        compare_all(name, calls, there);
    }
    if grown && there == ALL {
        growth::print(&calls);
    }
    ExitCode::SUCCESS
}
