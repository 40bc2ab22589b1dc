//! The outside tests: the library against an independent implementation, case by case.
//!
//!     outside               the header for C, and every family against the library; exit status 1 at the first difference
//!     outside --times N     N times as many cases
//!     outside --seed S      other cases; 0 is the usual seed
//!     outside --seeds A B   the cases of every seed from A to B
//!     outside --long        the long run: seeds 1 to 10, more than ten million cases
//!     outside --careful     the benchmark's Rust in the library's place
//!     outside --self-check  the families against implementations that are wrong on purpose: each must be found
//!     outside --wrong NAME  one of those in the library's place, which shows how a difference looks

use outside::board::{library, LINKED};
use outside::calls::{Call, Calls, ALL, INDEPENDENT};
use outside::cases::{keeps_plain_loop, observe, Case, Family, Outcome};
use outside::show::print_difference;
use outside::wrong_calls::Wrong;
use outside::{careful, graphs, handed, header, paper, programs, texts, windows, wrong_calls, DONE, FAULT};
use std::ops::RangeInclusive;
use std::process::ExitCode;

const USUAL_SEEDS: RangeInclusive<u64> = 0..=0;
const LONG_SEEDS: RangeInclusive<u64> = 1..=10;

fn families() -> Vec<&'static Family> {
    let modules = [programs::FAMILIES, texts::FAMILIES, handed::FAMILIES, windows::FAMILIES, graphs::FAMILIES];
    modules.into_iter().flatten().collect()
}

/// The cases of the paper, which the independent implementation must keep too.
fn keeps_paper(name: &str, calls: &Calls) -> bool {
    let wrong: Vec<_> = paper::cases(calls).into_iter().filter(|(_, right)| !right).collect();
    for (case, _) in &wrong {
        println!("{name}: not as in document 01: {case}");
    }
    wrong.is_empty()
}

/// The header for C, which must be as this side has it.
fn keeps_header() -> bool {
    let differences = header::differences(&header::texts());
    for difference in &differences {
        println!("{difference}");
    }
    println!("header: {} constants and every prototype compared, {} differences", header::constants().len(), differences.len());
    differences.is_empty()
}

/// Whether a header that is altered in one place is found to be.
fn find_altered() -> bool {
    let altered = header::altered();
    let missed: Vec<_> = altered.iter().filter(|(_, texts)| header::differences(texts).is_empty()).collect();
    for (alteration, _) in &missed {
        println!("{alteration}: NOT FOUND");
    }
    println!("self-check: {} of {} altered headers found", altered.len() - missed.len(), altered.len());
    missed.is_empty()
}

/// How many answers of each number each call gave that was compared.
struct Compared([[u64; FAULT as usize + 1]; ALL.len()]);

impl Compared {
    fn count(&mut self, case: &Case, outcome: &Outcome, linked: &[Call]) {
        let calls = case.calls.iter().zip(&outcome.answers).filter(|(call, _)| linked.contains(call));
        for (&call, answer) in calls {
            self.0[call as usize][answer.number as usize] += 1;
        }
    }

    fn print(&self, linked: &[Call]) {
        for (call, counts) in ALL.iter().zip(self.0) {
            if !linked.contains(call) {
                println!("{call:?}: not there");
                continue;
            }
            let answers: Vec<_> = (0..).zip(counts).filter(|&(_, count)| count > 0).collect();
            let answers: Vec<_> = answers.iter().map(|(number, count)| format!("{number}: {count}")).collect();
            println!("{call:?}: {} compared, by answer {}", counts.iter().sum::<u64>(), answers.join(", "));
        }
    }
}

/// Whether every call was made and done.
fn whole(case: &Case, outcome: &Outcome) -> bool {
    outcome.answers.len() == case.calls.len() && outcome.answers.iter().all(|answer| answer.number == DONE)
}

/// Every family against a set of calls, of which those linked are not the independent ones.
fn compare(calls: &Calls, linked: &[Call], times: u64, seeds: RangeInclusive<u64>) -> ExitCode {
    if !keeps_paper("independent", &INDEPENDENT) || !keeps_paper("compared", calls) {
        return ExitCode::FAILURE;
    }
    let mut compared = Compared([[0; FAULT as usize + 1]; ALL.len()]);
    let mut total = 0;
    println!("seeds {} to {}", seeds.start(), seeds.end());
    for family in families() {
        let (mut cases, mut done) = (0, 0);
        for (seed, number) in seeds.clone().flat_map(|seed| (0..family.cases * times).map(move |number| (seed, number))) {
            let case = family.case(number, seed);
            if !case.calls.iter().any(|call| linked.contains(call)) {
                continue;
            }
            let expected = observe(&INDEPENDENT, &case);
            let found = observe(calls, &case);
            if expected != found || !keeps_plain_loop(&case, &expected) {
                print_difference(&format!("{}, case {number}, seed {seed}", family.name), &case, &expected, &found);
                println!("outside: {} cases, 1 difference, stopped there", total + cases + 1);
                return ExitCode::FAILURE;
            }
            compared.count(&case, &expected, linked);
            cases += 1;
            done += u64::from(whole(&case, &expected));
        }
        println!("{cases:>8} cases, {done:>8} done: {}", family.name);
        total += cases;
    }
    compared.print(linked);
    println!("outside: {total} cases, 0 differences");
    ExitCode::SUCCESS
}

/// What a family's cases, a part of them, find: for each wrong implementation the first case.
fn found_by(family: &Family, wrong: &[Wrong]) -> Vec<Option<u64>> {
    let mut first_found = vec![None; wrong.len()];
    for number in 0..(family.cases / 10).clamp(6, 2_000) {
        let case = family.case(number, 0);
        let expected = observe(&INDEPENDENT, &case);
        assert!(keeps_plain_loop(&case, &expected), "{}, case {number}: not the plain loop's memory", family.name);
        for (wrong, first) in wrong.iter().zip(&mut first_found) {
            let concerned = case.calls.iter().any(|call| wrong.concerns.contains(call));
            if first.is_none() && concerned && observe(&wrong.calls, &case) != expected {
                *first = Some(number);
            }
        }
    }
    first_found
}

fn find_wrong() -> bool {
    let (families, wrong) = (families(), wrong_calls::all());
    let found: Vec<_> = families.iter().map(|family| found_by(family, &wrong)).collect();
    let mut missed = 0;
    for (k, wrong) in wrong.iter().enumerate() {
        let finders = families.iter().zip(&found).filter_map(|(family, found)| Some((found[k]?, family.name)));
        match finders.clone().min() {
            Some((number, family)) => {
                println!("{}: {} families find it, {family} in case {number}", wrong.name, finders.count())
            }
            None => {
                println!("{}: NOT FOUND", wrong.name);
                missed += 1;
            }
        }
    }
    let mut useless = 0;
    for (family, found) in families.iter().zip(&found) {
        let count = found.iter().flatten().count();
        println!("{} finds {count}", family.name);
        useless += usize::from(count == 0);
    }
    let (right, useful) = (wrong.len() - missed, families.len() - useless);
    println!("self-check: {right} of {} wrong found; {useful} of {} families find some", wrong.len(), families.len());
    missed == 0 && useless == 0
}

struct Arguments {
    times: u64,
    seeds: RangeInclusive<u64>,
    careful: bool,
    wrong: Option<String>,
    self_check: bool,
}

fn number(arguments: &mut impl Iterator<Item = String>) -> Option<u64> {
    arguments.next()?.parse().ok()
}

fn arguments() -> Option<Arguments> {
    let mut chosen = Arguments { times: 1, seeds: USUAL_SEEDS, careful: false, wrong: None, self_check: false };
    let mut arguments = std::env::args().skip(1);
    while let Some(argument) = arguments.next() {
        match argument.as_str() {
            "--times" => chosen.times = number(&mut arguments)?,
            "--seed" => {
                let seed = number(&mut arguments)?;
                chosen.seeds = seed..=seed;
            }
            "--seeds" => chosen.seeds = number(&mut arguments)?..=number(&mut arguments)?,
            "--long" => chosen.seeds = LONG_SEEDS,
            "--careful" => chosen.careful = true,
            "--wrong" => chosen.wrong = Some(arguments.next()?),
            "--self-check" => chosen.self_check = true,
            _ => return None,
        }
    }
    // a run of no cases would find no difference
    (chosen.times > 0 && !chosen.seeds.is_empty()).then_some(chosen)
}

fn status(right: bool) -> ExitCode {
    if right {
        ExitCode::SUCCESS
    } else {
        ExitCode::FAILURE
    }
}

fn main() -> ExitCode {
    let Some(Arguments { times, seeds, careful, wrong, self_check }) = arguments() else {
        eprintln!("outside [--times N] [--seed S | --seeds A B | --long] [--careful | --wrong NAME] | --self-check");
        return ExitCode::from(2);
    };
    if self_check {
        return status(keeps_paper("independent", &INDEPENDENT) && find_altered() && find_wrong());
    }
    if careful {
        return compare(&careful::CALLS, careful::WRITTEN, times, seeds);
    }
    if let Some(name) = wrong {
        return match wrong_calls::all().into_iter().find(|wrong| wrong.name == name) {
            Some(wrong) => compare(&wrong.calls, wrong.concerns, times, seeds),
            None => ExitCode::from(2),
        };
    }
    match library() {
        Some(_) if !keeps_header() => ExitCode::FAILURE,
        Some(calls) => compare(&calls, LINKED, times, seeds),
        None => {
            eprintln!("built without the library: `tools/build`, then build again");
            ExitCode::from(2)
        }
    }
}
