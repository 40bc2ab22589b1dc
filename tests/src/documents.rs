//! The planners' files beside the independent implementation: every worked sheet in ../sheets with what is printed for it, and
//! every block of ../docs/PLANNERS.md that shows a sheet, a printing, figures or values.

use crate::graph::{Node, Sheet};
use crate::machine::{element, put_element, run, Document};
use crate::placing::{Placing, DOMINANT, EAGER, LAZY, ZERO};
use crate::plain::Looping;
use crate::printing::{cases, drawn, edges, places, Figures, WINDOWS};
use crate::random::Random;
use crate::sheet::Reading;
use crate::sheets::Setting;
use crate::translate::{Planning, Translating};
use crate::{Head, ALIGN, BARE, BOUNDS, CARRY, DONE, LINE, LONG, OFFSET, RANGE, SHAPE};
use std::path::{Path, PathBuf};

fn folder(name: &str) -> PathBuf {
    Path::new(env!("CARGO_MANIFEST_DIR")).join("..").join(name)
}

fn bytes(path: &Path) -> Result<Vec<u8>, String> {
    std::fs::read(path).map_err(|error| format!("{}: {error}", path.display()))
}

/// The cases file for `edges`.
pub fn cases_file() -> Result<Vec<u8>, String> {
    bytes(&folder("sheets/edges.txt"))
}

/// Name and text of every worked sheet, by name.
pub fn worked() -> Result<Vec<(String, Vec<u8>)>, String> {
    let entries = std::fs::read_dir(folder("sheets")).map_err(|error| format!("sheets: {error}"))?;
    let mut names: Vec<String> = entries.flatten().filter_map(|entry| entry.file_name().into_string().ok()).collect();
    names.retain(|name| name.ends_with(".sheet"));
    names.sort();
    names.into_iter().map(|name| Ok((name.clone(), bytes(&folder("sheets").join(name))?))).collect()
}

/// Every file in ../sheets with what stands beside it: how many there are.
pub fn files_right() -> Result<usize, String> {
    let (worked, cases_file) = (worked()?, cases_file()?);
    let cases = cases(&cases_file);
    for (name, text) in &worked {
        same(name, &places(text), &bytes(&folder("sheets").join(name).with_extension("printed"))?)?;
        if !cases.iter().any(|(_, case)| case == text) {
            return Err(format!("edges.txt: {name} is not among the cases"));
        }
    }
    for (name, text) in cases {
        case_named(&String::from_utf8_lossy(name), text)?;
    }
    let printed = edges(&cases_file);
    if let Some((refusal, _)) = REFUSALS.iter().find(|(_, number)| !printed.lines().any(|line| refused_by(line, *number))) {
        return Err(format!("edges.txt: no case is {refusal}"));
    }
    same("edges.txt", &printed, &bytes(&folder("sheets/edges.printed"))?)?;
    stored_cases_right()?;
    Ok(worked.len() + 1)
}

/// The stored cases of the two programs, which `rt ci` runs, are files of ../sheets.
fn stored_cases_right() -> Result<(), String> {
    let stored = [
        ("crates/places/stdin", "sheets/paper.sheet"),
        ("crates/places/stdout", "sheets/paper.printed"),
        ("crates/edges/stdin", "sheets/edges.txt"),
        ("crates/edges/stdout", "sheets/edges.printed"),
    ];
    for (case, sheet) in stored {
        if bytes(&folder(case))? != bytes(&folder(sheet))? {
            return Err(format!("{case} is not {sheet}"));
        }
    }
    Ok(())
}

/// The refusals that a sheet can meet in windows of 65,536 bytes, by the names of document 01.
const REFUSALS: [(&str, u64); 9] = [
    ("LINE", LINE),
    ("RANGE", RANGE),
    ("SHAPE", SHAPE),
    ("BARE", BARE),
    ("ALIGN", ALIGN),
    ("BOUNDS", BOUNDS),
    ("CARRY", CARRY),
    ("OFFSET", OFFSET),
    ("LONG", LONG),
];

/// Whether a line's answer is this number.
fn refused_by(line: &str, number: u64) -> bool {
    line[2..4] == format!("{number:02X}")
}

/// A case whose name begins with `NAME:` is so refused by every rule, and as it is drawn unless that is BARE; one with `NAME as
/// drawn` is so refused as it is drawn. No other case is refused so.
fn case_named(name: &str, text: &[u8]) -> Result<(), String> {
    let (drawn, placed) = (drawn(text), places(text));
    for (refusal, number) in REFUSALS {
        let said = name.trim_start().starts_with(&format!("{refusal}:"));
        let said_drawn = said && number != BARE || name.ends_with(&format!("{refusal} as drawn"));
        if refused_by(&drawn, number) != said_drawn || placed.lines().any(|line| refused_by(line, number) != said) {
            return Err(format!("edges.txt, {name}: {refusal} or not?\n{drawn}{placed}"));
        }
    }
    Ok(())
}

fn same(name: &str, expected: &str, found: &[u8]) -> Result<(), String> {
    if expected.as_bytes() == found {
        return Ok(());
    }
    Err(format!("{name}: should be\n{expected}and is\n{}", found.escape_ascii().to_string().replace("\\n", "\n")))
}

/// A fenced block of a document: the word behind the fence, what follows that word, the contents and the line of the fence.
struct Block<'a> {
    kind: &'a str,
    name: &'a str,
    contents: String,
    line: usize,
}

const FENCE: &str = "```";

fn blocks(document: &str) -> Vec<Block<'_>> {
    let (mut blocks, mut lines) = (Vec::new(), document.lines().enumerate());
    while let Some((line, label)) = lines.find(|(_, line)| line.starts_with(FENCE)) {
        let (kind, name) = label[FENCE.len()..].split_once(' ').unwrap_or((&label[FENCE.len()..], ""));
        let contents = lines.by_ref().map(|(_, line)| line).take_while(|line| *line != FENCE);
        let contents = contents.map(|line| format!("{line}\n")).collect();
        blocks.push(Block { kind, name, contents, line: line + 1 });
    }
    blocks
}

fn planners() -> Result<String, String> {
    String::from_utf8(bytes(&folder("docs/PLANNERS.md"))?).map_err(|error| error.to_string())
}

/// Every sheet that the document shows.
pub fn shown() -> Result<Vec<(String, Vec<u8>)>, String> {
    let document = planners()?;
    let sheets = blocks(&document).into_iter().filter(|block| block.kind == "sheet");
    Ok(sheets.map(|block| (format!("PLANNERS.md, line {}", block.line), block.contents.into_bytes())).collect())
}

/// What each rule makes of a sheet, in words: its shifts in the order of the placed graph's lines, G, and the steps as they come
/// from prologue, body and epilogue.
pub fn figures(text: &[u8]) -> Result<String, String> {
    let sheet = Document::sheet(text).map_err(|answer| format!("{answer:?}"))?;
    let line = |(rule, name): (u64, &str)| {
        let placed = Document::planned(rule, &sheet, WINDOWS).map_err(|answer| format!("{answer:?}"))?;
        let shifts = placed.nodes.iter().filter_map(|node| match node {
            Node::Shift { from, to } => Some(format!("{from} to {to}")),
            _ => None,
        });
        let shifts = Some(shifts.collect::<Vec<_>>().join(", ")).filter(|shifts| !shifts.is_empty());
        let shifts = shifts.map_or("no shift".into(), |shifts| format!("shifts {shifts}"));
        let Figures { g, steps, .. } = Figures::of(&placed);
        Ok(format!("{name}: {shifts}; G = {g}; steps {} = {steps}\n", terms(&placed)))
    };
    [(ZERO, "ZERO"), (EAGER, "EAGER"), (LAZY, "LAZY"), (DOMINANT, "DOMINANT")].into_iter().map(line).collect()
}

/// Prologue + passes x body + epilogue, as far as each is run.
fn terms(placed: &Sheet) -> String {
    let [_, f, prologue, body, epilogue] = Document::translated(placed).head();
    let body = if body == 0 { String::new() } else { format!(" + {} x {body}", f - 1) };
    let epilogue = if epilogue == 0 { String::new() } else { format!(" + {epilogue}") };
    format!("{prologue}{body}{epilogue}")
}

/// Every block of the document against the sheet above it: how many there are.
pub fn blocks_right() -> Result<usize, String> {
    let document = planners()?;
    let blocks = blocks(&document);
    let mut sheet = "";
    for block in &blocks {
        let place = format!("PLANNERS.md, line {}", block.line);
        match block.kind {
            "sheet" => {
                sheet = &block.contents;
                named(&place, block)?;
            }
            "places" => same(&place, &places(sheet.as_bytes()), block.contents.as_bytes())?,
            "edges" => same(&place, &(drawn(sheet.as_bytes()) + &places(sheet.as_bytes())), block.contents.as_bytes())?,
            "figures" => same(&place, &figures(sheet.as_bytes())?, block.contents.as_bytes())?,
            "values" => values(sheet, &block.contents).map_err(|error| format!("{place}: {error}"))?,
            _ => return Err(format!("{place}: neither sheet, places, edges, figures nor values")),
        }
    }
    Ok(blocks.len())
}

/// A sheet with a name is the worked sheet of that name.
fn named(place: &str, block: &Block) -> Result<(), String> {
    if block.name.is_empty() {
        return Ok(());
    }
    let file = bytes(&folder("sheets").join(block.name))?;
    same(place, &String::from_utf8_lossy(&file), block.contents.as_bytes())
}

/// Rows of numbers, other words between them: what the loads read, each address once and in the sheet's order, then what is stored.
/// Row i stands for element i. The plain loop and the program of each rule must leave the last number of each row.
fn values(text: &str, contents: &str) -> Result<(), String> {
    let sheet = Document::sheet(text.as_bytes()).map_err(|answer| format!("{answer:?}"))?;
    let rows: Vec<Vec<u64>> =
        contents.lines().map(|row| row.split(' ').filter_map(|word| word.parse().ok()).collect()).collect();
    let mut windows = WINDOWS.map(|length| vec![0; length as usize]);
    let columns = columns(&sheet);
    for (i, row) in (0..).zip(&rows) {
        if row.len() != columns.len() + 1 || i >= sheet.n {
            return Err(format!("row {i} does not fit the sheet"));
        }
        for (&(window, address), &value) in columns.iter().zip(row) {
            put_element(sheet.d, &mut windows[window as usize][address as usize..], i, value);
        }
    }
    let [work, table] = windows;
    let mut plain = work.clone();
    Document::looped(&sheet, &mut plain, &table);
    for (i, row) in (0..).zip(&rows) {
        let stored = element(sheet.d, &plain[sheet.store as usize..], i);
        if Some(&stored) != row.last() {
            return Err(format!("row {i} stores {stored}"));
        }
    }
    match (0..4).find(|&rule| planned_work(rule, &sheet, &work, &table).as_ref() != Some(&plain)) {
        Some(rule) => Err(format!("rule {rule} does not leave what the plain loop leaves")),
        None => Ok(()),
    }
}

/// Window and address of each load, each once.
fn columns(sheet: &Sheet) -> Vec<(u64, u64)> {
    let mut columns = Vec::new();
    for (_, window, address) in sheet.loads() {
        if !columns.contains(&(window, address)) {
            columns.push((window, address));
        }
    }
    columns
}

/// What the program of a rule leaves in work.
fn planned_work(rule: u64, sheet: &Sheet, work: &[u8], table: &[u8]) -> Option<Vec<u8>> {
    let translated = Document::translated(&Document::planned(rule, sheet, WINDOWS).ok()?);
    let [d, f, prologue, body, epilogue] = translated.head();
    let sections = translated.sections.each_ref().map(|rows| rows.concat());
    let head = Head { d, f, prologue, body, epilogue };
    let mut work = work.to_vec();
    let answer = run::<Document>(&head, &sections[0], &sections[1], &sections[2], &mut work, table, u64::MAX);
    (answer.number == DONE).then_some(work)
}

/// What the document says of the rules, on random sheets: how many. EAGER never has more instructions than another rule, LAZY
/// never more shifts than EAGER, and without a constant LAZY has as few instructions.
pub fn rules_as_said() -> Result<u64, String> {
    const SHEETS: u64 = 5_000;
    for number in 0..SHEETS {
        let mut random = Random::new(number);
        let setting = Setting::random(&mut random);
        let leaves = 1 + random.below(16);
        let sheet = setting.sheet(setting.bare(&mut random, leaves));
        let [zero, eager, lazy, dominant] =
            [ZERO, EAGER, LAZY, DOMINANT].map(|rule| Figures::of(&Document::placed(rule, &sheet)));
        let constants = sheet.nodes.iter().any(|node| matches!(node, Node::Splat(_)));
        let shortest = [&zero, &lazy, &dominant].iter().all(|other| eager.g <= other.g);
        if !shortest || lazy.shifts > eager.shifts || !constants && lazy.g != eager.g {
            return Err(format!("PLANNERS.md is wrong on the rules: {sheet:?}"));
        }
    }
    Ok(SHEETS)
}
