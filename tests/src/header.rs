//! `include/sinkerjaw.h` against this side, so that neither drifts: each constant against what the independent implementation
//! takes it to be, each prototype, the document's too, against the functions of `crates/sinkerjaw` and the declarations of `board.rs`.

use crate::graph::{Checking, Node, Sheet};
use crate::machine::{Document, Rules, Vector};
use crate::placing::{Placing, DOMINANT, EAGER, LAZY, ZERO};
use crate::rows::{held, load, op, pair, splat, splice, store};
use crate::tables::{HEAD_ENTRIES, NODES_MOST, NODE_ENTRIES, PROGRAM_ENTRIES, SECTION_ENTRIES};
use crate::translate::Translated;
use crate::{Row, ALIGN, BARE, BOUNDS, CARRY, DONE, FAULT, LINE, LONG, OFFSET, OUT, RANGE, ROOM, SHAPE, WINDOW};

/// What is compared.
#[derive(Clone)]
pub struct Texts {
    pub header: String,
    pub document: String,
    pub declared: String,
    pub source: String,
}

pub fn texts() -> Texts {
    Texts {
        header: include_str!("../../include/sinkerjaw.h").to_string(),
        document: include_str!("../../docs/CALLERS.md").to_string(),
        declared: include_str!("board.rs").to_string(),
        source: include_str!("../../crates/sinkerjaw/src/lib.rt").to_string(),
    }
}

/// What differs, a line for each.
pub fn differences(texts: &Texts) -> Vec<String> {
    let mut found = constant_differences(&without_comments(&texts.header));
    let functions = source_functions(&texts.source);
    for (place, prototypes) in [
        ("include/sinkerjaw.h", c_functions(&without_comments(&texts.header))),
        ("docs/CALLERS.md", c_functions(&without_comments(&texts.document))),
        ("tests/src/board.rs", rust_functions(&texts.declared)),
    ] {
        found.extend(prototype_differences(place, &prototypes, &functions));
    }
    found
}

/// The texts altered in one place each, which must be found: every constant of the header one more, and some prototypes.
pub fn altered() -> Vec<(String, Texts)> {
    let texts = texts();
    let with_header = |header| Texts { header, ..texts.clone() };
    let constants = constants().into_iter().map(|(name, value)| {
        let between = if texts.header.contains(&format!("{name} = {value}")) { " = " } else { " " };
        let header = texts.header.replace(&format!("{name}{between}{value}"), &format!("{name}{between}{}", value + 1));
        (name.to_string(), with_header(header))
    });
    let in_header = |old: &str, new: &str| (format!("{old} -> {new}"), with_header(texts.header.replacen(old, new, 1)));
    let declared = texts.declared.replacen("head_len: usize", "head_len: u64", 1);
    let source = texts.source.replacen("body: &mut [u32]", "body: &[u32]", 1);
    let document = texts.document.replacen("uint64_t sinkerjaw_check(", "uint64_t sinkerjaw_checks(", 1);
    let prototypes = [
        in_header("const uint8_t *text", "uint8_t *text"),
        in_header("size_t nodes_len", "uint64_t nodes_len"),
        in_header("uint32_t *prologue", "uint64_t *prologue"),
        in_header("    uint64_t rule,\n", ""),
        in_header("uint64_t sinkerjaw_plain(", "uint64_t sinkerjaw_loop("),
        ("a length declared in Rust".to_string(), Texts { declared, ..texts.clone() }),
        ("a table of crates/board".to_string(), Texts { source, ..texts.clone() }),
        ("a name in the document".to_string(), Texts { document, ..texts.clone() }),
    ];
    constants.chain(prototypes).collect()
}

// ---- constants

fn constant_differences(header: &str) -> Vec<String> {
    let (in_header, here) = (header_constants(header), constants());
    let mut found = Vec::new();
    for (name, value) in &here {
        match in_header.iter().find(|(other, _)| other == name) {
            None => found.push(format!("include/sinkerjaw.h has no {name}")),
            Some((_, other)) if *other == Some(*value) => (),
            Some((_, Some(other))) => found.push(format!("include/sinkerjaw.h: {name} is {other}, and {value} here")),
            Some((_, None)) => found.push(format!("include/sinkerjaw.h: {name} is no plain number")),
        }
    }
    let unknown = in_header.iter().filter(|(name, _)| here.iter().all(|(other, _)| name != other));
    found.extend(unknown.map(|(name, _)| format!("include/sinkerjaw.h: {name} is not compared with anything")));
    found
}

/// Each name of a constant, with its value where it is a number: `#define NAME 1` or `NAME = 1`.
fn header_constants(header: &str) -> Vec<(String, Option<u64>)> {
    let words: Vec<&str> = words(header).filter(|word| *word != "=").collect();
    let named = words.iter().enumerate().filter(|(_, word)| word.starts_with("SINKERJAW_") && **word != "SINKERJAW_H");
    named.map(|(k, word)| (word.to_string(), words.get(k + 1).and_then(|word| number(word)))).collect()
}

fn words(text: &str) -> impl Iterator<Item = &str> {
    text.split(|c: char| c.is_whitespace() || "{},;".contains(c)).filter(|word| !word.is_empty())
}

fn number(word: &str) -> Option<u64> {
    word.strip_suffix('u').unwrap_or(word).parse().ok()
}

/// The header's constants as this side has them: its own constants, or what its functions take or give.
pub fn constants() -> Vec<(&'static str, u64)> {
    [answers(), limits(), sheet_tables(), program_tables()].concat()
}

fn answers() -> Vec<(&'static str, u64)> {
    vec![
        ("SINKERJAW_DONE", DONE),
        ("SINKERJAW_ROOM", ROOM),
        ("SINKERJAW_LINE", LINE),
        ("SINKERJAW_RANGE", RANGE),
        ("SINKERJAW_SHAPE", SHAPE),
        ("SINKERJAW_BARE", BARE),
        ("SINKERJAW_WINDOW", WINDOW),
        ("SINKERJAW_ALIGN", ALIGN),
        ("SINKERJAW_BOUNDS", BOUNDS),
        ("SINKERJAW_CARRY", CARRY),
        ("SINKERJAW_OFFSET", OFFSET),
        ("SINKERJAW_LONG", LONG),
        ("SINKERJAW_OUT", OUT),
        ("SINKERJAW_FAULT", FAULT),
    ]
}

fn limits() -> Vec<(&'static str, u64)> {
    let window_allowed = <Document as Checking>::window_allowed;
    let full_most = most(Document::turns_allowed);
    let section_most = most(|rows| Document::fits(rows, usize::MAX));
    vec![
        ("SINKERJAW_VECTOR_BYTES", size_of::<Vector>() as u64),
        ("SINKERJAW_ELEMENTS_MOST", most(|n| Document::header_in_range(1, n, 0))),
        ("SINKERJAW_ADDRESS_MOST", most(Document::address_in_range)),
        ("SINKERJAW_WINDOW_MOST", most(window_allowed)),
        ("SINKERJAW_WINDOW_MULTIPLE", (1..).find(|&length| window_allowed(length)).unwrap()),
        ("SINKERJAW_OFFSET_MOST", most(|to| Document::shift_in_range(1, 0, to))),
        ("SINKERJAW_BARE_MOST", Document::bare_most() as u64),
        ("SINKERJAW_FULL_MOST", full_most),
        ("SINKERJAW_SIZE_MOST", most(|g| !Document::too_long(u128::from(g)))),
        ("SINKERJAW_SECTION_MOST", section_most),
        ("SINKERJAW_SHIFTPAIR_MOST", most(|l| Document::pair_amount(l as u32).is_some())),
        ("SINKERJAW_SPLICE_MOST", most(|l| Document::splice_amount(l as u32).is_some())),
        ("SINKERJAW_REGISTERS", Document::registers().len() as u64),
        ("SINKERJAW_STEPS_MOST", Document::order(full_most).len() as u64 * section_most),
    ]
}

fn sheet_tables() -> Vec<(&'static str, u64)> {
    let head = Sheet { d: 8, n: 5, store: 6, nodes: vec![Node::Splat(0)] }.head();
    let shift = Node::Shift { from: 8, to: 9 }.row();
    let window = |lengths| <Document as Checking>::windows(lengths).unwrap_err().place;
    vec![
        ("SINKERJAW_WORK", window([1, 0])),
        ("SINKERJAW_TABLE", window([0, 1])),
        ("SINKERJAW_HEAD_ENTRIES", HEAD_ENTRIES as u64),
        ("SINKERJAW_HEAD_D", index(&head, 8)),
        ("SINKERJAW_HEAD_N", index(&head, 5)),
        ("SINKERJAW_HEAD_S", index(&head, 6)),
        ("SINKERJAW_HEAD_NODES", index(&head, 1)),
        ("SINKERJAW_HEAD_SPARE", head.len() as u64),
        ("SINKERJAW_NODES_MOST", NODES_MOST as u64),
        ("SINKERJAW_NODE_ROW", NODE_ENTRIES as u64),
        ("SINKERJAW_NODES_ENTRIES", (NODE_ENTRIES * NODES_MOST) as u64),
        ("SINKERJAW_NODE_KIND", index(&shift, 4)),
        ("SINKERJAW_NODE_FIRST", index(&shift, 8)),
        ("SINKERJAW_NODE_SECOND", index(&shift, 9)),
        ("SINKERJAW_NODE_LOAD", Node::Load { window: 0, address: 0 }.row()[0]),
        ("SINKERJAW_NODE_SPLAT", Node::Splat(0).row()[0]),
        ("SINKERJAW_NODE_OP", Node::Op(0).row()[0]),
        ("SINKERJAW_NODE_SHIFT", shift[0]),
        ("SINKERJAW_ADD", operation(255, 3)),
        ("SINKERJAW_SUBTRACT", operation(1, 255)),
        ("SINKERJAW_MINIMUM", operation(127, 1)),
        ("SINKERJAW_MAXIMUM", operation(128, 2)),
        ("SINKERJAW_SIGNED_MINIMUM", operation(128, 1)),
        ("SINKERJAW_SIGNED_MAXIMUM", operation(127, 2)),
        ("SINKERJAW_RULE_ZERO", ZERO),
        ("SINKERJAW_RULE_EAGER", EAGER),
        ("SINKERJAW_RULE_LAZY", LAZY),
        ("SINKERJAW_RULE_DOMINANT", DOMINANT),
    ]
}

fn program_tables() -> Vec<(&'static str, u64)> {
    let rows = |count| vec![Row::default(); count];
    let head = Translated { d: 8, f: 9, sections: [rows(5), rows(6), rows(7)] }.head();
    let operated = op(10, 13, 11, 12);
    vec![
        ("SINKERJAW_PROGRAM_ENTRIES", PROGRAM_ENTRIES as u64),
        ("SINKERJAW_PROGRAM_D", index(&head, 8)),
        ("SINKERJAW_PROGRAM_F", index(&head, 9)),
        ("SINKERJAW_PROGRAM_PROLOGUE", index(&head, 5)),
        ("SINKERJAW_PROGRAM_BODY", index(&head, 6)),
        ("SINKERJAW_PROGRAM_EPILOGUE", index(&head, 7)),
        ("SINKERJAW_SECTION_ROW", Row::default().len() as u64),
        ("SINKERJAW_SECTION_ENTRIES", SECTION_ENTRIES as u64),
        ("SINKERJAW_ROW_KIND", index(&operated, 3)),
        ("SINKERJAW_ROW_DESTINATION", index(&operated, 10)),
        ("SINKERJAW_ROW_A", index(&operated, 11)),
        ("SINKERJAW_ROW_B", index(&operated, 12)),
        ("SINKERJAW_ROW_LOW", index(&operated, 13)),
        ("SINKERJAW_ROW_HIGH", index(&splat(0, 7 << 32), 7)),
        ("SINKERJAW_CODE_LOAD", load(0, 0, 0)[0].into()),
        ("SINKERJAW_CODE_SPLAT", splat(0, 0)[0].into()),
        ("SINKERJAW_CODE_OP", operated[0].into()),
        ("SINKERJAW_CODE_SHIFTPAIR", pair(0, 0, 0, 0)[0].into()),
        ("SINKERJAW_CODE_SPLICE", splice(0, 0, 0, 0)[0].into()),
        ("SINKERJAW_CODE_STORE", store(0, 0)[0].into()),
        ("SINKERJAW_ADDRESS_ZERO", held(0).into()),
    ]
}

/// The largest number that is allowed, of those that any limit could be.
fn most(allowed: impl Fn(u64) -> bool) -> u64 {
    (0..1 << 20).rev().find(|&number| allowed(number)).expect("0 is allowed")
}

fn index<T: PartialEq>(entries: &[T], mark: T) -> u64 {
    entries.iter().position(|entry| *entry == mark).expect("the mark stands there") as u64
}

/// The operation that gives these of 128 and 127, and of 1 and 2, each of one byte.
fn operation(of_large: u64, of_small: u64) -> u64 {
    let gives =
        |&number: &u32| Document::operate(1, number, 128, 127) == of_large && Document::operate(1, number, 1, 2) == of_small;
    (0..=5).find(gives).expect("one of the six").into()
}

// ---- prototypes

/// A function's name, and the name and type of each parameter, as Rust declares them.
#[derive(PartialEq)]
struct Function {
    name: String,
    parameters: Vec<(String, String)>,
}

fn prototype_differences(place: &str, found: &[Function], functions: &[Function]) -> Vec<String> {
    if found.len() != functions.len() {
        return vec![format!("{place} has {} calls, crates/sinkerjaw has {}", found.len(), functions.len())];
    }
    let pairs = found.iter().zip(functions).filter(|(one, other)| one != other);
    pairs.map(|(one, other)| format!("{place}: {}, and in crates/sinkerjaw {}", one.unlike(other), other.unlike(one))).collect()
}

impl Function {
    /// Its first parameter that another has not in the same place, or how many there are.
    fn unlike(&self, other: &Function) -> String {
        let Function { name, parameters } = self;
        match parameters.iter().zip(&other.parameters).find(|(one, other)| one != other) {
            Some(((parameter, kind), _)) => format!("{name} takes {parameter}: {kind}"),
            None => format!("{name} takes {}", parameters.len()),
        }
    }
}

/// The functions of a text whose heads have this before the call's name, then its parameters, and this behind them.
fn functions(text: &str, before: &str, behind: &str, parameters: impl Fn(&str) -> Vec<(String, String)>) -> Vec<Function> {
    let starts =
        text.match_indices(&format!("{before}sinkerjaw_")).map(|(at, _)| &text[at + before.len()..]).collect::<Vec<_>>();
    let heads = starts.into_iter().filter_map(|start| {
        let (head, rest) = start.split_once(')')?;
        let (name, list) = head.split_once('(')?;
        rest.starts_with(behind).then(|| Function { name: name.to_string(), parameters: parameters(list) })
    });
    heads.collect()
}

fn c_functions(text: &str) -> Vec<Function> {
    functions(text, "uint64_t ", ";", |list| list.split(',').map(c_parameter).collect())
}

/// `const uint8_t *text` is `text: *const u8`.
fn c_parameter(parameter: &str) -> (String, String) {
    let words: Vec<&str> = parameter.split_whitespace().collect();
    let (name, kind) = words.split_last().expect("a parameter has a name");
    let number = kind.last().copied().unwrap_or_default();
    let number = if number == "size_t" { "usize".to_string() } else { number.replace("uint", "u").replace("_t", "") };
    let kind = match (name.starts_with('*'), kind.first() == Some(&"const")) {
        (true, true) => format!("*const {number}"),
        (true, false) => format!("*mut {number}"),
        (false, _) => number,
    };
    (name.trim_start_matches('*').to_string(), kind)
}

fn rust_functions(text: &str) -> Vec<Function> {
    functions(text, "fn ", " -> u64;", |list| named(list).collect())
}

/// A slice is handed over as a pointer and then its length.
fn source_functions(text: &str) -> Vec<Function> {
    functions(text, "pub extern \"C\" fn ", " -> u64\n", |list| named(list).flat_map(lent).collect())
}

fn named(list: &str) -> impl Iterator<Item = (String, String)> + '_ {
    let pairs = list.split(',').filter_map(|parameter| parameter.split_once(':'));
    pairs.map(|(name, kind)| (name.trim().to_string(), kind.trim().to_string()))
}

fn lent((name, kind): (String, String)) -> Vec<(String, String)> {
    let slice = |start| kind.strip_prefix(start).and_then(|rest| rest.strip_suffix(']'));
    let pointer = match (slice("&["), slice("&mut [")) {
        (Some(entry), _) => format!("*const {entry}"),
        (_, Some(entry)) => format!("*mut {entry}"),
        _ => return vec![(name, kind)],
    };
    let length = (format!("{name}_len"), "usize".to_string());
    vec![(name, pointer), length]
}

fn without_comments(text: &str) -> String {
    let mut parts = text.split("/*");
    let first = parts.next().unwrap_or_default().to_string();
    parts.fold(first, |kept, part| kept + part.split_once("*/").map_or("", |(_, rest)| rest))
}
