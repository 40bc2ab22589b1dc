//! A case that came out differently, printed so that it can be read and tried by hand.

use crate::cases::{Case, Lent, Outcome, Tables};
use std::fmt::{Debug, LowerHex};

/// How many rows of a table are printed.
const MOST: usize = 70;

fn print_rows<T: Debug>(name: &str, table: &[T], row: usize) {
    if table.is_empty() {
        return;
    }
    println!("  {name}: {} entries", table.len());
    for row in table.chunks(row).take(MOST) {
        println!("    {row:?}");
    }
}

fn print_case(case: &Case) {
    println!("  {:?}, rule {}, lengths {:?}, {:?}", case.calls, case.rule, case.lengths, case.budget);
    let Tables { text, head, nodes, program, sections, work, table, .. } = &case.tables;
    let shown = &text[..text.len().min(2048)];
    println!("  text of {} bytes: \"{}\"", text.len(), shown.escape_ascii());
    print_rows("head", head, 10);
    print_rows("nodes", nodes, 3);
    print_rows("program", program, 5);
    for (name, section) in ["prologue", "body", "epilogue"].into_iter().zip(sections) {
        print_rows(name, section, 6);
    }
    println!("  work {} bytes, table {} bytes", work.len(), table.len());
}

/// The first entry that differs; counted from the table's first, so that a guard's may be below zero.
fn print_entry<T: PartialEq + LowerHex>(name: &str, expected: &Lent<T>, found: &Lent<T>) {
    if let Some((at, expected, found)) = expected.difference(found) {
        println!("  {name} at {at}: expected {expected:#x}, found {found:#x}");
    }
}

fn print_tables(expected: &Tables, found: &Tables) {
    print_entry("text", &expected.text, &found.text);
    print_entry("head", &expected.head, &found.head);
    print_entry("nodes", &expected.nodes, &found.nodes);
    print_entry("placed head", &expected.placed_head, &found.placed_head);
    print_entry("placed nodes", &expected.placed_nodes, &found.placed_nodes);
    print_entry("program", &expected.program, &found.program);
    for (name, k) in [("prologue", 0), ("body", 1), ("epilogue", 2)] {
        print_entry(name, &expected.sections[k], &found.sections[k]);
    }
    print_entry("work", &expected.work, &found.work);
    print_entry("work of the plain loop", &expected.plain_work, &found.plain_work);
    print_entry("work beside the plain loop's", &expected.plain_work, &found.work);
    print_entry("table", &expected.table, &found.table);
}

pub fn print_difference(name: &str, case: &Case, expected: &Outcome, found: &Outcome) {
    println!("difference in {name}");
    print_case(case);
    println!("  expected {:?}", expected.answers);
    println!("  found    {:?}", found.answers);
    print_tables(&expected.tables, &found.tables);
}
