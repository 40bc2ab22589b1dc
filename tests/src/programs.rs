//! Programs, sound and damaged, with their windows and budgets: the cases that every machine is given, in families. A case
//! depends on its family and its number only.

use crate::cases::{whole_steps, Case, Family};
use crate::loops;
use crate::machine::{largest, put_element, run, Document, BODY, EPILOGUE, PROLOGUE};
use crate::random::Random;
use crate::rows::{held, load, op, pair, splat, splice, store};
use crate::translate::Translating;
use crate::{Head, Row};

/// Everything that a run is handed.
pub struct Program {
    pub head: Head,
    pub sections: [Vec<u32>; 3],
    pub work: Vec<u8>,
    pub table: Vec<u8>,
    pub budget: u64,
}

pub const FAMILIES: &[Family] = &[
    Family { name: "sound programs", cases: 40_000, make: |random, number| case(random, number, sound) },
    Family { name: "operations", cases: 24_000, make: |random, number| case(random, number, operations) },
    Family { name: "shifts and splices", cases: 6_600, make: |random, number| case(random, number, shifts_and_splices) },
    Family { name: "addresses", cases: 40_000, make: |random, number| case(random, number, addresses) },
    Family { name: "far passes", cases: 400, make: |random, number| case(random, number, far_passes) },
    Family { name: "one field damaged", cases: 80_000, make: |random, number| case(random, number, one_field_damaged) },
    Family { name: "rows of edges", cases: 80_000, make: |random, number| case(random, number, rows_of_edges) },
    Family { name: "unused fields", cases: 16_000, make: |random, number| case(random, number, unused_fields) },
    Family { name: "section lengths", cases: 2_000, make: |random, number| case(random, number, section_lengths) },
    Family { name: "heads", cases: 8_640, make: |random, number| case(random, number, heads) },
    Family { name: "window lengths", cases: 3_240, make: |random, number| case(random, number, window_lengths) },
    Family { name: "refusals together", cases: 40_000, make: |random, number| case(random, number, refusals_together) },
    Family { name: "budgets", cases: 60_000, make: |random, number| case(random, number, budgets) },
    Family { name: "registers", cases: 400, make: |random, number| case(random, number, registers) },
    Family { name: "long runs", cases: 6, make: |random, number| case(random, number, long_runs) },
    Family { name: "translated loops", cases: 8_000, make: |random, number| case(random, number, translated_loop) },
];

fn case(random: &mut Random, number: u64, make: fn(&mut Random, u64) -> Program) -> Case {
    let program = make(random, number);
    Case::run(random, &program)
}

// ---- edges

const WIDTHS: [u64; 4] = [1, 2, 4, 8];

const NUMBERS: [u32; 36] = [
    0,
    1,
    2,
    3,
    5,
    6,
    7,
    8,
    14,
    15,
    16,
    17,
    18,
    31,
    32,
    127,
    128,
    255,
    256,
    257,
    1022,
    1023,
    1024,
    1025,
    2047,
    2048,
    65_535,
    65_536,
    65_537,
    0x7FFF_FFFF,
    0x8000_0000,
    0x8000_0001,
    0x8000_0010,
    0xFFFF_FFF0,
    0xFFFF_FFFE,
    u32::MAX,
];

const REGISTERS: [u32; 12] = [0, 1, 2, 1022, 1023, 1024, 1025, 2047, 2048, 1 << 16, 1 << 31, u32::MAX];

/// The registers that most rows use and that the last rows show.
const SHOWN: [u32; 6] = [0, 1, 2, 3, 1022, 1023];

const LENGTHS: [usize; 18] =
    [0, 8, 15, 16, 17, 31, 32, 33, 48, 64, 65_520, 65_528, 65_535, 65_536, 65_537, 65_551, 65_552, 131_072];

const WHOLE_LENGTHS: [usize; 8] = [0, 16, 32, 48, 128, 1024, 65_520, 65_536];

fn edge_element(random: &mut Random, d: u64) -> u64 {
    let top = largest(d) / 2 + 1;
    let any = random.number() & largest(d);
    random.pick(&[0, 1, largest(d), top, top - 1, top + 1, largest(d) - 1, any, any, any])
}

/// Values around 2^(8D), and any.
fn edge_value(random: &mut Random, d: u64) -> u64 {
    let any = random.number();
    let past = largest(d).wrapping_add(1);
    let beside = past.wrapping_add(1);
    let high = u64::from(random.number() as u32) << 32;
    random.pick(&[largest(d) - 1, largest(d), past, beside, past | high, any & largest(d), any, 1 << 32, u64::MAX])
}

// ---- sound rows

/// What a program's rows can count on.
struct Setting {
    d: u64,
    f: u64,
    work: usize,
    table: usize,
}

impl Setting {
    fn usual(random: &mut Random) -> Setting {
        Setting {
            d: random.pick(&WIDTHS),
            f: random.pick(&[0, 1, 1, 2, 2, 3, 3, 4, 5, 8]),
            work: 16 * random.pick(&[0, 1, 2, 4, 6, 8, 12, 20, 40]),
            table: 16 * random.pick(&[0, 1, 2, 3, 8, 20, 41]),
        }
    }

    /// The first and the last pass of a section.
    fn passes(&self, section: usize) -> (i64, i64) {
        match section {
            PROLOGUE => (0, 0),
            BODY => (1, (self.f as i64 - 1).max(1)),
            _ => (self.f as i64, self.f as i64),
        }
    }

    /// An address at an edge of a window in some pass, at the end of the numbers, or far away.
    fn edge_address(&self, random: &mut Random) -> i64 {
        let f = self.f.min(2048) as i64;
        let power = 1_i64 << random.between(4, 31);
        let (work, table) = (self.work as i64, self.table as i64);
        let base = random.pick(&[0, 0, work, work, table, table, 65_536, -(1 << 31), (1 << 31) - 1, power, -power]);
        base - 16 * random.pick(&[0, 1, f - 1, f]) + random.between(-17, 17)
    }

    fn load_address(&self, random: &mut Random, length: usize, section: usize) -> i64 {
        let (first, last) = self.passes(section);
        match random.below(8) {
            0 => random.between(-(1 << 31), (1 << 31) - 1),
            1 => self.edge_address(random),
            _ => random.between(0, length as i64) - 16 * random.between(first, last),
        }
    }

    /// An address at which a store is sound in every pass of the section, if there is one.
    fn store_address(&self, random: &mut Random, section: usize) -> Option<i64> {
        let (first, last) = self.passes(section);
        let (least, most) = (-16 * first, self.work as i64 - 16 * last - 1);
        if least > most {
            return None;
        }
        let any = random.between(least, most);
        Some(random.pick(&[least, most, any, any, any]))
    }

    fn sound_row(&self, random: &mut Random, section: usize) -> Row {
        let mut register = || if random.one_in(8) { random.below(1024) as u32 } else { random.pick(&SHOWN) };
        let (destination, a, b) = (register(), register(), register());
        match random.below(6) {
            0 => splat(destination, edge_element(random, self.d)),
            1 => op(destination, random.below(6) as u32, a, b),
            2 => pair(destination, a, b, random.below(16) as u32),
            3 => splice(destination, a, b, random.below(17) as u32),
            4 => {
                if let Some(address) = self.store_address(random, section) {
                    return store(a, address);
                }
                load(destination, 1, self.load_address(random, self.table, section))
            }
            _ => {
                let window = random.below(2) as u32;
                let length = if window == 0 { self.work } else { self.table };
                load(destination, window, self.load_address(random, length, section))
            }
        }
    }

    fn sound_rows(&self, random: &mut Random, counts: [u64; 3]) -> [Vec<Row>; 3] {
        [PROLOGUE, BODY, EPILOGUE].map(|section| (0..counts[section]).map(|_| self.sound_row(random, section)).collect())
    }

    /// Stores of the usual registers behind the epilogue, as many as work has blocks for.
    fn show(&self, random: &mut Random, epilogue: &mut Vec<Row>) {
        let blocks = self.work / 16;
        let shown = blocks.min(SHOWN.len());
        let first = random.below((blocks - shown + 1) as u64) as i64;
        for (k, register) in SHOWN.into_iter().take(shown).enumerate() {
            epilogue.push(store(register, 16 * (first + k as i64 - self.f as i64)));
        }
    }

    /// A sound program of a few rows that ends by showing the usual registers.
    fn sound_program(&self, random: &mut Random, most: u64) -> [Vec<Row>; 3] {
        let counts = [0; 3].map(|_: u64| random.below(most + 1));
        let mut rows = self.sound_rows(random, counts);
        self.show(random, &mut rows[EPILOGUE]);
        rows
    }

    /// One field of a row at an edge of what it may be, on one side or the other.
    fn damaged(&self, random: &mut Random, row: Row) -> Row {
        let [kind, ..] = row;
        let field = random.below(6) as usize;
        let mut damaged = row;
        if kind == 2 && field > 3 {
            let value = edge_value(random, self.d);
            (damaged[4], damaged[5]) = (value as u32, (value >> 32) as u32);
            return damaged;
        }
        damaged[field] = match (field, kind) {
            (0, _) => random.pick(&[0, 1, 2, 3, 4, 5, 6, 7, 8, 256 + kind, (1 << 16) + kind, u32::MAX]),
            (1, _) | (2, 3..) | (3, 3..) => random.pick(&REGISTERS),
            (2, 1) => random.pick(&[0, 1, 2, 3, 256, 257, u32::MAX]),
            (4, 1 | 6) => held(self.edge_address(random)),
            (4, 3) => random.pick(&[0, 1, 2, 3, 4, 5, 6, 7, 256, 1 << 16, u32::MAX]),
            (4, 4 | 5) => random.pick(&[0, 14, 15, 16, 17, 18, 31, 32, 256, 272, 1 << 16, u32::MAX]),
            _ => random.pick(&NUMBERS),
        };
        damaged
    }

    fn windows(&self, random: &mut Random) -> (Vec<u8>, Vec<u8>) {
        (random.bytes(self.work), random.bytes(self.table))
    }
}

/// A program with its windows: a table for each section, at times longer than its rows.
fn assemble(random: &mut Random, setting: &Setting, rows: [Vec<Row>; 3], budget: u64) -> Program {
    let head = Head {
        d: setting.d,
        f: setting.f,
        prologue: rows[PROLOGUE].len() as u64,
        body: rows[BODY].len() as u64,
        epilogue: rows[EPILOGUE].len() as u64,
    };
    let sections = rows.map(|rows| {
        let mut table = rows.concat();
        if random.one_in(3) {
            let more = random.below(14);
            table.extend((0..more).map(|_| random.pick(&NUMBERS)));
        }
        table
    });
    let (work, table) = setting.windows(random);
    Program { head, sections, work, table, budget }
}

// ---- the families

fn sound(random: &mut Random, _: u64) -> Program {
    let setting = Setting::usual(random);
    let rows = setting.sound_program(random, 14);
    let mut case = assemble(random, &setting, rows, u64::MAX);
    if random.one_in(4) {
        case.budget = whole_steps(&case.head);
    }
    case
}

/// Every operation at every D, lane by lane over edges and random elements; eight pairs of vectors a case.
fn operations(random: &mut Random, number: u64) -> Program {
    let d = WIDTHS[number as usize % 4];
    let operation = (number / 4 % 6) as u32;
    let setting = Setting { d, f: random.below(2), work: 128, table: 256 };
    let mut rows = Vec::new();
    for k in 0..8 {
        rows.push(load(0, 1, 32 * k));
        rows.push(load(1, 1, 32 * k + 16));
        let destination = random.pick(&[0, 1, 2]);
        rows.push(op(destination, operation, 0, 1));
        rows.push(store(destination, 16 * k));
    }
    let mut case = assemble(random, &setting, [rows, Vec::new(), Vec::new()], u64::MAX);
    for lane in 0..256 / d {
        let element = edge_element(random, d);
        put_element(d, &mut case.table, lane, element);
    }
    case
}

/// Every amount of both, also in place and of one register twice.
fn shifts_and_splices(random: &mut Random, number: u64) -> Program {
    let amount = (number % 33) as u32;
    let setting = Setting { d: random.pick(&WIDTHS), f: 0, work: 64, table: 64 };
    let (first, second) = random.pick(&[(0, 1), (1, 0), (0, 0), (1023, 1)]);
    let destination = random.pick(&[2, first, second]);
    let mut rows = vec![load(first, 1, 0), load(second, 1, 16)];
    rows.push(match amount {
        0..16 => pair(destination, first, second, amount),
        _ => splice(destination, first, second, amount - 16),
    });
    rows.push(store(destination, 32));
    rows.push(store(first, 0));
    rows.push(store(second, 16));
    assemble(random, &setting, [rows, Vec::new(), Vec::new()], u64::MAX)
}

/// Loads at the edges of both windows and far away, each shown by a store; some stores at edges too.
fn addresses(random: &mut Random, _: u64) -> Program {
    let setting = Setting {
        d: random.pick(&WIDTHS),
        f: random.pick(&[0, 1, 2, 3, 5]),
        work: random.pick(&WHOLE_LENGTHS),
        table: random.pick(&WHOLE_LENGTHS),
    };
    let rows = [PROLOGUE, BODY, EPILOGUE].map(|section| {
        let mut rows = Vec::new();
        for register in 0..random.below(4) as u32 {
            let window = random.below(2) as u32;
            let address = setting.edge_address(random);
            rows.push(load(register, window, address));
            match setting.store_address(random, section) {
                Some(address) if !random.one_in(6) => rows.push(store(register, address)),
                _ => rows.push(store(register, setting.edge_address(random))),
            }
        }
        rows
    });
    assemble(random, &setting, rows, u64::MAX)
}

/// Thousands of passes over a window: loads that enter and leave it, stores that leave it in some pass.
fn far_passes(random: &mut Random, _: u64) -> Program {
    let mut setting = Setting {
        d: random.pick(&WIDTHS),
        f: random.pick(&[257, 1000, 2046, 2047, 2048]),
        work: random.pick(&[16, 1024, 32_752, 32_768, 65_520, 65_536]),
        table: random.pick(&WHOLE_LENGTHS),
    };
    let window = random.below(2) as u32;
    let start = setting.edge_address(random);
    let work = setting.work as i64;
    let leaving = random.pick(&[-16, 0, -17, work - 16 * setting.f as i64, work - 16 * setting.f as i64 + 15]);
    let address = leaving + random.between(-1, 1);
    let body = vec![load(0, window, start), op(1, random.below(6) as u32, 0, 1), store(1, address)];
    let epilogue = vec![load(2, window, start), splice(2, 1, 2, random.below(17) as u32), store(2, address)];
    if random.one_in(3) {
        setting.table = setting.work;
    }
    assemble(random, &setting, [Vec::new(), body, epilogue], u64::MAX)
}

fn one_field_damaged(random: &mut Random, _: u64) -> Program {
    let setting = Setting::usual(random);
    let mut rows = setting.sound_program(random, 5);
    let section = random.below(3) as usize;
    if !rows[section].is_empty() {
        let at = random.below(rows[section].len() as u64) as usize;
        rows[section][at] = setting.damaged(random, rows[section][at]);
    }
    assemble(random, &setting, rows, u64::MAX)
}

/// Rows whose every field is an edge of something, among sound ones.
fn rows_of_edges(random: &mut Random, _: u64) -> Program {
    let setting = Setting::usual(random);
    let mut rows = setting.sound_program(random, 4);
    for row in rows.iter_mut().flatten() {
        match random.below(12) {
            0 => {
                *row = [0; 6].map(|_: u32| random.pick(&NUMBERS));
                row[0] = random.pick(&[0, 1, 2, 3, 4, 5, 6, 7, u32::MAX]);
            }
            1 | 2 => *row = setting.damaged(random, *row),
            _ => {}
        }
    }
    let budget = random.pick(&[u64::MAX, u64::MAX, 3]);
    assemble(random, &setting, rows, budget)
}

/// Junk in every field that a row's kind does not use.
fn unused_fields(random: &mut Random, _: u64) -> Program {
    let setting = Setting::usual(random);
    let mut rows = setting.sound_program(random, 6);
    for row in rows.iter_mut().flatten() {
        let unused: &[usize] = match row[0] {
            1 => &[3, 5],
            2 => &[2, 3],
            6 => &[1, 3, 5],
            _ => &[5],
        };
        for &field in unused {
            row[field] = if random.one_in(3) { random.number() as u32 } else { random.pick(&NUMBERS) };
        }
    }
    assemble(random, &setting, rows, u64::MAX)
}

/// Sections of 0 to 1,025 rows, in tables shorter and longer than that.
fn section_lengths(random: &mut Random, _: u64) -> Program {
    let mut setting = Setting::usual(random);
    setting.f = random.pick(&[0, 1, 2, 2, 3]);
    let counts = [0; 3].map(|_: u64| random.pick(&[0, 1, 2, 5, 40, 1023, 1024, 1024, 1025]));
    let rows = setting.sound_rows(random, counts);
    let mut case = assemble(random, &setting, rows, u64::MAX);
    for (section, count) in case.sections.iter_mut().zip(counts) {
        if random.one_in(2) {
            let entries = 6 * count as i64 + random.pick(&[-6, -1, 0, 0, 0, 1, 5, 6, 60]);
            section.resize(entries.max(0) as usize, 1);
        }
    }
    case
}

/// Every D of a list with every F of a list, over programs of a few rows or none.
fn heads(random: &mut Random, number: u64) -> Program {
    const D: [u64; 18] = [0, 1, 2, 3, 4, 5, 6, 7, 8, 9, 15, 16, 17, 257, 258, (1 << 32) + 1, (1 << 32) + 8, u64::MAX];
    const F: [u64; 12] = [0, 1, 2, 3, 2047, 2048, 2049, 2050, 65_537, 1 << 32, 1 << 63, u64::MAX];
    let mut setting = Setting::usual(random);
    setting.f = F[(number / 18) as usize % 12].min(2048);
    setting.work = random.pick(&[0, 64, 128, 65_536]);
    let mut rows = setting.sound_program(random, 2);
    if random.one_in(4) {
        rows = Default::default();
    }
    let mut case = assemble(random, &setting, rows, u64::MAX);
    case.head.d = D[number as usize % 18];
    case.head.f = F[(number / 18) as usize % 12];
    if random.one_in(4) {
        case.budget = random.below(4);
    }
    case
}

/// Every two lengths of a list, and the blocks at the ends of both windows read and written.
fn window_lengths(random: &mut Random, number: u64) -> Program {
    let setting = Setting {
        d: random.pick(&WIDTHS),
        f: 0,
        work: LENGTHS[number as usize % 18],
        table: LENGTHS[(number / 18) as usize % 18],
    };
    let (work, table) = (setting.work as i64, setting.table as i64);
    let mut rows = Vec::new();
    for (window, length) in [(0, work), (1, table)] {
        rows.push(load(2 * window, window, length - 1));
        rows.push(load(2 * window + 1, window, length));
    }
    rows.push(op(4, random.below(6) as u32, 2, 0));
    let mut stores = vec![store(4, 0), store(2, work - 1), store(3, 16), store(1, 32), store(0, work)];
    stores.truncate(random.below(6) as usize);
    rows.extend(stores);
    assemble(random, &setting, [rows, Vec::new(), Vec::new()], u64::MAX)
}

/// Several things wrong at once, which tells the order of the checks.
fn refusals_together(random: &mut Random, _: u64) -> Program {
    // six times the last one is 2 when it wraps
    const ROWS: [u64; 6] = [1025, 2000, 1 << 32, 1 << 63, u64::MAX, u64::MAX / 6 + 1];
    let setting = Setting::usual(random);
    let mut rows = setting.sound_program(random, 2);
    if random.one_in(3) {
        rows = Default::default();
    }
    if let Some(row) = rows.iter_mut().flatten().next() {
        if random.one_in(2) {
            *row = setting.damaged(random, *row);
        }
    }
    let mut case = assemble(random, &setting, rows, u64::MAX);
    let head = &mut case.head;
    for (rows, table) in [&mut head.prologue, &mut head.body, &mut head.epilogue].into_iter().zip(&case.sections) {
        if random.one_in(10) {
            *rows = random.pick(&ROWS);
        } else if random.one_in(10) {
            *rows = table.len() as u64 / 6 + 1;
        }
    }
    if random.one_in(4) {
        head.d = random.pick(&[0, 3, 16, u64::MAX]);
    }
    if random.one_in(4) {
        head.f = random.pick(&[2049, 1 << 32, u64::MAX]);
    }
    for window in [&mut case.work, &mut case.table] {
        if random.one_in(4) {
            window.resize(random.pick(&[1, 8, 15, 17, 65_544, 65_552]), 7);
        }
    }
    if random.one_in(3) {
        case.budget = random.below(3);
    }
    case
}

/// Budgets around the step at which a program, sound or damaged, would stop.
fn budgets(random: &mut Random, _: u64) -> Program {
    let setting = Setting::usual(random);
    let mut rows = setting.sound_program(random, 4);
    if random.one_in(2) {
        if let Some(row) = rows[random.below(3) as usize].last_mut() {
            *row = setting.damaged(random, *row);
        }
    }
    let mut case = assemble(random, &setting, rows, u64::MAX);
    let [prologue, body, epilogue] = &case.sections;
    let mut work = case.work.clone();
    let steps = run::<Document>(&case.head, prologue, body, epilogue, &mut work, &case.table, u64::MAX).steps;
    let inside = random.below(steps + 1);
    let less = steps.saturating_sub(1);
    case.budget = random.pick(&[0, 1, less, less, steps, steps, steps + 1, steps + 2, inside, inside, u64::MAX]);
    case
}

/// All the registers: written in one section, read in another, or never written.
fn registers(random: &mut Random, _: u64) -> Program {
    let setting = Setting { d: random.pick(&WIDTHS), f: random.pick(&[0, 1, 2, 3]), work: 16_384, table: 16_384 };
    let written = random.pick(&[0, 1, 500, 1023, 1024]);
    let prologue = (0..written)
        .map(|_| {
            let register = random.below(1024) as u32;
            match random.below(3) {
                0 => splat(register, edge_element(random, setting.d)),
                _ => load(register, 1, random.between(0, 16_383)),
            }
        })
        .collect();
    let body = (0..random.below(30))
        .map(|_| {
            let mut register = || random.below(1024) as u32;
            let (destination, a, b) = (register(), register(), register());
            op(destination, random.below(6) as u32, a, b)
        })
        .collect();
    let f = setting.f as i64;
    let epilogue = (0..1024).map(|register| store(register, 16 * (i64::from(register) - f))).collect();
    assemble(random, &setting, [prologue, body, epilogue], u64::MAX)
}

/// As many steps as a run can have, or nearly.
fn long_runs(random: &mut Random, number: u64) -> Program {
    let setting = Setting {
        d: random.pick(&WIDTHS),
        f: 2048 - number % 2,
        work: random.pick(&[65_520, 65_536]),
        table: random.pick(&[65_520, 65_536]),
    };
    let counts = [1024, random.pick(&[1023, 1024]), 1000];
    let [prologue, body, mut epilogue] = setting.sound_rows(random, counts);
    setting.show(random, &mut epilogue);
    let mut case = assemble(random, &setting, [prologue, body, epilogue], u64::MAX);
    let whole = whole_steps(&case.head);
    case.budget = [u64::MAX, whole, whole - 1][number as usize % 3];
    case
}

/// The program of a random loop.
fn translated_loop(random: &mut Random, _: u64) -> Program {
    let length = random.pick(&[16, 32, 48, 256, 1024, 8192, 65_536]);
    let sheet = loops::random(random, length);
    let program = Document::translated(&sheet);
    let setting = Setting { d: sheet.d, f: program.f, work: length, table: length };
    assemble(random, &setting, program.sections, u64::MAX)
}
