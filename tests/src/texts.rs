//! Texts for the reader, sound and damaged, and the lengths of the tables that it is lent.

use crate::cases::{Case, Family};
use crate::graph::Node;
use crate::random::Random;
use crate::sheets::{lines, text, Setting};
use crate::tables::{HEAD_ENTRIES, NODES_MOST, NODE_ENTRIES};

pub const FAMILIES: &[Family] = &[
    Family { name: "sheets", cases: 20_000, make: sound_sheets },
    Family { name: "every byte replaced", cases: 256 * SHEET_BYTES as u64, make: every_byte_replaced },
    Family { name: "bytes replaced", cases: 40_000, make: bytes_replaced },
    Family { name: "texts cut", cases: 6_000, make: texts_cut },
    Family { name: "lines changed", cases: 40_000, make: lines_changed },
    Family { name: "fields at edges", cases: 60_000, make: fields_at_edges },
    Family { name: "numbers of nodes", cases: 8_000, make: numbers_of_nodes },
    Family { name: "bytes at random", cases: 20_000, make: bytes_at_random },
    Family { name: "long texts", cases: 60, make: long_texts },
    Family { name: "the reader's tables", cases: 4_800, make: readers_tables },
];

/// Sheets with every kind of frame, every D and both ends of each field.
pub const SHEETS: [&str; 5] = [
    "000200640206\n01010002\n0100000A\n0300\n01000102\n0300\n0505\n",
    "000100000000\n0200000000000000FF\n0501\n",
    "0008100000F8\n02FFFFFFFFFFFFFFFF\n01010000\n040008\n0305\n0504\n",
    "000400010FFC\n0100FFFC\n040C00\n040004\n0503\n",
    "000100FF0007\n01000009\n040907\n01010000\n040007\n0304\n0505\n",
];

const SHEET_BYTES: usize = {
    let (mut bytes, mut sheet) = (0, 0);
    while sheet < SHEETS.len() {
        bytes += SHEETS[sheet].len();
        sheet += 1;
    }
    bytes
};

/// The tables nearly always have room, and now and then more than that.
fn lent(random: &mut Random, text: &[u8]) -> Case {
    let (head, nodes) = random.pick(&[(0, 0), (0, 0), (0, 0), (1, 1), (4, 108)]);
    Case::read(text, HEAD_ENTRIES + head, NODE_ENTRIES * NODES_MOST + nodes)
}

/// The lines of a random sheet of any shape; offsets, bounds and windows do not matter to the reader.
fn sheet_lines(random: &mut Random) -> Vec<String> {
    let setting = Setting::random(random);
    let offset = setting.any_offset(random);
    let nodes = random.pick(&[1, 2, 3, 4, 5, 8, 13, 30, 63, 64]);
    lines(&setting.sheet(setting.graph(random, nodes, offset, false)))
}

fn sheet_text(random: &mut Random) -> Vec<u8> {
    text(&sheet_lines(random))
}

fn sound_sheets(random: &mut Random, _: u64) -> Case {
    let text = sheet_text(random);
    lent(random, &text)
}

/// A base sheet, or a random one.
fn any_text(random: &mut Random) -> Vec<u8> {
    match random.below(8) {
        k @ 0..5 => SHEETS[k as usize].as_bytes().to_vec(),
        _ => sheet_text(random),
    }
}

/// Each byte of each base sheet, by each of the 256: the number of the case counts through them.
fn every_byte_replaced(random: &mut Random, number: u64) -> Case {
    let mut at = (number / 256) as usize % SHEET_BYTES;
    let mut sheet = 0;
    while at >= SHEETS[sheet].len() {
        at -= SHEETS[sheet].len();
        sheet += 1;
    }
    let mut text = SHEETS[sheet].as_bytes().to_vec();
    text[at] = (number % 256) as u8;
    lent(random, &text)
}

/// Bytes beside the digits and the line feed, and some of those.
const BYTES: [u8; 26] = *b"019AF/:@G`afg\n\n\r \0\t\x7f\x80\xff2345";

/// One to three bytes replaced, put in or taken out.
fn bytes_replaced(random: &mut Random, _: u64) -> Case {
    let mut text = any_text(random);
    for _ in 0..random.pick(&[1, 1, 2, 3]) {
        let at = random.below(text.len() as u64) as usize;
        match random.below(4) {
            0 => text.insert(at, random.pick(&BYTES)),
            1 if text.len() > 1 => {
                text.remove(at);
            }
            _ => text[at] = random.pick(&BYTES),
        }
    }
    lent(random, &text)
}

/// Every length of every base sheet, then random sheets cut anywhere.
fn texts_cut(random: &mut Random, number: u64) -> Case {
    let mut at = number as usize;
    for sheet in SHEETS {
        if at <= sheet.len() {
            return lent(random, &sheet.as_bytes()[..at]);
        }
        at -= sheet.len() + 1;
    }
    let text = sheet_text(random);
    let length = random.below(text.len() as u64 + 1) as usize;
    lent(random, &text[..length])
}

/// A line dropped, doubled, moved, ended otherwise, in lower case, or put in.
fn lines_changed(random: &mut Random, _: u64) -> Case {
    let mut lines = sheet_lines(random);
    for _ in 0..random.pick(&[1, 1, 1, 2]) {
        change_line(random, &mut lines);
    }
    let mut text = text(&lines);
    match random.below(24) {
        0 => text.extend(b"\n"),
        1 => text.extend(b"0500\n"),
        2 => text.extend(b" "),
        3 => {
            text.pop();
        }
        4 => text.extend(sheet_text(random)),
        _ => {}
    }
    lent(random, &text)
}

fn change_line(random: &mut Random, lines: &mut Vec<String>) {
    const PUT_IN: [&str; 9] = ["", "00", "05", "0500", "06", "0000", "000100010000", "FF00", "0"];
    let any = random.below(lines.len() as u64) as usize;
    let (at, other) = (random.pick(&[0, any, any, lines.len() - 1]), random.below(lines.len() as u64) as usize);
    match random.below(9) {
        0 if lines.len() > 1 => {
            lines.remove(at);
        }
        1 => lines.insert(at, lines[at].clone()),
        2 => lines.swap(at, other),
        3 => lines[at] = lines[at].to_lowercase(),
        4 => lines[at].push('\r'),
        5 => lines.insert(at, random.pick(&PUT_IN).into()),
        6 => lines[at].push(random.pick(&['0', 'F', ' ', '\0'])),
        7 => {
            lines[at].pop();
        }
        _ if at + 1 < lines.len() => {
            // a missing line feed
            let next = lines.remove(at + 1);
            lines[at].push_str(&next);
        }
        _ => lines.truncate(at),
    }
}

/// Frames whose fields are on one side or the other of an edge, in a sheet that is otherwise sound.
fn fields_at_edges(random: &mut Random, _: u64) -> Case {
    let setting = Setting::random(random);
    let offset = setting.any_offset(random);
    let nodes = random.pick(&[1, 2, 3, 5, 9, 64]);
    let mut lines = lines(&setting.sheet(setting.graph(random, nodes, offset, false)));
    for _ in 0..random.pick(&[1, 1, 2]) {
        let any = random.below(lines.len() as u64) as usize;
        let at = random.pick(&[0, any, any, lines.len() - 1]);
        lines[at] = edge_line(random, setting.d, &lines[at]);
        if random.one_in(8) {
            lines.truncate(at + 1);
        }
    }
    let mut text = text(&lines);
    if random.one_in(8) {
        // a missing line feed comes before the range
        text.pop();
    }
    lent(random, &text)
}

/// A line of the same kind, most often, with its fields at edges.
fn edge_line(random: &mut Random, d: u64, line: &str) -> String {
    let kinds = ["00", "01", "02", "03", "04", "05", "06", "0F", "10", "FF"];
    let kind = if random.one_in(10) { random.pick(&kinds) } else { &line[..2] };
    let byte = random.pick(&[0, 1, 2, 3, 5, 6, 7, 8, 9, 15, 16, 64, 65, 128, 255]);
    let pair = random.pick(&[0, 1, 4095, 4096, 4097, 0x7FFF, 0x8000, 0xFFFF]);
    let past = 1_u128 << (8 * d);
    match kind {
        "00" => {
            let d = random.pick(&[d, d, byte]);
            format!("00{d:02X}{:04X}{pair:04X}", random.pick(&[0, 1, 4095, 4096, 4097, 0xFFFF]))
        }
        "01" => format!("01{:02X}{pair:04X}", random.pick(&[0, 1, 2, byte])),
        "02" => format!("02{:016X}", random.pick(&[0, past - 1, past, past + 1, 2 * past, 1 << 63]) as u64),
        "03" => format!("03{:02X}", random.pick(&[0, 4, 5, 6, byte])),
        "04" => {
            let mut end = || random.pick(&[0, d, 16 - d, 15, 16, 16 + d, d + 1, d / 2, 255, byte]);
            format!("04{:02X}{:02X}", end(), end())
        }
        "05" => format!("05{byte:02X}"),
        _ => format!("{kind}{byte:02X}"),
    }
}

/// 62 to 66 nodes, one or none or two waiting, and the end's number right, beside it, or an edge.
fn numbers_of_nodes(random: &mut Random, _: u64) -> Case {
    let setting = Setting::random(random);
    let nodes = random.pick(&[0, 1, 2, 61, 62, 63, 64, 64, 65, 65, 66, 100]);
    let mut graph = if nodes == 0 { Vec::new() } else { setting.graph(random, nodes, setting.offset(), false) };
    match random.below(7) {
        0 => graph = (0..nodes).map(|_| setting.splat(random)).collect(),
        1 => graph.push(setting.splat(random)),
        2 => {
            graph.pop();
        }
        3 => graph.push(Node::Op(random.pick(&[0, 5, 6]))),
        4 => graph.push(Node::Shift { from: random.pick(&[0, 16]), to: 8 }),
        _ => {}
    }
    let count = graph.len() as u64;
    let mut lines = lines(&setting.sheet(graph));
    let said = random.pick(&[count, count, count + 1, count.saturating_sub(1), 0, 1, 64, 65, 255]);
    let end = lines.len() - 1;
    lines[end] = format!("05{:02X}", said % 256);
    if random.one_in(10) {
        lines.truncate(end);
    }
    lent(random, &text(&lines))
}

/// Any bytes; bytes that may stand in a sheet; kinds with any digits behind them.
fn bytes_at_random(random: &mut Random, number: u64) -> Case {
    let length = random.below(120) as usize;
    let text: Vec<u8> = match number % 3 {
        0 => random.bytes(length),
        1 => (0..length).map(|_| random.pick(b"0000001112345678ABCDEF\n\n")).collect(),
        _ => {
            let digits = [12, 8, 18, 4, 6, 4, 4];
            let mut text = b"000100100000\n".to_vec();
            for _ in 0..random.below(8) {
                let kind = random.below(7) as usize;
                text.extend(format!("0{kind}").bytes());
                text.extend((2..digits[kind]).map(|_| random.pick(b"000000000011234F")));
                text.push(b'\n');
            }
            text
        }
    };
    lent(random, &text)
}

/// 100 kB: one line, line feeds only, nodes without end, a sheet and much behind it.
fn long_texts(random: &mut Random, number: u64) -> Case {
    const LENGTH: usize = 100_000;
    let text = match number % 6 {
        0 => vec![b'0'; LENGTH],
        1 => vec![b'\n'; LENGTH],
        2 => [b"000100100000\n".to_vec(), b"01000000\n".repeat(LENGTH / 9)].concat(),
        3 => [sheet_text(random), vec![b'\n'; LENGTH]].concat(),
        4 => [b"000100100000\n0200".to_vec(), vec![b'0'; LENGTH], b"\n0501\n".to_vec()].concat(),
        _ => [sheet_text(random), random.bytes(LENGTH)].concat(),
    };
    lent(random, &text)
}

/// Tables around the least room, for texts that are done and texts that are not.
fn readers_tables(random: &mut Random, number: u64) -> Case {
    const HEADS: [usize; 6] = [0, 4, 9, 10, 11, 20];
    const NODES: [usize; 8] = [0, 1, 3, 190, 191, 192, 193, 300];
    let mut text = any_text(random);
    if random.one_in(2) {
        let at = random.below(text.len() as u64) as usize;
        text[at] = random.pick(&BYTES);
    }
    Case::read(&text, HEADS[number as usize % 6], NODES[number as usize / 6 % 8])
}
