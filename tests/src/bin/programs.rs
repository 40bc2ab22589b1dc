//! The programs `places` and `edges` from outside: every byte that the executables print, beside the independent printing.
//!
//!     programs PLACES EDGES    the paths of the two executables
//!     programs --self-check    the inputs must tell wrong printings from the right ones; needs no executable

use outside::random::Random;
use outside::sheets::{lines, text, Setting};
use outside::{documents, paper, printing, texts};
use std::io::Write;
use std::process::{Command, ExitCode, Stdio};
use std::thread;
use std::time::Duration;

/// What a program is given on its standard input, and in pieces of how many bytes.
struct Input {
    name: String,
    bytes: Vec<u8>,
    piece: usize,
}

impl Input {
    fn new(name: impl Into<String>, bytes: impl Into<Vec<u8>>) -> Input {
        Input { name: name.into(), bytes: bytes.into(), piece: usize::MAX }
    }
}

fn paper_sheet() -> &'static [u8] {
    texts::SHEETS[0].as_bytes()
}

// ---- inputs of `places`

fn sheets() -> Result<Vec<Input>, String> {
    let cases = documents::cases_file()?;
    let mut inputs = vec![Input::new("document 01's sheet", paper_sheet())];
    inputs.extend(documents::worked()?.into_iter().chain(documents::shown()?).map(|(name, text)| Input::new(name, text)));
    inputs.extend(printing::cases(&cases).into_iter().map(|(name, text)| Input::new(String::from_utf8_lossy(name), text)));
    inputs.extend((0..=paper_sheet().len()).map(|length| Input::new(format!("cut at {length}"), &paper_sheet()[..length])));
    for (k, piece) in [1, 7, 13].into_iter().enumerate() {
        inputs.push(Input { piece, ..Input::new(format!("pieces of {piece}"), texts::SHEETS[k]) });
    }
    inputs.extend(long_texts());
    inputs.extend(damaged_texts());
    inputs.extend((0..120).map(random_sheet));
    Ok(inputs)
}

/// Texts around the most that can matter, 65 splats and a line, and around the bytes that are read.
fn long_texts() -> Vec<Input> {
    let mut inputs = Vec::new();
    for nodes in [63, 64, 65, 66, 200] {
        let splats = [b"000800100000\n".to_vec(), b"020123456789ABCDEF\n".repeat(nodes)].concat();
        inputs.push(Input::new(format!("{nodes} splats"), [&splats[..], b"0540\n"].concat()));
        inputs.push(Input::new(format!("{nodes} splats, the last not ended"), &splats[..splats.len() - 1]));
    }
    for length in [2047, 2048, 2049, 4096, 100_000] {
        for filling in [b'0', b'\n', b'-', 0xFF] {
            let behind = vec![filling; length - paper_sheet().len()];
            inputs.push(Input::new(format!("a sheet and {filling:02X} to {length}"), [paper_sheet(), &behind].concat()));
            inputs.push(Input::new(format!("{filling:02X} to {length}"), vec![filling; length]));
        }
    }
    inputs
}

/// Some of every family of texts for the reader, damaged ones and bytes at random among them.
fn damaged_texts() -> Vec<Input> {
    const EACH: u64 = 20;
    let numbers = |cases: u64| (0..EACH.min(cases)).map(move |k| k * cases / EACH.min(cases));
    let named = |(family, number): (&outside::cases::Family, u64)| {
        Input::new(format!("{}, case {number}", family.name), &family.case(number, 0).tables.text[..])
    };
    texts::FAMILIES.iter().flat_map(|family| numbers(family.cases).map(move |number| (family, number))).map(named).collect()
}

/// Bare sheets on both sides of 31 nodes, and graphs that are drawn with shifts.
fn random_sheet(number: u64) -> Input {
    let mut random = Random::new(number);
    let setting = Setting::random(&mut random);
    let (leaves, nodes) = (random.pick(&[1, 2, 3, 5, 9, 15, 16, 17]), random.pick(&[2, 5, 9, 20, 64]));
    let graph = match number % 3 {
        0 => setting.graph(&mut random, nodes, setting.offset(), false),
        _ => setting.bare(&mut random, leaves),
    };
    Input::new(format!("random sheet {number}"), text(&lines(&setting.sheet(graph))))
}

// ---- inputs of `edges`

/// The cases file, all inputs of `places` as cases, and whatever may stand around cases.
fn cases(sheets: &[Input]) -> Result<Vec<Input>, String> {
    let mut inputs = vec![Input::new("edges.txt", documents::cases_file()?)];
    inputs.push(Input { piece: 500, ..Input::new("edges.txt in pieces", documents::cases_file()?) });
    for (number, sheets) in sheets.chunks(10).enumerate() {
        let cases: Vec<Vec<u8>> = sheets.iter().map(|input| case(&input.name, &input.bytes)).collect();
        inputs.push(Input::new(format!("sheets as cases, file {number}"), cases.concat()));
    }
    inputs.extend(AROUND.map(|input| Input::new(format!("{:?}", input), input)));
    for more in 0..12 {
        // the most that is read ends in a name, in a text, and between cases
        let before = "x".repeat(7 * more + 1);
        let many = case("again", paper_sheet()).repeat(1_000);
        inputs.push(Input::new(format!("many cases behind {} bytes", before.len()), [before.as_bytes(), &many].concat()));
    }
    for length in [65_535, 65_536, 65_537, 200_000] {
        inputs.push(Input::new(format!("one case of {length} bytes"), [&b"-\n"[..], &vec![b'\n'; length - 2]].concat()));
        inputs.push(Input::new(format!("a name of {length} bytes"), [&b"-"[..], &vec![b'-'; length - 2], b"\n"].concat()));
        inputs.push(Input::new(format!("a case behind {length} bytes"), [&vec![b' '; length][..], b"-\n"].concat()));
        inputs.push(Input::new(format!("a case at byte {length}"), [&vec![b' '; length - 1][..], b"-\n"].concat()));
    }
    inputs.push(Input::new("cases without texts", "-\n".repeat(2_000)));
    Ok(inputs)
}

fn case(name: &str, text: &[u8]) -> Vec<u8> {
    [b"-", name.as_bytes(), b"\n", text].concat()
}

const AROUND: [&str; 16] = [
    "",
    "\n",
    "-",
    "-\n",
    "--",
    "--\n",
    "-\n-",
    "-\n-\n-\n",
    "- a name without its line feed",
    "- a-name-with-dashes\n000100010000\n020000000000000007\n0501\n",
    "no case at all\n000100010000\n",
    "before the first case\n- one\n000100010000\n020000000000000007\n0501\n",
    "000100010000\n020000000000000007\n0501\n-\n",
    "-\n000100010000\n020000000000000007\n0501\n-",
    "-\n000100010000\n020000000000000007\n0501-\n",
    "-\n\n000100010000\n020000000000000007\n0501\n",
];

// ---- comparing

type Printing = fn(&[u8]) -> String;

/// What an executable prints for an input; nothing but success and an empty standard error will do.
fn run(path: &str, input: &Input) -> Result<Vec<u8>, String> {
    let (bytes, piece) = (input.bytes.clone(), input.piece);
    let command = Command::new(path).stdin(Stdio::piped()).stdout(Stdio::piped()).stderr(Stdio::piped()).spawn();
    let mut child = command.map_err(|error| format!("{path}: {error}"))?;
    let mut standard_input = child.stdin.take().ok_or("no standard input")?;
    let writer = thread::spawn(move || {
        for piece in bytes.chunks(piece.max(1)) {
            // a program that has read enough may have ended
            if standard_input.write_all(piece).is_err() {
                break;
            }
            if piece.len() < bytes.len() {
                thread::sleep(Duration::from_millis(1));
            }
        }
    });
    let output = child.wait_with_output().map_err(|error| format!("{path}: {error}"))?;
    writer.join().map_err(|_| "the writer broke off")?;
    if output.status.success() && output.stderr.is_empty() {
        Ok(output.stdout)
    } else {
        Err(format!("{path}: {}, {}", output.status, output.stderr.escape_ascii()))
    }
}

/// Every input: how many runs there were.
fn compare(path: &str, inputs: &[Input], printing: Printing) -> Result<usize, String> {
    for input in inputs {
        let (expected, found) = (printing(&input.bytes), run(path, input)?);
        if expected.as_bytes() != found {
            let shown = input.bytes[..input.bytes.len().min(2_100)].escape_ascii();
            return Err(format!("{path}, {}: for \"{shown}\" {}", input.name, difference(expected.as_bytes(), &found)));
        }
    }
    Ok(inputs.len())
}

/// The first line that differs, the line feed with it.
fn difference(expected: &[u8], found: &[u8]) -> String {
    let (mut expected, mut found) =
        (expected.split_inclusive(|&byte| byte == b'\n'), found.split_inclusive(|&byte| byte == b'\n'));
    let mut line = 1;
    loop {
        match (expected.next(), found.next()) {
            (one, other) if one == other => line += 1,
            (one, other) => {
                let [one, other] = [one, other].map(|line| line.unwrap_or(b"nothing").escape_ascii());
                return format!("line {line} should be\n{one}\nand is\n{other}");
            }
        }
    }
}

fn keeps_paper() -> Result<(), String> {
    if printing::places(paper_sheet()) == paper::PRINTED {
        Ok(())
    } else {
        Err("the independent printing is not document 01's".into())
    }
}

fn compare_both(places: &str, edges: &str) -> Result<(), String> {
    keeps_paper()?;
    let sheets = sheets()?;
    let runs = compare(places, &sheets, printing::places)? + compare(edges, &cases(&sheets)?, printing::edges)?;
    println!("programs: {runs} runs, 0 differences");
    Ok(())
}

// ---- wrong printings, to see that the inputs find them

const WRONG_PLACES: [(&str, Printing); 9] = [
    ("lower case", |input| printing::places(input).to_lowercase()),
    ("no last line feed", |input| printing::places(input).trim_end().into()),
    ("carriage returns", |input| printing::places(input).replace('\n', "\r\n")),
    ("three rules", |input| printing::places(input)[..63].into()),
    ("rule 3 as rule 2", |input| [&printing::places(input)[..63], "03", &printing::places(input)[44..63]].concat()),
    ("no places", |input| each_line(input, |line| [&line[..4], "00", &line[6..]].concat())),
    ("a refusal once", |input| {
        let printed = printing::places(input);
        if &printed[2..4] == "00" {
            printed
        } else {
            printed[..21].into()
        }
    }),
    ("reads 1,247 bytes", |input| printing::places(&input[..input.len().min(1_247)])),
    ("steps as G", |input| each_line(input, |line| [&line[..12], "000000", &line[10..12], "\n"].concat())),
];

fn each_line(input: &[u8], change: fn(&str) -> String) -> String {
    printing::places(input).split_inclusive('\n').map(change).collect()
}

const WRONG_EDGES: [(&str, Printing); 8] = [
    ("reads 65,535 bytes", |input| printing::edges(&input[..input.len().min(65_535)])),
    ("reads all", |input| each_case(printing::cases(input), |text| printing::drawn(text) + &printing::places(text))),
    ("four lines", |input| each_case(printing::cases(first(input)), printing::places)),
    ("drawn last", |input| each_case(printing::cases(first(input)), |text| printing::places(text) + &printing::drawn(text))),
    ("a dash in a name begins a case", |input| {
        let parts = first(input).split(|&byte| byte == b'-').skip(1);
        let texts = parts.map(|part| (part, part.iter().position(|&byte| byte == b'\n').map_or(&[][..], |k| &part[k + 1..])));
        each_case(texts.collect(), |text| printing::drawn(text) + &printing::places(text))
    }),
    ("the beginning is a case", |input| printing::edges(&[b"-\n", input].concat())),
    ("a name without line feed is none", |input| {
        let read = first(input);
        printing::edges(&read[..read.iter().rposition(|&byte| byte == b'\n').map_or(0, |k| k + 1)])
    }),
    ("drawn as rule 4", |input| printing::edges(input).replace("\nFF", "\n04")),
];

fn first(input: &[u8]) -> &[u8] {
    &input[..input.len().min(printing::EDGES_BYTES)]
}

fn each_case(cases: Vec<(&[u8], &[u8])>, print: fn(&[u8]) -> String) -> String {
    cases.into_iter().map(|(_, text)| print(text)).collect()
}

fn found(wrong: &[(&str, Printing)], inputs: &[Input], right: Printing) -> Result<usize, String> {
    let expected: Vec<String> = inputs.iter().map(|input| right(&input.bytes)).collect();
    for (name, wrong) in wrong {
        let finders = inputs.iter().zip(&expected).filter(|(input, expected)| wrong(&input.bytes) != **expected).count();
        println!("{name}: {finders} of {} inputs find it", inputs.len());
        if finders == 0 {
            return Err(format!("{name}: NOT FOUND"));
        }
    }
    Ok(wrong.len())
}

fn self_check() -> Result<(), String> {
    keeps_paper()?;
    let sheets = sheets()?;
    let wrong = found(&WRONG_PLACES, &sheets, printing::places)? + found(&WRONG_EDGES, &cases(&sheets)?, printing::edges)?;
    println!("programs: all {wrong} wrong printings found");
    Ok(())
}

fn main() -> ExitCode {
    let arguments: Vec<String> = std::env::args().skip(1).collect();
    let done = match arguments.iter().map(String::as_str).collect::<Vec<_>>()[..] {
        ["--self-check"] => self_check(),
        [places, edges] => compare_both(places, edges),
        _ => {
            eprintln!("programs PLACES EDGES | --self-check");
            return ExitCode::from(2);
        }
    };
    match done {
        Ok(()) => ExitCode::SUCCESS,
        Err(error) => {
            println!("{error}");
            ExitCode::FAILURE
        }
    }
}
