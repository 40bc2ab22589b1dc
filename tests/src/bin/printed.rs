//! What `places` and `edges` print for standard input, by the independent implementation.
//!
//!     printed places < SHEET
//!     printed edges < CASES
//!     printed figures < SHEET    shifts, G and steps of each rule in words
//!     printed documents          the worked sheets and docs/PLANNERS.md must be as the independent implementation has them

use outside::documents::{blocks_right, figures, files_right, rules_as_said};
use outside::printing::{edges, places};
use std::io::{Read, Write};
use std::process::ExitCode;

fn print(printing: fn(&[u8]) -> String) -> Result<(), String> {
    let mut input = Vec::new();
    let whole = std::io::stdin().read_to_end(&mut input);
    let done = whole.and_then(|_| std::io::stdout().write_all(printing(&input).as_bytes()));
    done.map_err(|error| error.to_string())
}

fn documents() -> Result<(), String> {
    let (files, blocks, sheets) = (files_right()?, blocks_right()?, rules_as_said()?);
    println!("printed: {files} files, {blocks} blocks of PLANNERS.md and its words on the rules ({sheets} sheets) are right");
    Ok(())
}

fn main() -> ExitCode {
    let arguments: Vec<String> = std::env::args().skip(1).collect();
    let done = match arguments.iter().map(String::as_str).collect::<Vec<_>>()[..] {
        ["places"] => print(places),
        ["edges"] => print(edges),
        ["figures"] => print(|input| figures(input).unwrap_or_else(|refusal| refusal + "\n")),
        ["documents"] => documents(),
        _ => {
            eprintln!("printed places | edges | figures | documents");
            return ExitCode::from(2);
        }
    };
    match done {
        Ok(()) => ExitCode::SUCCESS,
        Err(error) => {
            eprintln!("printed: {error}");
            ExitCode::FAILURE
        }
    }
}
