//! Commands of the second program.

use second::frames::{read_frames, write_frames, Case};
use second::{field_answers, field_cases, json_answers, json_cases, listing, listing_answers, listing_cases};
use second::{reading_answers, reading_cases, steps_answers, steps_cases, storing_answers, storing_cases};
use second::{stream_answers, stream_cases, table_answers, table_cases, writing_answers, writing_cases};
use std::io::{Read, Write};
use std::process::ExitCode;

const USAGE: &str = "usage: second KIND-cases SEED COUNT | KIND-answers | program, KIND being json, table, field, reading, listing, writing, steps, storing or stream";

fn main() -> ExitCode {
    let args: Vec<String> = std::env::args().skip(1).collect();
    let words: Vec<&str> = args.iter().map(String::as_str).collect();
    let result = match words.as_slice() {
        ["json-cases", seed, count] => write_cases(json_cases::json_cases, seed, count),
        ["json-answers"] => write_answers(json_answers::answer),
        ["table-cases", seed, count] => write_cases(table_cases::table_cases, seed, count),
        ["table-answers"] => write_answers(table_answers::answer),
        ["field-cases", seed, count] => write_cases(field_cases::field_cases, seed, count),
        ["field-answers"] => write_answers(field_answers::answer),
        ["reading-cases", seed, count] => write_cases(reading_cases::reading_cases, seed, count),
        ["reading-answers"] => write_answers(reading_answers::answer),
        ["listing-cases", seed, count] => write_cases(listing_cases::listing_cases, seed, count),
        ["listing-answers"] => write_answers(listing_answers::answer),
        ["writing-cases", seed, count] => write_cases(writing_cases::writing_cases, seed, count),
        ["writing-answers"] => write_answers(writing_answers::answer),
        ["steps-cases", seed, count] => write_cases(steps_cases::steps_cases, seed, count),
        ["steps-answers"] => write_answers(steps_answers::answer),
        ["storing-cases", seed, count] => write_cases(storing_cases::storing_cases, seed, count),
        ["storing-answers"] => write_answers(storing_answers::answer),
        ["stream-cases", seed, count] => write_cases(stream_cases::stream_cases, seed, count),
        ["stream-answers"] => write_answers(stream_answers::answer),
        ["program"] => input().and_then(|bytes| output(&listing::program(&bytes))),
        _ => Err(USAGE.to_string()),
    };
    match result {
        Ok(()) => ExitCode::SUCCESS,
        Err(message) => {
            eprintln!("{message}");
            ExitCode::FAILURE
        }
    }
}

/// All of standard input.
fn input() -> Result<Vec<u8>, String> {
    let mut bytes = Vec::new();
    std::io::stdin().read_to_end(&mut bytes).map_err(|e| e.to_string())?;
    Ok(bytes)
}

/// Writes to standard output.
fn output(bytes: &[u8]) -> Result<(), String> {
    let mut out = std::io::stdout();
    out.write_all(bytes).and_then(|()| out.flush()).map_err(|e| e.to_string())
}

/// The cases of a generator, as frames.
fn write_cases(cases: fn(u64, usize) -> Vec<Case>, seed: &str, count: &str) -> Result<(), String> {
    let seed = seed.parse().map_err(|_| USAGE.to_string())?;
    let count = count.parse().map_err(|_| USAGE.to_string())?;
    output(&write_frames(&cases(seed, count)))
}

/// The answer line of each case on standard input.
fn write_answers(answer: fn(&Case) -> Option<String>) -> Result<(), String> {
    let mut lines = String::new();
    for case in read_frames(&input()?)? {
        let line = answer(&case).ok_or(format!("broken case of letter {}", case.letter as char))?;
        lines.push_str(&line);
        lines.push('\n');
    }
    output(lines.as_bytes())
}
