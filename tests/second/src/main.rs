//! Commands: see README.md.

mod cases;
mod fixed;

use rules::{check, finished_lists, script};
use std::io::{Read, Write};
use std::process::ExitCode;

const USAGE: &str = "usage:
  second cases SEED LISTS OUT.cases OUT.expected
  second fixed OUT.cases OUT.expected
  second alarms OUT.cases OUT.expected
  second answer < CASES > EXPECTED
  second check [LISTS]";

fn main() -> ExitCode {
    let args: Vec<String> = std::env::args().skip(1).collect();
    let words: Vec<&str> = args.iter().map(String::as_str).collect();
    match words.as_slice() {
        ["cases", seed, lists, out, expected] => match (seed.parse(), lists.parse()) {
            (Ok(seed), Ok(lists)) => save(cases::random(seed, lists), out, expected),
            _ => usage(),
        },
        ["fixed", out, expected] => save(fixed::all(), out, expected),
        ["alarms", out, expected] => save(fixed::alarms::all(), out, expected),
        ["answer"] => answer(),
        ["check"] => run_check(20_000),
        ["check", lists] => match lists.parse() {
            Ok(lists) => run_check(lists),
            Err(_) => usage(),
        },
        _ => usage(),
    }
}

fn usage() -> ExitCode {
    eprintln!("{USAGE}");
    ExitCode::from(2)
}

fn save(sheet: cases::Sheet, out: &str, expected: &str) -> ExitCode {
    let calls = sheet.expected.lines().count();
    for (path, text) in [(out, &sheet.cases), (expected, &sheet.expected)] {
        if let Err(e) = std::fs::write(path, text) {
            eprintln!("{path}: {e}");
            return ExitCode::from(2);
        }
    }
    println!("{calls} calls, {} + {} bytes", sheet.cases.len(), sheet.expected.len());
    ExitCode::SUCCESS
}

fn answer() -> ExitCode {
    let mut text = Vec::new();
    if let Err(e) = std::io::stdin().read_to_end(&mut text) {
        eprintln!("standard input: {e}");
        return ExitCode::from(2);
    }
    let (output, errors) = script::answer_all(&text);
    if let Err(e) = std::io::stdout().write_all(output.as_bytes()) {
        eprintln!("standard output: {e}");
        return ExitCode::from(2);
    }
    for message in &errors {
        eprintln!("{message}");
    }
    if errors.is_empty() {
        ExitCode::SUCCESS
    } else {
        ExitCode::from(2)
    }
}

fn run_check(lists: u64) -> ExitCode {
    let report = check::all(lists, 4).and_then(|mut report| {
        report.push(finished_lists::compare(9, 10 * lists)?);
        Ok(report)
    });
    match report {
        Ok(report) => {
            for line in report {
                println!("{line}");
            }
            println!("check: all hold");
            ExitCode::SUCCESS
        }
        Err(message) => {
            eprintln!("check: {message}");
            ExitCode::FAILURE
        }
    }
}
