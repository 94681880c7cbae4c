//! Compares the library, through the functions of include/childbus.h, with the second program's rules (README.md).

mod address_edges;
mod alarm_edges;
mod alarm_lines;
mod alarms;
#[path = "../../second/src/cases.rs"]
#[allow(dead_code)]
mod cases;
mod compare;
mod dead;
mod half_bytes;
mod items;
mod layout;
mod library;
mod lists;
mod pages;
mod running;
mod shrink;
mod silences;
mod tally;
mod uploads;

use compare::{Difference, Pair, Stop};
use items::Item;
use rules::finished_lists;
use std::process::ExitCode;
use std::time::Instant;
use tally::{Tally, ENOUGH};

const USAGE: &str = "usage:
  live SEED COUNT          compares at least COUNT calls in random lists
  live uploads SEED COUNT  checks finished uploads in random lists of at least COUNT calls
  live file FILE           compares the calls of a case file";

fn main() -> ExitCode {
    let args: Vec<String> = std::env::args().skip(1).collect();
    let words: Vec<&str> = args.iter().map(String::as_str).collect();
    match words.as_slice() {
        ["file", path] => file(path),
        ["uploads", seed, count] => match (seed.parse(), count.parse()) {
            (Ok(seed), Ok(count)) => finished_uploads(seed, count),
            _ => usage(),
        },
        [seed, count] => match (seed.parse(), count.parse()) {
            (Ok(seed), Ok(count)) => random(seed, count),
            _ => usage(),
        },
        _ => usage(),
    }
}

fn usage() -> ExitCode {
    eprintln!("{USAGE}");
    ExitCode::from(2)
}

fn random(seed: u64, count: u64) -> ExitCode {
    println!("# seed {seed}, {count} calls");
    let start = Instant::now();
    let mut tally = Tally::default();
    let mut k = 0;
    while tally.calls < count {
        let items = lists::list(seed, k);
        let before = tally.calls;
        if let Err(difference) = run(&items, &mut tally) {
            println!("# difference: seed {seed}, list {k}, its call {}", tally.calls - before + 1);
            return show(&items, &difference);
        }
        k += 1;
    }
    for line in tally.lines() {
        println!("# {line}");
    }
    let missing = tally.missing();
    if count >= ENOUGH && !missing.is_empty() {
        println!("# never happened: {}", missing.join(", "));
        return ExitCode::FAILURE;
    }
    let (calls, alarms, seconds) = (tally.calls, tally.alarms.calls(), start.elapsed().as_secs_f64());
    println!("# {calls} calls and {alarms} of the five on what must not be missed, in {k} lists, {seconds:.1} s: no difference");
    ExitCode::SUCCESS
}

fn finished_uploads(seed: u64, count: u64) -> ExitCode {
    let start = Instant::now();
    let came = match finished_lists::run::<uploads::Library>(seed, count) {
        Ok(came) => came,
        Err(failure) => {
            uploads::show(seed, &failure);
            return ExitCode::FAILURE;
        }
    };
    match came.report(count) {
        Ok(line) => {
            println!("# seed {seed}, {line}; {:.1} s", start.elapsed().as_secs_f64());
            ExitCode::SUCCESS
        }
        Err(message) => {
            println!("# seed {seed}, {message}");
            ExitCode::FAILURE
        }
    }
}

fn file(path: &str) -> ExitCode {
    let items = match std::fs::read_to_string(path).map_err(|e| e.to_string()).and_then(|text| items::parse(&text)) {
        Ok(items) => items,
        Err(message) => {
            eprintln!("{path}: {message}");
            return ExitCode::from(2);
        }
    };
    let mut tally = Tally::default();
    if let Err(difference) = run(&items, &mut tally) {
        println!("# difference: {path}, call {}", tally.calls + 1);
        return show(&items, &difference);
    }
    let (calls, alarms) = (tally.calls, tally.alarms.calls());
    println!("# {path}: {calls} calls and {alarms} of the five on what must not be missed, no difference");
    ExitCode::SUCCESS
}

/// Runs a list from a fresh start. The tally goes on.
fn run(items: &[Item], tally: &mut Tally) -> Result<(), Difference> {
    let mut pair = Pair::new();
    pair.tally = std::mem::take(tally);
    let result = items.iter().try_for_each(|item| pair.step(item));
    *tally = pair.tally;
    match result {
        Ok(()) => Ok(()),
        Err(Stop::Differs(difference)) => Err(difference),
        Err(Stop::Unfit) => Err(Difference {
            what: "a board call stands before a profile and a flash".to_string(),
            second: "-".to_string(),
            library: "-".to_string(),
            alarm: None,
        }),
    }
}

/// Both answers, then the smallest list. All but the list are comments, so that the output is a case file.
fn show(items: &[Item], difference: &Difference) -> ExitCode {
    if let Some((k, _)) = shrink::first_difference(items) {
        println!("# call     {}", items[k].text());
    }
    show_answers(difference);
    let Some(smallest) = shrink::smallest(items) else {
        println!("# the list alone shows no difference");
        return ExitCode::FAILURE;
    };
    println!("# smallest list found in {} tries:", smallest.tries);
    for item in &smallest.items {
        println!("{}", item.text());
    }
    show_answers(&smallest.difference);
    ExitCode::FAILURE
}

fn show_answers(difference: &Difference) {
    println!("# second   {}", difference.second);
    println!("# library  {}", difference.library);
    println!("# differs  {}", difference.what);
}
