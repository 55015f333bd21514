//! Runs the driver and the Rust crate on the same inputs, one after the other in turns, checks that both gave the same rows,
//! and prints the times, one line a run, for bench/measure to sum up.
//!
//! ```text
//! harness make KIND SIZE               the input itself, to standard output
//! harness time ROUNDS CASE ..          a case is `KIND SIZE before after invert window piece` with commas between
//! harness once WAY CASE                one run, for callgrind
//! harness search                       what the program `search` does, by the crate
//! ```

mod input;
mod program;
mod ways;

use std::collections::HashMap;
use std::env;
use std::io::{self, Write};
use std::process::ExitCode;
use std::time::Instant;

use input::{Kind, LITERAL};
use ways::{Asked, Told, Way, WAYS};

/// Runs shorter than this many bytes are repeated, so that the clock has enough to measure.
const ENOUGH: usize = 16 << 20;

#[derive(Clone, Copy)]
struct Case {
    kind: Kind,
    size: usize,
    asked: Asked,
}

fn number(word: &str) -> Result<usize, String> {
    word.parse().map_err(|_| format!("{word} is no number"))
}

fn known(name: &str) -> Result<Kind, String> {
    input::kind(name).ok_or_else(|| format!("{name} is no input"))
}

fn case(words: &str) -> Result<Case, String> {
    match words.split(',').collect::<Vec<_>>()[..] {
        [kind, size, before, after, invert, window, piece] => Ok(Case {
            kind: known(kind)?,
            size: number(size)?,
            asked: Asked {
                before: number(before)?,
                after: number(after)?,
                invert: invert == "1",
                window: number(window)?,
                piece: number(piece)?,
            },
        }),
        _ => Err(format!("{words} is no case")),
    }
}

/// The nanoseconds of a run, and what came out of it.
fn timed(way: Way, asked: Asked, text: &[u8]) -> Result<(f64, Told), String> {
    let times = (ENOUGH / text.len().max(1)).max(1);
    let begun = Instant::now();
    let mut told = way.search(asked, text, LITERAL)?;
    for _ in 1..times {
        told = way.search(asked, text, LITERAL)?;
    }
    Ok((begun.elapsed().as_nanos() as f64 / times as f64, told))
}

/// One round of a case: each way once, starting with another one in each round. All have to give the same.
fn turns(round: usize, case: &Case, text: &[u8]) -> Result<Vec<(&'static str, f64, Told)>, String> {
    let mut given: Vec<(&str, f64, Told)> = Vec::new();
    for turn in 0..WAYS.len() {
        let (name, way) = WAYS[(turn + round) % WAYS.len()];
        let (spent, told) = timed(way, case.asked, text)?;
        given.push((name, spent, told));
    }
    match given.iter().find(|(_, _, told)| *told != given[0].2) {
        Some(other) => Err(format!("{other:?} beside {:?}", given[0])),
        None => Ok(given),
    }
}

/// The largest text of a kind that a case asks for; the others are beginnings of it.
fn text_for(kind: Kind, cases: &[Case]) -> Option<Vec<u8>> {
    let sizes = cases.iter().filter(|case| case.kind.name == kind.name);
    let largest = sizes.map(|case| case.size).max()?;
    Some(input::make(kind, largest))
}

/// The cases take turns too, so that whatever else the machine does falls on all of them.
fn time(rounds: usize, cases: &[Case]) -> Result<(), String> {
    let texts: HashMap<&str, Vec<u8>> = input::KINDS
        .iter()
        .filter_map(|kind| Some((kind.name, text_for(*kind, cases)?)))
        .collect();
    // the first round only warms up
    for round in 0..=rounds {
        for (at, case) in cases.iter().enumerate() {
            let text = &texts[case.kind.name][..case.size];
            let given = turns(round, case, text).map_err(|text| format!("case {at}: {text}"))?;
            for (name, spent, told) in given.iter().filter(|_| round > 0) {
                println!("{at} {name} {spent:.0} {} {}", told.rows, told.matches);
            }
        }
    }
    Ok(())
}

fn run(words: &[&str]) -> Result<(), String> {
    match words {
        ["make", kind, size] => {
            let text = input::make(known(kind)?, number(size)?);
            io::stdout()
                .write_all(&text)
                .map_err(|error| error.to_string())
        }
        ["time", rounds, cases @ ..] => {
            let cases = cases
                .iter()
                .map(|words| case(words))
                .collect::<Result<Vec<_>, _>>()?;
            time(number(rounds)?, &cases)
        }
        ["once", name, words] => {
            let (_, way) = WAYS
                .iter()
                .find(|(known, _)| known == name)
                .ok_or("no such way")?;
            let case = case(words)?;
            let told = way.search(case.asked, &input::make(case.kind, case.size), LITERAL)?;
            println!("{} {}", told.rows, told.mixed);
            Ok(())
        }
        ["search"] => program::run(),
        _ => Err("see the head of main.rs for how it is used".to_string()),
    }
}

fn main() -> ExitCode {
    let words: Vec<String> = env::args().skip(1).collect();
    match run(&words.iter().map(String::as_str).collect::<Vec<_>>()) {
        Ok(()) => ExitCode::SUCCESS,
        Err(text) => {
            eprintln!("harness: {text}");
            ExitCode::FAILURE
        }
    }
}
