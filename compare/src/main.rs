//! The comparison: the proved package, through the static library that a controller links, is held to the second
//! program call by call. compare/run, compare/soak and compare/replay build and start it.

mod chance;
mod damage;
mod halls;
mod histories;
mod layout;
mod pair;
mod programs;
mod proved;
mod record;
mod stack;
mod tally;

use pair::{Ended, Pair};
use std::panic::{catch_unwind, AssertUnwindSafe};
use std::process::ExitCode;
use std::time::{Duration, Instant};
use tally::Verdict;

/// What the gate runs.
const SEED: u64 = 1;
const CALLS: u64 = 400_000;

/// Tells the script which history a run that is ended from outside was at.
const WHERE: &str = "target/compare/where";

fn main() -> ExitCode {
    let words: Vec<String> = std::env::args().skip(1).collect();
    let numbers: Option<Vec<u64>> = words.iter().skip(1).map(|word| word.parse().ok()).collect();
    match (words.first().map(String::as_str), numbers.as_deref()) {
        (Some("run"), Some([])) => run(),
        (Some("soak"), Some(&[calls, seed])) => soak(calls, seed),
        (Some("replay"), Some(&[seed, number])) => replay(seed, number),
        _ => {
            eprintln!("compare: start it by compare/run, compare/soak N [SEED] or compare/replay SEED NUMBER");
            ExitCode::from(2)
        }
    }
}

/// The gate's run: nothing may differ, and every row of the table has to occur.
fn run() -> ExitCode {
    println!("seed {}", SEED);
    stack::try_deepest();
    let mut pair = Pair::new(CALLS);
    let started = Instant::now();
    let differs = compare(&mut pair, SEED, |_| ());
    pair.tally.show();
    println!(
        "{} calls in {:.1} s",
        pair.tally.calls,
        started.elapsed().as_secs_f64()
    );
    // One passed already: the stack was enough, since too small a one would have ended the program.
    let mut verdict = Verdict {
        passed: 1,
        failed: 0,
    };
    verdict.none(layout::difference());
    // A run that stops at a difference says nothing of the rows.
    if differs.is_none() {
        pair.tally.judge(&mut verdict);
    }
    verdict.none(differs);
    println!("{} passed, {} failed", verdict.passed, verdict.failed);
    ExitCode::from(u8::from(verdict.failed > 0))
}

fn soak(calls: u64, seed: u64) -> ExitCode {
    println!("seed {}", seed);
    let mut pair = Pair::new(calls);
    let mut shown = Instant::now();
    let differs = compare(&mut pair, seed, |done| {
        if shown.elapsed() > Duration::from_secs(2) {
            println!("{} of {} calls", done, calls);
            shown = Instant::now();
        }
    });
    pair.tally.show();
    end(&pair, differs)
}

/// One history alone, with every call.
fn replay(seed: u64, number: u64) -> ExitCode {
    let mut pair = Pair::new(u64::MAX);
    pair.shows_calls = true;
    let differs = history(&mut pair, seed, number).err();
    end(&pair, differs.and_then(|ended| found(ended, seed, number)))
}

fn end(pair: &Pair, differs: Option<String>) -> ExitCode {
    match differs {
        Some(line) => println!("FAILED: {}", line),
        None => {
            println!("no difference in {} calls", pair.tally.calls);
            return ExitCode::SUCCESS;
        }
    }
    ExitCode::FAILURE
}

/// Plays one history after the other until there are enough calls, or up to the first difference.
fn compare(pair: &mut Pair, seed: u64, mut progress: impl FnMut(u64)) -> Option<String> {
    for number in 0.. {
        // A folder that can't be written only costs that line.
        let _ = std::fs::write(WHERE, format!("{} {}\n", seed, number));
        if let Err(ended) = history(pair, seed, number) {
            return found(ended, seed, number);
        }
        progress(pair.tally.calls);
    }
    None
}

/// A panic in the second program is a difference too.
fn history(pair: &mut Pair, seed: u64, number: u64) -> Result<(), Ended> {
    catch_unwind(AssertUnwindSafe(|| histories::play(pair, seed, number)))
        .unwrap_or_else(|_| Err(Ended::Differs("the second program panics".to_string())))
}

fn found(ended: Ended, seed: u64, number: u64) -> Option<String> {
    match ended {
        Ended::Enough => None,
        Ended::Differs(what) => Some(format!(
            "{}\nto replay it: compare/replay {} {}",
            what, seed, number
        )),
    }
}
