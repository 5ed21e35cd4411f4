//! bench CASE N SIDE makes a case's call N times on one side; bench list names the cases, each with the number of its
//! reply. What it costs is counted from outside, by tools/icount.

// What Rust puts before main reads the list of what is mapped into memory, names of files and all, and that list is not
// as long in every run.
#![no_main]

mod bags;
mod calls;
mod cases;
mod proved;
mod records;

use calls::Side;
use cases::{Case, CASES};
use std::ffi::{c_char, c_int};

const USAGE: &str =
    "usage: bench CASE N (proved | proved-copies | second | second-copies), or: bench list";

#[no_mangle]
pub extern "C" fn main(_count: c_int, _arguments: *const *const c_char) -> c_int {
    let arguments: Vec<String> = std::env::args().skip(1).collect();
    let arguments: Vec<&str> = arguments.iter().map(String::as_str).collect();
    let outcome = match arguments[..] {
        ["list"] => {
            list();
            Ok(())
        }
        [case, times, side] => read_and_run(case, times, side),
        _ => Err(USAGE.to_string()),
    };
    match outcome {
        Ok(()) => 0,
        Err(why) => {
            eprintln!("{why}");
            2
        }
    }
}

fn list() {
    for case in &CASES {
        println!("{} {}", case.name, case.says.0);
    }
}

fn read_and_run(name: &str, times: &str, side: &str) -> Result<(), String> {
    let case = CASES
        .iter()
        .find(|case| case.name == name)
        .ok_or_else(|| format!("bench: no case {name}; bench list names them"))?;
    let times = times
        .parse()
        .ok()
        .filter(|&times| times > 0)
        .ok_or_else(|| format!("bench: {times} is no number of calls"))?;
    let side = Side::named(side).ok_or_else(|| USAGE.to_string())?;
    run(case, times, side)
}

/// A case that does not say what it is there for would be counted under a wrong name.
fn run(case: &Case, times: u32, side: Side) -> Result<(), String> {
    let (net, call) = (case.made)();
    match side.run(times, &net, &call) {
        Some(said) if said != case.says => Err(format!(
            "bench: {} says {said:?} (number, passed over), and not {:?}",
            case.name, case.says
        )),
        _ => Ok(()),
    }
}
