//! A worker: a process of its own, so that a crash or an endless loop of the library is reported with its seed too.
//!
//! It prints `at ..` before each row or case and `count N NAME` at the end; anything else that it prints is a failure.

use crate::coverage::Coverage;
use crate::sketch::MOST_STATES;
use crate::{case, check, drafts, price, rows};
use std::process::ExitCode;
use std::thread;

/// Visits go as deep as there are states.
const STACK_BYTES: usize = 64 << 20;

pub fn run_rows(price: Option<&str>) -> ExitCode {
    let price = price.map(str::to_string);
    on_large_stack(move || rows::run(price.as_deref()))
}

/// The seeds first, first + step, .., so many of them.
pub fn run_seeds(count: u64, first: u64, step: u64, price: Option<&str>) -> ExitCode {
    let price = price.map(str::to_string);
    on_large_stack(move || seeds(count, first, step, price.as_deref()))
}

fn on_large_stack(work: impl FnOnce() -> Result<Coverage, String> + Send + 'static) -> ExitCode {
    let thread = thread::Builder::new().stack_size(STACK_BYTES).spawn(work).expect("a thread starts");
    match thread.join() {
        Ok(Ok(seen)) => {
            for (name, count) in seen.lines() {
                println!("count {count} {name}");
            }
            ExitCode::SUCCESS
        }
        Ok(Err(why)) => {
            println!("{why}");
            ExitCode::FAILURE
        }
        Err(_) => ExitCode::FAILURE,
    }
}

fn seeds(count: u64, first: u64, step: u64, price: Option<&str>) -> Result<Coverage, String> {
    let mut seen = Coverage::default();
    for turn in 0..count {
        let seed = first + turn * step;
        println!("at seed {seed}");
        one(seed, price, &mut seen)?;
    }
    Ok(seen)
}

fn one(seed: u64, price: Option<&str>, seen: &mut Coverage) -> Result<(), String> {
    let case = case::make(seed);
    let tell = |why| format!("{} sheet of {} bytes: {why}{}", case.shape, case.bytes.len(), hex(&case.bytes));
    check::run(&case.bytes, &case.calls, seen).map_err(tell)?;
    seen.saw(&format!("shape: {}", case.shape));
    seen.saw_if(!case.damaged && case.bytes.len() == 60_001, "nothing wrong but 60,001 bytes");
    seen.saw_if(!case.damaged && case.states == MOST_STATES + 1, "nothing wrong but 4,097 stages");
    seen.saw_if(case.damaged && sweep::read(&case.bytes).is_ok(), "accepted although damaged");
    drafts::run(seed, &case, seen).map_err(tell)?;
    if let (Some(program), Some(worked)) = (price, &case.worked) {
        price::compare(program, &case.bytes, worked, seen).map_err(tell)?;
    }
    Ok(())
}

/// The bytes of a short sheet.
pub fn hex(bytes: &[u8]) -> String {
    if bytes.len() > 300 {
        return String::new();
    }
    let digits: String = bytes.iter().map(|byte| format!("{byte:02x}")).collect();
    format!("\nsheet {digits}")
}
