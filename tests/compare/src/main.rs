//! Compares the static library with the programs `sweep`, `procedure` and `order` on generated and damaged sheets and drafts.
//!
//!     compare COUNT FIRST_SEED [PRICE_PROGRAM]
//!
//! Each seed makes one sheet and a list of calls on it. A failing case prints its seed; COUNT 1 and that seed make it again.

mod arranged;
mod blocks;
mod calls;
mod case;
mod cells;
mod check;
mod circles;
mod counted;
mod coverage;
mod damage;
mod dearest;
mod draft_calls;
mod draft_counts;
mod draft_damage;
mod draft_faults;
mod draft_lengths;
mod draft_refusals;
mod draft_rows;
mod draft_tags;
mod drafts;
mod emptied;
mod forms;
mod groups;
mod lent;
mod lines;
mod lists;
mod none;
mod none_damage;
mod none_refused;
mod numbering;
mod price;
mod repeats;
mod rng;
mod rows;
mod run;
mod shapes;
mod sketch;
mod supervisor;
mod worker;

use std::process::ExitCode;

fn main() -> ExitCode {
    let arguments: Vec<String> = std::env::args().skip(1).collect();
    let words: Vec<&str> = arguments.iter().map(String::as_str).collect();
    match words[..] {
        ["worker", "rows", ref price @ ..] => worker::run_rows(price.first().copied()),
        ["worker", count, first, step, ref price @ ..] => match (count.parse(), first.parse(), step.parse()) {
            (Ok(count), Ok(first), Ok(step)) => worker::run_seeds(count, first, step, price.first().copied()),
            _ => usage(),
        },
        [count, first, ref price @ ..] if price.len() < 2 => match (count.parse(), first.parse()) {
            (Ok(count), Ok(first)) => supervisor::run(count, first, price.first().copied()),
            _ => usage(),
        },
        _ => usage(),
    }
}

fn usage() -> ExitCode {
    eprintln!("usage: compare COUNT FIRST_SEED [PRICE_PROGRAM]");
    ExitCode::from(2)
}
