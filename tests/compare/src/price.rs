//! The `price` program, run on a sheet and compared with the lines of `procedure`.

use crate::coverage::Coverage;
use crate::{counted, dearest, lines, none, run};
use std::io::Write;
use std::process::{Command, Output, Stdio};
use sweep::Sheet;

/// Puts a sheet to the program. `worked` is the sheet as work leaves it.
pub fn compare(program: &str, bytes: &[u8], worked: &[u8], seen: &mut Coverage) -> Result<(), String> {
    let expected = procedure::listing(bytes);
    let printed = expect(program, bytes, &expected)?;
    let word = expected.split_whitespace().next().unwrap_or("");
    seen.saw("price: compared");
    seen.saw(&format!("price: {word}"));
    seen.saw_if(expected == "refused 10\n", "price: refused 10");
    if word == "settled" {
        let sheet = sweep::read(worked).map_err(|number| format!("a worked sheet is refused {number}"))?;
        if lines::stages(&printed)? != sheet.plan_states() {
            return Err("price printed lines of other stages than the plan reaches".to_string());
        }
        none::not_reached(&sheet, seen)?;
        dearest::count(&sheet, seen);
        counted::listed(&sheet, seen);
        follow(&printed, &sheet, seen)?;
    }
    Ok(())
}

/// On a worst sheet the run along `by` adds up to the price. One without a junction is not counted.
fn follow(printed: &str, sheet: &Sheet, seen: &mut Coverage) -> Result<(), String> {
    if !sheet.whole {
        let junctions = run::follow(printed, sheet)?;
        seen.saw_if(junctions > 0, "price: run along by adds up to the price");
    }
    Ok(())
}

/// The program prints exactly this, and explains a refusal and nothing else. What it printed.
pub fn expect(program: &str, bytes: &[u8], expected: &str) -> Result<String, String> {
    let output = output_of(program, bytes).map_err(|why| format!("price: {why}"))?;
    let printed = String::from_utf8_lossy(&output.stdout);
    let said = String::from_utf8_lossy(&output.stderr);
    if printed != expected {
        Err(difference(&printed, expected))
    } else if !explains(expected, &said) {
        Err(format!("price printed {:?} and said {said:?}", expected.lines().next()))
    } else {
        Ok(printed.into_owned())
    }
}

/// The first line that is not as expected.
fn difference(printed: &str, expected: &str) -> String {
    let mut pairs = printed.split('\n').zip(expected.split('\n')).enumerate();
    match pairs.find(|(_, (found, wanted))| found != wanted) {
        Some((place, (found, wanted))) => format!("price printed {found:?} as line {}, expected {wanted:?}", place + 1),
        None => format!("price printed {} bytes, expected {}", printed.len(), expected.len()),
    }
}

/// Is this one line that begins with the refusal and its question's id, or nothing where nothing was refused?
fn explains(printed: &str, said: &str) -> bool {
    let Some(number) = printed.strip_prefix("refused ") else {
        return said.is_empty();
    };
    let number = number.trim_end();
    said.starts_with(&format!("price: refused {number} (S4.{number}): ")) && said.ends_with('\n') && said.lines().count() == 1
}

fn output_of(program: &str, bytes: &[u8]) -> std::io::Result<Output> {
    let mut child = Command::new(program).stdin(Stdio::piped()).stdout(Stdio::piped()).stderr(Stdio::piped()).spawn()?;
    if let Some(mut input) = child.stdin.take() {
        // A program that has read enough may close its input early.
        let _ = input.write_all(bytes);
    }
    child.wait_with_output()
}
