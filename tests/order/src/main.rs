//! Prints the order of the draft on standard input in one line: old numbers, as they are placed; or `refused` and the number.

use std::io::{self, Read};

fn main() -> io::Result<()> {
    let mut bytes = Vec::new();
    io::stdin().read_to_end(&mut bytes)?;
    match order::draft(&bytes) {
        Ok(draft) => {
            let numbers: Vec<String> = draft.order().iter().map(usize::to_string).collect();
            println!("{}", numbers.join(" "));
        }
        Err(number) => println!("refused {number}"),
    }
    Ok(())
}
