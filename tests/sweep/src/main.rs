//! Prints the least cost of the start of the sheet on standard input, cut to the ceiling, or `none`; or `refused` and the number.

use std::io::{self, Read};

fn main() -> io::Result<()> {
    let mut bytes = Vec::new();
    io::stdin().read_to_end(&mut bytes)?;
    match sweep::read(&bytes) {
        Ok(sheet) => match sheet.least_costs()[sheet.start] {
            Some(cost) => println!("{cost}"),
            None => println!("none"),
        },
        Err(number) => println!("refused {number}"),
    }
    Ok(())
}
