//! Prints what `price` prints for the sheet on standard input.

use std::io::{self, Read};
use std::thread;

/// Visits go as deep as there are states.
const STACK_BYTES: usize = 16 << 20;

fn main() -> io::Result<()> {
    let mut bytes = Vec::new();
    io::stdin().read_to_end(&mut bytes)?;
    let worker = thread::Builder::new().stack_size(STACK_BYTES);
    let text = worker.spawn(move || procedure::listing(&bytes))?.join().expect("the work ends");
    print!("{text}");
    Ok(())
}
