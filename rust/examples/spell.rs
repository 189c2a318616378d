//! Prints the one spelling of the sheet on standard input by one call, or the line of its error, as spell does.

use std::io::{Read, stdin};
use yadzvego::sheets::{MOST_BYTES, spell};

fn main() -> std::io::Result<()> {
    let mut text = Vec::new();
    // One byte more than a sheet may have: a longer text is refused as a whole.
    stdin().take(MOST_BYTES as u64 + 1).read_to_end(&mut text)?;
    match spell(text) {
        Ok(spelling) => print!("{spelling}"),
        Err(error) => println!("error={}", error.number()),
    }
    Ok(())
}
