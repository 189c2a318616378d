//! Settles the sheet on standard input by one call, and prints what the program settle prints for it.

use std::io::{Read, stdin};
use yadzvego::sheets::{MOST_BYTES, settle};

fn main() -> std::io::Result<()> {
    let mut text = Vec::new();
    // One byte more than a sheet may have: a longer text is refused as a whole.
    stdin().take(MOST_BYTES as u64 + 1).read_to_end(&mut text)?;
    print!("{}", settle(text));
    Ok(())
}
