//! The twin of the program `bill`: reads a month's text and prints its charges.
#![allow(dead_code)]

mod peer;

use std::error::Error;
use std::io::{Read, Write, stdin, stdout};

fn main() -> Result<(), Box<dyn Error>> {
    let mut text = Vec::new();
    stdin().lock().take(16_385).read_to_end(&mut text)?;
    let answer = peer::month_bill::answer(&text)?;
    stdout().write_all(answer.as_bytes())?;
    Ok(())
}
