//! What the comparing programs share: a count of lines to take from standard input, and the end at the first difference.

use std::io;
use std::process::ExitCode;

use crate::tick::{self, Line};

/// The body of a program whose one word is the number of lines: prints what it found, or what differs with status 1.
pub fn program(run: fn(u64) -> Result<String, String>) -> ExitCode {
    let Some(lines) = std::env::args().nth(1).and_then(|word| word.parse().ok()) else {
        eprintln!("the number of lines is missing");
        return ExitCode::from(2);
    };
    let (text, code) = match run(lines) {
        Ok(text) => (text, ExitCode::SUCCESS),
        Err(text) => (text, ExitCode::FAILURE),
    };
    println!("{text}");
    code
}

/// Hands each tick and building to `take`, malformed lines being passed over. Fails at the first difference that it gives back, and if there
/// are not so many lines.
pub fn each_line(lines: u64, mut take: impl FnMut(&Line) -> Option<String>) -> Result<(), String> {
    let mut number = 0;
    let read = tick::each_line(|line| {
        number += 1;
        match Line::read(line).and_then(|read| take(&read)) {
            None => Ok(()),
            Some(text) => Err(io::Error::other(format!("line {number}: {text}\n  input     {}", String::from_utf8_lossy(line)))),
        }
    });
    read.map_err(|error| error.to_string())?;
    if number == lines { Ok(()) } else { Err(format!("{number} lines where {lines} were expected")) }
}
