//! Prints all strings of n bits with syndrome a: of each its number, a blank and its bits, then
//! the count.
//!
//! `cargo run --release --offline --example list -- 4 3`
//!
//! The status is 0, 1 if the library refuses n or a or the list can't be written, 2 if the
//! arguments are not two numbers.

use std::env;
use std::io::{self, BufWriter, ErrorKind, Write};
use std::process::ExitCode;

use lunetteorris::{SyndromeStrings, MAX_LIST_BITS};

fn main() -> ExitCode {
    let arguments: Vec<String> = env::args_os()
        .skip(1)
        .map(|argument| argument.to_string_lossy().into_owned())
        .collect();
    let (n, a) = match numbers(&arguments) {
        Ok(numbers) => numbers,
        Err(reason) => {
            eprintln!("error: {reason}");
            eprintln!("usage: list N A, with N 0 to {MAX_LIST_BITS} and A 0 to N");
            return ExitCode::from(2);
        }
    };
    let strings = match SyndromeStrings::new(n, a) {
        Ok(strings) => strings,
        Err(refusal) => {
            eprintln!("error: {refusal}");
            eprintln!("N is {n} and A is {a}; N is to be 0 to {MAX_LIST_BITS}, A 0 to N");
            return ExitCode::FAILURE;
        }
    };
    match print(strings) {
        Ok(()) => ExitCode::SUCCESS,
        // The reader wants no more of the list.
        Err(error) if error.kind() == ErrorKind::BrokenPipe => ExitCode::SUCCESS,
        Err(error) => {
            eprintln!("error: the list can't be written: {error}");
            ExitCode::FAILURE
        }
    }
}

fn numbers(arguments: &[String]) -> Result<(usize, usize), String> {
    let [n, a] = arguments else {
        return Err(format!("two arguments are wanted, not {}", arguments.len()));
    };
    Ok((number("N", n)?, number("A", a)?))
}

fn number(name: &str, text: &str) -> Result<usize, String> {
    text.parse().map_err(|_| {
        format!(
            "{name} is `{text}`, which is no number from 0 to {}",
            usize::MAX
        )
    })
}

fn print(strings: SyndromeStrings) -> io::Result<()> {
    let mut out = BufWriter::new(io::stdout().lock());
    let count = strings.len();
    let numbers = strings.numbers().to_vec();
    for (number, string) in numbers.into_iter().zip(strings) {
        writeln!(out, "{number} {string}")?;
    }
    writeln!(out, "count {count}")?;
    out.flush()
}
