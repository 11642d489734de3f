//! Builds the marker word of n bits with syndrome a for a message, and reads it back whole, with each
//! of its bits lost, and with either bit added at each place.
//!
//! `cargo run --release --offline --example marker -- 12 5 10110010`
//!
//! If they are left out, n is 12, a is 0, and the message is ones and zeros in turns. The status is 0
//! if every reading gives the message; 1 if one does not, or the library refuses n, a or the
//! message's length; 2 if the arguments are not two numbers and a string of zeros and ones.

use std::env;
use std::process::ExitCode;

use lunetteorris::{BitString, Marker, Refusal, MAX_MARKER_BITS};

fn main() -> ExitCode {
    let arguments: Vec<String> = env::args_os()
        .skip(1)
        .map(|argument| argument.to_string_lossy().into_owned())
        .collect();
    let (n, a, message) = match wanted(&arguments) {
        Ok(wanted) => wanted,
        Err(reason) => {
            eprintln!("error: {reason}");
            eprintln!("usage: marker [N [A [MESSAGE]]], with N 1 to {MAX_MARKER_BITS}, A 0 to N");
            return ExitCode::from(2);
        }
    };
    match built_and_read(n, a, message) {
        Ok(0) => ExitCode::SUCCESS,
        Ok(_) => ExitCode::FAILURE,
        Err(refusal) => {
            eprintln!("error: {refusal}");
            eprintln!(
                "N is {n} and A is {a}; N is to be 1 to {MAX_MARKER_BITS}, A 0 to N, and the"
            );
            eprintln!("message has as many bits as N has places that are not powers of two");
            ExitCode::FAILURE
        }
    }
}

fn wanted(arguments: &[String]) -> Result<(usize, usize, Option<BitString>), String> {
    if arguments.len() > 3 {
        return Err(format!(
            "three arguments at most are wanted, not {}",
            arguments.len()
        ));
    }
    let n = arguments.first().map_or(Ok(12), |text| number("N", text))?;
    let a = arguments.get(1).map_or(Ok(0), |text| number("A", text))?;
    let message = arguments.get(2).map(|text| {
        text.parse()
            .map_err(|_| "MESSAGE is no string of zeros and ones".to_string())
    });
    Ok((n, a, message.transpose()?))
}

fn number(name: &str, text: &str) -> Result<usize, String> {
    text.parse().map_err(|_| {
        format!(
            "{name} is `{text}`, which is no number from 0 to {}",
            usize::MAX
        )
    })
}

/// How many readings do not give the message.
fn built_and_read(n: usize, a: usize, message: Option<BitString>) -> Result<usize, Refusal> {
    let marker = Marker::new(n, a)?;
    let message = match message {
        Some(message) => message,
        None => BitString::from_bits((0..marker.message_bits()).map(|i| i % 2 == 0))?,
    };
    let word = marker.build(&message)?;
    println!("message {message}");
    println!("word {word}");

    let bits: Vec<bool> = word.iter().collect();
    let not_read = |received: &[bool]| -> Result<usize, Refusal> {
        let received = BitString::from_bits(received.iter().copied())?;
        Ok((marker.read(&received)?.as_ref() != Some(&message)) as usize)
    };
    let whole = not_read(&bits)?;
    let mut lost = 0;
    for place in 0..n {
        let mut received = bits.clone();
        received.remove(place);
        lost += not_read(&received)?;
    }
    let mut added = 0;
    for place in 0..=n {
        for bit in [false, true] {
            let mut received = bits.clone();
            received.insert(place, bit);
            added += not_read(&received)?;
        }
    }
    println!("whole: {} of 1 read back", 1 - whole);
    println!("one bit lost: {} of {n} read back", n - lost);
    let additions = 2 * (n + 1);
    println!(
        "one bit added: {} of {additions} read back",
        additions - added
    );
    Ok(whole + lost + added)
}
