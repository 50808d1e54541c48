//! Prints a message from standard input: `cargo run --example show < message`.

use std::io::{stdin, stdout, Read, Write};
use std::process::ExitCode;

fn main() -> ExitCode {
    let mut message = Vec::new();
    if let Err(why) = stdin().read_to_end(&mut message) {
        eprintln!("standard input: {why}");
        return ExitCode::from(2);
    }
    let text = kmip_ttlv::check(&message).and_then(|()| kmip_ttlv::to_text(&message, false, kmip_ttlv::usual_limit(message.len())));
    match text {
        // control characters in a text would reach the terminal
        Ok(text) => match stdout().write_all(text.replace(|it: char| it.is_control() && it != '\n', "?").as_bytes()) {
            Ok(()) => ExitCode::SUCCESS,
            Err(_) => ExitCode::from(3),
        },
        Err(why) => {
            eprintln!("{why}");
            ExitCode::from(1)
        }
    }
}
