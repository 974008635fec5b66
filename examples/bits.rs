//! Where the sender of a message forgot a critical bit, or added one. The message is on standard input:
//!
//!     ./archive && cargo run --manifest-path bindings/rust/Cargo.toml --example bits <MESSAGE
//!
//! A line is printed for each record of a known kind whose critical bit, as it was received, is not the one that document 01 names for the kind: the place of
//! its first byte, its kind, and which of the two it is.
//!
//!     0: kind 1 without its critical bit
//!     12: kind 5 with a critical bit
//!
//! Nothing else is printed. An unknown kind has no bit of its own, so its records never have a line. The end record is the last that is looked at. A record
//! that does not read ends the program with status 1, and its refusal is on standard error; so does a message that cannot be read, or a line that cannot be
//! printed. Otherwise the status is 0. bits.out is what is printed of a message with every known kind, which is in .ci/host.

use ntske::Message;
use std::error::Error;
use std::io::{Read, Write};
use std::process::ExitCode;

fn show_slips() -> Result<(), Box<dyn Error>> {
    let (mut message, mut out) = (vec![], std::io::stdout());
    std::io::stdin().read_to_end(&mut message)?;
    for placed in Message::new(&message).records() {
        let placed = placed?;
        if let Some(slip) = placed.slip() {
            writeln!(out, "{}: kind {} {slip}", placed.place, placed.kind)?;
        }
    }
    Ok(())
}

fn main() -> ExitCode {
    match show_slips() {
        Ok(()) => ExitCode::SUCCESS,
        Err(why) => {
            eprintln!("{why}");
            ExitCode::FAILURE
        }
    }
}
