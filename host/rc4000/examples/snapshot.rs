//! Takes a machine away as a tape: `snapshot TAPE CYCLES FILE [REMARK]`.
//!
//! TAPE is loaded into 4,096 cells of zero and run for at most CYCLES cycles, 0
//! to 65,535, with no characters and no typing space. The machine as it then is
//! goes to FILE, a tape that `loadrun` reads; its remark is REMARK, or else the
//! first remark of TAPE. The line printed is like `loadrun`'s: outcome,
//! executed instructions, entries and IC.
//!
//! Status: 0 where FILE and the line were written, 2 for a usage that is wrong
//! or a TAPE that cannot be read, else 1. Where TAPE or REMARK is refused no
//! FILE is written.

use rc4000::{remark, Machine, Outcome, Refusal, LONGEST_TAPE};
use std::ffi::{OsStr, OsString};
use std::fs::File;
use std::io::{Error, Read, Write};
use std::path::Path;
use std::process::ExitCode;

const CELLS: usize = 4096;

/// Why there is no snapshot, and the status.
#[derive(Debug, PartialEq)]
pub struct Failure {
    pub status: u8,
    pub text: String,
}

fn wrong(text: String) -> Failure {
    Failure { status: 2, text }
}

/// A file that cannot be read or written.
fn of_file(status: u8, file: &OsStr, error: &Error) -> Failure {
    let text = format!("{}: {error}", Path::new(file).display());
    Failure { status, text }
}

impl From<Refusal> for Failure {
    fn from(refusal: Refusal) -> Self {
        let text = refusal.to_string();
        Failure { status: 1, text }
    }
}

/// The file's bytes, one over the longest tape at most.
fn read(file: &OsStr) -> std::io::Result<Vec<u8>> {
    let mut bytes = Vec::new();
    let most = LONGEST_TAPE as u64 + 1;
    File::open(file)?.take(most).read_to_end(&mut bytes)?;
    Ok(bytes)
}

/// Loads and runs; gives the line and the tape of the machine after the run.
fn snapshot(tape: &[u8], cycles: u16, text: Option<&[u8]>) -> Result<(String, Vec<u8>), Refusal> {
    let mut machine = Machine::fresh(CELLS);
    machine.load(tape)?;
    let text = text.or(remark(tape, CELLS)?);
    let report = machine.run_without_devices(0, cycles.into())?;
    let outcome = match report.outcome {
        Outcome::Spent => "spent",
        Outcome::Reset => "reset",
        Outcome::Interrupted(_) => "interrupted",
    };
    let (executed, entries, ic) = (report.executed, report.entries, machine.control.ic);
    let line = format!("{outcome} {executed} {entries} {ic}");
    Ok((line, machine.write(text)?))
}

/// The number of cycles that an argument asks for.
fn cycles_of(argument: &OsStr) -> Result<u16, Failure> {
    let number = argument.to_str().and_then(|digits| digits.parse().ok());
    number.ok_or_else(|| {
        wrong(format!(
            "CYCLES is 0 to 65535, not {}",
            argument.to_string_lossy()
        ))
    })
}

/// Writes the file that the arguments ask for; gives the line. A remark is the
/// argument's bytes as they are.
pub fn answer(arguments: &[OsString]) -> Result<String, Failure> {
    let (tape, cycles, file, text) = match arguments {
        [tape, cycles, file] => (tape, cycles, file, None),
        [tape, cycles, file, text] => (tape, cycles, file, Some(text.as_encoded_bytes())),
        _ => return Err(wrong("snapshot TAPE CYCLES FILE [REMARK]".into())),
    };
    let cycles = cycles_of(cycles)?;
    let bytes = read(tape).map_err(|error| of_file(2, tape, &error))?;
    let (line, written) = snapshot(&bytes, cycles, text)?;
    std::fs::write(file, written).map_err(|error| of_file(1, file, &error))?;
    Ok(line)
}

fn main() -> ExitCode {
    let arguments: Vec<OsString> = std::env::args_os().skip(1).collect();
    match answer(&arguments) {
        Ok(line) => match writeln!(std::io::stdout(), "{line}") {
            Ok(()) => ExitCode::SUCCESS,
            Err(_) => ExitCode::FAILURE,
        },
        Err(failure) => {
            eprintln!("snapshot: {}", failure.text);
            failure.status.into()
        }
    }
}
