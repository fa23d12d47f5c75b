//! Loads a program from a reader tape and runs it: `autoload FILE [RUNS]`.
//!
//! FILE has the reader's characters, one byte each, 0 to 63. On a store of
//! 4,096 cells of zero the reset and the autoload key are pressed; then runs of
//! 65,535 cycles follow until one does not end spent, at most RUNS (100 where
//! it is not given). The first line is like `loadrun`'s: outcome, executed
//! instructions, entries and IC. What was typed follows.

use rc4000::{Machine, Outcome, Refusal};
use std::error::Error;
use std::io::Write;
use std::process::ExitCode;

const CELLS: usize = 4096;
const BUDGET: u32 = 65_535;
const TYPING_SPACE: usize = 65_536;

/// What the runs made came to.
struct Ended {
    outcome: Outcome,
    executed: u64,
    entries: u64,
    ic: u32,
    typed: Vec<u8>,
}

/// The file's characters.
fn characters(file: &str) -> Result<Vec<u8>, String> {
    let bytes = std::fs::read(file).map_err(|error| format!("{file}: {error}"))?;
    match bytes.iter().position(|&byte| byte > 63) {
        Some(place) => Err(format!(
            "{file}: byte {place} is {}, and a reader character is 0 to 63",
            bytes[place]
        )),
        None => Ok(bytes),
    }
}

/// Presses both keys and runs. Every run goes on with the registers, the
/// characters and the typing space that the one before left.
fn autoload(characters: &[u8], runs: u32) -> Result<Ended, Refusal> {
    let mut machine = Machine::fresh(CELLS);
    let mut typing = vec![0; TYPING_SPACE];
    machine.press_reset()?;
    let mut taken = machine.press_autoload(characters)?;
    let (mut outcome, mut executed, mut entries, mut typed) = (Outcome::Spent, 0, 0, 0);
    for _ in 0..runs {
        let report = machine.run(0, BUDGET, &characters[taken..], &mut typing[typed..])?;
        taken += report.taken;
        typed += report.typed;
        executed += u64::from(report.executed);
        entries += u64::from(report.entries);
        outcome = report.outcome;
        if outcome != Outcome::Spent {
            break;
        }
    }
    typing.truncate(typed);
    Ok(Ended {
        outcome,
        executed,
        entries,
        ic: machine.control.ic,
        typed: typing,
    })
}

fn show(ended: &Ended) -> std::io::Result<()> {
    let outcome = match ended.outcome {
        Outcome::Spent => "spent",
        Outcome::Reset => "reset",
        Outcome::Interrupted(_) => "interrupted",
    };
    let mut output = std::io::stdout().lock();
    writeln!(
        output,
        "{outcome} {} {} {}",
        ended.executed, ended.entries, ended.ic
    )?;
    output.write_all(&ended.typed)
}

fn answer(arguments: &[String]) -> Result<(), Box<dyn Error>> {
    let (file, runs) = match arguments {
        [file] => (file, 100),
        [file, runs] => (file, runs.parse()?),
        _ => return Err("autoload FILE [RUNS]".into()),
    };
    show(&autoload(&characters(file)?, runs)?)?;
    Ok(())
}

fn main() -> ExitCode {
    let arguments: Vec<String> = std::env::args().skip(1).collect();
    match answer(&arguments) {
        Ok(()) => ExitCode::SUCCESS,
        Err(error) => {
            eprintln!("autoload: {error}");
            ExitCode::FAILURE
        }
    }
}
