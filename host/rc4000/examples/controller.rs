//! Loads a tape and runs it: `controller [FILE [CYCLES]]`. With no file it
//! takes the tape of document 01, which leaves the machine in the reset state.

use rc4000::{remark, Machine};
use std::error::Error;
use std::process::ExitCode;

/// A control record in the reset state and the end record.
const RESET_TAPE: [u8; 32] = [
    20, 0, 0, 0, 2, 0, 0, 0, 0, 0, 0, 0, 0, 0, 0, 0, 0, 0, 0, 0, 0, 0, 128, 0, 5, 0, 0, 0, 0, 0, 3,
    0,
];

fn load_and_run(tape: &[u8], cycles: u32) -> Result<(), Box<dyn Error>> {
    let mut machine = Machine::fresh(4096);
    machine.load(tape)?;
    if let Some(text) = remark(tape, machine.store.len())? {
        println!("remark: {}", String::from_utf8_lossy(text));
    }
    let report = machine.run_without_devices(0, cycles)?;
    println!(
        "{:?} after {} instructions and {} entries, IC {}",
        report.outcome, report.executed, report.entries, machine.control.ic
    );
    Ok(())
}

fn answer(arguments: &[String]) -> Result<(), Box<dyn Error>> {
    let read = |file: &String| std::fs::read(file).map_err(|error| format!("{file}: {error}"));
    match arguments {
        [] => load_and_run(&RESET_TAPE, 100),
        [file] => load_and_run(&read(file)?, 100),
        [file, cycles] => load_and_run(&read(file)?, cycles.parse()?),
        _ => Err("controller [FILE [CYCLES]]".into()),
    }
}

fn main() -> ExitCode {
    let arguments: Vec<String> = std::env::args().skip(1).collect();
    match answer(&arguments) {
        Ok(()) => ExitCode::SUCCESS,
        Err(error) => {
            eprintln!("controller: {error}");
            ExitCode::FAILURE
        }
    }
}
