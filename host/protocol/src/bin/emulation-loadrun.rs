//! `loadrun` of document 01 by the emulation: a tape on standard input, a
//! store of 4,096 cells of zero, 100 cycles, no lines, no characters and no
//! space to type in; one line of output.

use emulation::{load, run, Control, Devices, Outcome, Refusal};
use std::io::Read;

/// Outcome, executed, entries and IC.
fn load_and_run(tape: &[u8]) -> Result<String, Refusal> {
    let mut store = vec![0; 4096];
    let mut control = Control::fresh();
    load(&mut store, &mut control, tape)?;
    let mut devices = Devices::default();
    let report = run(&mut store, &mut control, 0, 100, &mut devices, &[], &mut [])?;
    let outcome = match report.outcome {
        Outcome::Spent => "spent",
        Outcome::Reset => "reset",
        Outcome::Interrupted(_) => "interrupted",
    };
    Ok(format!(
        "{outcome} {} {} {}",
        report.executed, report.entries, control.ic
    ))
}

fn main() -> std::io::Result<()> {
    let mut tape = Vec::new();
    std::io::stdin().read_to_end(&mut tape)?;
    match load_and_run(&tape) {
        Ok(line) => println!("{line}"),
        Err(refusal) => println!("{refusal}"),
    }
    Ok(())
}
