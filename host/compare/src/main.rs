//! `compare SEED COUNT`: the proved library against the emulation on random
//! cases. Prints the first difference, or what was covered.

use compare::{compare, Coverage};
use protocol::{Emulation, Proved};
use std::process::ExitCode;

fn arguments() -> Option<(u64, u64)> {
    let mut arguments = std::env::args().skip(1);
    let seed = arguments.next()?.parse().ok()?;
    let count = arguments.next()?.parse().ok()?;
    Some((seed, count))
}

fn main() -> ExitCode {
    let Some((seed, count)) = arguments() else {
        eprintln!("usage: compare SEED COUNT");
        return ExitCode::from(2);
    };
    let mut coverage = Coverage::default();
    let result = compare(Proved, Emulation, seed, count, &mut coverage);
    println!("{coverage}");
    match result {
        Ok(()) => {
            println!("{count} cases of seed {seed}, no difference");
            ExitCode::SUCCESS
        }
        Err(difference) => {
            println!("{difference}");
            ExitCode::FAILURE
        }
    }
}
