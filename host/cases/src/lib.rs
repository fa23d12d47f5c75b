//! The stored cases of `crates/cases_calls`: runs, keys and writes on small
//! stores, and lines for the assembler, with the answers of the emulation.
//!
//! The format of the two files is described in `crates/cases_calls/README.md`.

#![forbid(unsafe_code)]
#![warn(missing_docs)]

mod arithmetic;
mod assembly;
mod devices;
mod files;
mod instructions;
mod machine;
mod papers;
mod refusals;
mod sequences;
mod timers;
mod writes;

pub use files::{answers, input};

use compare::{Case, Coverage};
use protocol::{Emulation, FrontEnd, Request};

/// The seed of the stored random cases.
pub const SEED: u64 = 4000;

/// The number of random machines.
pub const RANDOM: usize = 3000;

/// The number of random lines.
pub const LINES: usize = 300;

/// The most cells of a case.
pub const CELLS: usize = 64;

/// The most characters, and the most bytes of a typing buffer.
pub const LENT: usize = 40;

/// The most bytes of a remark.
pub const REMARK: usize = 257;

/// The most characters of a line.
pub const LINE: usize = 257;

/// The most bytes of an output buffer.
pub const BUFFER: usize = 512;

/// The most cycles of a random case that is not refused.
const CYCLES: u32 = 12;

/// The chosen cases, then the first random machines of a seed that are small and
/// its first random lines.
pub fn cases(seed: u64) -> Vec<Request> {
    let random = || (0..).map(|number| compare::case(seed, number).request);
    instructions::cases()
        .into_iter()
        .chain(refusals::cases())
        .chain(papers::cases())
        .chain(arithmetic::cases())
        .chain(sequences::cases())
        .chain(devices::cases())
        .chain(timers::cases())
        .chain(writes::cases())
        .chain(assembly::cases())
        .chain(random().filter(is_small).take(RANDOM))
        .chain(random().filter(is_short_line).take(LINES))
        .collect()
}

/// A run, a key or a write on few cells, of few cycles.
fn is_small(request: &Request) -> bool {
    match request {
        Request::Run(run) => {
            run.store.size <= CELLS
                && (run.budget <= CYCLES || run.budget > 65_535)
                && run.characters.len().max(run.typing.len()) <= LENT
        }
        Request::PressAutoload {
            store, characters, ..
        } => store.size <= CELLS && characters.len() <= LENT,
        Request::PressReset { store, .. } | Request::PressStart { store, .. } => {
            store.size <= CELLS
        }
        Request::Write(write) => {
            write.store.size <= CELLS
                && write.remark.as_ref().map_or(0, Vec::len) <= REMARK
                && write.space <= BUFFER
        }
        _ => false,
    }
}

fn is_short_line(request: &Request) -> bool {
    matches!(request, Request::Assemble { line } if line.len() <= LINE)
}

/// What the cases are about.
pub fn coverage(cases: &[Request]) -> Coverage {
    let mut coverage = Coverage::default();
    let mut emulation = FrontEnd::new(Emulation);
    for request in cases {
        let answer = emulation.answer(request);
        let case = Case {
            request: request.clone(),
            damages: Vec::new(),
            second: None,
        };
        coverage.count(&case, &answer);
    }
    coverage
}
