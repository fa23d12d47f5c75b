//! Random machines, tapes and lines: one machine's answers against another's.

#![forbid(unsafe_code)]
#![warn(missing_docs)]

mod addresses;
mod assembly;
mod assembly_events;
mod block_events;
mod blocks;
mod coverage;
mod device_events;
mod generator;
mod lent;
mod load_events;
mod loads;
mod machines;
mod random;
mod stretch;
mod tapes;
mod timer_events;
mod timers;
mod times;
mod words;
mod write_events;
mod writes;

pub use block_events::BLOCK_EVENTS;
pub use blocks::{blocks, first_overlap, overlap, overlaps_earlier, Block, Overlap};
pub use coverage::{Coverage, MNEMONICS};
pub use generator::{case, Case};
pub use load_events::LOAD_EVENTS;
pub use tapes::{Damage, DAMAGES};
pub use words::{assemble, WORD};
pub use writes::LAST_RECORDS;

use emulation::disassemble;
use loads::{changes, done_again, old_cells, Laid};
use protocol::{Answer, FrontEnd, Machine, Request, Write};
use std::fmt;

/// The first request that two machines answer differently, or both with what
/// no machine should answer.
pub struct Difference {
    /// Which case of the seed it is.
    pub number: u64,
    /// The request.
    pub request: Request,
    /// What the machine under test answers.
    pub tested: Answer,
    /// What the machine it is measured by answers, or what must be answered.
    pub expected: Answer,
}

impl fmt::Display for Difference {
    fn fmt(&self, formatter: &mut fmt::Formatter) -> fmt::Result {
        writeln!(formatter, "difference in case {}", self.number)?;
        writeln!(formatter, "request:  {}", self.request)?;
        writeln!(formatter, "tested:   {}", self.tested)?;
        write!(formatter, "expected: {}", self.expected)
    }
}

/// Asks both machines the first `count` cases of `seed`, up to the first
/// difference. What the cases were about is counted in `coverage`. A written
/// tape is loaded again by both; of a load or overlay that was done both must
/// leave what the blocks of the tape say; a word of a line must come from the
/// shortest line for it too.
pub fn compare(
    tested: impl Machine,
    expected: impl Machine,
    seed: u64,
    count: u64,
    coverage: &mut Coverage,
) -> Result<(), Box<Difference>> {
    let mut machines = Machines {
        tested: FrontEnd::new(tested),
        expected: FrontEnd::new(expected),
    };
    for number in 0..count {
        let case = case(seed, number);
        let answer = machines.ask(number, &case.request)?;
        coverage.count(&case, &answer);
        machines.follow(number, &case.request, &answer)?;
        if let Some(laid) = Laid::new(&case, &answer) {
            let request = laid.request();
            let answer = machines.ask(number, &request)?;
            coverage.count_laid(&laid, &answer);
            machines.follow(number, &request, &answer)?;
        }
    }
    Ok(())
}

/// The machine under test and the one it is measured by.
struct Machines<T, E> {
    tested: FrontEnd<T>,
    expected: FrontEnd<E>,
}

impl<T: Machine, E: Machine> Machines<T, E> {
    /// The answer of both.
    fn ask(&mut self, number: u64, request: &Request) -> Result<Answer, Box<Difference>> {
        let given = self.tested.answer(request);
        let answer = self.expected.answer(request);
        same(number, request, given, &answer)?;
        Ok(answer)
    }

    /// Asks both what follows from a request and its answer.
    fn follow(
        &mut self,
        number: u64,
        request: &Request,
        answer: &Answer,
    ) -> Result<(), Box<Difference>> {
        let written = loaded_again(request, answer).into_iter().flatten();
        let tapes = written.chain(done_again(request, answer));
        for (request, answer) in tapes.chain(assembled_again(answer)) {
            same(number, &request, self.tested.answer(&request), &answer)?;
            same(number, &request, self.expected.answer(&request), &answer)?;
        }
        Ok(())
    }
}

/// Whether an answer is the one that is expected, and one that may be given.
fn same(
    number: u64,
    request: &Request,
    tested: Answer,
    expected: &Answer,
) -> Result<(), Box<Difference>> {
    if tested == *expected && !tested.is_wrong() {
        return Ok(());
    }
    Err(Box::new(Difference {
        number,
        request: request.clone(),
        tested,
        expected: expected.clone(),
    }))
}

/// For a written tape: its load into as many cells, some of them in use, and the
/// reading of its remark, with the answers that they must have.
fn loaded_again(request: &Request, answer: &Answer) -> Option<[(Request, Answer); 2]> {
    let (Request::Write(write), Answer::Written(tape)) = (request, answer) else {
        return None;
    };
    let Write {
        store,
        control,
        remark,
        ..
    } = write;
    let old = old_cells(store.size);
    let loaded = Answer::Done {
        control: *control,
        changed: changes(&old, store),
    };
    let load = Request::Load {
        store: old,
        tape: tape.clone(),
    };
    let read = Request::Remark {
        cells: store.size,
        tape: tape.clone(),
    };
    Some([(load, loaded), (read, remark_on(tape, remark.as_deref()))])
}

/// For the word of a line: the shortest line that gives it, with the answer that
/// it must have.
fn assembled_again(answer: &Answer) -> Option<(Request, Answer)> {
    let Answer::Word(word) = answer else {
        return None;
    };
    // No machine answers `Bad`: a word that no line gives is a difference.
    let Some(line) = disassemble(*word) else {
        return Some((Request::Assemble { line: Vec::new() }, Answer::Bad));
    };
    let line = line.into_bytes();
    Some((Request::Assemble { line }, Answer::Word(*word)))
}

/// What a reader answers where a tape begins with this remark, or has none. No
/// reader answers `Bad`, which stands for another text on the tape.
fn remark_on(tape: &[u8], remark: Option<&[u8]>) -> Answer {
    let Some(text) = remark else {
        return Answer::Remark(None);
    };
    let place = 6..6 + text.len();
    match tape.get(place.clone()) {
        Some(found) if found == text => Answer::Remark(Some(place)),
        _ => Answer::Bad,
    }
}
