//! Answers requests by a machine, with one store kept from request to request.

use crate::answer::Answer;
use crate::machine::Machine;
use crate::request::{self, Listed, Request, Run};
use emulation::{Control, Devices, Refusal, Report, MAXIMUM_CELLS, MAXIMUM_TAPE};
use std::io::{BufRead, Write};
use std::ops::Range;

/// Cells looked at together in the search for those that are not zero.
const CHUNK: usize = 1024;

/// The most bytes of an output buffer. A longer one is stood for by this many,
/// more than any tape has.
const LONGEST_BUFFER: usize = 2 * MAXIMUM_TAPE;

/// The record that load and overlay are given; it breaks every rule, and they
/// neither test it nor change it where they refuse.
const NEVER_TESTED: Control = Control {
    ic: u32::MAX,
    ir: u32::MAX,
    im: u32::MAX,
    pending: u32::MAX,
    pr: 0,
    ex: u32::MAX,
    monitor: false,
    enabled: true,
    reset: true,
    elapsed: u32::MAX,
    period: u32::MAX,
    phase: u32::MAX,
    line: u8::MAX,
};

/// A machine and its store. Between requests every cell of the store is zero.
pub struct FrontEnd<M> {
    machine: M,
    store: Vec<u32>,
}

impl<M: Machine> FrontEnd<M> {
    /// A front end for `machine`.
    pub fn new(machine: M) -> Self {
        FrontEnd {
            machine,
            store: Vec::new(),
        }
    }

    /// The answer to a line, without its line end.
    pub fn answer_line(&mut self, line: &str) -> Answer {
        match Request::parse(line) {
            Ok(request) => self.answer(&request),
            Err(_) => Answer::Bad,
        }
    }

    /// The answer to a request.
    pub fn answer(&mut self, request: &Request) -> Answer {
        match request {
            Request::Run(run) => self.run(run),
            Request::PressAutoload {
                store,
                control,
                devices,
                characters,
            } => self.autoload(store, *control, *devices, characters),
            Request::PressReset { store, control } => {
                self.change(store, *control, |machine, cells, control| {
                    machine.press_reset(cells, control)
                })
            }
            Request::PressStart { store, control } => {
                self.change(store, *control, |machine, cells, control| {
                    machine.press_start(cells, control)
                })
            }
            Request::Load { store, tape } => {
                self.change(store, NEVER_TESTED, |machine, cells, control| {
                    machine.load(cells, control, tape)
                })
            }
            Request::Overlay { store, tape } => {
                self.change(store, NEVER_TESTED, |machine, cells, control| {
                    machine.overlay(cells, control, tape)
                })
            }
            Request::Remark { cells, tape } => match self.machine.remark(tape, *cells) {
                Ok(text) => Answer::Remark(text.map(|text| part_of(tape, text))),
                Err(refusal) => Answer::Refused(refusal),
            },
            Request::Write(write) => self.write(write),
            Request::Assemble { line } => self.assemble(line),
        }
    }

    fn run(&mut self, given: &Run) -> Answer {
        let size = self.lay_out(&given.store);
        let (mut control, mut devices) = (given.control, given.devices);
        let mut typing = given.typing.clone();
        let result = self.machine.run(
            &mut self.store[..size],
            &mut control,
            given.lines,
            given.budget,
            &mut devices,
            &given.characters,
            &mut typing,
        );
        let changed = self.collect_changes(&given.store, size);
        match result {
            Ok(report) if !keeps_to_lent(given, &report, &typing) => Answer::BeyondLent,
            Ok(report) => Answer::Run {
                report,
                control,
                changed,
                devices,
                typing,
            },
            Err(refusal) => {
                let kept = (control, devices) == (given.control, given.devices);
                let as_given = kept && changed.is_empty() && typing == given.typing;
                refused(refusal, as_given)
            }
        }
    }

    fn autoload(
        &mut self,
        listed: &Listed,
        given: Control,
        lent: Devices,
        characters: &[u8],
    ) -> Answer {
        let size = self.lay_out(listed);
        let (mut control, mut devices) = (given, lent);
        let store = &mut self.store[..size];
        let result = self
            .machine
            .press_autoload(store, &mut control, &mut devices, characters);
        let changed = self.collect_changes(listed, size);
        match result {
            Ok(taken) if taken > characters.len() => Answer::BeyondLent,
            Ok(taken) => Answer::Autoload {
                control,
                changed,
                taken,
                devices,
            },
            Err(refusal) => {
                let kept = (control, devices) == (given, lent);
                refused(refusal, kept && changed.is_empty())
            }
        }
    }

    fn write(&mut self, given: &request::Write) -> Answer {
        let size = self.lay_out(&given.store);
        let remark = given.remark.clone();
        let lent = output_buffer(given.space);
        let mut tape = lent.clone();
        let store = &self.store[..size];
        let result = self
            .machine
            .write(store, given.control, remark.as_deref(), &mut tape);
        let changed = self.collect_changes(&given.store, size);
        let kept = changed.is_empty() && remark == given.remark;
        match result {
            Ok(length) if kept && length <= tape.len() && tape[length..] == lent[length..] => {
                tape.truncate(length);
                Answer::Written(tape)
            }
            Ok(_) => Answer::BeyondLent,
            Err(refusal) => refused(refusal, kept && tape == lent),
        }
    }

    fn assemble(&mut self, line: &[u8]) -> Answer {
        match self.machine.assemble(line) {
            Ok(word) => Answer::Word(word),
            Err(refusal) => Answer::Refused(refusal),
        }
    }

    /// A call that hands back store and control record only.
    fn change(
        &mut self,
        listed: &Listed,
        given: Control,
        call: impl FnOnce(&M, &mut [u32], &mut Control) -> Result<(), Refusal>,
    ) -> Answer {
        let size = self.lay_out(listed);
        let mut control = given;
        let result = call(&self.machine, &mut self.store[..size], &mut control);
        let changed = self.collect_changes(listed, size);
        match result {
            Ok(()) => Answer::Done { control, changed },
            Err(refusal) => refused(refusal, given == control && changed.is_empty()),
        }
    }

    /// Puts the listed cells into the store and gives the number of cells to
    /// hand to the machine. A store with more cells than any machine takes is
    /// stood for by one with one cell too many.
    fn lay_out(&mut self, listed: &Listed) -> usize {
        let size = listed.size.min(MAXIMUM_CELLS + 1);
        if self.store.len() < size {
            self.store.resize(size, 0);
        }
        for &(index, value) in &listed.cells {
            if index < size {
                self.store[index] = value;
            }
        }
        size
    }

    /// The cells that differ from those listed; every cell is zero afterwards.
    fn collect_changes(&mut self, listed: &Listed, size: usize) -> Vec<(usize, u32)> {
        let store = &mut self.store[..size];
        let mut changed = Vec::new();
        for &(index, value) in &listed.cells {
            if index < size {
                if store[index] != value {
                    changed.push((index, store[index]));
                }
                store[index] = 0;
            }
        }
        for (number, chunk) in store.chunks_mut(CHUNK).enumerate() {
            if chunk.iter().fold(0, |all, cell| all | cell) != 0 {
                for (place, cell) in chunk.iter_mut().enumerate() {
                    if *cell != 0 {
                        changed.push((number * CHUNK + place, *cell));
                        *cell = 0;
                    }
                }
            }
        }
        changed.sort_unstable_by_key(|&(index, _)| index);
        changed
    }
}

/// Whether a run took and typed no more than was lent and kept the bytes of the
/// typing buffer behind those it typed.
fn keeps_to_lent(given: &Run, report: &Report, typing: &[u8]) -> bool {
    report.taken <= given.characters.len()
        && report.typed <= typing.len()
        && typing[report.typed..] == given.typing[report.typed..]
}

/// An output buffer as it is lent to a writer, with something in each byte,
/// never zero.
pub fn output_buffer(space: usize) -> Vec<u8> {
    let places = 0..space.min(LONGEST_BUFFER);
    places.map(|place| (place % 255) as u8 + 1).collect()
}

fn refused(refusal: Refusal, as_given: bool) -> Answer {
    if as_given {
        Answer::Refused(refusal)
    } else {
        Answer::RefusedAndChanged(refusal)
    }
}

/// Where `text`, a part of `tape`, lies in it.
fn part_of(tape: &[u8], text: &[u8]) -> Range<usize> {
    let start = text.as_ptr() as usize - tape.as_ptr() as usize;
    start..start + text.len()
}

/// Answers every line of `input` on a line of `output`.
pub fn serve<M: Machine>(
    machine: M,
    mut input: impl BufRead,
    mut output: impl Write,
) -> std::io::Result<()> {
    let mut front_end = FrontEnd::new(machine);
    let mut line = Vec::new();
    while input.read_until(b'\n', &mut line)? > 0 {
        let text = std::str::from_utf8(&line).map_or("", |text| text.trim_end());
        writeln!(output, "{}", front_end.answer_line(text))?;
        line.clear();
    }
    output.flush()
}
