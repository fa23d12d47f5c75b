//! The bytes of the cases and the lines of their answers.
//!
//! A case is a row of numbers of 4 bytes, little-endian: the call (0 run, 1 reset
//! key, 2 start key, 3 autoload key, 4 write, 5 assemble), the number of cells,
//! lines, budget, eleven fields of the control record (IC, IR, IM, pending, PR, EX,
//! the flags summed as on a tape, elapsed, period, phase, line), the device buffer
//! registers of reader and typewriter, the number of characters, the length of the
//! typing buffer; then the cells, the characters and the bytes of the typing
//! buffer, a number each.
//! A write has the remark in place of the characters, the output buffer in place
//! of the typing buffer, and in place of the lines 1 where a remark is given,
//! else 0.
//! An assemble has the line in place of the characters; all other numbers after
//! the call are 0.
//!
//! An answer is a line: of a run outcome, number, executed, entries, taken and
//! typed; of the reset and start keys the refusal; of the autoload key the
//! refusal and taken; of a write the refusal and the length of the tape. Then for
//! each of these calls the eleven fields, the two registers and the checksums of
//! the cells and of the typing or output buffer. Of an assemble it is the refusal
//! and the word, nothing else.

use protocol::{
    output_buffer, Control, Devices, Kind, Listed, Outcome, Refusal, Report, Request, Run,
};
use std::fmt::Write;

/// The call that has a line and nothing else.
const ASSEMBLE: u32 = 5;

/// What a case asks for, with a store of all its cells. What a call does not
/// take is zero or empty. `characters` are those of the reader, of a remark or of
/// a line, `typing` is a typing buffer or an output buffer.
struct Call {
    kind: u32,
    store: Vec<u32>,
    control: Control,
    lines: u32,
    budget: u32,
    devices: Devices,
    characters: Vec<u8>,
    typing: Vec<u8>,
}

fn cells(listed: &Listed) -> Vec<u32> {
    let mut store = vec![0; listed.size];
    for &(index, value) in &listed.cells {
        store[index] = value;
    }
    store
}

impl Call {
    fn new(request: &Request) -> Self {
        match request {
            Request::Run(run) => Call::run(run),
            Request::PressReset { store, control } => Call::key(1, store, control),
            Request::PressStart { store, control } => Call::key(2, store, control),
            Request::PressAutoload {
                store,
                control,
                devices,
                characters,
            } => Call {
                devices: *devices,
                characters: characters.clone(),
                ..Call::key(3, store, control)
            },
            Request::Write(write) => Call::write(write),
            Request::Assemble { line } => Call::assemble(line),
            _ => panic!("a case is a run, a key, a write or a line"),
        }
    }

    fn write(write: &protocol::Write) -> Self {
        Call {
            lines: u32::from(write.remark.is_some()),
            characters: write.remark.clone().unwrap_or_default(),
            typing: output_buffer(write.space),
            ..Call::key(4, &write.store, &write.control)
        }
    }

    fn assemble(line: &[u8]) -> Self {
        let zeros = Control {
            pr: 0,
            monitor: false,
            reset: false,
            ..Control::fresh()
        };
        Call {
            characters: line.to_vec(),
            ..Call::key(ASSEMBLE, &Listed::default(), &zeros)
        }
    }

    fn run(run: &Run) -> Self {
        Call {
            kind: 0,
            store: cells(&run.store),
            control: run.control,
            lines: run.lines,
            budget: run.budget,
            devices: run.devices,
            characters: run.characters.clone(),
            typing: run.typing.clone(),
        }
    }

    fn key(kind: u32, store: &Listed, control: &Control) -> Self {
        Call {
            kind,
            store: cells(store),
            control: *control,
            lines: 0,
            budget: 0,
            devices: Devices::default(),
            characters: Vec::new(),
            typing: Vec::new(),
        }
    }

    fn numbers(&self) -> Vec<u32> {
        let [cells, characters, space] =
            [self.store.len(), self.characters.len(), self.typing.len()]
                .map(|length| length as u32);
        let mut numbers = vec![self.kind, cells, self.lines, self.budget];
        numbers.extend(fields(&self.control));
        numbers.extend(registers(&self.devices));
        numbers.extend([characters, space]);
        numbers.extend(&self.store);
        numbers.extend(self.characters.iter().copied().map(u32::from));
        numbers.extend(self.typing.iter().copied().map(u32::from));
        numbers
    }

    /// Makes the call; its result.
    fn made(&mut self) -> Vec<u32> {
        let (store, control) = (&mut self.store, &mut self.control);
        let (devices, characters) = (&mut self.devices, &self.characters);
        match self.kind {
            0 => of_run(emulation::run(
                store,
                control,
                self.lines,
                self.budget,
                devices,
                characters,
                &mut self.typing,
            )),
            1 => vec![refusal(emulation::press_reset(store, control))],
            2 => vec![refusal(emulation::press_start(store, control))],
            3 => of_count(emulation::press_autoload(
                store, control, devices, characters,
            )),
            ASSEMBLE => of_word(emulation::assemble(characters)),
            _ => {
                let remark = (self.lines == 1).then_some(&characters[..]);
                of_count(emulation::write(store, *control, remark, &mut self.typing))
            }
        }
    }

    /// Its result, then control record, device buffer registers and checksums
    /// where the call has them.
    fn answer(&mut self) -> Vec<u32> {
        let mut numbers = self.made();
        if self.kind == ASSEMBLE {
            return numbers;
        }
        numbers.extend(fields(&self.control));
        numbers.extend(registers(&self.devices));
        numbers.push(checksum(self.store.iter().copied()));
        numbers.push(checksum(self.typing.iter().copied().map(u32::from)));
        numbers
    }
}

/// Outcome, number, executed, entries, taken and typed.
fn of_run(result: Result<Report, Refusal>) -> Vec<u32> {
    match result {
        Ok(report) => {
            let [outcome, number] = outcome(report.outcome);
            let [taken, typed] = [report.taken, report.typed].map(|count| count as u32);
            vec![
                outcome,
                number,
                report.executed,
                report.entries,
                taken,
                typed,
            ]
        }
        Err(refusal) => vec![0, refusal.number(), 0, 0, 0, 0],
    }
}

/// The refusal, and how many were taken or written.
fn of_count(result: Result<usize, Refusal>) -> Vec<u32> {
    match result {
        Ok(count) => vec![0, count as u32],
        Err(refusal) => vec![refusal.number(), 0],
    }
}

/// The refusal and the word.
fn of_word(result: Result<u32, Refusal>) -> Vec<u32> {
    match result {
        Ok(word) => vec![0, word],
        Err(refusal) => vec![refusal.number(), 0],
    }
}

/// An outcome as `rc4000.h` has it.
fn outcome(outcome: Outcome) -> [u32; 2] {
    match outcome {
        Outcome::Spent => [1, 0],
        Outcome::Reset => [2, 0],
        Outcome::Interrupted(Kind::Exception) => [3, 0],
        Outcome::Interrupted(Kind::Line(number)) => [4, number],
    }
}

fn refusal(result: Result<(), Refusal>) -> u32 {
    result.map_or_else(|refusal| refusal.number(), |()| 0)
}

fn fields(control: &Control) -> [u32; 11] {
    let [monitor, enabled, reset] =
        [control.monitor, control.enabled, control.reset].map(u32::from);
    [
        control.ic,
        control.ir,
        control.im,
        control.pending,
        control.pr,
        control.ex,
        monitor + 2 * enabled + 4 * reset,
        control.elapsed,
        control.period,
        control.phase,
        control.line.into(),
    ]
}

fn registers(devices: &Devices) -> [u32; 2] {
    [devices.reader, devices.typewriter]
}

fn checksum(numbers: impl Iterator<Item = u32>) -> u32 {
    numbers.fold(0, |sum, number| sum.wrapping_mul(31).wrapping_add(number))
}

/// The file `stdin`: the number of cases, then the cases.
pub fn input(cases: &[Request]) -> Vec<u8> {
    let mut numbers = vec![cases.len() as u32];
    for request in cases {
        numbers.extend(Call::new(request).numbers());
    }
    numbers.into_iter().flat_map(u32::to_le_bytes).collect()
}

/// The file `stdout`: a line for each case, by the emulation.
pub fn answers(cases: &[Request]) -> String {
    let mut text = String::new();
    for request in cases {
        let numbers = Call::new(request).answer();
        let line: Vec<String> = numbers.iter().map(u32::to_string).collect();
        let _ = writeln!(text, "{}", line.join(" "));
    }
    text
}
