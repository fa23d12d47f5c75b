//! A run of a number of cycles, and the panel keys (01, 14.4).

use crate::channel::{Channel, Devices};
use crate::control::Control;
use crate::cycle::{Cycle, Processor};
use crate::refusal::Refusal;
use crate::store::check_store;

/// What interrupted a run.
#[derive(Clone, Copy, Debug, PartialEq, Eq, Hash)]
pub enum Kind {
    /// An instruction exception.
    Exception,
    /// A raised line, with the number stored in word 8.
    Line(u32),
}

/// How a run ended.
#[derive(Clone, Copy, Debug, PartialEq, Eq, Hash)]
pub enum Outcome {
    /// The budget is used.
    Spent,
    /// The machine is in the reset state.
    Reset,
    /// The run ended after an interruption entry.
    Interrupted(Kind),
}

/// The outcome of a run and what its cycles were.
#[derive(Clone, Copy, Debug, PartialEq, Eq, Hash)]
pub struct Report {
    /// How the run ended.
    pub outcome: Outcome,
    /// Executed instructions.
    pub executed: u32,
    /// Interruption entries, 0 or 1.
    pub entries: u32,
    /// Characters taken from the reader.
    pub taken: usize,
    /// Bytes typed.
    pub typed: usize,
}

/// Refusal 4: lines are bits 3 to 23.
fn check_lines(lines: u32) -> Result<(), Refusal> {
    if lines < 1 << 21 {
        Ok(())
    } else {
        Err(Refusal::Lines)
    }
}

/// Refusal 5.
fn check_budget(budget: u32) -> Result<(), Refusal> {
    if budget <= 65_535 {
        Ok(())
    } else {
        Err(Refusal::Budget)
    }
}

/// Runs at most `budget` cycles; the raised `lines` join IR first. The host
/// lends the characters that are in the reader and the space to type in; the
/// bytes typed stand at the front of `typing`, its other bytes stay.
pub fn run(
    store: &mut [u32],
    control: &mut Control,
    lines: u32,
    budget: u32,
    devices: &mut Devices,
    characters: &[u8],
    typing: &mut [u8],
) -> Result<Report, Refusal> {
    check_store(store)?;
    control.check()?;
    check_lines(lines)?;
    check_budget(budget)?;
    devices.check(characters)?;
    control.ir |= lines;
    let channel = Channel::new(*devices, characters, typing);
    let mut processor = Processor::new(store, *control, channel);
    let (outcome, executed, entries) = cycles(&mut processor, budget);
    *control = processor.control;
    *devices = processor.channel.devices;
    Ok(Report {
        outcome,
        executed,
        entries,
        taken: processor.channel.taken,
        typed: processor.channel.typed,
    })
}

/// The cycles of a run, up to the first entry, the reset state or the budget:
/// outcome, executed instructions and entries.
fn cycles(processor: &mut Processor, budget: u32) -> (Outcome, u32, u32) {
    let mut executed = 0;
    if processor.control.reset {
        return (Outcome::Reset, 0, 0);
    }
    while executed < budget {
        match processor.cycle() {
            Cycle::Entry(kind) => return (Outcome::Interrupted(kind), executed, 1),
            Cycle::Executed => executed += 1,
        }
        if processor.control.reset {
            return (Outcome::Reset, executed, 0);
        }
    }
    (Outcome::Spent, executed, 0)
}

/// The reset key (11.3): stores IC in word 10 and enters the reset state; in
/// that state it changes nothing.
pub fn press_reset(store: &mut [u32], control: &mut Control) -> Result<(), Refusal> {
    check_store(store)?;
    control.check()?;
    if !control.reset {
        let mut processor = Processor::new(store, *control, Channel::without_devices());
        processor.reset_system();
        *control = processor.control;
    }
    Ok(())
}

/// The start key (11.4): in the reset state takes IC from word 14 and leaves
/// that state; elsewhere it changes nothing.
pub fn press_start(store: &mut [u32], control: &mut Control) -> Result<(), Refusal> {
    check_store(store)?;
    control.check()?;
    if control.reset {
        let processor = Processor::new(store, *control, Channel::without_devices());
        control.ic = processor.store.word(Control::START_ADDRESS) & !1;
        control.reset = false;
    }
    Ok(())
}

/// The autoload key (11.5): in the reset state, with four characters in the
/// reader, loads them into W0, sets IC to 0 and leaves that state; elsewhere, or
/// with fewer characters, it changes nothing. Hands back how many it took.
pub fn press_autoload(
    store: &mut [u32],
    control: &mut Control,
    devices: &mut Devices,
    characters: &[u8],
) -> Result<usize, Refusal> {
    check_store(store)?;
    control.check()?;
    devices.check(characters)?;
    if !control.reset {
        return Ok(0);
    }
    let channel = Channel::new(*devices, characters, &mut []);
    let mut processor = Processor::new(store, *control, channel);
    if let Some(word) = processor.input_word() {
        processor.store.set_loaded(0, word);
        processor.control.ic = 0;
        processor.control.reset = false;
    }
    *control = processor.control;
    *devices = processor.channel.devices;
    Ok(processor.channel.taken)
}
