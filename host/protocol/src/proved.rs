//! The proved library as a machine.

use crate::machine::Machine;
use emulation::{Control, Devices, Kind, Outcome, Refusal, Report};

/// The proved library.
pub struct Proved;

fn to_library(control: &Control) -> rc4000::Control {
    rc4000::Control {
        ic: control.ic,
        ir: control.ir,
        im: control.im,
        pending: control.pending,
        pr: control.pr,
        ex: control.ex,
        monitor: control.monitor,
        enabled: control.enabled,
        reset: control.reset,
        elapsed: control.elapsed,
        period: control.period,
        phase: control.phase,
        line: control.line,
    }
}

fn from_library(control: &rc4000::Control) -> Control {
    Control {
        ic: control.ic,
        ir: control.ir,
        im: control.im,
        pending: control.pending,
        pr: control.pr,
        ex: control.ex,
        monitor: control.monitor,
        enabled: control.enabled,
        reset: control.reset,
        elapsed: control.elapsed,
        period: control.period,
        phase: control.phase,
        line: control.line,
    }
}

fn refusal(refusal: rc4000::Refusal) -> Refusal {
    Refusal::from_number(refusal.number()).expect("the numbers are the same")
}

fn outcome(outcome: rc4000::Outcome) -> Outcome {
    match outcome {
        rc4000::Outcome::Spent => Outcome::Spent,
        rc4000::Outcome::Reset => Outcome::Reset,
        rc4000::Outcome::Interrupted(rc4000::Kind::Exception) => {
            Outcome::Interrupted(Kind::Exception)
        }
        rc4000::Outcome::Interrupted(rc4000::Kind::Line(number)) => {
            Outcome::Interrupted(Kind::Line(number))
        }
    }
}

/// Makes a call of the library on the library's kind of control record.
fn call<T>(
    control: &mut Control,
    call: impl FnOnce(&mut rc4000::Control) -> Result<T, rc4000::Refusal>,
) -> Result<T, Refusal> {
    let mut library_control = to_library(control);
    let result = call(&mut library_control);
    *control = from_library(&library_control);
    result.map_err(refusal)
}

/// Makes a call of the library on the library's kind of control record and of
/// device buffer registers.
fn call_with_devices<T>(
    control: &mut Control,
    devices: &mut Devices,
    made: impl FnOnce(&mut rc4000::Control, &mut rc4000::Devices) -> Result<T, rc4000::Refusal>,
) -> Result<T, Refusal> {
    let mut library_devices = rc4000::Devices {
        reader: devices.reader,
        typewriter: devices.typewriter,
    };
    let result = call(control, |control| made(control, &mut library_devices));
    devices.reader = library_devices.reader;
    devices.typewriter = library_devices.typewriter;
    result
}

impl Machine for Proved {
    fn run(
        &self,
        store: &mut [u32],
        control: &mut Control,
        lines: u32,
        budget: u32,
        devices: &mut Devices,
        characters: &[u8],
        typing: &mut [u8],
    ) -> Result<Report, Refusal> {
        let report = call_with_devices(control, devices, |control, devices| {
            rc4000::run(store, control, lines, budget, devices, characters, typing)
        })?;
        Ok(Report {
            outcome: outcome(report.outcome),
            executed: report.executed,
            entries: report.entries,
            taken: report.taken,
            typed: report.typed,
        })
    }

    fn press_reset(&self, store: &mut [u32], control: &mut Control) -> Result<(), Refusal> {
        call(control, |control| rc4000::press_reset(store, control))
    }

    fn press_start(&self, store: &mut [u32], control: &mut Control) -> Result<(), Refusal> {
        call(control, |control| rc4000::press_start(store, control))
    }

    fn press_autoload(
        &self,
        store: &mut [u32],
        control: &mut Control,
        devices: &mut Devices,
        characters: &[u8],
    ) -> Result<usize, Refusal> {
        call_with_devices(control, devices, |control, devices| {
            rc4000::press_autoload(store, control, devices, characters)
        })
    }

    fn load(&self, store: &mut [u32], control: &mut Control, tape: &[u8]) -> Result<(), Refusal> {
        call(control, |control| rc4000::load(store, control, tape))
    }

    fn overlay(
        &self,
        store: &mut [u32],
        control: &mut Control,
        tape: &[u8],
    ) -> Result<(), Refusal> {
        call(control, |control| rc4000::overlay(store, control, tape))
    }

    fn remark<'t>(&self, tape: &'t [u8], cells: usize) -> Result<Option<&'t [u8]>, Refusal> {
        rc4000::remark(tape, cells).map_err(refusal)
    }

    fn write(
        &self,
        store: &[u32],
        control: Control,
        remark: Option<&[u8]>,
        tape: &mut [u8],
    ) -> Result<usize, Refusal> {
        rc4000::write(store, to_library(&control), remark, tape).map_err(refusal)
    }

    fn assemble(&self, line: &[u8]) -> Result<u32, Refusal> {
        rc4000::assemble(line).map_err(refusal)
    }
}
