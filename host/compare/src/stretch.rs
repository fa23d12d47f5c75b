//! A run gone through again cycle by cycle.

use protocol::{Control, Devices, Report, Run};

/// A run that is made one cycle at a time, each with what the one before left.
pub struct Stretch<'a> {
    pub store: Vec<u32>,
    pub control: Control,
    pub devices: Devices,
    pub characters: &'a [u8],
    pub typing: Vec<u8>,
    pub typed: usize,
}

impl<'a> Stretch<'a> {
    /// Before the first cycle.
    pub fn new(run: &'a Run) -> Self {
        let mut store = vec![0; run.store.size];
        for &(index, value) in &run.store.cells {
            store[index] = value;
        }
        let mut control = run.control;
        control.ir |= run.lines;
        Stretch {
            store,
            control,
            devices: run.devices,
            characters: &run.characters,
            typing: run.typing.clone(),
            typed: 0,
        }
    }

    /// Makes a cycle, where there is one to make.
    pub fn cycle(&mut self) -> Option<Report> {
        let report = emulation::run(
            &mut self.store,
            &mut self.control,
            0,
            1,
            &mut self.devices,
            self.characters,
            &mut self.typing[self.typed..],
        )
        .ok()?;
        self.characters = &self.characters[report.taken..];
        self.typed += report.typed;
        (report.executed + report.entries > 0).then_some(report)
    }
}
