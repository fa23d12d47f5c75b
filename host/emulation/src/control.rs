//! The control record: what the processor holds beside the store (14.2).

use crate::bits::{bit, WORD};
use crate::refusal::Refusal;

/// The control record of a machine.
#[derive(Clone, Copy, Debug, PartialEq, Eq, Hash)]
pub struct Control {
    /// Instruction counter, 24 bits.
    pub ic: u32,
    /// Interrupt register, 24 bits; bit 0 is the left-most.
    pub ir: u32,
    /// Mask register, 24 bits.
    pub im: u32,
    /// The modification that AM left for the next instruction, 0 if none.
    pub pending: u32,
    /// Protection register, 8 bits, bit 0 always one: 128 to 255.
    pub pr: u32,
    /// Exception register, the manual's bits 21 to 23.
    pub ex: u32,
    /// Monitor mode; task mode where it is no.
    pub monitor: bool,
    /// Interrupts enabled.
    pub enabled: bool,
    /// The reset state of section 11.3.
    pub reset: bool,
    /// The time of all cycles, in tenths of a microsecond; carries out of 32
    /// bits are dropped.
    pub elapsed: u32,
    /// The period of the interval timer, in the same unit; 0 for off.
    pub period: u32,
    /// The time since the last period ended, below the period.
    pub phase: u32,
    /// The line that the timer raises, 3 to 23.
    pub line: u8,
}

impl Control {
    /// Storage word for the interrupt number (A.1).
    pub const INTERRUPT_NUMBER: u32 = 8;
    /// Storage word for the return address.
    pub const RETURN_ADDRESS: u32 = 10;
    /// Storage word that holds the interruption program's address.
    pub const INTERRUPTION_PROGRAM: u32 = 12;
    /// Storage word that holds the start address.
    pub const START_ADDRESS: u32 = 14;

    /// The record after power on (11.3, 14.4): zeros, but bit 0 of PR one, in
    /// the reset state.
    pub const fn fresh() -> Self {
        Control {
            ic: 0,
            ir: 0,
            im: 0,
            pending: 0,
            pr: 128,
            ex: 0,
            monitor: true,
            enabled: false,
            reset: true,
            elapsed: 0,
            period: 0,
            phase: 0,
            line: 0,
        }
    }

    /// Refusals 3 and 18, in this order.
    pub(crate) fn check(&self) -> Result<(), Refusal> {
        self.check_fields()?;
        self.check_timer()
    }

    /// Refusal 3: a field outside the widths and rules of document 01.
    fn check_fields(&self) -> Result<(), Refusal> {
        let words_fit = [self.ic, self.ir, self.im, self.pending]
            .iter()
            .all(|&field| field <= WORD);
        let small_fields_fit = (128..=255).contains(&self.pr) && self.ex <= 7;
        let state_agrees = !self.reset || (self.monitor && !self.enabled);
        if words_fit && small_fields_fit && state_agrees {
            Ok(())
        } else {
            Err(Refusal::ControlField)
        }
    }

    /// Refusal 18. With period 0 any line and phase will do.
    fn check_timer(&self) -> Result<(), Refusal> {
        let line_fits = (3..=23).contains(&self.line);
        if self.period == 0 || (line_fits && self.phase < self.period) {
            Ok(())
        } else {
            Err(Refusal::Timer)
        }
    }

    /// The end of a cycle that took `time`: where the phase reaches or passes the
    /// period, the line is raised once and the phase keeps the remainder (02,
    /// E6).
    pub(crate) fn end_cycle(&mut self, time: u32) {
        self.elapsed = self.elapsed.wrapping_add(time);
        if self.period == 0 {
            return;
        }
        let period = u64::from(self.period);
        let mut phase = u64::from(self.phase) + u64::from(time);
        if phase >= period {
            self.ir |= bit(u32::from(self.line));
            phase %= period;
        }
        self.phase = phase as u32;
    }

    /// Whether the PR bit numbered by `key` is one (6.1).
    pub(crate) fn forbids(&self, key: u32) -> bool {
        self.pr & (128 >> key) != 0
    }

    /// Enters the reset state: monitor mode, interrupts disabled (11.3).
    pub(crate) fn enter_reset_state(&mut self) {
        self.pending = 0;
        self.monitor = true;
        self.enabled = false;
        self.reset = true;
    }
}
