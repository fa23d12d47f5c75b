//! One cycle: interruption service, instruction fetch, decode (14.5, 14.6).

use crate::bits::{add_address, bit, extend_byte};
use crate::channel::Channel;
use crate::control::Control;
use crate::run::Kind;
use crate::store::Store;
use crate::times;

/// What a cycle was.
pub enum Cycle {
    /// One executed instruction.
    Executed,
    /// One interruption entry.
    Entry(Kind),
}

/// `goto Instruction Exception`.
pub struct Exception;

/// What an instruction's steps end in.
pub type Step = Result<(), Exception>;

/// The central processor with its lent store and the low-speed channel.
pub struct Processor<'a> {
    pub store: Store<'a>,
    pub control: Control,
    pub channel: Channel<'a>,
    /// The time of the instruction so far, in tenths of a microsecond.
    pub time: u32,
}

/// What the fetch leaves in FR, SB and AR.
struct Fetched {
    /// The operation byte.
    fr: u32,
    /// The displacement, extended to 24 bits.
    displacement: u32,
    /// The instruction's own address.
    relative: u32,
}

impl<'a> Processor<'a> {
    pub fn new(cells: &'a mut [u32], control: Control, channel: Channel<'a>) -> Self {
        Processor {
            store: Store::new(cells),
            control,
            channel,
            time: 0,
        }
    }

    /// One entry or one instruction, and the time that it takes.
    pub fn cycle(&mut self) -> Cycle {
        let cycle = self.entry_or_instruction();
        let time = match cycle {
            Cycle::Entry(_) => times::ENTRY,
            Cycle::Executed => self.time,
        };
        self.control.end_cycle(time);
        cycle
    }

    fn entry_or_instruction(&mut self) -> Cycle {
        if let Some(line) = self.line() {
            self.control.ir &= !bit(line);
            self.enter(2 * line);
            return Cycle::Entry(Kind::Line(2 * line));
        }
        match self.instruction() {
            Ok(()) => Cycle::Executed,
            Err(Exception) => {
                self.enter(0);
                Cycle::Entry(Kind::Exception)
            }
        }
    }

    /// The left-most raised line whose mask bit is one, where lines are looked
    /// at: interrupts enabled and no modification pending.
    fn line(&self) -> Option<u32> {
        if !self.control.enabled || self.control.pending != 0 {
            return None;
        }
        let raised = self.control.ir & self.control.im;
        if raised == 0 {
            return None;
        }
        (0..24).find(|&line| raised & bit(line) != 0)
    }

    /// The interruption entry with this number (14.5).
    fn enter(&mut self, number: u32) {
        let program = self.control.ic;
        self.store.set_word(Control::INTERRUPT_NUMBER, number);
        self.store.set_word(Control::RETURN_ADDRESS, program);
        self.control.ic = self.store.word(Control::INTERRUPTION_PROGRAM) & !1;
        self.control.monitor = true;
        self.control.enabled = false;
        self.control.pending = 0;
    }

    /// Fetch, decode and execute one instruction.
    fn instruction(&mut self) -> Step {
        let pending = std::mem::take(&mut self.control.pending);
        let fetched = self.fetch()?;
        let operation = fetched.fr >> 6;
        self.time = times::direct(operation);
        let address = self.effective_address(&fetched, pending)?;
        let register = (fetched.fr >> 4) & 3;
        self.execute(operation, register, address)
    }

    /// Reads the two bytes of an instruction, raises IC, tests the key and
    /// sets the mode.
    fn fetch(&mut self) -> Result<Fetched, Exception> {
        let ic = self.control.ic;
        self.test_address(ic)?;
        self.test_address(add_address(ic, 1))?;
        let fetched = Fetched {
            fr: self.store.byte(ic),
            displacement: extend_byte(self.store.byte(add_address(ic, 1))),
            relative: ic,
        };
        let forbidden = self.control.forbids(self.store.key(ic));
        self.control.ic = add_address(ic, 2);
        if !self.control.monitor && forbidden {
            return Err(Exception);
        }
        self.control.monitor = forbidden;
        Ok(fetched)
    }

    /// The effective address (3.4): displacement and pending modification,
    /// then relative, indexed, indirect as FR(8:11) say, each with its time.
    fn effective_address(&mut self, fetched: &Fetched, pending: u32) -> Result<u32, Exception> {
        let mut address = add_address(fetched.displacement, pending);
        let mut modification = 0;
        if fetched.fr & 8 != 0 {
            address = add_address(address, fetched.relative);
            modification = times::RELATIVE;
        }
        let index = fetched.fr & 3;
        if index != 0 {
            address = add_address(address, self.store.register(index));
            modification = match modification {
                0 => times::INDEXED,
                _ => times::RELATIVE_AND_INDEXED,
            };
        }
        self.time += modification;
        if fetched.fr & 4 != 0 {
            self.test_address(address)?;
            address = self.store.word(address);
            self.time += times::indirect(fetched.fr >> 6);
        }
        Ok(address)
    }

    /// `Test Address`: an absent address is an exception.
    pub fn test_address(&self, address: u32) -> Step {
        if self.store.exists(address) {
            Ok(())
        } else {
            Err(Exception)
        }
    }

    /// `Test Mode`: a privileged instruction in task mode is an exception.
    pub fn test_mode(&self) -> Step {
        if self.control.monitor {
            Ok(())
        } else {
            Err(Exception)
        }
    }

    /// `Test Protection`: in task mode a forbidden cell is an exception.
    pub fn test_protection(&self, address: u32) -> Step {
        if !self.control.monitor && self.control.forbids(self.store.key(address)) {
            Err(Exception)
        } else {
            Ok(())
        }
    }

    /// `Test Address; Test Protection`, before a store or jump.
    pub fn test_access(&self, address: u32) -> Step {
        self.test_address(address)?;
        self.test_protection(address)
    }

    /// Reset System (14.4): `word(10) := IC` and the reset state.
    pub fn reset_system(&mut self) {
        self.store
            .set_word(Control::RETURN_ADDRESS, self.control.ic);
        self.control.enter_reset_state();
    }
}
