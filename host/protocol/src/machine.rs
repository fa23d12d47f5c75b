//! What answers a request: the nine calls of a machine.

use emulation::{Control, Devices, Refusal, Report};

/// The calls of a machine. On a refusal, all that was lent comes back as given.
pub trait Machine {
    /// Runs at most `budget` cycles.
    #[allow(clippy::too_many_arguments)]
    fn run(
        &self,
        store: &mut [u32],
        control: &mut Control,
        lines: u32,
        budget: u32,
        devices: &mut Devices,
        characters: &[u8],
        typing: &mut [u8],
    ) -> Result<Report, Refusal>;

    /// The reset key.
    fn press_reset(&self, store: &mut [u32], control: &mut Control) -> Result<(), Refusal>;

    /// The start key.
    fn press_start(&self, store: &mut [u32], control: &mut Control) -> Result<(), Refusal>;

    /// The autoload key; hands back how many characters it took.
    fn press_autoload(
        &self,
        store: &mut [u32],
        control: &mut Control,
        devices: &mut Devices,
        characters: &[u8],
    ) -> Result<usize, Refusal>;

    /// Loads a tape; cells that no block names become zero.
    fn load(&self, store: &mut [u32], control: &mut Control, tape: &[u8]) -> Result<(), Refusal>;

    /// Lays a tape over the store; cells that no block names are kept.
    fn overlay(&self, store: &mut [u32], control: &mut Control, tape: &[u8])
        -> Result<(), Refusal>;

    /// The first remark of a tape that loads into a store of `cells` cells.
    fn remark<'t>(&self, tape: &'t [u8], cells: usize) -> Result<Option<&'t [u8]>, Refusal>;

    /// Writes a machine, with a remark if given, to the front of `tape`; hands
    /// back the length.
    fn write(
        &self,
        store: &[u32],
        control: Control,
        remark: Option<&[u8]>,
        tape: &mut [u8],
    ) -> Result<usize, Refusal>;

    /// The word of a line of the assembler.
    fn assemble(&self, line: &[u8]) -> Result<u32, Refusal>;
}

/// The emulation as a machine.
pub struct Emulation;

impl Machine for Emulation {
    fn run(
        &self,
        store: &mut [u32],
        control: &mut Control,
        lines: u32,
        budget: u32,
        devices: &mut Devices,
        characters: &[u8],
        typing: &mut [u8],
    ) -> Result<Report, Refusal> {
        emulation::run(store, control, lines, budget, devices, characters, typing)
    }

    fn press_reset(&self, store: &mut [u32], control: &mut Control) -> Result<(), Refusal> {
        emulation::press_reset(store, control)
    }

    fn press_start(&self, store: &mut [u32], control: &mut Control) -> Result<(), Refusal> {
        emulation::press_start(store, control)
    }

    fn press_autoload(
        &self,
        store: &mut [u32],
        control: &mut Control,
        devices: &mut Devices,
        characters: &[u8],
    ) -> Result<usize, Refusal> {
        emulation::press_autoload(store, control, devices, characters)
    }

    fn load(&self, store: &mut [u32], control: &mut Control, tape: &[u8]) -> Result<(), Refusal> {
        emulation::load(store, control, tape)
    }

    fn overlay(
        &self,
        store: &mut [u32],
        control: &mut Control,
        tape: &[u8],
    ) -> Result<(), Refusal> {
        emulation::overlay(store, control, tape)
    }

    fn remark<'t>(&self, tape: &'t [u8], cells: usize) -> Result<Option<&'t [u8]>, Refusal> {
        emulation::remark(tape, cells)
    }

    fn write(
        &self,
        store: &[u32],
        control: Control,
        remark: Option<&[u8]>,
        tape: &mut [u8],
    ) -> Result<usize, Refusal> {
        emulation::write(store, control, remark, tape)
    }

    fn assemble(&self, line: &[u8]) -> Result<u32, Refusal> {
        emulation::assemble(line)
    }
}
