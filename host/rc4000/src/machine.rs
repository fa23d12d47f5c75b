//! A machine with a store of its own.

use crate::types::{cell, key, word, Control, Devices, Refusal, Report};
use crate::LONGEST_TAPE;

/// A store, its control record and the device buffer registers. Each method is
/// the call of the same name on them; on a refusal they are as before.
///
/// An address is a byte address; cell `i` has the addresses `2 * i` and
/// `2 * i + 1`.
#[derive(Clone, Debug, PartialEq, Eq)]
pub struct Machine {
    /// The cells.
    pub store: Vec<u32>,
    /// The control record.
    pub control: Control,
    /// The device buffer registers.
    pub devices: Devices,
}

impl Machine {
    /// A machine after power on, with this many cells of zero: in the reset
    /// state (`Control::fresh`), the registers zero. Calls take 8 to 8,388,608
    /// cells.
    pub fn fresh(cells: usize) -> Self {
        Machine {
            store: vec![0; cells],
            control: Control::fresh(),
            devices: Devices::default(),
        }
    }

    /// Loads a tape: its blocks into the store, zero into every other cell, and
    /// its control record.
    pub fn load(&mut self, tape: &[u8]) -> Result<(), Refusal> {
        crate::load(&mut self.store, &mut self.control, tape)
    }

    /// Lays a tape over what the store holds: its blocks into the store, and its
    /// control record; every other cell is kept.
    pub fn overlay(&mut self, tape: &[u8]) -> Result<(), Refusal> {
        crate::overlay(&mut self.store, &mut self.control, tape)
    }

    /// The machine's tape, with this remark first where one is given. Loaded
    /// into a machine with as many cells, none of 134,217,728 or more, it gives
    /// this store and control record; the device buffer registers are not on
    /// it.
    pub fn write(&self, remark: Option<&[u8]>) -> Result<Vec<u8>, Refusal> {
        let mut tape = vec![0; LONGEST_TAPE];
        let length = crate::write(&self.store, self.control, remark, &mut tape)?;
        tape.truncate(length);
        Ok(tape)
    }

    /// Runs at most `budget` cycles with these raised lines, characters and
    /// typing buffer.
    pub fn run(
        &mut self,
        lines: u32,
        budget: u32,
        characters: &[u8],
        typing: &mut [u8],
    ) -> Result<Report, Refusal> {
        crate::run(
            &mut self.store,
            &mut self.control,
            lines,
            budget,
            &mut self.devices,
            characters,
            typing,
        )
    }

    /// A run that lends no characters and no typing space. The device buffer
    /// registers stay the machine's.
    pub fn run_without_devices(&mut self, lines: u32, budget: u32) -> Result<Report, Refusal> {
        self.run(lines, budget, &[], &mut [])
    }

    /// Presses the reset key.
    pub fn press_reset(&mut self) -> Result<(), Refusal> {
        crate::press_reset(&mut self.store, &mut self.control)
    }

    /// Presses the start key.
    pub fn press_start(&mut self) -> Result<(), Refusal> {
        crate::press_start(&mut self.store, &mut self.control)
    }

    /// Presses the autoload key. Gives the number of characters taken, 4 or 0.
    pub fn press_autoload(&mut self, characters: &[u8]) -> Result<usize, Refusal> {
        crate::press_autoload(
            &mut self.store,
            &mut self.control,
            &mut self.devices,
            characters,
        )
    }

    /// The word at an address, none where the address does not exist.
    pub fn word(&self, address: u32) -> Option<u32> {
        self.store.get(address as usize / 2).copied().map(word)
    }

    /// The key of the cell at an address, none where the address does not
    /// exist.
    pub fn key(&self, address: u32) -> Option<u32> {
        self.store.get(address as usize / 2).copied().map(key)
    }

    /// Puts the right-most 24 bits of a word at an address; the cell keeps its
    /// key.
    ///
    /// # Panics
    ///
    /// Where the address does not exist.
    pub fn set_word(&mut self, address: u32, word: u32) {
        let given = &mut self.store[address as usize / 2];
        *given = cell(key(*given), word);
    }

    /// Gives the cell at an address a key; the cell keeps its word.
    ///
    /// # Panics
    ///
    /// Where the address does not exist, or the key is over 7.
    pub fn set_key(&mut self, address: u32, key: u32) {
        assert!(key <= 7, "key {key}");
        let given = &mut self.store[address as usize / 2];
        *given = cell(key, word(*given));
    }
}
