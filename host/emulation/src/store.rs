//! The store: words, bytes, protection keys, working registers (3.2, 3.3).

use crate::bits::{BYTE, WORD};
use crate::refusal::Refusal;

/// The fewest cells of a store.
pub const MINIMUM_CELLS: usize = 8;
/// The most cells of a store.
pub const MAXIMUM_CELLS: usize = 8_388_608;
/// Every cell, key and word together, is below this.
pub const CELL_LIMIT: u32 = 134_217_728;

/// Refusal 1, by the number of cells alone.
pub fn check_size(cells: usize) -> Result<(), Refusal> {
    if (MINIMUM_CELLS..=MAXIMUM_CELLS).contains(&cells) {
        Ok(())
    } else {
        Err(Refusal::StoreSize)
    }
}

/// Refusals 1 and 2.
pub fn check_store(cells: &[u32]) -> Result<(), Refusal> {
    check_size(cells.len())?;
    if cells.iter().all(|&cell| cell < CELL_LIMIT) {
        Ok(())
    } else {
        Err(Refusal::CellValue)
    }
}

/// A lent row of cells, seen by byte addresses. An address handed to a
/// function here exists; the operations test it first.
pub struct Store<'a> {
    cells: &'a mut [u32],
}

impl<'a> Store<'a> {
    pub fn new(cells: &'a mut [u32]) -> Self {
        Store { cells }
    }

    /// Whether there is a byte with this address.
    pub fn exists(&self, address: u32) -> bool {
        ((address / 2) as usize) < self.cells.len()
    }

    fn cell(&self, address: u32) -> u32 {
        self.cells[(address / 2) as usize]
    }

    fn cell_mut(&mut self, address: u32) -> &mut u32 {
        &mut self.cells[(address / 2) as usize]
    }

    /// `word(address)`; the right-most bit of the address is ignored.
    pub fn word(&self, address: u32) -> u32 {
        self.cell(address) & WORD
    }

    /// `word(address) := word`; the key stays.
    pub fn set_word(&mut self, address: u32, word: u32) {
        let cell = self.cell_mut(address);
        *cell = (*cell & !WORD) | (word & WORD);
    }

    /// `byte(address)`: the left half for an even address, else the right half.
    pub fn byte(&self, address: u32) -> u32 {
        if address % 2 == 0 {
            self.word(address) >> 12
        } else {
            self.word(address) & BYTE
        }
    }

    /// `byte(address) := byte`; the other half and the key stay.
    pub fn set_byte(&mut self, address: u32, byte: u32) {
        let byte = byte & BYTE;
        let word = self.word(address);
        let changed = if address % 2 == 0 {
            (byte << 12) | (word & BYTE)
        } else {
            (word & !BYTE) | byte
        };
        self.set_word(address, changed);
    }

    /// `protection key(address)`.
    pub fn key(&self, address: u32) -> u32 {
        self.cell(address) >> 24
    }

    /// `protection key(address) := key`; the word stays.
    pub fn set_key(&mut self, address: u32, key: u32) {
        let cell = self.cell_mut(address);
        *cell = ((key & 7) << 24) | (*cell & WORD);
    }

    /// `word(address) := word; protection key(address) := 0`.
    pub fn set_loaded(&mut self, address: u32, word: u32) {
        *self.cell_mut(address) = word & WORD;
    }

    /// Working register `number`, the word of cell `number`.
    pub fn register(&self, number: u32) -> u32 {
        self.word(2 * number)
    }

    /// Sets working register `number`.
    pub fn set_register(&mut self, number: u32, word: u32) {
        self.set_word(2 * number, word);
    }
}

/// The address of the first word of the double word at `address`: the
/// right-most bit is dropped, and the first word of 0 is 6 (14.2).
pub fn first_word(address: u32) -> u32 {
    match address & !1 {
        0 => 6,
        even => even - 2,
    }
}

/// Wpre: the number of the register cyclically before `number`.
pub fn register_before(number: u32) -> u32 {
    (number + 3) % 4
}
