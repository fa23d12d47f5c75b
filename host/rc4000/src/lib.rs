//! The proved RC 4000 emulator, for controllers written in Rust.
//!
//! Safe functions over the C calls of the static library `librc4000.a`. The
//! store is a row of cells that the caller lends; a cell is
//! `key * 16_777_216 + word` with a key of 3 and a word of 24 bits. [`Machine`]
//! has a store of its own and the same calls as methods.
//!
//! The low-speed channel has a tape reader, device 0, and a typewriter, device
//! 1: a call lends the reader's characters and a buffer for the typed ones. A
//! later call goes on with what the one before left of both.
//!
//! Instructions can be written as lines of text: [`assemble`] gives their words.
//!
//! On a refusal all that is lent is as it was given.

#![warn(missing_docs)]

mod ffi;
mod machine;
mod types;

/// The Rust program that the README shows, as a test.
#[cfg(doctest)]
#[doc = include_str!("../../../README.md")]
struct Readme;

pub use machine::Machine;
pub use types::{cell, key, line, word, Control, Devices, Kind, Outcome, Refusal, Report};

/// The most bytes of a tape: a buffer of so many has room for every tape.
pub const LONGEST_TAPE: usize = 65_536;

/// Runs at most `budget` cycles, at most 65,535; the raised `lines` (bits 3 to
/// 23) join IR first.
///
/// The reader takes its `characters` (0 to 63) from the first on. Typed bytes
/// stand at the front of `typing`, whose other bytes are kept. The report says
/// how many were taken and typed; a later run gets `&characters[taken..]` and
/// `&mut typing[typed..]`.
pub fn run(
    store: &mut [u32],
    control: &mut Control,
    lines: u32,
    budget: u32,
    devices: &mut Devices,
    characters: &[u8],
    typing: &mut [u8],
) -> Result<Report, Refusal> {
    // SAFETY: each pointer and length are those of one slice, lent for the
    // call; the characters are only read.
    let result = unsafe {
        ffi::rc4000_run(
            store.as_mut_ptr(),
            store.len(),
            (*control).into(),
            lines,
            budget,
            *devices,
            characters.as_ptr(),
            characters.len(),
            typing.as_mut_ptr(),
            typing.len(),
        )
    };
    result.hand_back(control, devices)
}

/// A run that lends no characters and no typing space, the registers zero.
pub fn run_without_devices(
    store: &mut [u32],
    control: &mut Control,
    lines: u32,
    budget: u32,
) -> Result<Report, Refusal> {
    let mut devices = Devices::default();
    run(store, control, lines, budget, &mut devices, &[], &mut [])
}

/// Presses the reset key: IC goes to word 10 and the machine is in the reset
/// state. In that state the key changes nothing.
pub fn press_reset(store: &mut [u32], control: &mut Control) -> Result<(), Refusal> {
    // SAFETY: as in `run`.
    let state =
        unsafe { ffi::rc4000_press_reset(store.as_mut_ptr(), store.len(), (*control).into()) };
    state.hand_back(control)
}

/// Presses the start key: in the reset state IC is taken from word 14 and the
/// state is left. Elsewhere the key changes nothing.
pub fn press_start(store: &mut [u32], control: &mut Control) -> Result<(), Refusal> {
    // SAFETY: as in `run`.
    let state =
        unsafe { ffi::rc4000_press_start(store.as_mut_ptr(), store.len(), (*control).into()) };
    state.hand_back(control)
}

/// Presses the autoload key: in the reset state the first four characters
/// become word 0 with key 0, IC becomes 0 and the state is left; the next run
/// executes word 0. Elsewhere, or with fewer than four characters, the key
/// changes nothing. Gives the number of characters taken, 4 or 0.
pub fn press_autoload(
    store: &mut [u32],
    control: &mut Control,
    devices: &mut Devices,
    characters: &[u8],
) -> Result<usize, Refusal> {
    // SAFETY: as in `run`.
    let loaded = unsafe {
        ffi::rc4000_press_autoload(
            store.as_mut_ptr(),
            store.len(),
            (*control).into(),
            *devices,
            characters.as_ptr(),
            characters.len(),
        )
    };
    loaded.hand_back(control, devices)
}

/// `rc4000_load` or `rc4000_overlay`.
type TakesTape =
    unsafe extern "C" fn(*mut u32, usize, ffi::ControlRecord, *const u8, usize) -> ffi::State;

fn take_tape(
    call: TakesTape,
    store: &mut [u32],
    control: &mut Control,
    tape: &[u8],
) -> Result<(), Refusal> {
    // SAFETY: as in `run`; the tape is only read.
    let state = unsafe {
        call(
            store.as_mut_ptr(),
            store.len(),
            (*control).into(),
            tape.as_ptr(),
            tape.len(),
        )
    };
    state.hand_back(control)
}

/// Loads a tape, whose blocks do not overlap, into the store and its control
/// record into `control`. Every cell that no block names becomes zero, word and
/// key, registers included: nothing of what the store held stays. The record
/// given is not tested.
pub fn load(store: &mut [u32], control: &mut Control, tape: &[u8]) -> Result<(), Refusal> {
    take_tape(ffi::rc4000_load, store, control, tape)
}

/// Lays a tape over what the store holds, as a border tape over a ground tape:
/// as [`load`], with the same refusals and the tape's control record, but every
/// cell that no block names is kept.
pub fn overlay(store: &mut [u32], control: &mut Control, tape: &[u8]) -> Result<(), Refusal> {
    take_tape(ffi::rc4000_overlay, store, control, tape)
}

/// The text of the first remark of a tape that loads into a store of `cells`
/// cells, none where it has no remark; else the loader's refusal.
pub fn remark(tape: &[u8], cells: usize) -> Result<Option<&[u8]>, Refusal> {
    // SAFETY: pointer and length are those of one slice, which is only read.
    let text = unsafe { ffi::rc4000_remark(tape.as_ptr(), tape.len(), cells) };
    if text.refusal != 0 {
        return Err(ffi::refusal(text.refusal));
    }
    Ok(text.found.then(|| &tape[text.start..text.end]))
}

/// Writes the tape of a machine into the buffer `tape`, whose bytes behind it
/// are kept, and gives the tape's length. A remark has at most 255 bytes; an
/// empty one is written too. Store and control record are only read.
///
/// [`load`] of these bytes into as many cells, none of 134,217,728 or more,
/// gives the same store and control record. The device buffer registers are
/// not on a tape.
pub fn write(
    store: &[u32],
    control: Control,
    remark: Option<&[u8]>,
    tape: &mut [u8],
) -> Result<usize, Refusal> {
    let text = remark.unwrap_or_default();
    // SAFETY: each pointer and length are those of one slice, lent for the
    // call; store and text are only read.
    let written = unsafe {
        ffi::rc4000_write(
            store.as_ptr(),
            store.len(),
            control.into(),
            remark.is_some().into(),
            text.as_ptr(),
            text.len(),
            tape.as_mut_ptr(),
            tape.len(),
        )
    };
    written.hand_back()
}

/// The word of a line of the assembler: a mnemonic code, a dot if relative, the
/// working register, and the address, which an index register may precede;
/// index register and address stand in square brackets if indirect. An address
/// is an expression of decimal numbers, `+`, `-`, `*` and round parentheses.
///
/// Refusals are [`Refusal::LineGrammar`], [`Refusal::LineDepth`] and
/// [`Refusal::LineValue`], tested in this order.
///
/// ```
/// use rc4000::{assemble, Machine, Refusal};
///
/// let mut machine = Machine::fresh(64);
/// machine.set_word(20, assemble(b"AL W1 X1,2*(3+4)")?);
/// machine.set_word(22, assemble(b"JL. W0 0-2")?);
/// assert_eq!(machine.word(20), Some(11 << 18 | 1 << 16 | 1 << 12 | 14));
/// assert_eq!(assemble(b"AL W1 -2"), Err(Refusal::LineGrammar));
/// # Ok::<(), Refusal>(())
/// ```
pub fn assemble(line: &[u8]) -> Result<u32, Refusal> {
    // SAFETY: pointer and length are those of one slice, which is only read.
    let assembled = unsafe { ffi::rc4000_assemble(line.as_ptr(), line.len()) };
    assembled.hand_back()
}
