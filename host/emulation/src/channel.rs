//! The low-speed data channel (chapter 8) with its two devices: the tape
//! reader, number 0, and the typewriter, number 1 (02, E1).

use crate::bits::WORD;
use crate::refusal::Refusal;

/// The device buffer registers, 24 bits each. They start at zero and pass from
/// run to run.
#[derive(Clone, Copy, Debug, Default, PartialEq, Eq, Hash)]
pub struct Devices {
    /// The register of device 0, the tape reader.
    pub reader: u32,
    /// The register of device 1, the typewriter.
    pub typewriter: u32,
}

/// The largest character of 6 bits.
const LARGEST_CHARACTER: u8 = 63;

impl Devices {
    /// Refusal 13: a reader character over 63 or a register over 24 bits.
    pub(crate) fn check(&self, characters: &[u8]) -> Result<(), Refusal> {
        let registers_fit = self.reader <= WORD && self.typewriter <= WORD;
        let character_fits = |&character: &u8| character <= LARGEST_CHARACTER;
        if registers_fit && characters.iter().all(character_fits) {
            Ok(())
        } else {
            Err(Refusal::Device)
        }
    }
}

/// The number of the tape reader.
const READER: u32 = 0;
/// The number of the typewriter.
const TYPEWRITER: u32 = 1;

/// The basic commands (8.5).
#[derive(Clone, Copy, PartialEq, Eq)]
pub enum Command {
    Sense,
    Control,
    Read,
    Write,
}

impl Command {
    /// SB(22:23); the modifier SB(18:21) is ignored.
    pub fn from_address(sb: u32) -> Self {
        match sb & 3 {
            0 => Command::Sense,
            1 => Command::Control,
            2 => Command::Read,
            _ => Command::Write,
        }
    }
}

/// The device number, SB(0:17).
pub fn device_number(sb: u32) -> u32 {
    sb >> 6
}

/// The characters of a word that is loaded (11.5).
const CHARACTERS_OF_A_WORD: usize = 4;

/// The channel with what the host lends to its devices.
pub struct Channel<'a> {
    /// The device buffer registers.
    pub devices: Devices,
    characters: &'a [u8],
    typing: &'a mut [u8],
    /// How many characters were taken.
    pub taken: usize,
    /// How many bytes were typed.
    pub typed: usize,
}

impl<'a> Channel<'a> {
    pub fn new(devices: Devices, characters: &'a [u8], typing: &'a mut [u8]) -> Self {
        Channel {
            devices,
            characters,
            typing,
            taken: 0,
            typed: 0,
        }
    }

    /// A channel for what reads and types nothing.
    pub fn without_devices() -> Self {
        Channel::new(Devices::default(), &[], &mut [])
    }

    /// `disconnected(device)` for a command: there are two devices, and the
    /// reader is disconnected for a read with no character left, the typewriter
    /// for a write with no space left.
    pub fn is_disconnected(&self, device: u32, command: Command) -> bool {
        match (device, command) {
            (READER, Command::Read) => self.taken == self.characters.len(),
            (TYPEWRITER, Command::Write) => self.typed == self.typing.len(),
            _ => device > TYPEWRITER,
        }
    }

    /// `device buffer(device)`.
    pub fn buffer(&self, device: u32) -> u32 {
        if device == READER {
            self.devices.reader
        } else {
            self.devices.typewriter
        }
    }

    /// Reads the next character into the register of the reader (8.6). The
    /// typewriter gives zero.
    pub fn read(&mut self, device: u32) {
        if device == READER {
            self.devices.reader = u32::from(self.characters[self.taken]);
            self.taken += 1;
        } else {
            self.devices.typewriter = 0;
        }
    }

    /// Writes a word to the register of the typewriter, which types its
    /// right-most 8 bits (8.8). The reader drops it.
    pub fn write(&mut self, device: u32, word: u32) {
        if device == TYPEWRITER {
            self.devices.typewriter = word;
            self.typing[self.typed] = word as u8;
            self.typed += 1;
        }
    }

    /// Reads four characters into a word, the first one left-most. Where fewer
    /// are left, none is taken.
    pub fn read_word(&mut self) -> Option<u32> {
        if self.characters.len() - self.taken < CHARACTERS_OF_A_WORD {
            return None;
        }
        let mut ar = 0;
        for _ in 0..CHARACTERS_OF_A_WORD {
            self.read(READER);
            ar = ar << 6 | self.devices.reader;
        }
        Some(ar)
    }
}
