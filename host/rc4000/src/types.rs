//! Cells, control record, device buffer registers, outcome and refusals.

use std::fmt;

/// 2^24, the number of a word's values.
const WORD: u32 = 16_777_216;

/// The word of a cell.
pub const fn word(cell: u32) -> u32 {
    cell % WORD
}

/// The key of a cell.
pub const fn key(cell: u32) -> u32 {
    cell / WORD
}

/// The cell with this key, 0 to 7, and the right-most 24 bits of this word. A
/// key of 8 to 255 gives a cell that every call refuses.
pub const fn cell(key: u32, word: u32) -> u32 {
    key.wrapping_mul(WORD).wrapping_add(word % WORD)
}

/// The bit with this number from the left, 0 to 23, of lines, IR or IM; 0 for a
/// number over 23. A run takes lines 3 to 23; line p is told by the number 2p.
pub const fn line(number: u32) -> u32 {
    if number < 24 {
        8_388_608 >> number
    } else {
        0
    }
}

/// The control record of a machine. Reset state implies monitor mode and
/// interrupts disabled.
///
/// Times are in tenths of a microsecond, by the manual's Appendix A.3; an
/// interruption entry takes 75. A run adds to `elapsed` and `phase`; keys and
/// loads take no time, and no instruction changes `period` or `line`.
#[derive(Clone, Copy, Debug, PartialEq, Eq, Hash)]
pub struct Control {
    /// Instruction counter, 24 bits.
    pub ic: u32,
    /// Interrupt register, 24 bits; bit 0 is the left-most.
    pub ir: u32,
    /// Mask register, 24 bits.
    pub im: u32,
    /// The modification that AM left for the next instruction, 0 if none.
    pub pending: u32,
    /// Protection register, 128 to 255.
    pub pr: u32,
    /// Exception register, 0 to 7.
    pub ex: u32,
    /// Monitor mode; task mode where it is no.
    pub monitor: bool,
    /// Interrupts enabled.
    pub enabled: bool,
    /// The reset state.
    pub reset: bool,
    /// Time run, modulo 2^32.
    pub elapsed: u32,
    /// Period of the interval timer, 0 for off.
    pub period: u32,
    /// Time since the last interval began, below the period; kept while the
    /// timer is off.
    pub phase: u32,
    /// Line that the timer raises at the end of each interval, 3 to 23.
    pub line: u8,
}

impl Control {
    /// Address of the interrupt number.
    pub const INTERRUPT_NUMBER: u32 = 8;
    /// Address of the return address.
    pub const RETURN_ADDRESS: u32 = 10;
    /// Address of the interruption program's address.
    pub const INTERRUPTION_PROGRAM: u32 = 12;
    /// Address of the start address.
    pub const START_ADDRESS: u32 = 14;

    /// The record after power on: zeros, but bit 0 of PR one, in the reset
    /// state. A run in that state makes no cycle; the start key, the autoload
    /// key or a tape leaves it.
    pub const fn fresh() -> Self {
        Control {
            ic: 0,
            ir: 0,
            im: 0,
            pending: 0,
            pr: 128,
            ex: 0,
            monitor: true,
            enabled: false,
            reset: true,
            elapsed: 0,
            period: 0,
            phase: 0,
            line: 0,
        }
    }

    /// Begins an interval now: the timer raises `line`, 3 to 23, at the end of
    /// the cycle in which each `period` tenths of a microsecond end. Period 0
    /// stops it. The line is taken where it is masked in and interrupts are
    /// enabled.
    ///
    /// ```
    /// use rc4000::{line, Control};
    ///
    /// let mut control = Control::fresh();
    /// control.im |= line(5);
    /// control.set_interval(10_000, 5); // a millisecond
    /// assert_eq!((control.period, control.phase, control.line), (10_000, 0, 5));
    /// ```
    pub fn set_interval(&mut self, period: u32, line: u8) {
        self.period = period;
        self.phase = 0;
        self.line = line;
    }
}

impl Default for Control {
    fn default() -> Self {
        Self::fresh()
    }
}

/// The device buffer registers of the low-speed channel, 24 bits each. They
/// start at zero and pass from call to call.
#[repr(C)]
#[derive(Clone, Copy, Debug, Default, PartialEq, Eq, Hash)]
pub struct Devices {
    /// Of the tape reader, device 0.
    pub reader: u32,
    /// Of the typewriter, device 1.
    pub typewriter: u32,
}

/// What interrupted a run.
#[derive(Clone, Copy, Debug, PartialEq, Eq, Hash)]
pub enum Kind {
    /// An instruction exception.
    Exception,
    /// A raised line, with the number stored in word 8.
    Line(u32),
}

/// How a run ended.
#[derive(Clone, Copy, Debug, PartialEq, Eq, Hash)]
pub enum Outcome {
    /// The budget is used.
    Spent,
    /// The machine is in the reset state.
    Reset,
    /// The run ended after an interruption entry.
    Interrupted(Kind),
}

/// The outcome of a run and what its cycles were.
#[derive(Clone, Copy, Debug, PartialEq, Eq, Hash)]
pub struct Report {
    /// How the run ended.
    pub outcome: Outcome,
    /// Executed instructions.
    pub executed: u32,
    /// Interruption entries.
    pub entries: u32,
    /// Reader characters taken, from the first on.
    pub taken: usize,
    /// Bytes typed: they stand at the front of the typing buffer.
    pub typed: usize,
}

/// Why a call was refused.
#[derive(Clone, Copy, Debug, PartialEq, Eq, Hash)]
pub enum Refusal {
    /// 1: fewer than 8 or more than 8,388,608 cells.
    StoreSize = 1,
    /// 2: a cell of 134,217,728 or more.
    CellValue = 2,
    /// 3: a control field outside its width or the rules.
    ControlField = 3,
    /// 4: lines with bit 0, 1 or 2 set, or over 24 bits.
    Lines = 4,
    /// 5: a budget over 65,535.
    Budget = 5,
    /// 6: the tape stops inside a header or payload, or before an end record.
    TapeEnds = 6,
    /// 7: a record kind not 1 to 4.
    RecordKind = 7,
    /// 8: a length wrong for the kind.
    RecordLength = 8,
    /// 9: a block beyond the store.
    BlockPlace = 9,
    /// 10: a cell of a block of 134,217,728 or more.
    BlockCell = 10,
    /// 11: not the end after the control record, an end with no control record,
    /// or bytes after the end.
    RecordOrder = 11,
    /// 12: a tape over 65,536 bytes.
    TapeLength = 12,
    /// 13: a reader character over 63, or a device buffer register over 24
    /// bits.
    Device = 13,
    /// 14: a remark over 255 bytes.
    RemarkLength = 14,
    /// 15: a machine whose tape would pass 65,536 bytes.
    WrittenLength = 15,
    /// 16: a buffer shorter than the tape.
    BufferLength = 16,
    /// 17: a block names a cell that an earlier block of the tape names.
    BlockOverlap = 17,
    /// 18: a timer line outside 3 to 23 or a phase not below the period, where
    /// the period is not 0.
    Timer = 18,
    /// 19: a line over 255 characters or outside the grammar, whatever its
    /// depth.
    LineGrammar = 19,
    /// 20: a line with round parentheses to a depth over 16.
    LineDepth = 20,
    /// 21: a number or a result in an address outside -8,388,608 to 8,388,607,
    /// or an address outside -2048 to 2047.
    LineValue = 21,
}

impl Refusal {
    /// The refusal's number.
    pub const fn number(self) -> u32 {
        self as u32
    }

    /// What the refusal means.
    pub const fn text(self) -> &'static str {
        match self {
            Refusal::StoreSize => "fewer than 8 or more than 8,388,608 cells",
            Refusal::CellValue => "a cell of 134,217,728 or more",
            Refusal::ControlField => "a control field outside the widths and rules",
            Refusal::Lines => "lines with bit 0, 1 or 2 set, or over 24 bits",
            Refusal::Budget => "a budget over 65,535",
            Refusal::TapeEnds => {
                "the tape stops inside a header or payload, or before an end record"
            }
            Refusal::RecordKind => "a record kind not 1 to 4",
            Refusal::RecordLength => "a record length wrong for the kind",
            Refusal::BlockPlace => "a block beyond the store",
            Refusal::BlockCell => "a cell of a block of 134,217,728 or more",
            Refusal::RecordOrder => {
                "not the end after the control record, an end with no control record, or bytes after the end"
            }
            Refusal::TapeLength => "a tape over 65,536 bytes",
            Refusal::Device => {
                "a reader character over 63, or a device buffer register over 24 bits"
            }
            Refusal::RemarkLength => "a remark over 255 bytes",
            Refusal::WrittenLength => "a machine whose tape would pass 65,536 bytes",
            Refusal::BufferLength => "a buffer shorter than the tape",
            Refusal::BlockOverlap => "a block names a cell that an earlier block of the tape names",
            Refusal::Timer => {
                "a timer line outside 3 to 23 or a phase not below the period, where the period is not 0"
            }
            Refusal::LineGrammar => "a line over 255 characters or outside the grammar",
            Refusal::LineDepth => "a line with parentheses to a depth over 16",
            Refusal::LineValue => {
                "a value of an address outside -8,388,608 to 8,388,607, or the last one outside -2048 to 2047"
            }
        }
    }

    /// The refusal with this number.
    pub const fn from_number(number: u32) -> Option<Self> {
        Some(match number {
            1 => Refusal::StoreSize,
            2 => Refusal::CellValue,
            3 => Refusal::ControlField,
            4 => Refusal::Lines,
            5 => Refusal::Budget,
            6 => Refusal::TapeEnds,
            7 => Refusal::RecordKind,
            8 => Refusal::RecordLength,
            9 => Refusal::BlockPlace,
            10 => Refusal::BlockCell,
            11 => Refusal::RecordOrder,
            12 => Refusal::TapeLength,
            13 => Refusal::Device,
            14 => Refusal::RemarkLength,
            15 => Refusal::WrittenLength,
            16 => Refusal::BufferLength,
            17 => Refusal::BlockOverlap,
            18 => Refusal::Timer,
            19 => Refusal::LineGrammar,
            20 => Refusal::LineDepth,
            21 => Refusal::LineValue,
            _ => return None,
        })
    }
}

impl fmt::Display for Refusal {
    fn fmt(&self, formatter: &mut fmt::Formatter) -> fmt::Result {
        write!(formatter, "refused {}: {}", self.number(), self.text())
    }
}

impl std::error::Error for Refusal {}
