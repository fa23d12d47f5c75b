//! The refusals of documents 01 and 02 and their numbers.

use std::fmt;

/// Why a call was refused. All that was lent stays as given.
#[derive(Clone, Copy, Debug, PartialEq, Eq, Hash)]
pub enum Refusal {
    /// 1: fewer than 8 or more than 8,388,608 cells.
    StoreSize = 1,
    /// 2: a cell of 134,217,728 or more.
    CellValue = 2,
    /// 3: a control field outside its width or the rules.
    ControlField = 3,
    /// 4: lines with bit 0, 1 or 2 set, or over 24 bits.
    Lines = 4,
    /// 5: a budget over 65,535.
    Budget = 5,
    /// 6: the tape stops inside a header or payload, or before an end record.
    TapeEnds = 6,
    /// 7: a record kind not 1 to 4.
    RecordKind = 7,
    /// 8: a length wrong for the kind.
    RecordLength = 8,
    /// 9: a block beyond the store.
    BlockPlace = 9,
    /// 10: a cell of a block of 134,217,728 or more.
    BlockCell = 10,
    /// 11: records in the wrong order, or bytes after the end.
    RecordOrder = 11,
    /// 12: a tape of over 65,536 bytes.
    TapeLength = 12,
    /// 13: a reader character over 63 or a device buffer register over 24 bits.
    Device = 13,
    /// 14: a remark over 255 bytes.
    RemarkLength = 14,
    /// 15: a machine whose tape would pass 65,536 bytes.
    WrittenLength = 15,
    /// 16: an output buffer shorter than the tape.
    BufferLength = 16,
    /// 17: a block names a cell that an earlier block of the tape names.
    BlockOverlap = 17,
    /// 18: the period of the timer is not 0, and its line is outside 3 to 23 or
    /// its phase is not below the period.
    Timer = 18,
    /// 19: a line over 255 characters or outside the grammar, whatever its depth.
    LineGrammar = 19,
    /// 20: round parentheses to a depth over 16.
    LineDepth = 20,
    /// 21: a number or a result outside -8,388,608 to 8,388,607, or a last one
    /// outside -2048 to 2047.
    LineValue = 21,
}

impl Refusal {
    /// The number that the papers give it.
    pub const fn number(self) -> u32 {
        self as u32
    }

    /// The refusal with this number.
    pub fn from_number(number: u32) -> Option<Self> {
        use Refusal::*;
        let all = [
            StoreSize,
            CellValue,
            ControlField,
            Lines,
            Budget,
            TapeEnds,
            RecordKind,
            RecordLength,
            BlockPlace,
            BlockCell,
            RecordOrder,
            TapeLength,
            Device,
            RemarkLength,
            WrittenLength,
            BufferLength,
            BlockOverlap,
            Timer,
            LineGrammar,
            LineDepth,
            LineValue,
        ];
        all.into_iter().find(|refusal| refusal.number() == number)
    }
}

impl fmt::Display for Refusal {
    fn fmt(&self, formatter: &mut fmt::Formatter) -> fmt::Result {
        write!(formatter, "refused {}", self.number())
    }
}

impl std::error::Error for Refusal {}
