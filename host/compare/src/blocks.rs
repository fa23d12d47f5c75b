//! Blocks of load tapes: the cells that each names, and how two overlap.

use std::ops::Range;

/// The kind of a block.
pub const BLOCK: u16 = 1;
/// The kind of a remark.
pub const REMARK: u16 = 4;

/// A block on a tape.
pub struct Block<'t> {
    /// The indices of the cells that it names.
    pub cells: Range<usize>,
    payload: &'t [u8],
    /// The tape before its record and behind it.
    around: [&'t [u8]; 2],
}

/// How a block lies to an earlier one, where they have a cell in common.
#[derive(Clone, Copy, Debug, PartialEq, Eq)]
pub enum Overlap {
    /// They name the same cells.
    Equal,
    /// It names some cells of the earlier one and no others.
    Inside,
    /// It names all cells of the earlier one and others.
    Around,
    /// It begins before the earlier one and ends inside.
    LeftEnd,
    /// It begins inside the earlier one and ends behind.
    RightEnd,
}

/// Four bytes, little-endian.
fn number(bytes: &[u8]) -> u32 {
    u32::from_le_bytes([bytes[0], bytes[1], bytes[2], bytes[3]])
}

/// The cells that a block with this payload names; none where its length is
/// wrong.
pub fn named(payload: &[u8]) -> Option<Range<usize>> {
    if payload.len() < 8 || payload.len() % 4 != 0 {
        return None;
    }
    let first = number(payload) as usize;
    Some(first..first + payload.len() / 4 - 1)
}

impl Block<'_> {
    /// The values of its cells.
    pub fn values(&self) -> impl Iterator<Item = u32> + '_ {
        self.payload[4..].chunks_exact(4).map(number)
    }

    /// Whether it has a cell of 134,217,728 or more.
    pub fn is_too_large(&self) -> bool {
        self.values().any(|value| value >= 134_217_728)
    }

    /// The tape without it.
    pub fn tape_without(&self) -> Vec<u8> {
        self.around.concat()
    }
}

/// The blocks of a tape, up to the first record that is neither block nor
/// remark, or whose length is wrong or longer than the tape.
pub fn blocks(tape: &[u8]) -> Vec<Block<'_>> {
    let mut blocks = Vec::new();
    let mut left = tape;
    while let Some(header) = left.get(..6) {
        let before = &tape[..tape.len() - left.len()];
        let end = 6 + number(header) as usize;
        let kind = u16::from_le_bytes([header[4], header[5]]);
        let Some(payload) = left.get(6..end) else {
            break;
        };
        left = &left[end..];
        match (kind, named(payload)) {
            (BLOCK, Some(cells)) => blocks.push(Block {
                cells,
                payload,
                around: [before, left],
            }),
            (REMARK, _) if payload.len() <= 255 => (),
            _ => break,
        }
    }
    blocks
}

/// How two blocks overlap, if they do.
pub fn overlap(later: &Range<usize>, earlier: &Range<usize>) -> Option<Overlap> {
    if later.start >= earlier.end || earlier.start >= later.end {
        return None;
    }
    let (starts, ends) = (later.start.cmp(&earlier.start), later.end.cmp(&earlier.end));
    Some(if starts.is_eq() && ends.is_eq() {
        Overlap::Equal
    } else if starts.is_ge() && ends.is_le() {
        Overlap::Inside
    } else if starts.is_le() && ends.is_ge() {
        Overlap::Around
    } else if starts.is_lt() {
        Overlap::LeftEnd
    } else {
        Overlap::RightEnd
    })
}

/// The place of the first block that overlaps an earlier one.
pub fn first_overlap(blocks: &[Block]) -> Option<usize> {
    (0..blocks.len()).find(|&place| overlaps_earlier(blocks, place))
}

/// Whether the block in this place overlaps an earlier one.
pub fn overlaps_earlier(blocks: &[Block], place: usize) -> bool {
    let cells = &blocks[place].cells;
    let mut earlier = blocks[..place].iter();
    earlier.any(|block| overlap(cells, &block.cells).is_some())
}
