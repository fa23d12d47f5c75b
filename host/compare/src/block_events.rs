//! What cases were about, as far as the blocks of tapes go: names for
//! `Coverage`.

use crate::blocks::{blocks, first_overlap, overlap, overlaps_earlier, Block, Overlap};
use crate::coverage::holding;
use crate::loads::held;
use emulation::{remark, Refusal, MAXIMUM_CELLS};
use protocol::{Answer, Listed};
use std::ops::Range;

/// All names that the functions here give.
pub const BLOCK_EVENTS: [&str; 25] = [
    "3 blocks or more in rising order",
    "3 blocks or more in falling order",
    "3 blocks or more in mixed order",
    "500 blocks or more in rising order",
    "500 blocks or more in falling order",
    "500 blocks or more in mixed order",
    "block just behind an earlier one",
    "block just before an earlier one",
    "block that fills the cells between two earlier ones",
    "block with the last of 8,388,608 cells",
    "17: equal to an earlier block",
    "17: inside an earlier block",
    "17: around an earlier block",
    "17: over the left end of an earlier block",
    "17: over the right end of an earlier block",
    "17: by one cell at the left end",
    "17: by one cell at the right end",
    "17: not with the block just before",
    "17: with two earlier blocks",
    "17: behind 500 blocks or more",
    "17 before 10",
    "17 before a fault in a later record",
    "9 before 17",
    "10 in a block before one that overlaps",
    "load: 17 behind a block that differs from the store",
];

/// What a tape was about that was loaded into so many cells or laid over them, or
/// whose remark was read for so many.
pub fn block_events(cells: usize, tape: &[u8], answer: &Answer) -> Vec<&'static str> {
    let blocks = blocks(tape);
    let overlapping = first_overlap(&blocks);
    match (answer, overlapping) {
        (Answer::Done { .. } | Answer::Remark(_), None) => taken_events(cells, &blocks),
        (Answer::Refused(Refusal::BlockOverlap), Some(place)) => {
            overlap_events(cells, &blocks[place], &blocks[..place])
        }
        (Answer::Refused(Refusal::BlockPlace), _) => {
            let beyond = blocks.iter().position(|block| block.cells.end > cells);
            let both = beyond.is_some_and(|place| overlaps_earlier(&blocks, place));
            holding(&[(both, "9 before 17")])
        }
        (Answer::Refused(Refusal::BlockCell), Some(place)) => {
            let earlier = blocks[..place].iter().any(Block::is_too_large);
            holding(&[(earlier, "10 in a block before one that overlaps")])
        }
        _ => Vec::new(),
    }
}

/// What a tape was about that was loaded into this store.
pub fn load_events(store: &Listed, tape: &[u8], answer: &Answer) -> Vec<&'static str> {
    let Answer::Refused(Refusal::BlockOverlap) = answer else {
        return Vec::new();
    };
    let blocks = blocks(tape);
    let earlier = &blocks[..first_overlap(&blocks).unwrap_or(0)];
    let differs = earlier.iter().any(|block| differs_from(block, store));
    holding(&[(
        differs,
        "load: 17 behind a block that differs from the store",
    )])
}

fn differs_from(block: &Block, store: &Listed) -> bool {
    let mut cells = block.cells.clone().zip(block.values());
    cells.any(|(index, value)| value != held(store, index))
}

fn taken_events(cells: usize, blocks: &[Block]) -> Vec<&'static str> {
    let mut events = order_events(blocks);
    let (mut behind, mut before, mut between) = (false, false, false);
    for (place, block) in blocks.iter().enumerate() {
        let earlier = || blocks[..place].iter().map(|block| &block.cells);
        let left = earlier().any(|other| other.end == block.cells.start);
        let right = earlier().any(|other| other.start == block.cells.end);
        behind |= left;
        before |= right;
        between |= left && right;
    }
    let last = cells == MAXIMUM_CELLS && blocks.iter().any(|block| block.cells.end == cells);
    events.extend(holding(&[
        (behind, "block just behind an earlier one"),
        (before, "block just before an earlier one"),
        (
            between,
            "block that fills the cells between two earlier ones",
        ),
        (last, "block with the last of 8,388,608 cells"),
    ]));
    events
}

fn order_events(blocks: &[Block]) -> Vec<&'static str> {
    let starts: Vec<usize> = blocks.iter().map(|block| block.cells.start).collect();
    let rising = starts.windows(2).all(|two| two[0] < two[1]);
    let falling = starts.windows(2).all(|two| two[0] > two[1]);
    let mixed = !rising && !falling;
    let some = blocks.len() >= 3;
    let many = blocks.len() >= 500;
    holding(&[
        (some && rising, "3 blocks or more in rising order"),
        (some && falling, "3 blocks or more in falling order"),
        (some && mixed, "3 blocks or more in mixed order"),
        (many && rising, "500 blocks or more in rising order"),
        (many && falling, "500 blocks or more in falling order"),
        (many && mixed, "500 blocks or more in mixed order"),
    ])
}

/// What a block was about that is refused with 17, for so many cells.
fn overlap_events(store: usize, block: &Block, earlier: &[Block]) -> Vec<&'static str> {
    let cells = &block.cells;
    let rest = remark(&block.tape_without(), store).map(|_| ());
    let fault = !matches!(rest, Ok(()) | Err(Refusal::BlockOverlap));
    let overlapped: Vec<&Block> = earlier
        .iter()
        .filter(|other| overlap(cells, &other.cells).is_some())
        .collect();
    let just_before = earlier.last().map(|other| &other.cells);
    let apart = just_before.is_some_and(|other| overlap(cells, other).is_none());
    let mut events = holding(&[
        (apart, "17: not with the block just before"),
        (overlapped.len() > 1, "17: with two earlier blocks"),
        (earlier.len() >= 500, "17: behind 500 blocks or more"),
        (block.is_too_large(), "17 before 10"),
        (fault, "17 before a fault in a later record"),
    ]);
    for other in overlapped {
        events.extend(kind_events(cells, &other.cells));
    }
    events
}

/// How a block overlaps an earlier one.
fn kind_events(cells: &Range<usize>, other: &Range<usize>) -> Vec<&'static str> {
    let kind = overlap(cells, other);
    let is = |known| kind == Some(known);
    let left = is(Overlap::LeftEnd);
    let right = is(Overlap::RightEnd);
    let one_left = left && cells.end == other.start + 1;
    let one_right = right && other.end == cells.start + 1;
    holding(&[
        (is(Overlap::Equal), "17: equal to an earlier block"),
        (is(Overlap::Inside), "17: inside an earlier block"),
        (is(Overlap::Around), "17: around an earlier block"),
        (left, "17: over the left end of an earlier block"),
        (right, "17: over the right end of an earlier block"),
        (one_left, "17: by one cell at the left end"),
        (one_right, "17: by one cell at the right end"),
    ])
}
