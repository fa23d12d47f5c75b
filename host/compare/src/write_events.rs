//! What cases were about, as far as the writer goes: names for `Coverage`.

use crate::coverage::holding;
use crate::words::WORD;
use crate::writes::length;
use emulation::{Refusal, MAXIMUM_TAPE};
use protocol::{Answer, Write};

/// All names that the function here gives.
pub const WRITE_EVENTS: [&str; 28] = [
    "written without a remark",
    "written with an empty remark",
    "written with a remark of 255 bytes",
    "written with another remark",
    "written without a block",
    "written with one block",
    "written with 2 to 9 blocks",
    "written with 10 to 999 blocks",
    "written with 1,000 blocks or more",
    "written with every cell",
    "written with the first cell",
    "written with the last cell",
    "written with a key without a word",
    "written with a word without a key",
    "written tape of 65,536 bytes",
    "written tape of 65,500 bytes or more",
    "written into a buffer as long as the tape",
    "written into a buffer one byte longer",
    "written into a buffer of 65,536 bytes or more",
    "write: 3 before 14",
    "write: 14 by a remark of 256 bytes",
    "write: 14 before 15",
    "write: 14 before 16",
    "write: 15 by 1 to 4 bytes",
    "write: 15 before 16",
    "write: 15 with room for the tape",
    "write: 16 by one byte",
    "write: 16 with no buffer",
];

/// What a request to write was about.
pub fn write_events(write: &Write, answer: &Answer) -> Vec<&'static str> {
    let length = length(&write.store, write.remark.as_deref());
    match answer {
        Answer::Written(_) => {
            let mut events = vec![remark_event(write)];
            events.extend(store_events(write));
            events.extend(length_events(write.space, length));
            events
        }
        Answer::Refused(refusal) => refusal_events(write, *refusal, length),
        _ => Vec::new(),
    }
}

fn remark_event(write: &Write) -> &'static str {
    match write.remark.as_ref().map(Vec::len) {
        None => "written without a remark",
        Some(0) => "written with an empty remark",
        Some(255) => "written with a remark of 255 bytes",
        Some(_) => "written with another remark",
    }
}

fn store_events(write: &Write) -> Vec<&'static str> {
    let cells = &write.store.cells;
    let size = write.store.size;
    let breaks = cells.windows(2).filter(|two| two[0].0 + 1 != two[1].0);
    let mut events = vec![match breaks.count() + usize::from(!cells.is_empty()) {
        0 => "written without a block",
        1 => "written with one block",
        2..=9 => "written with 2 to 9 blocks",
        10..=999 => "written with 10 to 999 blocks",
        _ => "written with 1,000 blocks or more",
    }];
    let has = |index| cells.iter().any(|&(place, _)| place == index);
    let without_word = cells.iter().any(|&(_, value)| value & WORD == 0);
    let without_key = cells.iter().any(|&(_, value)| value <= WORD);
    events.extend(holding(&[
        (cells.len() == size, "written with every cell"),
        (has(0), "written with the first cell"),
        (has(size - 1), "written with the last cell"),
        (without_word, "written with a key without a word"),
        (without_key, "written with a word without a key"),
    ]));
    events
}

fn length_events(space: usize, length: usize) -> Vec<&'static str> {
    holding(&[
        (length == MAXIMUM_TAPE, "written tape of 65,536 bytes"),
        (length >= 65_500, "written tape of 65,500 bytes or more"),
        (space == length, "written into a buffer as long as the tape"),
        (space == length + 1, "written into a buffer one byte longer"),
        (
            space >= MAXIMUM_TAPE,
            "written into a buffer of 65,536 bytes or more",
        ),
    ])
}

fn refusal_events(write: &Write, refusal: Refusal, length: usize) -> Vec<&'static str> {
    let remark = write.remark.as_ref().map_or(0, Vec::len);
    let short = write.space < length;
    match refusal {
        Refusal::ControlField => holding(&[(remark > 255, "write: 3 before 14")]),
        Refusal::RemarkLength => holding(&[
            (remark == 256, "write: 14 by a remark of 256 bytes"),
            (length > MAXIMUM_TAPE, "write: 14 before 15"),
            (short, "write: 14 before 16"),
        ]),
        Refusal::WrittenLength => holding(&[
            (length <= MAXIMUM_TAPE + 4, "write: 15 by 1 to 4 bytes"),
            (short, "write: 15 before 16"),
            (!short, "write: 15 with room for the tape"),
        ]),
        Refusal::BufferLength => holding(&[
            (write.space + 1 == length, "write: 16 by one byte"),
            (write.space == 0, "write: 16 with no buffer"),
        ]),
        _ => Vec::new(),
    }
}
