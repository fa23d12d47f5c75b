//! Random machines for the writer of tapes.

use crate::machines::{self, Image};
use crate::random::Random;
use crate::words::WORD;
use emulation::MAXIMUM_TAPE;
use protocol::Listed;

/// The bytes of control and end record.
pub const LAST_RECORDS: usize = 39 + 6;

/// The bytes of a block beside its cells, and of one cell.
const BLOCK: usize = 10;
const CELL: usize = 4;

/// A machine to be written.
pub struct Writing {
    /// The machine.
    pub image: Image,
    /// The remark, if given.
    pub remark: Option<Vec<u8>>,
    /// The length of the output buffer.
    pub space: usize,
}

impl Writing {
    fn length(&self) -> usize {
        length(&self.image.listed(), self.remark.as_deref())
    }
}

/// A machine that no call refuses save, at times, for the length of its tape
/// or of its buffer.
pub fn writing(random: &mut Random) -> Writing {
    let mut remark = remark(random);
    let image = if random.one_in(400) {
        image_near_limit(random, &mut remark)
    } else {
        let mut image = machines::image(random);
        clear_cells(random, &mut image);
        image
    };
    let mut writing = Writing {
        image,
        remark,
        space: 0,
    };
    writing.space = space(random, writing.length());
    writing
}

/// The length of the tape, over the longest too.
pub fn length(store: &Listed, remark: Option<&[u8]>) -> usize {
    let mut bytes = LAST_RECORDS + remark.map_or(0, |text| 6 + text.len());
    let mut next = None;
    for &(index, _) in store.cells.iter().filter(|&&(_, value)| value != 0) {
        bytes += CELL;
        if next != Some(index) {
            bytes += BLOCK;
        }
        next = Some(index + 1);
    }
    bytes
}

/// None in one of three, else one that no call refuses.
fn remark(random: &mut Random) -> Option<Vec<u8>> {
    let length = match random.below(24) {
        0..=7 => return None,
        8..=11 => 0,
        12 => 255,
        13 => 254,
        14 => random.below(256),
        _ => 1 + random.below(12),
    };
    Some(text(random, length))
}

fn text(random: &mut Random, length: u32) -> Vec<u8> {
    (0..length).map(|_| random.bits(8) as u8).collect()
}

/// Clears cells, or only their words or keys, in one of several ways.
fn clear_cells(random: &mut Random, image: &mut Image) {
    let one_in = random.pick(&[2, 3, 6, 20]);
    let cells = image.low.iter_mut().chain(&mut image.high);
    match random.below(12) {
        0 => (),
        1 => cells.for_each(|cell| *cell |= 1),
        2 => cells.for_each(|cell| *cell = 0),
        3 => cells.skip(1).for_each(|cell| *cell = 0),
        4 => cells.for_each(|cell| *cell &= !WORD),
        5 => cells.for_each(|cell| *cell &= WORD),
        6 => clear_stretches(random, &mut image.low),
        7..=9 => only_some(random, cells, one_in),
        _ => cells
            .filter(|_| random.one_in(one_in))
            .for_each(|cell| *cell = 0),
    }
    if random.one_in(4) {
        let last = image.low.len() - 1;
        let place = random.pick(&[0, last]);
        image.low[place] = random.pick(&[0, 1, 1 << 24, 134_217_727]);
    }
}

/// Keeps one cell in so many.
fn only_some<'a>(random: &mut Random, cells: impl Iterator<Item = &'a mut u32>, one_in: u32) {
    cells
        .filter(|_| !random.one_in(one_in))
        .for_each(|cell| *cell = 0);
}

/// Clears every other stretch of a few cells.
fn clear_stretches(random: &mut Random, cells: &mut [u32]) {
    let mut place = 0;
    let mut clear = random.one_in(2);
    while place < cells.len() {
        let end = cells.len().min(place + 1 + random.below(5) as usize);
        if clear {
            cells[place..end].fill(0);
        }
        clear = !clear;
        place = end;
    }
}

/// A machine whose tape has about as many bytes as a tape can. The remark, if
/// there is one, is made longer by what is left over.
fn image_near_limit(random: &mut Random, remark: &mut Option<Vec<u8>>) -> Image {
    let about = MAXIMUM_TAPE - 8 + random.below(17) as usize;
    let length = random.pick(&[
        MAXIMUM_TAPE,
        MAXIMUM_TAPE,
        MAXIMUM_TAPE + 1,
        MAXIMUM_TAPE - 4,
        about,
    ]);
    if let Some(text) = remark {
        text.truncate(252);
    }
    let blocks = match random.below(3) {
        0 => 1,
        1 => random.between(2, 6) as usize,
        _ => random.between(1000, 4600) as usize,
    };
    let used = LAST_RECORDS + remark.as_ref().map_or(0, |text| 6 + text.len());
    let left = length - used - BLOCK * blocks;
    if let Some(text) = remark {
        text.resize(text.len() + left % CELL, b'.');
    }
    image_of_blocks(random, blocks, left / CELL)
}

/// A machine with so many blocks and, in all of them together, so many cells.
fn image_of_blocks(random: &mut Random, blocks: usize, cells: usize) -> Image {
    let mut low = vec![0; random.below(3) as usize];
    let mut left = cells;
    for later in (0..blocks).rev() {
        let most = left - later;
        let any = 1 + random.below(most as u32) as usize;
        let count = match later {
            0 => left,
            _ => any.min(1 + 2 * left / (later + 1)).min(most),
        };
        let value = 1 + random.below(134_217_727);
        low.extend((0..count as u32).map(|place| (value ^ place).max(1)));
        low.push(0);
        left -= count;
    }
    low.pop();
    let mut image = machines::image(random);
    image.size = low.len() + random.below(3) as usize;
    image.low = low;
    image.high.clear();
    image
}

/// The length of an output buffer: mostly the tape's, one more, or one less.
fn space(random: &mut Random, length: usize) -> usize {
    match random.below(100) {
        0..=6 => length - 1,
        7 => random.below(length as u32) as usize,
        8 => random.pick(&[MAXIMUM_TAPE, MAXIMUM_TAPE + 1, 70_000, usize::MAX]),
        9..=59 => length,
        60..=79 => length + 1,
        _ => length + random.below(40) as usize,
    }
}

/// Brings about refusal 14.
pub fn refuse_remark(random: &mut Random, writing: &mut Writing) {
    let any = 256 + random.below(60);
    let length = random.pick(&[256, 256, 257, any]);
    writing.remark = Some(text(random, length));
}

/// Brings about refusal 15, in one of four: such a store is large.
pub fn refuse_length(random: &mut Random, writing: &mut Writing) {
    if !random.one_in(4) {
        return;
    }
    let blocks = random.between(4_679, 4_700) as usize;
    let value = 1 + random.below(134_217_727);
    writing.image.low = [value, 0].repeat(blocks);
    writing.image.high.clear();
    writing.image.size = 2 * blocks + random.below(3) as usize;
    let length = writing.length();
    writing.space = random.pick(&[0, MAXIMUM_TAPE, length - 1, length, length + 300]);
}

/// Brings about refusal 16.
pub fn refuse_space(random: &mut Random, writing: &mut Writing) {
    let length = writing.length();
    let any = random.below(length as u32) as usize;
    writing.space = random.pick(&[0, 1, length - 1, length - 1, any]);
}
