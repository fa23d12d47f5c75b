//! Random load tapes, and the ways to damage one.

use crate::blocks::{named, BLOCK, REMARK};
use crate::random::Random;
use crate::timers::{refuse_timer, set_timer};
use crate::words::word;
use protocol::Control;
use std::ops::Range;

/// What is done to a tape.
#[derive(Clone, Copy, Debug, PartialEq, Eq)]
pub enum Damage {
    /// The tape stops inside a header.
    HeaderCut,
    /// The tape stops inside a payload.
    PayloadCut,
    /// No end record.
    NoEnd,
    /// A kind not 1 to 4.
    UnknownKind,
    /// A block after the control record.
    BlockAfterControl,
    /// A second control record.
    ControlAfterControl,
    /// A remark after the control record.
    RemarkAfterControl,
    /// An end record with no control record before it.
    EndTooEarly,
    /// A block length that is no multiple of 4, or below 8.
    BlockLength,
    /// A control length other than 20 and 33.
    ControlLength,
    /// An end length other than 0.
    EndLength,
    /// A remark length over 255.
    RemarkLength,
    /// A length that the tape does not have.
    LengthBeyondTape,
    /// A block that goes one cell or more beyond the store.
    BlockBeyond,
    /// A block whose first cell is as far away as can be.
    BlockFarBeyond,
    /// A block that names the cells of an earlier one again.
    BlockAgain,
    /// A block inside an earlier one.
    BlockInside,
    /// A block around an earlier one.
    BlockAround,
    /// A block over the left end of an earlier one.
    BlockOverLeftEnd,
    /// A block over the right end of an earlier one.
    BlockOverRightEnd,
    /// A block that overlaps an earlier one and has a cell that is too large.
    OverlapTooLarge,
    /// A block that overlaps an earlier one and goes beyond the store.
    OverlapBeyond,
    /// A cell of 134,217,728 or more.
    CellTooLarge,
    /// IC, IR, IM or pending over 24 bits.
    WideField,
    /// PR below 128.
    Protection,
    /// EX over 7.
    Exception,
    /// Flags over 7.
    Flags,
    /// The reset state in task mode or with interrupts enabled.
    ResetRule,
    /// A twentieth byte other than zero.
    LastByte,
    /// A control record of 33 bytes whose timer is refused.
    Timer,
    /// Bytes after the end.
    AfterEnd,
    /// Over 65,536 bytes.
    TooLong,
    /// One byte changed anywhere.
    ByteChanged,
}

/// All of them, in order.
pub const DAMAGES: [Damage; 33] = [
    Damage::HeaderCut,
    Damage::PayloadCut,
    Damage::NoEnd,
    Damage::UnknownKind,
    Damage::BlockAfterControl,
    Damage::ControlAfterControl,
    Damage::RemarkAfterControl,
    Damage::EndTooEarly,
    Damage::BlockLength,
    Damage::ControlLength,
    Damage::EndLength,
    Damage::RemarkLength,
    Damage::LengthBeyondTape,
    Damage::BlockBeyond,
    Damage::BlockFarBeyond,
    Damage::BlockAgain,
    Damage::BlockInside,
    Damage::BlockAround,
    Damage::BlockOverLeftEnd,
    Damage::BlockOverRightEnd,
    Damage::OverlapTooLarge,
    Damage::OverlapBeyond,
    Damage::CellTooLarge,
    Damage::WideField,
    Damage::Protection,
    Damage::Exception,
    Damage::Flags,
    Damage::ResetRule,
    Damage::LastByte,
    Damage::Timer,
    Damage::AfterEnd,
    Damage::TooLong,
    Damage::ByteChanged,
];

/// Those that add a block which overlaps an earlier one; what the first five
/// say is how.
const OVERLAPS: [Damage; 7] = [
    Damage::BlockAgain,
    Damage::BlockInside,
    Damage::BlockAround,
    Damage::BlockOverLeftEnd,
    Damage::BlockOverRightEnd,
    Damage::OverlapTooLarge,
    Damage::OverlapBeyond,
];

const CONTROL: u16 = 2;
const END: u16 = 3;

/// The cells that many blocks are spread over, and the most that an overlapping
/// block beyond the store has within it.
const MANY: usize = 4096;

/// A record while a tape is made. `length` is what its header says.
struct Record {
    length: u32,
    kind: u16,
    payload: Vec<u8>,
}

impl Record {
    fn new(kind: u16, payload: Vec<u8>) -> Self {
        Record {
            length: payload.len() as u32,
            kind,
            payload,
        }
    }

    /// The cells that it names, where it is a block.
    fn named(&self) -> Option<Range<usize>> {
        named(&self.payload).filter(|_| self.kind == BLOCK)
    }

    /// Sets a payload and the length with it.
    fn resize(&mut self, length: usize) {
        self.payload.resize(length, 0);
        self.length = length as u32;
    }
}

/// A tape for a store of `size` cells, and what was done to it.
pub fn tape(random: &mut Random, size: usize) -> (Vec<u8>, Vec<Damage>) {
    let mut records = records(random, size);
    if random.one_in(600) {
        fill_up(random, &mut records);
    }
    let mut damages = Vec::new();
    if random.percent(70) {
        let damage = random.pick(&DAMAGES);
        damages.push(damage);
        if random.one_in(3) {
            damages.push(random.pick(&DAMAGES));
        }
    }
    for &damage in &damages {
        damage_records(random, &mut records, damage, size);
    }
    let mut tape = bytes(&records);
    for &damage in &damages {
        damage_bytes(random, &mut tape, damage);
    }
    (tape, damages)
}

/// Blocks that do not overlap and remarks, the control record and the end.
fn records(random: &mut Random, size: usize) -> Vec<Record> {
    let mut records = if size >= MANY && random.one_in(16) {
        many_blocks(random, size)
    } else {
        few_blocks(random, size)
    };
    records.push(control(random));
    records.push(Record::new(END, Vec::new()));
    records
}

/// At most five blocks and remarks in any order.
fn few_blocks(random: &mut Random, size: usize) -> Vec<Record> {
    let mut records = Vec::new();
    for _ in 0..random.below(6) {
        let free = free_stretches(&records, size);
        records.push(if !free.is_empty() && random.percent(60) {
            let any = random.below(free.len() as u32) as usize;
            block_in(random, &free[any], size)
        } else {
            remark(random)
        });
    }
    records
}

/// A remark and a thousand blocks or more, of one to three cells, in rising,
/// falling or mixed order.
fn many_blocks(random: &mut Random, size: usize) -> Vec<Record> {
    let step = 1 + random.below(3);
    let base = random.pick(&[0, size - MANY]);
    let mut places: Vec<u32> = (0..MANY as u32 / step).collect();
    match random.below(3) {
        0 => (),
        1 => places.reverse(),
        _ => {
            for place in (1..places.len()).rev() {
                places.swap(place, random.below(place as u32 + 1) as usize);
            }
        }
    }
    let mut records = vec![remark(random)];
    for place in places {
        let first = base + (step * place) as usize;
        let count = 1 + random.below(step) as usize;
        records.push(block_of(random, first..first + count, size));
    }
    records
}

/// The stretches of cells that no block names.
fn free_stretches(records: &[Record], size: usize) -> Vec<Range<usize>> {
    let mut named: Vec<Range<usize>> = records.iter().filter_map(Record::named).collect();
    named.sort_by_key(|cells| cells.start);
    named.push(size..size);
    let mut free = Vec::new();
    let mut next = 0;
    for cells in named {
        if next < cells.start {
            free.push(next..cells.start);
        }
        next = cells.end;
    }
    free
}

fn block(random: &mut Random, size: usize) -> Record {
    block_in(random, &(0..size), size)
}

/// A block in a stretch of cells, often at one of its ends.
fn block_in(random: &mut Random, free: &Range<usize>, size: usize) -> Record {
    let room = free.len() as u32;
    let count = match random.below(6) {
        0 => 1,
        1 => room.min(64),
        _ => 1 + random.below(room.min(12)),
    };
    let left = room - count;
    let any = random.below(left + 1);
    let first = free.start + random.pick(&[0, left, any]) as usize;
    block_of(random, first..first + count as usize, size)
}

/// The block of these cells.
fn block_of(random: &mut Random, cells: Range<usize>, size: usize) -> Record {
    let mut payload = (cells.start as u32).to_le_bytes().to_vec();
    for _ in cells {
        let cell = match random.below(8) {
            0 => random.pick(&[0, 1, 134_217_727, 134_217_726]),
            _ => (random.below(8) << 24) | word(random, size.min(MANY)),
        };
        payload.extend(cell.to_le_bytes());
    }
    Record::new(BLOCK, payload)
}

fn remark(random: &mut Random) -> Record {
    let length = random.pick(&[0, 1, 5, 12, 40, 254, 255]);
    let text = (0..length).map(|_| random.bits(8) as u8).collect();
    Record::new(REMARK, text)
}

fn control(random: &mut Random) -> Record {
    let mut payload = Vec::new();
    for _ in 0..4 {
        let field = match random.below(4) {
            0 => random.bits(24) as u32,
            1 => 0xff_ffff,
            2 => random.below(64),
            _ => 0,
        };
        payload.extend(field.to_le_bytes());
    }
    let any = 128 | random.bits(7) as u8;
    let pr = random.pick(&[128, 255, any]);
    let ex = random.below(8) as u8;
    let flags = random.pick(&[0, 1, 2, 3, 5]);
    payload.extend([pr, ex, flags, 0]);
    if !random.one_in(3) {
        let mut timer = Control::fresh();
        set_timer(random, &mut timer);
        payload.extend(timer_bytes(&timer));
    }
    Record::new(CONTROL, payload)
}

/// The last bytes of a control record of 33.
fn timer_bytes(timer: &Control) -> Vec<u8> {
    let times = [timer.elapsed, timer.period, timer.phase];
    let mut bytes = times.map(u32::to_le_bytes).concat();
    bytes.push(timer.line);
    bytes
}

/// Puts remarks in front so that the tape has exactly 65,536 bytes.
fn fill_up(random: &mut Random, records: &mut Vec<Record>) {
    let mut left = 65_536 - bytes(records).len();
    while left > 0 {
        let length = match left {
            6..=261 => left - 6,
            262..=522 => left / 2 - 6,
            _ => random.between(200, 255) as usize,
        };
        records.insert(0, Record::new(REMARK, vec![b'.'; length]));
        left -= length + 6;
    }
}

fn bytes(records: &[Record]) -> Vec<u8> {
    let mut tape = Vec::new();
    for record in records {
        tape.extend(record.length.to_le_bytes());
        tape.extend(record.kind.to_le_bytes());
        tape.extend(&record.payload);
    }
    tape
}

/// The place of a record of this kind; one is put in front where none is.
fn place_of(random: &mut Random, records: &mut Vec<Record>, kind: u16, size: usize) -> usize {
    if let Some(place) = records.iter().position(|record| record.kind == kind) {
        return place;
    }
    let record = match kind {
        BLOCK => block(random, size),
        CONTROL => control(random),
        REMARK => remark(random),
        _ => Record::new(END, Vec::new()),
    };
    records.insert(0, record);
    0
}

/// The kind of record that a damage is done to or beside.
fn kind_for(damage: Damage) -> u16 {
    match damage {
        Damage::BlockLength
        | Damage::BlockBeyond
        | Damage::BlockFarBeyond
        | Damage::CellTooLarge => BLOCK,
        Damage::RemarkLength => REMARK,
        Damage::EndLength | Damage::NoEnd => END,
        _ => CONTROL,
    }
}

fn damage_records(random: &mut Random, records: &mut Vec<Record>, damage: Damage, size: usize) {
    if OVERLAPS.contains(&damage) {
        return add_overlap(random, records, damage, size);
    }
    let place = place_of(random, records, kind_for(damage), size);
    match damage {
        Damage::NoEnd => {
            records.remove(place);
        }
        Damage::UnknownKind => {
            let any = random.below(records.len() as u32) as usize;
            records[any].kind = random.pick(&[0, 5, 6, 256, 257, 258, 259, 260, u16::MAX]);
        }
        Damage::BlockAfterControl => {
            let record = block(random, size);
            records.insert(place + 1, record);
        }
        Damage::ControlAfterControl => {
            let record = control(random);
            records.insert(place + 1, record);
        }
        Damage::RemarkAfterControl => {
            let record = remark(random);
            records.insert(place + 1, record);
        }
        Damage::EndTooEarly => records.insert(
            random.below(place as u32 + 1) as usize,
            Record::new(END, Vec::new()),
        ),
        Damage::LengthBeyondTape => {
            let any = random.below(records.len() as u32) as usize;
            records[any].length = random.pick(&[255, 256, 260, 65_536, 1 << 31, u32::MAX - 3]);
        }
        _ => damage_payload(random, &mut records[place], damage, size),
    }
}

/// Adds a block that overlaps an earlier one, before the control record.
fn add_overlap(random: &mut Random, records: &mut Vec<Record>, damage: Damage, size: usize) {
    place_of(random, records, BLOCK, size);
    let blocks: Vec<(usize, Range<usize>)> = (0..)
        .zip(records.iter())
        .filter_map(|(place, record)| Some((place, record.named()?)))
        .filter(|(_, cells)| cells.end <= size)
        .collect();
    if blocks.is_empty() {
        return;
    }
    let (place, earlier) = &blocks[random.below(blocks.len() as u32) as usize];
    let cells = overlapping(random, earlier, damage, size);
    let mut record = block_of(random, cells, size);
    if damage == Damage::OverlapTooLarge {
        damage_payload(random, &mut record, Damage::CellTooLarge, size);
    }
    let control = records.iter().position(|record| record.kind == CONTROL);
    let last = control.unwrap_or(0).max(place + 1);
    let later = place + 1 + random.below((last - place) as u32) as usize;
    records.insert(later, record);
}

/// The cells of a block that overlaps an earlier one, by one cell or by more, as
/// the damage says where the store has room for it.
fn overlapping(
    random: &mut Random,
    earlier: &Range<usize>,
    damage: Damage,
    size: usize,
) -> Range<usize> {
    let (first, last) = (earlier.start, earlier.end - 1);
    let before = first.saturating_sub(1 + random.below(4) as usize);
    let behind = (earlier.end + 1 + random.below(4) as usize).min(size);
    let [from, to] = [0; 2].map(|_| first + random.below(earlier.len() as u32) as usize);
    match damage {
        Damage::BlockAgain => earlier.clone(),
        Damage::BlockInside => from.min(to)..from.max(to) + 1,
        Damage::BlockAround => before..behind,
        Damage::BlockOverLeftEnd => before..random.pick(&[first, from]) + 1,
        Damage::BlockOverRightEnd => random.pick(&[last, from])..behind,
        Damage::OverlapBeyond if size - from <= MANY => from..size + random.pick(&[1, 2]),
        _ => {
            let how = random.pick(&OVERLAPS[..5]);
            overlapping(random, earlier, how, size)
        }
    }
}

fn damage_payload(random: &mut Random, record: &mut Record, damage: Damage, size: usize) {
    let any_byte = 1 + random.below(255) as u8;
    match damage {
        Damage::BlockLength => record.resize(random.pick(&[0, 1, 4, 5, 6, 7, 9, 10, 11, 13])),
        Damage::ControlLength => record.resize(random.pick(&[0, 4, 16, 19, 21, 24, 32, 34, 40])),
        Damage::EndLength => record.resize(random.pick(&[1, 4, 6, 20])),
        Damage::RemarkLength => record.resize(random.pick(&[256, 257, 300, 512])),
        Damage::BlockBeyond => {
            let cells = record.payload.len().saturating_sub(4) / 4;
            let first = (size + 1).saturating_sub(cells) as u32 + random.pick(&[0, 0, 1, 7]);
            set(record, 0, &first.to_le_bytes());
        }
        Damage::BlockFarBeyond => {
            let first = random.pick(&[u32::MAX, u32::MAX - 1, 1 << 31, 1 << 30, 8_388_608]);
            set(record, 0, &first.to_le_bytes());
        }
        Damage::CellTooLarge => {
            let cells = (record.payload.len().saturating_sub(4) / 4).max(1) as u32;
            let cell = random.pick(&[0, cells - 1]) as usize;
            let value: u32 = random.pick(&[134_217_728, u32::MAX, 1 << 31]);
            set(record, 4 + 4 * cell, &value.to_le_bytes());
        }
        Damage::WideField => set(record, 4 * random.below(4) as usize + 3, &[any_byte]),
        Damage::Protection => set(record, 16, &[any_byte & 127]),
        Damage::Exception => set(record, 17, &[8 | any_byte]),
        Damage::Flags => set(record, 18, &[8 | any_byte]),
        Damage::ResetRule => set(record, 18, &[random.pick(&[4, 6, 7])]),
        Damage::LastByte => set(record, 19, &[any_byte]),
        Damage::Timer => {
            let mut timer = Control::fresh();
            refuse_timer(random, &mut timer);
            record.resize(33);
            set(record, 20, &timer_bytes(&timer));
        }
        _ => (),
    }
}

/// Sets bytes of a payload, where it has them.
fn set(record: &mut Record, place: usize, bytes: &[u8]) {
    if let Some(part) = record.payload.get_mut(place..place + bytes.len()) {
        part.copy_from_slice(bytes);
    }
}

fn damage_bytes(random: &mut Random, tape: &mut Vec<u8>, damage: Damage) {
    let length = tape.len() as u32;
    match damage {
        Damage::HeaderCut => {
            let cut = random.pick(&[1, 2, 3, 4, 5]).min(length);
            tape.truncate((length - cut) as usize);
            if random.one_in(8) {
                tape.truncate(cut as usize - 1);
            }
        }
        Damage::PayloadCut => {
            let cut = (6 + 1 + random.below(20)).min(length);
            tape.truncate((length - cut) as usize);
        }
        Damage::AfterEnd => tape.extend(vec![random.bits(2) as u8; random.pick(&[1, 5, 6, 7, 26])]),
        Damage::TooLong => tape.resize(random.pick(&[65_537, 65_536, 65_540, 70_000]), 0),
        Damage::ByteChanged if length > 0 => {
            let place = random.below(length) as usize;
            tape[place] ^= 1 << random.below(8);
        }
        _ => (),
    }
}
