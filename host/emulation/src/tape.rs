//! The load tape and its remark (01, "Load tape"; 02, E4 to E6), and the writer
//! of tapes (02, E2).

use crate::control::Control;
use crate::refusal::Refusal;
use crate::store::{check_size, check_store, CELL_LIMIT};

/// The most bytes of a tape.
pub const MAXIMUM_TAPE: usize = 65_536;
/// The most bytes of a remark.
pub const MAXIMUM_REMARK: usize = 255;

const HEADER: usize = 6;
/// The bytes of a control record after its header, as it is written.
const CONTROL: usize = 33;
/// The same without elapsed time and timer, which are then zero.
const CONTROL_WITHOUT_TIMES: usize = 20;

/// The kinds of records.
#[derive(Clone, Copy, PartialEq, Eq)]
enum RecordKind {
    Block = 1,
    Control = 2,
    End = 3,
    Remark = 4,
}

impl RecordKind {
    /// Refusal 7.
    fn from_number(number: u16) -> Result<Self, Refusal> {
        match number {
            1 => Ok(RecordKind::Block),
            2 => Ok(RecordKind::Control),
            3 => Ok(RecordKind::End),
            4 => Ok(RecordKind::Remark),
            _ => Err(Refusal::RecordKind),
        }
    }

    /// Refusal 8.
    fn check_length(self, length: usize) -> Result<(), Refusal> {
        let fits = match self {
            RecordKind::Block => length >= 8 && length % 4 == 0,
            RecordKind::Control => [CONTROL_WITHOUT_TIMES, CONTROL].contains(&length),
            RecordKind::End => length == 0,
            RecordKind::Remark => length <= MAXIMUM_REMARK,
        };
        if fits {
            Ok(())
        } else {
            Err(Refusal::RecordLength)
        }
    }
}

/// A record whose header and payload are there.
struct Record<'a> {
    kind: RecordKind,
    payload: &'a [u8],
}

/// Four bytes, little-endian.
fn number(bytes: &[u8]) -> u32 {
    u32::from_le_bytes([bytes[0], bytes[1], bytes[2], bytes[3]])
}

/// The first cell index of a block.
fn first_cell(payload: &[u8]) -> usize {
    number(payload) as usize
}

/// The cells of a block.
fn cells_of(payload: &[u8]) -> impl ExactSizeIterator<Item = u32> + '_ {
    payload[4..].chunks_exact(4).map(number)
}

/// Reads the next record: refusals 6, 7, 11, 8 and 6 again, in this order.
fn next_record<'a>(tape: &'a [u8], control_seen: bool) -> Result<(Record<'a>, &'a [u8]), Refusal> {
    if tape.len() < HEADER {
        return Err(Refusal::TapeEnds);
    }
    let (header, rest) = tape.split_at(HEADER);
    let length = number(header) as usize;
    let kind = RecordKind::from_number(u16::from_le_bytes([header[4], header[5]]))?;
    if control_seen != (kind == RecordKind::End) {
        return Err(Refusal::RecordOrder);
    }
    kind.check_length(length)?;
    if rest.len() < length {
        return Err(Refusal::TapeEnds);
    }
    let (payload, rest) = rest.split_at(length);
    Ok((Record { kind, payload }, rest))
}

/// Refusals 9, 17 and 10, in this order. `named` tells of each cell of the store
/// whether an earlier block names it, and afterwards whether this one does too.
fn check_block(payload: &[u8], named: &mut [bool]) -> Result<(), Refusal> {
    let mut block = cells_of(payload);
    let first = first_cell(payload);
    let Some(part) = named.get_mut(first..first + block.len()) else {
        return Err(Refusal::BlockPlace);
    };
    if part.contains(&true) {
        return Err(Refusal::BlockOverlap);
    }
    part.fill(true);
    if block.any(|cell| cell >= CELL_LIMIT) {
        return Err(Refusal::BlockCell);
    }
    Ok(())
}

/// The control record on a tape; refusals 3 and 18, in this order.
fn control_of(record: &[u8]) -> Result<Control, Refusal> {
    let mut payload = [0; CONTROL];
    payload[..record.len()].copy_from_slice(record);
    let flags = payload[18];
    let control = Control {
        ic: number(&payload),
        ir: number(&payload[4..]),
        im: number(&payload[8..]),
        pending: number(&payload[12..]),
        pr: u32::from(payload[16]),
        ex: u32::from(payload[17]),
        monitor: flags & 1 != 0,
        enabled: flags & 2 != 0,
        reset: flags & 4 != 0,
        elapsed: number(&payload[20..]),
        period: number(&payload[24..]),
        phase: number(&payload[28..]),
        line: payload[32],
    };
    if flags > 7 || payload[19] != 0 {
        return Err(Refusal::ControlField);
    }
    control.check()?;
    Ok(control)
}

/// Judges a whole tape for a store of `cells` cells, and hands back its
/// control record.
fn judge(tape: &[u8], cells: usize) -> Result<Control, Refusal> {
    if tape.len() > MAXIMUM_TAPE {
        return Err(Refusal::TapeLength);
    }
    let mut named = vec![false; cells];
    let mut control = None;
    let mut left = tape;
    loop {
        let (record, rest) = next_record(left, control.is_some())?;
        left = rest;
        match record.kind {
            RecordKind::Block => check_block(record.payload, &mut named)?,
            RecordKind::Control => control = Some(control_of(record.payload)?),
            RecordKind::Remark => (),
            RecordKind::End if !left.is_empty() => return Err(Refusal::RecordOrder),
            RecordKind::End => return control.ok_or(Refusal::RecordOrder),
        }
    }
}

/// The records of a judged tape.
fn records(tape: &[u8]) -> impl Iterator<Item = Record<'_>> {
    let mut left = tape;
    let mut control_seen = false;
    std::iter::from_fn(move || {
        let (record, rest) = next_record(left, control_seen).ok()?;
        left = rest;
        control_seen = record.kind == RecordKind::Control;
        Some(record)
    })
}

/// Puts the blocks of a judged tape into the store.
fn copy_blocks(store: &mut [u32], tape: &[u8]) {
    for record in records(tape) {
        if record.kind == RecordKind::Block {
            let part = &mut store[first_cell(record.payload)..];
            for (cell, value) in part.iter_mut().zip(cells_of(record.payload)) {
                *cell = value;
            }
        }
    }
}

/// Loads a tape: the blocks into the store, zero into every cell that no block
/// names, and the control record into `control`. The whole tape is judged before
/// a cell changes.
pub fn load(store: &mut [u32], control: &mut Control, tape: &[u8]) -> Result<(), Refusal> {
    check_store(store)?;
    let loaded = judge(tape, store.len())?;
    store.fill(0);
    copy_blocks(store, tape);
    *control = loaded;
    Ok(())
}

/// Lays a tape over what the store holds: as [`load`], but every cell that no
/// block names is kept.
pub fn overlay(store: &mut [u32], control: &mut Control, tape: &[u8]) -> Result<(), Refusal> {
    check_store(store)?;
    let loaded = judge(tape, store.len())?;
    copy_blocks(store, tape);
    *control = loaded;
    Ok(())
}

/// The first remark's text, or none, of a tape that loads into a store of
/// `cells` cells; else the loader's refusal.
pub fn remark(tape: &[u8], cells: usize) -> Result<Option<&[u8]>, Refusal> {
    check_size(cells)?;
    judge(tape, cells)?;
    Ok(records(tape)
        .find(|record| record.kind == RecordKind::Remark)
        .map(|record| record.payload))
}

/// The stretches of cells that are not zero, each as long as can be, in rising
/// order: the first cell's index and the cells.
fn stretches(store: &[u32]) -> impl Iterator<Item = (usize, &[u32])> {
    let mut place = 0;
    std::iter::from_fn(move || {
        let first = place + store[place..].iter().position(|&cell| cell != 0)?;
        let rest = &store[first..];
        let count = rest.iter().position(|&cell| cell == 0);
        let stretch = &rest[..count.unwrap_or(rest.len())];
        place = first + stretch.len();
        Some((first, stretch))
    })
}

/// The payload length of a block.
fn block_length(stretch: &[u32]) -> usize {
    4 + 4 * stretch.len()
}

/// The length of the tape of a machine.
fn tape_length(store: &[u32], remark: Option<&[u8]>) -> usize {
    let remark = remark.map_or(0, |text| HEADER + text.len());
    let blocks: usize = stretches(store)
        .map(|(_, stretch)| HEADER + block_length(stretch))
        .sum();
    remark + blocks + HEADER + CONTROL + HEADER
}

/// Refusals 14, 15 and 16, in this order; the length of the tape.
fn check_written(store: &[u32], remark: Option<&[u8]>, buffer: &[u8]) -> Result<usize, Refusal> {
    if remark.is_some_and(|text| text.len() > MAXIMUM_REMARK) {
        return Err(Refusal::RemarkLength);
    }
    let length = tape_length(store, remark);
    if length > MAXIMUM_TAPE {
        return Err(Refusal::WrittenLength);
    }
    if buffer.len() < length {
        return Err(Refusal::BufferLength);
    }
    Ok(length)
}

/// The payload of a control record.
fn control_payload(control: &Control) -> [u8; CONTROL] {
    let mut payload = [0; CONTROL];
    let words = [control.ic, control.ir, control.im, control.pending];
    for (part, word) in payload.chunks_exact_mut(4).zip(words) {
        part.copy_from_slice(&word.to_le_bytes());
    }
    let [monitor, enabled, reset] = [control.monitor, control.enabled, control.reset].map(u8::from);
    payload[16] = control.pr as u8;
    payload[17] = control.ex as u8;
    payload[18] = monitor + 2 * enabled + 4 * reset;
    let times = [control.elapsed, control.period, control.phase];
    for (part, time) in payload[20..].chunks_exact_mut(4).zip(times) {
        part.copy_from_slice(&time.to_le_bytes());
    }
    payload[32] = control.line;
    payload
}

/// Writes bytes one after the other into a buffer that has room for them.
struct Output<'a> {
    buffer: &'a mut [u8],
    length: usize,
}

impl Output<'_> {
    fn bytes(&mut self, bytes: &[u8]) {
        let end = self.length + bytes.len();
        self.buffer[self.length..end].copy_from_slice(bytes);
        self.length = end;
    }

    fn number(&mut self, number: u32) {
        self.bytes(&number.to_le_bytes());
    }

    fn header(&mut self, kind: RecordKind, length: usize) {
        self.number(length as u32);
        self.bytes(&(kind as u16).to_le_bytes());
    }

    fn record(&mut self, kind: RecordKind, payload: &[u8]) {
        self.header(kind, payload.len());
        self.bytes(payload);
    }

    fn block(&mut self, first: usize, stretch: &[u32]) {
        self.header(RecordKind::Block, block_length(stretch));
        self.number(first as u32);
        for &cell in stretch {
            self.number(cell);
        }
    }
}

/// Writes the tape of a machine to the front of `buffer`, whose other bytes
/// stay: the remark if given, the cells that are not zero as blocks, control and
/// end. Hands back the length of the tape.
pub fn write(
    store: &[u32],
    control: Control,
    remark: Option<&[u8]>,
    buffer: &mut [u8],
) -> Result<usize, Refusal> {
    check_store(store)?;
    control.check()?;
    let length = check_written(store, remark, buffer)?;
    let mut output = Output { buffer, length: 0 };
    if let Some(text) = remark {
        output.record(RecordKind::Remark, text);
    }
    for (first, stretch) in stretches(store) {
        output.block(first, stretch);
    }
    output.record(RecordKind::Control, &control_payload(&control));
    output.record(RecordKind::End, &[]);
    Ok(length)
}
