//! Machines to be written: which cells make a block, remarks, control records
//! and buffers.

use crate::machine::{bit, Machine};
use compare::LAST_RECORDS;
use protocol::Request;

/// All of them.
pub fn cases() -> Vec<Request> {
    let mut cases = patterns();
    cases.extend(keys_and_words());
    cases.extend(stretches());
    cases.extend(remarks());
    cases.extend(controls());
    cases.extend(together());
    cases
}

/// A machine of these cells and nothing else that is not zero.
fn machine(cells: &[u32]) -> Machine {
    let mut machine = Machine::new(cells.len());
    machine.cells = cells.to_vec();
    machine
}

/// The bytes of the blocks of these cells.
fn block_bytes(cells: &[u32]) -> usize {
    let blocks = cells
        .split(|&cell| cell == 0)
        .filter(|part| !part.is_empty());
    blocks.map(|part| 10 + 4 * part.len()).sum()
}

/// The case that writes these cells into a buffer of the tape's length and so
/// many bytes more.
fn written(cells: &[u32], more: usize) -> Request {
    machine(cells).write(None, block_bytes(cells) + LAST_RECORDS + more)
}

/// Which of eight cells are zero: every way.
fn patterns() -> Vec<Request> {
    (0..256_u32)
        .map(|pattern| {
            let cells = [0, 1, 2, 3, 4, 5, 6, 7].map(|place| (pattern >> place & 1) * (place + 1));
            written(&cells, (pattern % 3) as usize)
        })
        .collect()
}

/// Keys without words, words without keys, and the largest cell, in the first
/// place, in the last, and in both.
fn keys_and_words() -> Vec<Request> {
    let mut cases = Vec::new();
    for value in [1, 1 << 12, 0xff_ffff, 1 << 24, 7 << 24, 134_217_727] {
        for (first, last) in [(value, 0), (0, value), (value, value)] {
            let mut cells = [0; 9];
            cells[0] = first;
            cells[8] = last;
            cases.push(written(&cells, 0));
            cells[4] = 3 << 24;
            cases.push(written(&cells, 1));
        }
    }
    cases
}

/// Stretches of equal length with gaps of equal length, on 64 cells.
fn stretches() -> Vec<Request> {
    let mut cases = vec![written(&[0; 64], 0), written(&[5; 64], 0)];
    for stretch in [1, 2, 3, 7, 31] {
        for gap in [1, 2, 5] {
            let kept = |place: usize| place % (stretch + gap) < stretch;
            let cells: Vec<u32> = (0..64)
                .map(|place| u32::from(kept(place)) * 262_144 * (place as u32 + 1))
                .collect();
            cases.push(written(&cells, 0));
        }
    }
    cases
}

/// Remarks of every kind, in buffers about the length of the tape.
fn remarks() -> Vec<Request> {
    let text: Vec<u8> = (0..=255).chain([7]).collect();
    let cells = [1, 0, 2, 3, 0, 0, 0, 4];
    let without = block_bytes(&cells) + LAST_RECORDS;
    let mut cases = Vec::new();
    for space in [0, 1, without - 1, without, without + 1] {
        cases.push(machine(&cells).write(None, space));
    }
    for count in [0, 1, 2, 39, 128, 254, 255, 256, 257] {
        let length = without + 6 + count;
        for space in [0, without, length - 1, length, length + 1, length + 40] {
            cases.push(machine(&cells).write(Some(&text[..count]), space));
        }
    }
    cases
}

/// One bit in each field of the control record, and every mode.
fn controls() -> Vec<Request> {
    let mut machines = Vec::new();
    for place in 0..24 {
        let mut machine = machine(&[0; 8]).at(bit(place));
        machine.control.pr = 128 | 1 << (place % 7);
        machine.control.ir = bit((place + 7) % 24);
        machine.control.im = bit((place + 13) % 24);
        machines.push(machine.pending(bit((place + 19) % 24)).ex(place % 8));
    }
    let mut task = machine(&[0; 8]);
    task.control.monitor = false;
    machines.push(task.clone());
    machines.push(task.enabled(1, 2));
    machines.push(machine(&[0; 8]).in_reset());
    machines.push(machine(&[0; 8]).enabled(3, 4));
    for place in 0..32 {
        let time = |more: u32| 1_u32.rotate_left(place + more);
        let line = 3 + (place % 21) as u8;
        let on = machine(&[0; 8])
            .elapsed(time(0))
            .timer(u32::MAX, time(7), line);
        machines.push(on);
        machines.push(machine(&[0; 8]).elapsed(time(3)).timer(time(11), 0, line));
        machines.push(machine(&[0; 8]).timer(0, time(19), 8 * place as u8));
    }
    let write = |machine: &Machine| machine.write(None, LAST_RECORDS);
    machines.iter().map(write).collect()
}

/// Refusals 1, 2, 3, 14, 16 and 18: every set of them.
fn together() -> Vec<Request> {
    let mut cases = Vec::new();
    for refused in 0..64_u32 {
        let has = |place: u32| refused >> place & 1 == 1;
        let mut machine = machine(&[9; 8]);
        if has(0) {
            machine.cells.truncate(7);
        }
        if has(1) {
            machine.cells[6] = 134_217_728;
        }
        if has(2) {
            machine.control.pr = 127;
        }
        if has(5) {
            machine = machine.timer(7, 3, 24);
        }
        let text = vec![b'.'; if has(3) { 256 } else { 255 }];
        let length = block_bytes(&machine.cells) + LAST_RECORDS + 6 + text.len();
        cases.push(machine.write(Some(&text), length - usize::from(has(4))));
    }
    cases
}
