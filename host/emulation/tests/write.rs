//! The writer of tapes: what it writes, what it refuses, and its tape loaded.

use emulation::{load, remark, write, Control, Refusal, MAXIMUM_TAPE};

/// The bytes of control and end record.
const LAST_RECORDS: usize = 39 + 6;

/// A control record with another value in each field.
fn record() -> Control {
    Control {
        ic: 0x01_0203,
        ir: 0x04_0506,
        im: 0x07_0809,
        pending: 0x0a_0b0c,
        pr: 0x8d,
        ex: 6,
        monitor: false,
        enabled: true,
        reset: false,
        elapsed: 0xf102_0304,
        period: 0x0506_0708,
        phase: 0x0102_0304,
        line: 23,
    }
}

/// The tape, written into a buffer that is too long by some bytes, which stay.
fn written(store: &[u32], control: Control, text: Option<&[u8]>) -> Result<Vec<u8>, Refusal> {
    let mut buffer = vec![0xa5; MAXIMUM_TAPE + 9];
    let length = write(store, control, text, &mut buffer);
    let kept = *length.as_ref().unwrap_or(&0);
    assert!(buffer[kept..].iter().all(|&byte| byte == 0xa5));
    buffer.truncate(kept);
    length.map(|_| buffer)
}

/// Loads a tape into a store of zeros and looks at machine and remark.
fn loads_back(tape: &[u8], store: &[u32], control: Control, text: Option<&[u8]>) {
    let mut loaded = vec![0; store.len()];
    let mut loaded_control = Control::fresh();
    load(&mut loaded, &mut loaded_control, tape).unwrap();
    assert!(loaded == store);
    assert_eq!(loaded_control, control);
    assert_eq!(remark(tape, store.len()), Ok(text));
}

/// Writes a machine and loads it again; the tape.
fn written_and_loaded(store: &[u32], control: Control, text: Option<&[u8]>) -> Vec<u8> {
    let tape = written(store, control, text).unwrap();
    loads_back(&tape, store, control, text);
    tape
}

#[test]
fn every_byte_of_a_tape() {
    let mut store = vec![0; 12];
    store[0] = 0x0102_0304;
    store[5] = 5;
    store[6] = 0x0700_0000;
    store[11] = 0x07ff_ffff;
    let tape = written_and_loaded(&store, record(), Some(b"part"));
    let expected: [&[u8]; 7] = [
        &[4, 0, 0, 0, 4, 0, b'p', b'a', b'r', b't'],
        &[8, 0, 0, 0, 1, 0, 0, 0, 0, 0, 4, 3, 2, 1],
        &[12, 0, 0, 0, 1, 0, 5, 0, 0, 0, 5, 0, 0, 0, 0, 0, 0, 7],
        &[8, 0, 0, 0, 1, 0, 11, 0, 0, 0, 0xff, 0xff, 0xff, 7],
        &[
            33, 0, 0, 0, 2, 0, 3, 2, 1, 0, 6, 5, 4, 0, 9, 8, 7, 0, 12, 11, 10, 0, 0x8d, 6, 2, 0,
        ],
        &[4, 3, 2, 0xf1, 8, 7, 6, 5, 4, 3, 2, 1, 23],
        &[0, 0, 0, 0, 3, 0],
    ];
    assert_eq!(tape, expected.concat());
}

#[test]
fn the_flags_of_each_mode() {
    for (flags, [monitor, enabled, reset]) in [
        (0, [false, false, false]),
        (1, [true, false, false]),
        (2, [false, true, false]),
        (3, [true, true, false]),
        (5, [true, false, true]),
    ] {
        let control = Control {
            monitor,
            enabled,
            reset,
            ..record()
        };
        let tape = written_and_loaded(&[0; 8], control, None);
        assert_eq!(tape.len(), LAST_RECORDS);
        assert_eq!(tape[24], flags);
    }
}

#[test]
fn a_store_of_zeros_has_no_block() {
    let tape = written_and_loaded(&[0; 4096], Control::fresh(), None);
    let mut expected = vec![33, 0, 0, 0, 2, 0];
    expected.extend([0; 16]);
    expected.extend([128, 0, 5, 0]);
    expected.extend([0; 13]);
    expected.extend([0, 0, 0, 0, 3, 0]);
    assert_eq!(tape, expected);
}

#[test]
fn a_store_without_zeros_is_one_block() {
    for size in [8, 9, 64, 4096] {
        let store: Vec<u32> = (1..=size).collect();
        let tape = written_and_loaded(&store, record(), None);
        assert_eq!(tape.len(), 10 + 4 * store.len() + LAST_RECORDS);
    }
}

#[test]
fn a_key_without_a_word_is_written() {
    for place in 0..8 {
        let mut store = vec![0; 8];
        store[place] = 1 << 24;
        let tape = written_and_loaded(&store, Control::fresh(), None);
        assert_eq!(tape.len(), 14 + LAST_RECORDS);
        assert_eq!(tape[6], place as u8);
        assert_eq!(tape[10..14], [0, 0, 0, 1]);
    }
}

#[test]
fn cells_at_both_ends() {
    for size in [8, 1000, 8_388_608] {
        let mut store = vec![0; size];
        store[0] = 1;
        store[size - 1] = 2;
        let tape = written_and_loaded(&store, Control::fresh(), None);
        assert_eq!(tape.len(), 2 * 14 + LAST_RECORDS);
        assert_eq!(tape[20..24], (size as u32 - 1).to_le_bytes());
    }
}

#[test]
fn every_pattern_of_eight_cells() {
    for pattern in 0..256_u32 {
        let store: Vec<u32> = (0..8).map(|place| pattern >> place & 1).collect();
        let tape = written_and_loaded(&store, record(), None);
        let starts = (pattern & !(pattern << 1)).count_ones();
        let bytes = 10 * starts + 4 * pattern.count_ones();
        assert_eq!(tape.len(), bytes as usize + LAST_RECORDS);
    }
}

#[test]
fn remarks_of_every_kind() {
    let store = [1, 0, 2, 0, 0, 3, 4, 5];
    let none = written_and_loaded(&store, record(), None);
    let empty = written_and_loaded(&store, record(), Some(b""));
    assert_eq!(empty[..6], [0, 0, 0, 0, 4, 0]);
    assert_eq!(empty[6..], none);
    let text: Vec<u8> = (0..=255).collect();
    for length in [1, 254, 255] {
        let tape = written_and_loaded(&store, record(), Some(&text[..length]));
        assert_eq!(tape.len(), 6 + length + none.len());
    }
    let refused = written(&store, record(), Some(&text));
    assert_eq!(refused, Err(Refusal::RemarkLength));
}

/// A store with one block, whose tape has this many bytes, a multiple of 4 and
/// 3 more.
fn store_for(length: usize) -> Vec<u32> {
    let cells = (length - LAST_RECORDS - 10) / 4;
    let mut store = vec![0; cells + 3];
    store[2..][..cells].fill(7);
    store
}

#[test]
fn tapes_about_the_most_bytes() {
    // One block: its cells and 55 bytes make 65,535 and 65,539.
    let longest = store_for(65_535);
    assert_eq!(written_and_loaded(&longest, record(), None).len(), 65_535);
    let refused = written(&store_for(65_539), record(), None);
    assert_eq!(refused, Err(Refusal::WrittenLength));
    // Two blocks and a remark of 1: 65,528, 65,532, 65,536 and 65,540.
    let mut cells = vec![7; 16_400];
    cells[5] = 0;
    let text: Option<&[u8]> = Some(b".");
    for (count, length) in [(16_365, 65_528), (16_366, 65_532), (16_367, 65_536)] {
        let tape = written_and_loaded(&cells[..count], record(), text);
        assert_eq!(tape.len(), length);
    }
    let refused = written(&cells[..16_368], record(), text);
    assert_eq!(refused, Err(Refusal::WrittenLength));
}

#[test]
fn remarks_up_to_the_most_bytes() {
    let store = store_for(65_527);
    let text = [b'.'; 4];
    for length in 0..=3 {
        let tape = written_and_loaded(&store, record(), Some(&text[..length]));
        assert_eq!(tape.len(), 65_533 + length);
    }
    let refused = written(&store, record(), Some(&text));
    assert_eq!(refused, Err(Refusal::WrittenLength));
}

#[test]
fn buffers_about_the_length_of_the_tape() {
    let stores = [vec![0; 8], vec![1, 0, 2, 3, 0, 0, 0, 4], store_for(65_535)];
    for store in stores {
        let tape = written(&store, record(), None).unwrap();
        let length = tape.len();
        for short in [0, 1, length - 1] {
            let mut buffer = vec![0xa5; short];
            let result = write(&store, record(), None, &mut buffer);
            assert_eq!(result, Err(Refusal::BufferLength));
            assert!(buffer == vec![0xa5; short]);
        }
        for space in [length, length + 1] {
            let mut buffer = vec![0xa5; space];
            assert_eq!(write(&store, record(), None, &mut buffer), Ok(length));
            assert!(buffer[..length] == tape);
            assert!(buffer[length..].iter().all(|&byte| byte == 0xa5));
        }
    }
}

/// The refusal of a machine; nothing of the buffer changes.
fn refusal(store: &[u32], control: Control, text: Option<&[u8]>, space: usize) -> Refusal {
    let mut buffer = vec![0x5a; space];
    let refusal = write(store, control, text, &mut buffer).unwrap_err();
    assert!(buffer == vec![0x5a; space]);
    refusal
}

#[test]
fn refusals_in_their_order() {
    let wrong = Control {
        ex: 8,
        ..Control::fresh()
    };
    let right = Control::fresh();
    let late = Control {
        period: 7,
        phase: 7,
        line: 3,
        ..right
    };
    let long = [b'.'; 256];
    let mut store = vec![7; 20_000];
    store[19_999] = 134_217_728;
    let text = Some(&long[..]);
    assert_eq!(refusal(&store[..7], wrong, text, 0), Refusal::StoreSize);
    assert_eq!(refusal(&[u32::MAX; 7], wrong, text, 0), Refusal::StoreSize);
    assert_eq!(refusal(&store, wrong, text, 0), Refusal::CellValue);
    let store = &store[..19_999];
    assert_eq!(refusal(store, wrong, text, 0), Refusal::ControlField);
    assert_eq!(refusal(store, late, text, 0), Refusal::Timer);
    assert_eq!(refusal(store, right, text, 0), Refusal::RemarkLength);
    let text = Some(&long[..255]);
    assert_eq!(refusal(store, right, text, 0), Refusal::WrittenLength);
    assert_eq!(refusal(store, right, None, 70_000), Refusal::WrittenLength);
    assert_eq!(refusal(&store[..8], right, text, 0), Refusal::BufferLength);
    let large = vec![0; 8_388_609];
    assert_eq!(refusal(&large, right, None, 100), Refusal::StoreSize);
}

#[test]
fn a_tape_of_many_cells_is_refused() {
    let dense = vec![134_217_727; 8_388_608];
    assert_eq!(refusal(&dense, record(), None, 100), Refusal::WrittenLength);
    let sparse: Vec<u32> = (0..8_388_608).map(|place| place % 2).collect();
    assert_eq!(
        refusal(&sparse, record(), None, 100),
        Refusal::WrittenLength
    );
}

#[test]
fn the_numbers_of_the_refusals() {
    for (number, refusal) in [
        (14, Refusal::RemarkLength),
        (15, Refusal::WrittenLength),
        (16, Refusal::BufferLength),
    ] {
        assert_eq!(refusal.number(), number);
        assert_eq!(Refusal::from_number(number), Some(refusal));
        assert_eq!(refusal.to_string(), format!("refused {number}"));
    }
}
