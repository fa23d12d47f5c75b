//! The writer of tapes: what it writes loads again, and what it refuses.

use rc4000::{cell, load, remark, write, Control, Machine, Refusal, LONGEST_TAPE};

/// What the bytes of a lent buffer are before the call.
const KEPT: u8 = 170;

/// A machine of 16 cells with blocks at both ends, and every field in use.
fn machine() -> Machine {
    let mut machine = Machine::fresh(16);
    machine.store[0] = cell(7, 16_777_215);
    machine.store[1] = 1;
    machine.store[4] = cell(3, 0);
    machine.store[15] = cell(0, 0x01_02_03);
    machine.control = Control {
        ic: 0x11_22_33,
        ir: 1 << 20,
        im: 16_777_215,
        pending: 6,
        pr: 255,
        ex: 5,
        monitor: true,
        enabled: true,
        reset: false,
        elapsed: 0xf1_02_03_04,
        period: 0x05_06_07_08,
        phase: 0x01_02_03_04,
        line: 23,
    };
    machine
}

/// The tape of `machine` with the remark `AB`, by the layout of documents 01 and
/// 02.
const TAPE: [u8; 99] = [
    2, 0, 0, 0, 4, 0, b'A', b'B', // remark
    12, 0, 0, 0, 1, 0, 0, 0, 0, 0, 255, 255, 255, 7, 1, 0, 0, 0, // cells 0 and 1
    8, 0, 0, 0, 1, 0, 4, 0, 0, 0, 0, 0, 0, 3, // cell 4
    8, 0, 0, 0, 1, 0, 15, 0, 0, 0, 3, 2, 1, 0, // cell 15
    33, 0, 0, 0, 2, 0, 0x33, 0x22, 0x11, 0, 0, 0, 16, 0, // control record: IC, IR,
    255, 255, 255, 0, 6, 0, 0, 0, 255, 5, 3, 0, // IM, pending, PR, EX, flags,
    4, 3, 2, 0xf1, 8, 7, 6, 5, 4, 3, 2, 1, 23, // elapsed, period, phase, line
    0, 0, 0, 0, 3, 0, // end
];

#[test]
fn the_bytes_of_a_tape() {
    assert_eq!(machine().write(Some(b"AB")), Ok(TAPE.to_vec()));
}

/// The machine and its remark come back from its tape, whatever the store held.
fn comes_back(machine: &Machine, text: Option<&[u8]>) {
    let tape = machine.write(text).unwrap();
    let mut other = Machine::fresh(machine.store.len());
    for held in [0, 7 << 24 | 99] {
        other.store.fill(held);
        other.load(&tape).unwrap();
        assert_eq!(&other, machine);
    }
    assert_eq!(remark(&tape, machine.store.len()), Ok(text));
}

#[test]
fn what_is_written_loads_again() {
    for text in [None, Some(&b""[..]), Some(b"text"), Some(&[0; 255])] {
        comes_back(&machine(), text);
        comes_back(&Machine::fresh(8), text);
    }
    let mut full = Machine::fresh(8);
    full.store.fill(134_217_727);
    comes_back(&full, None);
    let mut large = Machine::fresh(8_388_608);
    large.store[8_388_607] = 1;
    comes_back(&large, None);
}

#[test]
fn a_machine_that_ran_goes_on_from_its_tape() {
    let mut machine = Machine::fresh(64);
    machine.load(&machine_tape()).unwrap();
    machine.run_without_devices(0, 7).unwrap();
    let mut other = Machine::fresh(64);
    other.load(&machine.write(None).unwrap()).unwrap();
    let reports = [&mut machine, &mut other].map(|each| each.run_without_devices(0, 1000));
    assert_eq!(reports[0], reports[1]);
    assert_eq!(machine, other);
    assert_eq!(machine.word(2), Some(504));
}

/// A loop that counts in W1: AL W1 X1 1, JL 16.
fn machine_tape() -> Vec<u8> {
    let mut machine = Machine::fresh(64);
    machine.set_word(16, 11 << 18 | 1 << 16 | 1 << 12 | 1);
    machine.set_word(18, 13 << 18 | 16);
    machine.control.ic = 16;
    machine.control.reset = false;
    machine.write(Some(b"counts")).unwrap()
}

#[test]
fn no_remark_and_an_empty_one_differ() {
    let machine = Machine::fresh(8);
    let (none, empty) = (machine.write(None), machine.write(Some(b"")));
    assert_eq!(none.as_ref().map(Vec::len), Ok(45));
    assert_eq!(empty.as_ref().map(Vec::len), Ok(51));
    assert_eq!(empty.unwrap()[6..], none.unwrap());
}

#[test]
fn bytes_behind_the_tape_are_kept() {
    let (machine, tape) = (machine(), machine().write(None).unwrap());
    let length = tape.len();
    for space in [length, length + 1, LONGEST_TAPE + 1] {
        let mut buffer = vec![KEPT; space];
        let written = write(&machine.store, machine.control, None, &mut buffer);
        assert_eq!(written, Ok(length));
        assert_eq!(buffer[..length], tape);
        assert!(buffer[length..].iter().all(|&byte| byte == KEPT));
    }
}

/// Refused, and the buffer of so many bytes kept.
fn refused(refusal: Refusal, machine: &Machine, text: Option<&[u8]>, space: usize) {
    let mut buffer = vec![KEPT; space];
    let written = write(&machine.store, machine.control, text, &mut buffer);
    assert_eq!(written, Err(refusal));
    assert!(buffer.iter().all(|&byte| byte == KEPT));
}

/// A machine whose tape has over 65,536 bytes.
fn too_long() -> Machine {
    let mut machine = Machine::fresh(20_000);
    machine.store.fill(1);
    machine
}

#[test]
fn refusals_in_their_order() {
    let long = &[0; 256][..];
    let mut wrong = Machine::fresh(7);
    wrong.store[6] = 1 << 27;
    wrong.control.pr = 127;
    refused(Refusal::StoreSize, &wrong, Some(long), 0);
    wrong.store.resize(20_000, 1);
    refused(Refusal::CellValue, &wrong, Some(long), 0);
    wrong.store[6] = 1;
    refused(Refusal::ControlField, &wrong, Some(long), 0);
    wrong.control.pr = 128;
    wrong.control.set_interval(1, 24);
    refused(Refusal::Timer, &wrong, Some(long), 0);
    wrong.control.line = 23;
    refused(Refusal::RemarkLength, &wrong, Some(long), 0);
    refused(Refusal::WrittenLength, &wrong, Some(&long[1..]), 0);
    refused(Refusal::WrittenLength, &wrong, None, 100_000);
    wrong.store.truncate(8);
    refused(Refusal::BufferLength, &wrong, Some(&long[1..]), 323);
    refused(Refusal::BufferLength, &wrong, None, 62);
    assert_eq!(wrong.write(None).map(|tape| tape.len()), Ok(63));
    assert_eq!(wrong.write(Some(long)), Err(Refusal::RemarkLength));
    assert_eq!(too_long().write(None), Err(Refusal::WrittenLength));
}

#[test]
fn a_tape_of_65_536_bytes_is_written() {
    let mut machine = too_long();
    machine.store[100] = 0;
    machine.store[16_367..].fill(0);
    let text = Some(&b"."[..]);
    let tape = machine.write(text).unwrap();
    assert_eq!(tape.len(), LONGEST_TAPE);
    let (mut store, mut control) = (vec![0; 20_000], Control::fresh());
    load(&mut store, &mut control, &tape).unwrap();
    assert_eq!(store, machine.store);
    refused(Refusal::BufferLength, &machine, text, LONGEST_TAPE - 1);
    refused(
        Refusal::WrittenLength,
        &machine,
        Some(b".."),
        LONGEST_TAPE + 1,
    );
    machine.store[16_367] = 1;
    refused(Refusal::WrittenLength, &machine, text, LONGEST_TAPE + 4);
}

#[test]
fn numbers_of_the_writers_refusals() {
    let refusals = [
        Refusal::RemarkLength,
        Refusal::WrittenLength,
        Refusal::BufferLength,
    ];
    assert_eq!(refusals.map(Refusal::number), [14, 15, 16]);
    for refusal in refusals {
        assert_eq!(Refusal::from_number(refusal.number()), Some(refusal));
    }
}
