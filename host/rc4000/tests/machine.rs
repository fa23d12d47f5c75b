//! `Machine` against the calls on lent parts, and the small functions.

use rc4000::{cell, key, line, load, press_autoload, press_reset, press_start, run, word};
use rc4000::{Control, Devices, Kind, Machine, Outcome, Refusal};
use std::collections::HashMap;

const HEADER: &str = include_str!("../../include/rc4000.h");

/// A load tape with one block from address 16 on, IC 16, monitor mode.
fn tape(cells: &[u32]) -> Vec<u8> {
    let mut tape = Vec::new();
    tape.extend((4 + 4 * cells.len() as u32).to_le_bytes());
    tape.extend([1, 0, 8, 0, 0, 0]);
    tape.extend(cells.iter().flat_map(|cell| cell.to_le_bytes()));
    tape.extend([20, 0, 0, 0, 2, 0, 16, 0, 0, 0]);
    tape.extend([0; 12]);
    tape.extend([128, 0, 1, 0]);
    tape.extend([0, 0, 0, 0, 3, 0]);
    tape
}

/// Read, sense into W0, write W0 to device 1.
const COPY: [u32; 4] = [1 << 18 | 2, 1 << 18, 1 << 18 | 67, 13 << 18 | 16];

#[test]
fn a_fresh_machine_is_in_the_reset_state() {
    let mut machine = Machine::fresh(8);
    assert_eq!(machine.store, vec![0; 8]);
    assert_eq!(
        (machine.control, machine.devices),
        (Control::fresh(), Devices::default())
    );
    let report = machine.run_without_devices(0, 100).unwrap();
    assert_eq!((report.outcome, report.executed), (Outcome::Reset, 0));
}

#[test]
fn the_methods_are_the_calls() {
    let mut machine = Machine::fresh(64);
    let (mut store, mut control) = (vec![0; 64], Control::fresh());
    let mut devices = Devices::default();
    let (mut typing, mut other) = ([9; 8], [9; 8]);
    machine.load(&tape(&COPY)).unwrap();
    load(&mut store, &mut control, &tape(&COPY)).unwrap();
    let report = machine.run(0, 10, &[33, 34, 35], &mut typing);
    let (cells, record, registers) = (&mut store, &mut control, &mut devices);
    assert_eq!(
        report,
        run(cells, record, 0, 10, registers, &[33, 34, 35], &mut other)
    );
    assert_eq!(
        report.map(|report| (report.taken, report.typed)),
        Ok((3, 2))
    );
    assert_eq!(typing, other);
    machine.press_reset().unwrap();
    press_reset(&mut store, &mut control).unwrap();
    assert_eq!(machine.press_autoload(&[1, 2, 3, 4]), Ok(4));
    press_autoload(&mut store, &mut control, &mut devices, &[1, 2, 3, 4]).unwrap();
    let now = Machine {
        store,
        control,
        devices,
    };
    assert_eq!(machine, now);
    assert_eq!(
        machine.devices,
        Devices {
            reader: 4,
            typewriter: 34
        }
    );
}

#[test]
fn load_clears_and_overlay_keeps() {
    let mut machine = Machine::fresh(64);
    machine.devices.reader = 5;
    machine.set_word(40, 7);
    machine.set_key(0, 3);
    let mut other = machine.clone();
    machine.overlay(&tape(&COPY)).unwrap();
    assert_eq!((machine.word(40), machine.key(0)), (Some(7), Some(3)));
    assert_eq!((machine.word(16), machine.control.ic), (Some(COPY[0]), 16));
    machine.overlay(&tape(&[9])).unwrap();
    assert_eq!(
        (machine.word(16), machine.word(18)),
        (Some(9), Some(COPY[1]))
    );
    machine.load(&tape(&[9])).unwrap();
    other.load(&tape(&[9])).unwrap();
    assert_eq!(machine, other);
    assert_eq!((machine.word(40), machine.key(0)), (Some(0), Some(0)));
    assert_eq!(machine.devices.reader, 5);
    assert_eq!(machine.overlay(&[]), Err(Refusal::TapeEnds));
    assert_eq!(machine, other);
}

#[test]
fn the_start_key_takes_word_14() {
    let mut machine = Machine::fresh(8);
    machine.set_word(Control::START_ADDRESS, 16);
    let mut other = machine.clone();
    machine.press_start().unwrap();
    press_start(&mut other.store, &mut other.control).unwrap();
    assert_eq!(machine, other);
    assert_eq!((machine.control.ic, machine.control.reset), (16, false));
}

#[test]
fn a_run_without_devices_keeps_the_registers() {
    let mut machine = Machine::fresh(64);
    machine.load(&tape(&COPY)).unwrap();
    machine.devices.reader = 5;
    machine.devices.typewriter = 6;
    let report = machine.run_without_devices(line(7), 2).unwrap();
    assert_eq!((report.outcome, report.executed), (Outcome::Spent, 2));
    assert_eq!((machine.word(0), machine.control.ir), (Some(5), line(7)));
    assert_eq!((machine.devices.reader, machine.devices.typewriter), (5, 6));
}

#[test]
fn a_raised_line_interrupts() {
    let mut machine = Machine::fresh(8);
    machine.set_word(Control::INTERRUPTION_PROGRAM, 12);
    machine.control.im = line(5);
    machine.control.enabled = true;
    machine.control.reset = false;
    let report = machine.run_without_devices(line(5), 5).unwrap();
    assert_eq!(report.outcome, Outcome::Interrupted(Kind::Line(10)));
    assert_eq!(machine.word(Control::INTERRUPT_NUMBER), Some(10));
}

#[test]
fn a_refusal_leaves_the_machine() {
    let mut machine = Machine::fresh(8);
    machine.control.pr = 127;
    let given = machine.clone();
    assert_eq!(
        machine.run_without_devices(0, 0),
        Err(Refusal::ControlField)
    );
    assert_eq!(machine.press_autoload(&[0; 4]), Err(Refusal::ControlField));
    assert_eq!(machine.press_start(), Err(Refusal::ControlField));
    assert_eq!(machine.press_reset(), Err(Refusal::ControlField));
    assert_eq!(machine.load(&[]), Err(Refusal::TapeEnds));
    assert_eq!(machine, given);
    assert_eq!(
        Machine::fresh(7).run_without_devices(0, 0),
        Err(Refusal::StoreSize)
    );
}

#[test]
fn words_and_keys_by_address() {
    let mut machine = Machine::fresh(8);
    machine.set_key(15, 7);
    machine.set_word(14, -2i32 as u32);
    assert_eq!(machine.store[7], cell(7, 16_777_214));
    assert_eq!(
        (machine.word(15), machine.key(14)),
        (Some(16_777_214), Some(7))
    );
    machine.set_key(14, 0);
    assert_eq!(machine.store[7], 16_777_214);
    assert_eq!((machine.word(16), machine.key(16)), (None, None));
    assert_eq!((word(cell(5, 6)), key(cell(5, 6))), (6, 5));
}

#[test]
#[should_panic(expected = "key 8")]
fn a_key_over_7_is_none() {
    Machine::fresh(8).set_key(0, 8);
}

#[test]
fn lines_are_numbered_from_the_left() {
    assert_eq!((line(0), line(5), line(23)), (1 << 23, 1 << 18, 1));
    assert_eq!((line(24), line(u32::MAX)), (0, 0));
}

/// The numbers of the header's names.
fn header_numbers() -> HashMap<&'static str, u32> {
    HEADER
        .lines()
        .filter_map(|text| text.trim().split_once(" = "))
        .filter_map(|(name, rest)| {
            let figures: String = rest.chars().take_while(char::is_ascii_digit).collect();
            Some((name, figures.parse().ok()?))
        })
        .collect()
}

/// The header's name of a refusal: `RC4000_STORE_SIZE` for `StoreSize`.
fn name_in_c(refusal: Refusal) -> String {
    let mut name = "RC4000".to_string();
    for letter in format!("{refusal:?}").chars() {
        if letter.is_uppercase() {
            name.push('_');
        }
        name.push(letter.to_ascii_uppercase());
    }
    name
}

#[test]
fn a_refusal_says_what_it_means_as_in_c() {
    let numbers = header_numbers();
    let (_, rest) = HEADER.split_once("texts[] = {").unwrap();
    let (texts, _) = rest.split_once("};").unwrap();
    let said: Vec<&str> = texts.trim().lines().skip(1).map(str::trim).collect();
    assert_eq!(said.len(), 21);
    for (number, text) in (1..).zip(said) {
        let refusal = Refusal::from_number(number).unwrap();
        assert_eq!(text, format!("\"{}\",", refusal.text()));
        assert_eq!(numbers.get(name_in_c(refusal).as_str()), Some(&number));
    }
    assert_eq!(Refusal::from_number(22), None);
}

#[test]
fn a_refusal_is_an_error() {
    let error: Box<dyn std::error::Error> = Box::new(Refusal::BlockPlace);
    assert_eq!(error.to_string(), "refused 9: a block beyond the store");
}
