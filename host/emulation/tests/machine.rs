//! Cycles, protection, entries, keys and refusals.

mod common;

use common::{bit, instruction, run_alone, Machine};
use emulation::{press_reset, press_start, run, Control, Devices, Kind, Outcome, Refusal};

const AM: u32 = 9;
const AL: u32 = 11;
const JL: u32 = 13;
const JE: u32 = 15;
const SP: u32 = 21;
const RS: u32 = 23;
const NS: u32 = 34;
const ND: u32 = 35;
const AS: u32 = 36;
const SX: u32 = 46;
const FA: u32 = 48;
const FM: u32 = 50;
const FD: u32 = 52;
const CF: u32 = 53;
const DS: u32 = 55;
const RX: u32 = 25;

const EXCEPTION: Outcome = Outcome::Interrupted(Kind::Exception);
const KEY_1: u32 = 1 << 24;

/// A machine in task mode in which key 1 is allowed and all others forbidden.
/// IC's cell and the registers have key 1.
fn task() -> Machine {
    let mut machine = Machine::new();
    machine.control.pr = 255 & !64;
    machine.control.monitor = false;
    for cell in [0, 1, 2, 3, 8] {
        machine.store[cell] |= KEY_1;
    }
    machine
}

fn execute_in_task(machine: &mut Machine, instruction: u32) -> Outcome {
    machine.store[8] = KEY_1 | instruction;
    machine.cycles(1).outcome
}

#[test]
fn a_forbidden_cell_may_not_be_stored_into() {
    let mut machine = task();
    assert_eq!(
        execute_in_task(&mut machine, instruction(RS, 0, 0, 0, 20)),
        EXCEPTION
    );
    assert_eq!(machine.store[4..6], [0, 18]);
    assert_eq!(machine.control.ic, 62);
    assert!(machine.control.monitor);
}

#[test]
fn a_register_with_a_forbidden_key_may_not_be_stored_into_by_address() {
    let mut machine = task();
    machine.store[2] = 5;
    machine.store[0] = KEY_1 | 9;
    assert_eq!(
        execute_in_task(&mut machine, instruction(RS, 0, 0, 0, 4)),
        EXCEPTION
    );
    assert_eq!(machine.store[2], 5);
    let mut machine = task();
    machine.store[2] = 5;
    assert_eq!(
        execute_in_task(&mut machine, instruction(AL, 2, 0, 0, 7)),
        Outcome::Spent
    );
    assert_eq!(machine.store[2], 7);
}

#[test]
fn ds_writes_its_second_word_before_the_first_is_tested() {
    let mut machine = task();
    machine.store[11] = KEY_1;
    machine.store[0] = KEY_1 | 3;
    machine.store[1] = KEY_1 | 4;
    assert_eq!(
        execute_in_task(&mut machine, instruction(DS, 1, 0, 0, 22)),
        EXCEPTION
    );
    assert_eq!(machine.store[10..12], [0, KEY_1 | 4]);
}

#[test]
fn the_first_word_of_0_is_6_and_of_8_is_6() {
    for (address, second) in [(0, 0), (1, 0), (8, 4)] {
        let mut machine = Machine::with_registers([1, 2, 3, 4]);
        machine.execute(instruction(DS, 2, 0, 0, address));
        assert_eq!((machine.store[3], machine.store[second]), (2, 3));
    }
}

#[test]
fn rx_loads_w_before_the_protection_test() {
    let mut machine = task();
    machine.store[20] = 77;
    assert_eq!(
        execute_in_task(&mut machine, instruction(RX, 0, 0, 0, 40)),
        EXCEPTION
    );
    assert_eq!((machine.store[0], machine.store[20]), (KEY_1 | 77, 77));
}

#[test]
fn privileged_instructions_need_the_monitor() {
    for code in [28, 51, 12, 47, 15, 14, 1, 0] {
        let mut machine = task();
        assert_eq!(
            execute_in_task(&mut machine, instruction(code, 0, 0, 0, 20)),
            EXCEPTION
        );
    }
}

#[test]
fn falling_through_to_a_forbidden_cell() {
    let mut machine = task();
    machine.store[8] = KEY_1 | instruction(AL, 0, 0, 0, 1);
    let report = machine.cycles(5);
    assert_eq!(report.outcome, EXCEPTION);
    assert_eq!((report.executed, report.entries), (1, 1));
    assert_eq!(machine.store[5], 20);
}

#[test]
fn the_monitor_leaves_monitor_mode_in_an_allowed_cell() {
    let mut machine = task();
    machine.control.monitor = true;
    assert_eq!(
        execute_in_task(&mut machine, instruction(JE, 0, 0, 0, 20)),
        EXCEPTION
    );
}

#[test]
fn unassigned_codes_and_absent_addresses() {
    for code in 58..64 {
        let mut machine = Machine::new();
        assert_eq!(
            machine.execute(instruction(code, 0, 0, 0, 0)).outcome,
            EXCEPTION
        );
        assert_eq!(machine.store[5], 18);
    }
    let mut machine = Machine::new();
    machine.control.ic = 64;
    assert_eq!(machine.cycles(1).outcome, EXCEPTION);
    assert_eq!(machine.store[5], 64);
}

#[test]
fn odd_ic_takes_the_displacement_from_the_next_cell() {
    let mut machine = Machine::new();
    machine.control.ic = 17;
    machine.store[8] = instruction(AL, 1, 2, 0, 0) >> 12;
    machine.store[9] = 6 << 12;
    assert_eq!(machine.cycles(1).outcome, Outcome::Spent);
    assert_eq!(machine.store[1], 23);
    assert_eq!(machine.control.ic, 19);
}

#[test]
fn odd_ic_in_the_last_cell_is_absent() {
    let mut machine = Machine::new();
    machine.control.ic = 63;
    assert_eq!(machine.cycles(1).outcome, EXCEPTION);
    assert_eq!(machine.store[5], 63);
}

#[test]
fn am_changes_the_next_displacement_and_hides_the_lines() {
    let mut machine = Machine::new();
    machine.control.ir = bit(4);
    machine.store[8] = instruction(JE, 0, 0, 0, 18);
    machine.store[9] = instruction(AM, 0, 0, 0, 5);
    machine.store[10] = instruction(AM, 0, 0, 0, 6);
    machine.store[11] = instruction(AL, 1, 0, 0, 7);
    machine.cycles(2);
    assert_eq!(machine.control.pending, 5);
    machine.control.im = bit(4);
    let report = machine.cycles(5);
    assert_eq!(report.outcome, Outcome::Interrupted(Kind::Line(8)));
    assert_eq!(report.executed, 2);
    assert_eq!(machine.store[1], 18);
}

#[test]
fn an_am_that_leaves_0_does_not_hide_the_lines() {
    let mut machine = Machine::new();
    machine.control.enabled = true;
    machine.control.ir = bit(4);
    machine.store[8] = instruction(AM, 0, 0, 0, 0);
    machine.cycles(1);
    machine.control.im = bit(4);
    assert_eq!(
        machine.cycles(1).outcome,
        Outcome::Interrupted(Kind::Line(8))
    );
}

#[test]
fn links_and_skips() {
    let mut machine = Machine::new();
    machine.execute(instruction(JL, 3, 0, 0, 41));
    assert_eq!((machine.store[3], machine.control.ic), (18, 40));
    machine.execute(instruction(SX, 0, 0, 0, 7));
    assert_eq!(machine.control.ic, 44);
    machine.execute(instruction(SP, 0, 0, 0, 7));
    assert_eq!(machine.control.ic, 46);
}

#[test]
fn shifts_by_64_and_more_go_48_places() {
    let mut machine = Machine::with_registers([1, 0, 0, 0]);
    machine.execute(instruction(AS, 0, 0, 0, 64));
    assert_eq!((machine.store[0], machine.control.ex), (0, 2));
    let mut machine = Machine::with_registers([8_388_608, 0, 0, 0]);
    machine.execute(instruction(AS, 0, 0, 0, -2048));
    assert_eq!((machine.store[0], machine.control.ex), (16_777_215, 0));
}

#[test]
fn normalizing() {
    let mut machine = Machine::with_registers([16_777_215, 0, 0, 0]);
    machine.execute(instruction(NS, 0, 0, 0, 40));
    assert_eq!(machine.store[0], 8_388_608);
    assert_eq!(machine.store[20], (4096 - 23) << 12);
    let mut machine = Machine::with_registers([16_777_215, 16_777_215, 0, 0]);
    machine.execute(instruction(ND, 1, 0, 0, 41));
    assert_eq!(machine.store[..2], [8_388_608, 0]);
    assert_eq!(machine.store[20], 4096 - 47);
    let mut machine = Machine::new();
    machine.execute(instruction(NS, 1, 0, 0, 41));
    assert_eq!(machine.store[20], 2048);
}

#[test]
fn floating() {
    // 0.5 * 2**1 = 1 in W0, W1; 0.5 * 2**2 = 2 in W2, W3.
    let one_and_two = [4_194_304, 1, 4_194_304, 2];
    let mut machine = Machine::with_registers(one_and_two);
    machine.execute(instruction(FA, 1, 0, 0, 6));
    assert_eq!(machine.store[..2], [6_291_456, 2]);
    let mut machine = Machine::with_registers(one_and_two);
    machine.execute(instruction(FM, 1, 0, 0, 6));
    assert_eq!(machine.store[..2], [4_194_304, 2]);
    // As printed, the quotient has half its true value.
    let mut machine = Machine::with_registers(one_and_two);
    machine.execute(instruction(FD, 3, 0, 0, 2));
    assert_eq!(machine.store[2..4], [4_194_304, 1]);
    let mut machine = Machine::with_registers([6_291_456, 2, 0, 0]);
    machine.execute(instruction(CF, 1, 0, 0, 0));
    assert_eq!(machine.store[..2], [6_291_456, 3]);
}

#[test]
fn keys() {
    let mut machine = Machine::new();
    machine.control.pending = 5;
    machine.store[7] = 41;
    press_reset(&mut machine.store, &mut machine.control).unwrap();
    let reset = Control {
        ic: 16,
        ..Control::fresh()
    };
    assert_eq!((machine.store[5], machine.control), (16, reset));
    machine.control.ic = 20;
    press_reset(&mut machine.store, &mut machine.control).unwrap();
    assert_eq!(machine.store[5], 16);
    press_start(&mut machine.store, &mut machine.control).unwrap();
    assert_eq!((machine.control.ic, machine.control.reset), (40, false));
    machine.store[7] = 4;
    press_start(&mut machine.store, &mut machine.control).unwrap();
    assert_eq!(machine.control.ic, 40);
}

#[test]
fn a_run_in_the_reset_state_takes_the_lines() {
    let mut store = [0; 8];
    let mut control = Control::fresh();
    let report = run_alone(&mut store, &mut control, bit(9), 0).unwrap();
    assert_eq!(report.outcome, Outcome::Reset);
    assert_eq!(control.ir, bit(9));
}

/// A run with too large a budget, too large a character and too wide a device
/// buffer register that is refused and changes nothing.
fn refused(store: &[u32], control: Control, lines: u32, refusal: Refusal) {
    let (mut cells, mut after) = (store.to_vec(), control);
    let given = Devices {
        reader: 1 << 24,
        typewriter: u32::MAX,
    };
    let (mut devices, mut typing) = (given, [5, 6]);
    let answer = run(
        &mut cells,
        &mut after,
        lines,
        65_536,
        &mut devices,
        &[64],
        &mut typing,
    );
    assert_eq!(answer, Err(refusal));
    assert_eq!((&cells[..], after), (store, control));
    assert_eq!((devices, typing), (given, [5, 6]));
}

#[test]
fn refusals_come_in_their_order_and_change_nothing() {
    let good_store = [0; 8];
    let mut bad_store = good_store;
    bad_store[7] = 134_217_728;
    let good_control = Control::fresh();
    let bad_control = Control {
        pr: 127,
        ..good_control
    };
    refused(&[u32::MAX; 7], bad_control, bit(0), Refusal::StoreSize);
    refused(&bad_store, bad_control, bit(1), Refusal::CellValue);
    refused(&good_store, bad_control, bit(2), Refusal::ControlField);
    refused(&good_store, good_control, 1 << 24, Refusal::Lines);
    refused(&good_store, good_control, bit(3), Refusal::Budget);
}
