//! The table and the edges of document 01.

mod common;

use common::{bit, instruction, run_alone, Machine};
use emulation::{Control, Kind, Outcome, Refusal};

const AL: u32 = 11;
const WA: u32 = 7;
const WM: u32 = 10;
const WD: u32 = 24;
const AC: u32 = 33;
const AA: u32 = 56;
const CI: u32 = 32;

#[test]
fn wa_overflow() {
    let mut machine = Machine::with_registers([8_388_607, 1, 0, 0]);
    machine.execute(instruction(WA, 0, 0, 0, 2));
    assert_eq!(machine.store[0], 8_388_608);
    assert_eq!(machine.control.ex, 2);
    assert_eq!(machine.control.ir, bit(1));
}

#[test]
fn wa_carry() {
    let mut machine = Machine::with_registers([16_777_215, 1, 0, 0]);
    machine.execute(instruction(WA, 0, 0, 0, 2));
    assert_eq!(machine.store[0], 0);
    assert_eq!(machine.control.ex, 1);
    assert_eq!(machine.control.ir, 0);
}

#[test]
fn wm_of_the_most_negative_word() {
    let mut machine = Machine::with_registers([0, 8_388_608, 0, 0]);
    machine.control.ex = 7;
    machine.execute(instruction(WM, 1, 0, 0, 2));
    assert_eq!(machine.store[..2], [4_194_304, 0]);
    assert_eq!(machine.control.ex, 7);
}

#[test]
fn wd_of_a_negative_pair() {
    let mut machine = Machine::with_registers([16_777_215, 16_777_209, 2, 0]);
    machine.execute(instruction(WD, 1, 0, 0, 4));
    assert_eq!(machine.store[..2], [16_777_215, 16_777_213]);
}

#[test]
fn wd_by_zero() {
    let mut machine = Machine::with_registers([0, 5, 0, 0]);
    machine.execute(instruction(WD, 1, 0, 0, 4));
    assert_eq!(machine.store[..2], [0, 5]);
    assert_eq!(machine.control.ex, 2);
    assert_eq!(machine.control.ir, bit(1));
}

#[test]
fn wd_as_printed() {
    // The correction of an exact quotient goes up for a positive divisor.
    let mut machine = Machine::with_registers([0, 6, 3, 0]);
    machine.execute(instruction(WD, 1, 0, 0, 4));
    assert_eq!(machine.store[..2], [0, 4]);
}

#[test]
fn ac_of_the_most_negative_word() {
    let mut machine = Machine::with_registers([0, 8_388_608, 0, 0]);
    machine.execute(instruction(AC, 0, 0, 1, 0));
    assert_eq!(machine.store[0], 8_388_608);
    assert_eq!(machine.control.ex, 2);
}

#[test]
fn displacement_is_signed() {
    let mut machine = Machine::new();
    machine.execute(instruction(AL, 0, 0, 0, 4095));
    assert_eq!(machine.store[0], 16_777_215);
}

#[test]
fn relative_address_wraps() {
    let mut store = vec![0; 8_388_608];
    let mut control = Control {
        ic: 16_777_214,
        reset: false,
        ..Control::fresh()
    };
    store[8_388_607] = instruction(AL, 0, 2, 0, 4);
    run_alone(&mut store, &mut control, 0, 1).unwrap();
    assert_eq!(store[0], 2);
    assert_eq!(control.ic, 0);
}

#[test]
fn aa_reads_the_first_word_after_w_is_written() {
    let mut machine = Machine::with_registers([0, 1, 2, 0]);
    machine.execute(instruction(AA, 1, 0, 0, 4));
    assert_eq!(machine.store[..2], [3, 3]);
}

#[test]
fn ci_of_zero() {
    let mut machine = Machine::with_registers([7, 0, 0, 0]);
    machine.execute(instruction(CI, 1, 0, 0, 0));
    assert_eq!(machine.store[..2], [0, 2048]);
}

#[test]
fn ci_of_one() {
    let mut machine = Machine::with_registers([0, 1, 0, 0]);
    machine.execute(instruction(CI, 1, 0, 0, 0));
    assert_eq!(machine.store[..2], [4_194_304, 1]);
}

#[test]
fn left_most_line_first() {
    let mut machine = Machine::new();
    machine.control.ir = bit(3) | bit(5);
    machine.control.im = bit(3) | bit(5);
    machine.control.enabled = true;
    let report = machine.cycles(10);
    assert_eq!(report.outcome, Outcome::Interrupted(Kind::Line(6)));
    assert_eq!((report.executed, report.entries), (0, 1));
    assert_eq!(machine.store[4], 6);
    assert_eq!(machine.store[5], 16);
    assert_eq!(machine.control.ir, bit(5));
    assert_eq!(machine.control.ic, 62);
}

#[test]
fn eight_cells_pass_and_seven_do_not() {
    let mut control = Control::fresh();
    assert_eq!(
        run_alone(&mut [0; 7], &mut control, 0, 0),
        Err(Refusal::StoreSize)
    );
    assert!(run_alone(&mut [0; 8], &mut control, 0, 0).is_ok());
}

#[test]
fn byte_15_of_eight_cells_exists_and_16_does_not() {
    const BZ: u32 = 19;
    for (address, outcome) in [
        (15, Outcome::Spent),
        (16, Outcome::Interrupted(Kind::Exception)),
    ] {
        let mut store = vec![0; 8];
        store[7] = instruction(BZ, 0, 0, 0, address);
        let mut control = Control {
            ic: 14,
            reset: false,
            ..Control::fresh()
        };
        let report = run_alone(&mut store, &mut control, 0, 1).unwrap();
        assert_eq!(report.outcome, outcome);
    }
}

#[test]
fn budget_65535_passes_and_65536_does_not() {
    let mut store = vec![0; 8];
    let mut control = Control::fresh();
    assert!(run_alone(&mut store, &mut control, 0, 65_535).is_ok());
    assert_eq!(
        run_alone(&mut store, &mut control, 0, 65_536),
        Err(Refusal::Budget)
    );
}
