//! Execution times, elapsed time and interval timer.

mod common;

use common::{bit, instruction, Machine};
use emulation::{
    press_autoload, press_reset, press_start, run, Control, Devices, Kind, Outcome, Refusal,
};

/// A.3 in microseconds, as printed, a jump by its upper end.
const PRINTED: [(&[u32], f64); 20] = [
    (&[9], 2.0),                                        // AM
    (&[11], 1.5),                                       // AL
    (&[33, 47], 2.5),                                   // AC IC
    (&[2, 3, 4, 5, 7, 8, 12, 16, 19, 20, 22, 28], 3.0), // BL HL LA LO WA WS ML XL BZ RL KL PL
    (&[13, 14, 15, 21, 40, 41, 42, 43, 45, 46], 3.0),   // JL JD JE SP SH SL SE SN SZ SX
    (&[17, 18, 44], 3.5),                               // BS BA SO
    (&[6, 23, 26, 27, 29, 30, 31, 51], 4.0),            // LX RS HS XS PS MS IS KS
    (&[25], 4.5),                                       // RX
    (&[54, 56, 57], 5.0),                               // DL AA SS
    (&[55], 7.0),                                       // DS
    (&[10], 15.5),                                      // WM
    (&[24], 17.0),                                      // WD
    (&[48, 49], 11.0),                                  // FA FS
    (&[50], 26.0),                                      // FM
    (&[52], 27.0),                                      // FD
    (&[32], 4.0),                                       // CI
    (&[53], 5.0),                                       // CF
    (&[36, 38], 3.0),                                   // AS LS
    (&[37, 39], 3.5),                                   // AD LD
    (&[34], 5.0),                                       // NS
];

const ND: u32 = 35;

/// The time of one instruction at 16, with the index register W3.
fn time(registers: [u32; 4], instruction: u32) -> u32 {
    let mut machine = Machine::with_registers(registers);
    machine.control.elapsed = 1000;
    let report = machine.execute(instruction);
    assert_eq!(report.outcome, Outcome::Spent, "{instruction}");
    machine.control.elapsed - 1000
}

/// The code with M and X, its direct address 20, which holds 20.
fn time_with(code: u32, m: u32, x: u32) -> u32 {
    let relative = if m >= 2 { 16 } else { 0 };
    let indexed = if x != 0 { 8 } else { 0 };
    let d = 20 - relative - indexed;
    let mut machine = Machine::with_registers([0, 0, 0, 8]);
    machine.store[10] = 20;
    let report = machine.execute(instruction(code, 1, m, x, d));
    assert_eq!((report.outcome, report.executed), (Outcome::Spent, 1));
    machine.control.elapsed
}

#[test]
fn printed_times() {
    let mut codes = 0;
    for (list, microseconds) in PRINTED {
        for &code in list {
            // No shift: amount 0, or a zero to normalize, or exponent 0 and
            // scale 23.
            let d = match code {
                36..=39 => 0,
                53 => 23,
                _ => 20,
            };
            let tenths = (microseconds * 10.0) as u32;
            assert_eq!(
                time([0; 4], instruction(code, 1, 0, 0, d)),
                tenths,
                "{code}"
            );
            codes += 1;
        }
    }
    assert_eq!(time([0; 4], instruction(ND, 1, 0, 0, 20)), 55);
    // All but ND, IO and AW.
    assert_eq!(codes, 58 - 3);
}

#[test]
fn address_modification() {
    for (code, direct, indirect) in [(11, 15, 15), (20, 30, 15), (40, 30, 10), (54, 50, 15)] {
        for m in 0..4 {
            for x in [0, 3] {
                let sums = [[0, 5], [5, 15]][m as usize / 2][x as usize / 3];
                let expected = direct + sums + if m % 2 == 1 { indirect } else { 0 };
                assert_eq!(time_with(code, m, x), expected, "{code} {m} {x}");
            }
        }
    }
}

#[test]
fn jumps_take_the_same_without_a_link() {
    for code in [13, 14, 15] {
        for w in [0, 1] {
            assert_eq!(time([0; 4], instruction(code, w, 0, 0, 20)), 30);
        }
    }
}

#[test]
fn shifts() {
    for (code, none) in [(36, 30), (37, 35), (38, 30), (39, 35)] {
        for (amount, count) in [
            (0, 0),
            (1, 1),
            (-1, 1),
            (63, 63),
            (-63, 63),
            (64, 48),
            (-2048, 48),
        ] {
            let shifted = time([5; 4], instruction(code, 1, 0, 0, amount));
            assert_eq!(shifted, none + 5 * count, "{code} {amount}");
        }
    }
    for (register, count) in [(0, 0), (1, 22), (4_194_304, 0), (16_777_215, 23)] {
        let registers = [register, register, 0, 0];
        assert_eq!(
            time(registers, instruction(34, 1, 0, 0, 40)),
            50 + 5 * count
        );
        assert_eq!(time(registers, instruction(32, 1, 0, 0, 0)), 40 + 5 * count);
    }
    for (pair, count) in [
        ([0, 0], 0),
        ([0, 1], 46),
        ([16_777_215; 2], 47),
        ([4_194_304, 0], 0),
    ] {
        let registers = [pair[0], pair[1], 0, 0];
        assert_eq!(
            time(registers, instruction(35, 1, 0, 0, 40)),
            55 + 5 * count
        );
    }
}

/// CF shifts 23 - SB - exponent times where that is 1 to 63.
#[test]
fn shifts_of_cf() {
    for (fraction, count, shifts) in [
        (0, 0, 0),
        (0, 1, 1),
        (0, 63, 63),
        (0, 64, 0),
        (0, -1, 0),
        (4_194_304, 23, 23),
        (4_194_304, 63, 63),
        (4_194_304, 64, 0),
        (4_194_304, -1, 0),
    ] {
        let registers = [fraction, 0, 0, 0];
        let taken = time(registers, instruction(53, 1, 0, 0, 23 - count));
        assert_eq!(taken, 50 + 5 * shifts, "{fraction} {count}");
    }
}

#[test]
fn input_and_output() {
    for (device, command, expected) in [
        (0, 0, 70),
        (0, 1, 65),
        (0, 2, 50),
        (0, 3, 65),
        (1, 0, 70),
        (1, 1, 65),
        (1, 2, 50),
        (1, 3, 65),
        (2, 0, 40),
        (2, 1, 40),
        (2, 2, 40),
        (2, 3, 40),
    ] {
        let mut machine = Machine::new();
        machine.characters = vec![1];
        machine.typing = vec![0];
        machine.execute(instruction(1, 0, 0, 0, 64 * device + command));
        assert_eq!(machine.control.elapsed, expected, "{device} {command}");
    }
    for address in [2, 67] {
        assert_eq!(time([0; 4], instruction(1, 0, 0, 0, address)), 40);
    }
}

#[test]
fn autoload_word_takes_what_its_address_does() {
    for characters in [3, 4] {
        let mut machine = Machine::new();
        machine.characters = vec![1; characters];
        machine.execute(instruction(0, 0, 2, 0, 4));
        assert_eq!(machine.control.reset, characters == 3);
        assert_eq!(machine.control.elapsed, 5);
    }
}

#[test]
fn an_entry_takes_75_and_the_instruction_that_failed_nothing() {
    let mut machine = Machine::new();
    // LD by 63 through an absent address.
    machine.execute(instruction(39, 0, 1, 0, 200));
    assert_eq!(machine.control.elapsed, 75);
    let mut machine = Machine::with_registers([1, 0, 0, 0]);
    // NS shifts, then finds no cell for its count.
    machine.execute(instruction(34, 0, 0, 0, 200));
    assert_eq!((machine.control.elapsed, machine.store[0]), (75, 4_194_304));
    let mut machine = Machine::new();
    machine.control.enabled = true;
    machine.control.im = bit(5);
    machine.control.ir = bit(5);
    assert_eq!(
        machine.cycles(1).outcome,
        Outcome::Interrupted(Kind::Line(10))
    );
    assert_eq!(machine.control.elapsed, 75);
}

/// AL of 15 units with this timer: elapsed, phase and IR.
fn after_15(period: u32, phase: u32, line: u8) -> (u32, u32, u32) {
    let mut machine = Machine::new();
    machine.control = Control {
        elapsed: u32::MAX - 4,
        period,
        phase,
        line,
        ..machine.control
    };
    machine.execute(instruction(11, 0, 0, 0, 0));
    let Control {
        elapsed, phase, ir, ..
    } = machine.control;
    assert_eq!(
        (machine.control.period, machine.control.line),
        (period, line)
    );
    (elapsed, phase, ir)
}

#[test]
fn phases() {
    for (period, phase, line, phase_after, raised) in [
        (0, 0, 0, 0, false),
        (0, 77, 255, 77, false),
        (16, 0, 3, 15, false),
        (15, 0, 3, 0, true),
        (14, 0, 23, 1, true),
        (100, 84, 5, 99, false),
        (100, 85, 5, 0, true),
        (100, 99, 5, 14, true),
        (1, 0, 4, 0, true),
        (4, 3, 4, 2, true),
        (u32::MAX, u32::MAX - 1, 9, 14, true),
        (u32::MAX, u32::MAX - 16, 9, u32::MAX - 1, false),
    ] {
        let ir = if raised { bit(line.into()) } else { 0 };
        assert_eq!(
            after_15(period, phase, line),
            (10, phase_after, ir),
            "{period} {phase}"
        );
    }
}

/// A machine with interrupts enabled and a timer on line 5, masked in.
fn timed(period: u32, phase: u32) -> Machine {
    let mut machine = Machine::new();
    machine.control = Control {
        period,
        phase,
        line: 5,
        im: bit(5),
        enabled: true,
        ..machine.control
    };
    machine
}

#[test]
fn the_line_is_looked_at_from_the_next_cycle_on() {
    let mut machine = timed(100, 85);
    machine.store[8] = instruction(11, 0, 0, 0, 0);
    machine.store[9] = instruction(11, 0, 0, 0, 0);
    let report = machine.cycles(5);
    assert_eq!(report.outcome, Outcome::Interrupted(Kind::Line(10)));
    assert_eq!((report.executed, machine.store[5]), (1, 18));
    assert_eq!((machine.control.elapsed, machine.control.phase), (90, 75));
}

#[test]
fn an_entry_raises_the_line_that_it_cleared() {
    let mut machine = timed(75, 0);
    machine.control.ir = bit(5);
    assert_eq!(
        machine.cycles(1).outcome,
        Outcome::Interrupted(Kind::Line(10))
    );
    assert_eq!((machine.control.ir, machine.control.phase), (bit(5), 0));
}

/// AW with no characters, and IC that clears every line.
#[test]
fn the_line_is_raised_after_everything_else_of_the_cycle() {
    for (word, period) in [
        (instruction(0, 0, 2, 0, 0), 5),
        (instruction(47, 0, 0, 0, -1), 25),
    ] {
        let mut machine = timed(period, 0);
        machine.control.enabled = false;
        machine.control.ir = bit(5) | bit(9);
        machine.execute(word);
        let kept = if machine.control.reset { bit(9) } else { 0 };
        assert_eq!(machine.control.ir, bit(5) | kept);
        assert_eq!(machine.control.phase, 0);
    }
}

#[test]
fn keys_take_no_time() {
    let given = Control {
        elapsed: 1,
        period: 2,
        phase: 1,
        line: 3,
        ..Control::fresh()
    };
    let (mut store, mut control) = ([0; 8], given);
    let mut devices = Devices::default();
    press_start(&mut store, &mut control).unwrap();
    press_reset(&mut store, &mut control).unwrap();
    assert_eq!(control, given);
    press_autoload(&mut store, &mut control, &mut devices, &[1; 4]).unwrap();
    assert_eq!(
        control,
        Control {
            reset: false,
            ..given
        }
    );
}

/// 18 is given by every call that tests the record, after 3 and before 4 and 13.
#[test]
fn refusals() {
    let late = Control {
        period: 9,
        phase: 9,
        line: 3,
        ..Control::fresh()
    };
    let wrong = Control { ex: 8, ..late };
    for (given, refusal) in [(late, Refusal::Timer), (wrong, Refusal::ControlField)] {
        let (mut store, mut control) = ([0; 8], given);
        let mut devices = Devices {
            reader: u32::MAX,
            typewriter: 0,
        };
        let ran = run(
            &mut store,
            &mut control,
            1 << 23,
            0,
            &mut devices,
            &[],
            &mut [],
        );
        assert_eq!(ran, Err(refusal));
        assert_eq!(press_reset(&mut store, &mut control), Err(refusal));
        assert_eq!(press_start(&mut store, &mut control), Err(refusal));
        let loaded = press_autoload(&mut store, &mut control, &mut devices, &[]);
        assert_eq!(loaded, Err(refusal));
        assert_eq!((store, control), ([0; 8], given));
    }
}
