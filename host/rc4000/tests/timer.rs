//! Elapsed time and interval timer.

use rc4000::{line, Control, Kind, Machine, Outcome, Refusal};

/// A loop at 16: AL W1 X1 1, which takes 20, and JL. -2, which takes 35; the
/// interruption program at 40.
fn looping() -> Machine {
    let mut machine = Machine::fresh(32);
    machine.set_word(16, 11 << 18 | 1 << 16 | 1 << 12 | 1);
    machine.set_word(18, 13 << 18 | 2 << 14 | 4094);
    machine.set_word(Control::INTERRUPTION_PROGRAM, 40);
    machine.control.ic = 16;
    machine.control.reset = false;
    machine.control.enabled = true;
    machine
}

#[test]
fn the_line_is_raised_at_the_end_of_an_interval() {
    let mut machine = looping();
    machine.control.im = line(5);
    machine.control.set_interval(1000, 5);
    let report = machine.run_without_devices(0, 65_535).unwrap();
    assert_eq!(report.outcome, Outcome::Interrupted(Kind::Line(10)));
    assert_eq!((report.executed, machine.control.ic), (37, 40));
    let Control { elapsed, phase, .. } = machine.control;
    assert_eq!((elapsed, phase), (1010 + 75, 10 + 75));
}

#[test]
fn a_masked_line_stands() {
    let mut machine = looping();
    machine.control.elapsed = u32::MAX;
    machine.control.set_interval(7, 23);
    let report = machine.run_without_devices(0, 2).unwrap();
    assert_eq!(report.outcome, Outcome::Spent);
    let left = Control {
        ir: line(23),
        elapsed: 54,
        period: 7,
        phase: 55 % 7,
        line: 23,
        ..looping().control
    };
    assert_eq!(machine.control, left);
}

#[test]
fn without_a_period_phase_and_line_are_kept() {
    let mut machine = looping();
    machine.control.phase = 77;
    machine.control.line = 255;
    machine.run_without_devices(0, 2).unwrap();
    let Control {
        elapsed,
        phase,
        line,
        ..
    } = machine.control;
    assert_eq!((elapsed, phase, line), (55, 77, 255));
}

#[test]
fn refusals() {
    let mut machine = looping();
    for (period, phase, line) in [(1, 0, 2), (1, 0, 24), (9, 9, 3), (1, u32::MAX, 3)] {
        machine.control.set_interval(period, line);
        machine.control.phase = phase;
        let given = machine.clone();
        assert_eq!(machine.press_start(), Err(Refusal::Timer));
        assert_eq!(machine.press_reset(), Err(Refusal::Timer));
        assert_eq!(machine.press_autoload(&[64]), Err(Refusal::Timer));
        assert_eq!(machine.write(None), Err(Refusal::Timer));
        let run = machine.run_without_devices(1 << 23, 65_536);
        assert_eq!(run, Err(Refusal::Timer));
        assert_eq!(machine, given);
        machine.control.pr = 127;
        assert_eq!(machine.press_start(), Err(Refusal::ControlField));
        machine.control.pr = 128;
    }
    assert_eq!(Refusal::Timer.number(), 18);
}
