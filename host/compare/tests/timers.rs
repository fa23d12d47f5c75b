//! Machines with one flaw in their times or timers each.

use compare::{compare, Coverage};
use protocol::{Control, Devices, Emulation, Machine, Outcome, Refusal, Report};

/// What is wrong with a machine.
#[derive(Clone, Copy, Debug, PartialEq)]
enum Flaw {
    Nothing,
    ElapsedStopsAtItsEnd,
    EntryTakesNothing,
    PhaseLessOnePeriod,
    PhaseOf32Bits,
    PeriodPassedOnly,
    LineNotRaisedInEntry,
    LineNotRaisedInReset,
    LineNotRaisedWhereMasked,
    PhaseRunsWhileOff,
    LineOf5BitsWhileOff,
    ResetKeyClearsPhase,
    StartKeyClearsElapsed,
    AutoloadKeyTakesTime,
    Line24Passes,
    PhaseOfThePeriodPasses,
    TimerTestedFirst,
    TimerTestedLast,
    TimerNotTestedByKeys,
    TapeKeepsElapsed,
    TapeDropsTimer,
    TapeTimerNotTested,
    WritesTimerOff,
}

const FLAWS: [Flaw; 22] = [
    Flaw::ElapsedStopsAtItsEnd,
    Flaw::EntryTakesNothing,
    Flaw::PhaseLessOnePeriod,
    Flaw::PhaseOf32Bits,
    Flaw::PeriodPassedOnly,
    Flaw::LineNotRaisedInEntry,
    Flaw::LineNotRaisedInReset,
    Flaw::LineNotRaisedWhereMasked,
    Flaw::PhaseRunsWhileOff,
    Flaw::LineOf5BitsWhileOff,
    Flaw::ResetKeyClearsPhase,
    Flaw::StartKeyClearsElapsed,
    Flaw::AutoloadKeyTakesTime,
    Flaw::Line24Passes,
    Flaw::PhaseOfThePeriodPasses,
    Flaw::TimerTestedFirst,
    Flaw::TimerTestedLast,
    Flaw::TimerNotTestedByKeys,
    Flaw::TapeKeepsElapsed,
    Flaw::TapeDropsTimer,
    Flaw::TapeTimerNotTested,
    Flaw::WritesTimerOff,
];

/// The emulation with one flaw.
struct Flawed(Flaw);

/// The record with a timer that passes.
fn without_timer(control: Control) -> Control {
    Control {
        period: 0,
        ..control
    }
}

fn is_refused(control: &Control) -> bool {
    control.period != 0 && (!(3..=23).contains(&control.line) || control.phase >= control.period)
}

impl Flawed {
    /// The record that is handed to the emulation in place of this one.
    fn handed(&self, control: Control) -> Control {
        let passes = match self.0 {
            Flaw::Line24Passes => control.line == 24 && control.phase < control.period,
            Flaw::PhaseOfThePeriodPasses => {
                (3..=23).contains(&control.line) && control.phase == control.period
            }
            _ => false,
        };
        if passes {
            without_timer(control)
        } else {
            control
        }
    }

    /// What one cycle, before which the record was `before`, leaves.
    fn spoil_cycle(&self, before: &Control, control: &mut Control, outcome: Outcome) {
        let time = control.elapsed.wrapping_sub(before.elapsed);
        let (sum, period) = (
            u64::from(before.phase) + u64::from(time),
            u64::from(before.period),
        );
        let raised = period != 0 && sum >= period;
        let bit = 8_388_608_u32 >> before.line.min(23);
        let entry = matches!(outcome, Outcome::Interrupted(_));
        let lowers = match self.0 {
            Flaw::PeriodPassedOnly => sum == period,
            Flaw::LineNotRaisedInEntry => entry,
            Flaw::LineNotRaisedInReset => outcome == Outcome::Reset,
            Flaw::LineNotRaisedWhereMasked => before.im & bit == 0,
            _ => false,
        };
        if raised && lowers {
            control.ir &= !bit;
        }
        match self.0 {
            Flaw::ElapsedStopsAtItsEnd => control.elapsed = before.elapsed.saturating_add(time),
            Flaw::EntryTakesNothing if entry => control.elapsed = before.elapsed,
            Flaw::PhaseLessOnePeriod if raised => control.phase = (sum - period) as u32,
            Flaw::PhaseOf32Bits if raised => control.phase = sum as u32 % before.period,
            Flaw::PhaseRunsWhileOff if period == 0 => control.phase = sum as u32,
            Flaw::LineOf5BitsWhileOff if period == 0 => control.line &= 31,
            _ => (),
        }
    }

    /// The refusal of a run.
    fn refused(&self, refusal: Refusal, control: &Control, lines: u32) -> Refusal {
        match (self.0, refusal) {
            (Flaw::TimerTestedFirst, Refusal::ControlField) if is_refused(control) => {
                Refusal::Timer
            }
            (Flaw::TimerTestedLast, Refusal::Timer) if lines >> 21 != 0 => Refusal::Lines,
            _ => refusal,
        }
    }
}

impl Machine for Flawed {
    fn run(
        &self,
        store: &mut [u32],
        control: &mut Control,
        lines: u32,
        budget: u32,
        devices: &mut Devices,
        characters: &[u8],
        typing: &mut [u8],
    ) -> Result<Report, Refusal> {
        let given = *control;
        *control = self.handed(given);
        let before = *control;
        let result = Emulation.run(store, control, lines, budget, devices, characters, typing);
        let report = result.map_err(|refusal| {
            *control = given;
            self.refused(refusal, &given, lines)
        })?;
        if report.executed + report.entries == 1 {
            self.spoil_cycle(&before, control, report.outcome);
        }
        Ok(report)
    }

    fn press_reset(&self, store: &mut [u32], control: &mut Control) -> Result<(), Refusal> {
        if self.0 == Flaw::TimerNotTestedByKeys && is_refused(control) {
            return Ok(());
        }
        Emulation.press_reset(store, control)?;
        if self.0 == Flaw::ResetKeyClearsPhase {
            control.phase = 0;
        }
        Ok(())
    }

    fn press_start(&self, store: &mut [u32], control: &mut Control) -> Result<(), Refusal> {
        Emulation.press_start(store, control)?;
        if self.0 == Flaw::StartKeyClearsElapsed {
            control.elapsed = 0;
        }
        Ok(())
    }

    fn press_autoload(
        &self,
        store: &mut [u32],
        control: &mut Control,
        devices: &mut Devices,
        characters: &[u8],
    ) -> Result<usize, Refusal> {
        let taken = Emulation.press_autoload(store, control, devices, characters)?;
        if self.0 == Flaw::AutoloadKeyTakesTime && taken > 0 {
            control.elapsed = control.elapsed.wrapping_add(1);
        }
        Ok(taken)
    }

    fn load(&self, store: &mut [u32], control: &mut Control, tape: &[u8]) -> Result<(), Refusal> {
        let result = Emulation.load(store, control, tape);
        match (self.0, result) {
            (Flaw::TapeTimerNotTested, Err(Refusal::Timer)) => return Ok(()),
            (_, Err(refusal)) => return Err(refusal),
            (Flaw::TapeKeepsElapsed, _) => control.elapsed = 0,
            (Flaw::TapeDropsTimer, _) => control.period = 0,
            _ => (),
        }
        Ok(())
    }

    fn overlay(
        &self,
        store: &mut [u32],
        control: &mut Control,
        tape: &[u8],
    ) -> Result<(), Refusal> {
        Emulation.overlay(store, control, tape)
    }

    fn remark<'t>(&self, tape: &'t [u8], cells: usize) -> Result<Option<&'t [u8]>, Refusal> {
        Emulation.remark(tape, cells)
    }

    fn write(
        &self,
        store: &[u32],
        control: Control,
        remark: Option<&[u8]>,
        tape: &mut [u8],
    ) -> Result<usize, Refusal> {
        let written = match self.0 {
            Flaw::WritesTimerOff if !is_refused(&control) => without_timer(control),
            _ => control,
        };
        Emulation.write(store, written, remark, tape)
    }

    fn assemble(&self, line: &[u8]) -> Result<u32, Refusal> {
        Emulation.assemble(line)
    }
}

#[test]
fn each_flaw_is_found() {
    for flaw in FLAWS {
        let mut coverage = Coverage::default();
        let result = compare(Flawed(flaw), Emulation, 1, 100_000, &mut coverage);
        assert!(result.is_err(), "{flaw:?} not found");
    }
}

#[test]
fn without_a_flaw_nothing_is_found() {
    let mut coverage = Coverage::default();
    let result = compare(Flawed(Flaw::Nothing), Emulation, 1, 20_000, &mut coverage);
    assert!(result.is_ok());
}

/// A written tape has to give the timer back, where both write it off too.
#[test]
fn a_timer_that_both_write_off_is_found() {
    let [tested, expected] = [0; 2].map(|_| Flawed(Flaw::WritesTimerOff));
    let mut coverage = Coverage::default();
    assert!(compare(tested, expected, 1, 100_000, &mut coverage).is_err());
}
