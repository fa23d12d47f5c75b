//! What cases were about, as far as elapsed time and timer go: names for
//! `Coverage`.

use crate::coverage::holding;
use emulation::Refusal;
use protocol::{Answer, Control, Kind, Outcome, Run, Write};

/// All names that the functions here give.
pub const TIMER_EVENTS: [&str; 49] = [
    "elapsed time wrapped",
    "timer off: phase kept",
    "timer off: line kept",
    "timer off: line over 23",
    "timer: one short of the period",
    "timer: period reached",
    "timer: period passed",
    "timer: several periods in one cycle",
    "timer: phase and time over 32 bits",
    "timer: raised a line that stands",
    "timer: raised a masked line",
    "timer: raised with interrupts disabled",
    "timer: raised behind AM",
    "timer: raised in task mode",
    "timer: raised and taken in the next cycle",
    "timer: raised in the entry of a line",
    "timer: raised on the line that the entry cleared",
    "timer: raised in the entry of an exception",
    "timer: raised in the cycle that brings the reset state",
    "timer: raised in the cycle of an IC with its bit",
    "18 by a line under 3",
    "18 by a line over 23",
    "18 by a phase equal to the period",
    "18 by a phase over the period",
    "run: 3 before 18",
    "run: 18 before 4",
    "run: 18 before 5",
    "run: 18 before 13",
    "reset key: 3 before 18",
    "start key: 3 before 18",
    "autoload key: 3 before 18",
    "autoload key: 18 before 13",
    "write: 3 before 18",
    "write: 18 before 14",
    "write: 18 before 16",
    "written with an elapsed time",
    "written with the timer on",
    "written with the timer off, phase and line",
    "tape: control record of 20 bytes",
    "tape: control record of 33 bytes, timer on",
    "tape: control record of 33 bytes, timer off",
    "tape: control record of 33 bytes, timer off, phase and line",
    "tape: control record of one byte more or less than 20 or 33",
    "tape: 33 bytes of which the twentieth is not zero",
    "tape: 3 before 18",
    "tape: 18 by a line under 3",
    "tape: 18 by a line over 23",
    "tape: 18 by a phase equal to the period",
    "tape: 18 by a phase over the period",
];

/// The names for the causes of 18 in `TIMER_EVENTS`, of a call and of a tape.
const CAUSES: std::ops::Range<usize> = 20..24;
const CAUSES_ON_TAPE: std::ops::Range<usize> = 45..49;

/// Phase and time of a cycle together.
fn sum(before: &Control, after: &Control) -> u64 {
    let time = after.elapsed.wrapping_sub(before.elapsed);
    u64::from(before.phase) + u64::from(time)
}

/// Whether the timer raises its line in a cycle.
pub fn raises(before: &Control, after: &Control) -> bool {
    before.period != 0 && sum(before, after) >= u64::from(before.period)
}

/// The cycles of a run one after the other.
#[derive(Default)]
pub struct Watch {
    /// The cycle before raised the line, which did not stand.
    raised: bool,
}

impl Watch {
    /// What a cycle was about. `cleared` are the bits of IR that the instruction it
    /// met would clear.
    pub fn cycle(
        &mut self,
        before: &Control,
        after: &Control,
        outcome: Outcome,
        cleared: u32,
    ) -> Vec<&'static str> {
        let mut events = holding(&[(after.elapsed < before.elapsed, "elapsed time wrapped")]);
        if before.period == 0 {
            events.extend(off_events(before));
            return events;
        }
        let line = u32::from(before.line);
        let bit = 1 << (23 - line);
        let taken = outcome == Outcome::Interrupted(Kind::Line(2 * line));
        let next = self.raised && taken;
        events.extend(holding(&[(
            next,
            "timer: raised and taken in the next cycle",
        )]));
        let raised = raises(before, after);
        self.raised = raised && before.ir & bit == 0;
        events.extend(phase_events(before, after));
        if raised {
            events.extend(state_events(before, after, bit, taken));
            events.extend(outcome_events(outcome, taken, cleared & bit != 0));
        }
        events
    }
}

/// A cycle with the timer off.
fn off_events(before: &Control) -> Vec<&'static str> {
    holding(&[
        (before.phase != 0, "timer off: phase kept"),
        (before.line != 0, "timer off: line kept"),
        (before.line > 23, "timer off: line over 23"),
    ])
}

/// How phase and time of a cycle lie to the period.
fn phase_events(before: &Control, after: &Control) -> Vec<&'static str> {
    let (sum, period) = (sum(before, after), u64::from(before.period));
    holding(&[
        (sum + 1 == period, "timer: one short of the period"),
        (sum == period, "timer: period reached"),
        (period < sum && sum < 2 * period, "timer: period passed"),
        (sum >= 2 * period, "timer: several periods in one cycle"),
        (
            sum > u64::from(u32::MAX),
            "timer: phase and time over 32 bits",
        ),
    ])
}

/// The state of the machine in which the line with this bit is raised.
fn state_events(before: &Control, after: &Control, bit: u32, taken: bool) -> Vec<&'static str> {
    let stands = before.ir & bit != 0 && !taken;
    let masked_in = after.im & bit != 0;
    holding(&[
        (stands, "timer: raised a line that stands"),
        (!masked_in, "timer: raised a masked line"),
        (
            masked_in && !after.enabled,
            "timer: raised with interrupts disabled",
        ),
        (after.pending != 0, "timer: raised behind AM"),
        (!after.monitor, "timer: raised in task mode"),
    ])
}

/// What became of the cycle in which the line is raised.
fn outcome_events(outcome: Outcome, taken: bool, cleared: bool) -> Vec<&'static str> {
    let of_line = matches!(outcome, Outcome::Interrupted(Kind::Line(_)));
    let exception = outcome == Outcome::Interrupted(Kind::Exception);
    let reset = outcome == Outcome::Reset;
    let cleared = cleared && outcome == Outcome::Spent;
    holding(&[
        (of_line, "timer: raised in the entry of a line"),
        (taken, "timer: raised on the line that the entry cleared"),
        (exception, "timer: raised in the entry of an exception"),
        (
            reset,
            "timer: raised in the cycle that brings the reset state",
        ),
        (cleared, "timer: raised in the cycle of an IC with its bit"),
    ])
}

/// Why 18 stands, in the order of the names.
fn causes(timer: &Control) -> [bool; 4] {
    let on = timer.period != 0;
    [
        on && timer.line < 3,
        on && timer.line > 23,
        on && timer.phase == timer.period,
        on && timer.phase > timer.period,
    ]
}

fn stands(timer: &Control) -> bool {
    causes(timer).contains(&true)
}

/// The names of the causes that stand.
fn named_causes(timer: &Control, names: std::ops::Range<usize>) -> Vec<&'static str> {
    let names = TIMER_EVENTS[names].iter().zip(causes(timer));
    names
        .filter(|&(_, holds)| holds)
        .map(|(&name, _)| name)
        .collect()
}

/// What a call with a control record was about that may be refused with 3 or 18.
fn record_events(control: &Control, answer: &Answer, both: &'static str) -> Vec<&'static str> {
    match answer {
        Answer::Refused(Refusal::Timer) => named_causes(control, CAUSES),
        Answer::Refused(Refusal::ControlField) => holding(&[(stands(control), both)]),
        _ => Vec::new(),
    }
}

/// What a run was about before its first cycle.
pub fn run_timer_events(run: &Run, answer: &Answer) -> Vec<&'static str> {
    let mut events = record_events(&run.control, answer, "run: 3 before 18");
    if let Answer::Refused(Refusal::Timer) = answer {
        let character = run.characters.iter().any(|&character| character > 63);
        events.extend(holding(&[
            (run.lines >> 21 != 0, "run: 18 before 4"),
            (run.budget > 65_535, "run: 18 before 5"),
            (character, "run: 18 before 13"),
        ]));
    }
    events
}

/// What the reset key was about.
pub fn reset_key_events(control: &Control, answer: &Answer) -> Vec<&'static str> {
    record_events(control, answer, "reset key: 3 before 18")
}

/// What the start key was about.
pub fn start_key_events(control: &Control, answer: &Answer) -> Vec<&'static str> {
    record_events(control, answer, "start key: 3 before 18")
}

/// What the autoload key was about.
pub fn autoload_key_events(
    control: &Control,
    characters: &[u8],
    answer: &Answer,
) -> Vec<&'static str> {
    let mut events = record_events(control, answer, "autoload key: 3 before 18");
    if let Answer::Refused(Refusal::Timer) = answer {
        let character = characters.iter().any(|&character| character > 63);
        events.extend(holding(&[(character, "autoload key: 18 before 13")]));
    }
    events
}

/// What a request to write was about.
pub fn written_timer_events(write: &Write, answer: &Answer) -> Vec<&'static str> {
    let control = &write.control;
    let mut events = record_events(control, answer, "write: 3 before 18");
    let (on, kept) = (control.period != 0, control.phase != 0 && control.line != 0);
    events.extend(match answer {
        Answer::Refused(Refusal::Timer) => {
            let remark = write.remark.as_ref().map_or(0, Vec::len);
            holding(&[
                (remark > 255, "write: 18 before 14"),
                (write.space == 0, "write: 18 before 16"),
            ])
        }
        Answer::Written(_) => holding(&[
            (control.elapsed != 0, "written with an elapsed time"),
            (on, "written with the timer on"),
            (!on && kept, "written with the timer off, phase and line"),
        ]),
        _ => Vec::new(),
    });
    events
}

/// The payload of the first record of a tape that is neither block nor remark,
/// where that is a control record.
fn control_payload(tape: &[u8]) -> Option<&[u8]> {
    let mut left = tape;
    loop {
        let length = u32::from_le_bytes(left.get(..4)?.try_into().ok()?) as usize;
        let kind = u16::from_le_bytes(left.get(4..6)?.try_into().ok()?);
        let payload = left.get(6..6 + length)?;
        match kind {
            1 | 4 => left = &left[6 + length..],
            2 => return Some(payload),
            _ => return None,
        }
    }
}

/// The timer of a payload of 33 bytes.
fn timer_of(payload: &[u8]) -> Option<Control> {
    let number = |place: usize| {
        let bytes = payload.get(place..place + 4)?.try_into().ok()?;
        Some(u32::from_le_bytes(bytes))
    };
    let timer = Control {
        elapsed: number(20)?,
        period: number(24)?,
        phase: number(28)?,
        line: *payload.get(32)?,
        ..Control::fresh()
    };
    (payload.len() == 33).then_some(timer)
}

/// What a tape was about.
pub fn tape_timer_events(tape: &[u8], answer: &Answer) -> Vec<&'static str> {
    let Some(payload) = control_payload(tape) else {
        return Vec::new();
    };
    let length = payload.len();
    match (answer, timer_of(payload)) {
        (Answer::Refused(Refusal::RecordLength), _) => holding(&[(
            [19, 21, 32, 34].contains(&length),
            "tape: control record of one byte more or less than 20 or 33",
        )]),
        (Answer::Refused(Refusal::ControlField), Some(timer)) => holding(&[
            (stands(&timer), "tape: 3 before 18"),
            (
                payload[19] != 0,
                "tape: 33 bytes of which the twentieth is not zero",
            ),
        ]),
        (Answer::Refused(Refusal::Timer), Some(timer)) => named_causes(&timer, CAUSES_ON_TAPE),
        (Answer::Refused(_), _) => Vec::new(),
        (_, None) => vec!["tape: control record of 20 bytes"],
        (_, Some(timer)) if timer.period != 0 => {
            vec!["tape: control record of 33 bytes, timer on"]
        }
        (_, Some(timer)) => {
            let kept = timer.phase != 0 && timer.line != 0;
            let name = "tape: control record of 33 bytes, timer off, phase and line";
            let mut events = vec!["tape: control record of 33 bytes, timer off"];
            events.extend(holding(&[(kept, name)]));
            events
        }
    }
}
