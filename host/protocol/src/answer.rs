//! Answers and their lines.

use crate::request::{write_bytes, write_cells, write_control, write_devices};
use emulation::{Control, Devices, Kind, Outcome, Refusal, Report};
use std::fmt;
use std::ops::Range;

/// The answer to one request. `changed` lists index and new value of the cells
/// that differ from the request's.
#[derive(Clone, Debug, PartialEq, Eq)]
pub enum Answer {
    /// A run that was made.
    Run {
        /// Outcome and counts.
        report: Report,
        /// The control record after it.
        control: Control,
        /// The changed cells.
        changed: Vec<(usize, u32)>,
        /// The device buffer registers after it.
        devices: Devices,
        /// The whole typing buffer after it.
        typing: Vec<u8>,
    },
    /// The autoload key that was pressed.
    Autoload {
        /// The control record after it.
        control: Control,
        /// The changed cells.
        changed: Vec<(usize, u32)>,
        /// How many characters it took.
        taken: usize,
        /// The device buffer registers after it.
        devices: Devices,
    },
    /// Another key that was pressed, or a tape that was loaded or laid over a
    /// store.
    Done {
        /// The control record after it.
        control: Control,
        /// The changed cells.
        changed: Vec<(usize, u32)>,
    },
    /// The part of the tape that is its first remark, or none.
    Remark(Option<Range<usize>>),
    /// The tape that was written.
    Written(Vec<u8>),
    /// The word of a line.
    Word(u32),
    /// A refusal; all that was lent came back as given.
    Refused(Refusal),
    /// A refusal that changed something, which no machine should give.
    RefusedAndChanged(Refusal),
    /// A call that took, typed or wrote more than was lent, or changed what it
    /// only reads or a buffer behind what it typed or wrote, which no machine
    /// should give.
    BeyondLent,
    /// A request that cannot be read.
    Bad,
}

impl Answer {
    /// Whether no machine should give it, whatever the request.
    pub fn is_wrong(&self) -> bool {
        matches!(self, Answer::RefusedAndChanged(_) | Answer::BeyondLent)
    }
}

/// Writes control record and changed cells.
fn write_machine(
    formatter: &mut fmt::Formatter,
    control: &Control,
    changed: &[(usize, u32)],
) -> fmt::Result {
    write_control(formatter, control)?;
    write!(formatter, " ")?;
    write_cells(formatter, changed)
}

fn write_outcome(formatter: &mut fmt::Formatter, outcome: Outcome) -> fmt::Result {
    match outcome {
        Outcome::Spent => write!(formatter, "spent"),
        Outcome::Reset => write!(formatter, "reset"),
        Outcome::Interrupted(Kind::Exception) => write!(formatter, "exception"),
        Outcome::Interrupted(Kind::Line(number)) => write!(formatter, "line:{number}"),
    }
}

/// Writes device buffer registers and typing buffer.
fn write_lent(formatter: &mut fmt::Formatter, devices: &Devices, typing: &[u8]) -> fmt::Result {
    write_devices(formatter, devices)?;
    write!(formatter, " ")?;
    write_bytes(formatter, typing)
}

fn write_remark(formatter: &mut fmt::Formatter, text: Option<&Range<usize>>) -> fmt::Result {
    match text {
        None => write!(formatter, "none"),
        Some(text) => write!(formatter, "at {} {}", text.start, text.end),
    }
}

fn write_tape(formatter: &mut fmt::Formatter, tape: &[u8]) -> fmt::Result {
    write!(formatter, "tape ")?;
    write_bytes(formatter, tape)
}

impl fmt::Display for Answer {
    fn fmt(&self, formatter: &mut fmt::Formatter) -> fmt::Result {
        match self {
            Answer::Run {
                report,
                control,
                changed,
                devices,
                typing,
            } => {
                write_outcome(formatter, report.outcome)?;
                write!(formatter, " {} {} ", report.executed, report.entries)?;
                write_machine(formatter, control, changed)?;
                write!(formatter, " {} {} ", report.taken, report.typed)?;
                write_lent(formatter, devices, typing)
            }
            Answer::Autoload {
                control,
                changed,
                taken,
                devices,
            } => {
                write!(formatter, "ok ")?;
                write_machine(formatter, control, changed)?;
                write!(formatter, " {taken} ")?;
                write_devices(formatter, devices)
            }
            Answer::Done { control, changed } => {
                write!(formatter, "ok ")?;
                write_machine(formatter, control, changed)
            }
            Answer::Remark(text) => write_remark(formatter, text.as_ref()),
            Answer::Written(tape) => write_tape(formatter, tape),
            Answer::Word(word) => write!(formatter, "word {word}"),
            Answer::Refused(refusal) => write!(formatter, "{refusal}"),
            Answer::RefusedAndChanged(refusal) => write!(formatter, "{refusal} and changed"),
            Answer::BeyondLent => write!(formatter, "beyond what was lent"),
            Answer::Bad => write!(formatter, "bad"),
        }
    }
}
