//! The C calls, as `host/include/rc4000.h` declares them.

use crate::types::{Control, Devices, Kind, Outcome, Refusal, Report};

/// The control record as it crosses: a flag is a byte, 0 or 1.
#[repr(C)]
pub struct ControlRecord {
    pub ic: u32,
    pub ir: u32,
    pub im: u32,
    pub pending: u32,
    pub pr: u32,
    pub ex: u32,
    pub monitor: u8,
    pub enabled: u8,
    pub reset: u8,
    pub elapsed: u32,
    pub period: u32,
    pub phase: u32,
    pub line: u8,
}

#[repr(C)]
pub struct CallResult {
    pub control: ControlRecord,
    pub outcome: u32,
    pub number: u32,
    pub executed: u32,
    pub entries: u32,
    pub devices: Devices,
    pub taken: usize,
    pub typed: usize,
}

#[repr(C)]
pub struct State {
    pub control: ControlRecord,
    pub refusal: u32,
}

#[repr(C)]
pub struct Autoloaded {
    pub control: ControlRecord,
    pub refusal: u32,
    pub devices: Devices,
    pub taken: usize,
}

#[repr(C)]
pub struct Text {
    pub refusal: u32,
    pub found: bool,
    pub start: usize,
    pub end: usize,
}

#[repr(C)]
pub struct Written {
    pub refusal: u32,
    pub length: usize,
}

#[repr(C)]
pub struct Assembled {
    pub refusal: u32,
    pub word: u32,
}

extern "C" {
    pub fn rc4000_run(
        store: *mut u32,
        cells: usize,
        control: ControlRecord,
        lines: u32,
        budget: u32,
        devices: Devices,
        characters: *const u8,
        count: usize,
        typing: *mut u8,
        space: usize,
    ) -> CallResult;
    pub fn rc4000_press_reset(store: *mut u32, cells: usize, control: ControlRecord) -> State;
    pub fn rc4000_press_start(store: *mut u32, cells: usize, control: ControlRecord) -> State;
    pub fn rc4000_press_autoload(
        store: *mut u32,
        cells: usize,
        control: ControlRecord,
        devices: Devices,
        characters: *const u8,
        count: usize,
    ) -> Autoloaded;
    pub fn rc4000_load(
        store: *mut u32,
        cells: usize,
        control: ControlRecord,
        tape: *const u8,
        length: usize,
    ) -> State;
    pub fn rc4000_overlay(
        store: *mut u32,
        cells: usize,
        control: ControlRecord,
        tape: *const u8,
        length: usize,
    ) -> State;
    pub fn rc4000_remark(tape: *const u8, length: usize, cells: usize) -> Text;
    pub fn rc4000_write(
        store: *const u32,
        cells: usize,
        control: ControlRecord,
        given: u8,
        text: *const u8,
        text_length: usize,
        tape: *mut u8,
        space: usize,
    ) -> Written;
    pub fn rc4000_assemble(line: *const u8, length: usize) -> Assembled;
}

const _: () = {
    use std::mem::{offset_of, size_of};
    assert!(size_of::<ControlRecord>() == 44);
    assert!(offset_of!(ControlRecord, monitor) == 24);
    assert!(offset_of!(ControlRecord, enabled) == 25);
    assert!(offset_of!(ControlRecord, reset) == 26);
    assert!(offset_of!(ControlRecord, elapsed) == 28);
    assert!(offset_of!(ControlRecord, period) == 32);
    assert!(offset_of!(ControlRecord, phase) == 36);
    assert!(offset_of!(ControlRecord, line) == 40);
    assert!(size_of::<Devices>() == 8);
    assert!(offset_of!(Devices, typewriter) == 4);
    assert!(size_of::<CallResult>() == 88);
    assert!(offset_of!(CallResult, outcome) == 44);
    assert!(offset_of!(CallResult, devices) == 60);
    assert!(offset_of!(CallResult, taken) == 72);
    assert!(offset_of!(CallResult, typed) == 80);
    assert!(size_of::<State>() == 48);
    assert!(offset_of!(State, refusal) == 44);
    assert!(size_of::<Autoloaded>() == 64);
    assert!(offset_of!(Autoloaded, refusal) == 44);
    assert!(offset_of!(Autoloaded, devices) == 48);
    assert!(offset_of!(Autoloaded, taken) == 56);
    assert!(size_of::<Text>() == 24);
    assert!(offset_of!(Text, found) == 4);
    assert!(offset_of!(Text, start) == 8);
    assert!(size_of::<Written>() == 16);
    assert!(offset_of!(Written, length) == 8);
    assert!(size_of::<Assembled>() == 8);
    assert!(offset_of!(Assembled, word) == 4);
};

impl From<Control> for ControlRecord {
    fn from(control: Control) -> Self {
        ControlRecord {
            ic: control.ic,
            ir: control.ir,
            im: control.im,
            pending: control.pending,
            pr: control.pr,
            ex: control.ex,
            monitor: control.monitor.into(),
            enabled: control.enabled.into(),
            reset: control.reset.into(),
            elapsed: control.elapsed,
            period: control.period,
            phase: control.phase,
            line: control.line,
        }
    }
}

impl From<ControlRecord> for Control {
    fn from(record: ControlRecord) -> Self {
        Control {
            ic: record.ic,
            ir: record.ir,
            im: record.im,
            pending: record.pending,
            pr: record.pr,
            ex: record.ex,
            monitor: flag(record.monitor),
            enabled: flag(record.enabled),
            reset: flag(record.reset),
            elapsed: record.elapsed,
            period: record.period,
            phase: record.phase,
            line: record.line,
        }
    }
}

/// The flag of a byte that the library gave.
fn flag(byte: u8) -> bool {
    match byte {
        0 => false,
        1 => true,
        other => unreachable!("flag {other}"),
    }
}

impl CallResult {
    /// Control record and device buffer registers go to the caller's.
    pub fn hand_back(
        self,
        control: &mut Control,
        devices: &mut Devices,
    ) -> Result<Report, Refusal> {
        *control = self.control.into();
        *devices = self.devices;
        let outcome = match self.outcome {
            0 => {
                assert!(self.executed == 0 && self.entries == 0);
                assert!(self.taken == 0 && self.typed == 0);
                return Err(refusal(self.number));
            }
            1 => Outcome::Spent,
            2 => Outcome::Reset,
            3 => Outcome::Interrupted(Kind::Exception),
            4 => Outcome::Interrupted(Kind::Line(self.number)),
            other => unreachable!("outcome {other}"),
        };
        Ok(Report {
            outcome,
            executed: self.executed,
            entries: self.entries,
            taken: self.taken,
            typed: self.typed,
        })
    }
}

impl Autoloaded {
    /// Control record and device buffer registers go to the caller's.
    pub fn hand_back(self, control: &mut Control, devices: &mut Devices) -> Result<usize, Refusal> {
        *control = self.control.into();
        *devices = self.devices;
        match self.refusal {
            0 => Ok(self.taken),
            number => {
                assert!(self.taken == 0);
                Err(refusal(number))
            }
        }
    }
}

impl State {
    /// The control record goes to the caller's.
    pub fn hand_back(self, control: &mut Control) -> Result<(), Refusal> {
        *control = self.control.into();
        match self.refusal {
            0 => Ok(()),
            number => Err(refusal(number)),
        }
    }
}

impl Written {
    /// The tape's length.
    pub fn hand_back(self) -> Result<usize, Refusal> {
        match self.refusal {
            0 => Ok(self.length),
            number => {
                assert!(self.length == 0);
                Err(refusal(number))
            }
        }
    }
}

impl Assembled {
    /// The word.
    pub fn hand_back(self) -> Result<u32, Refusal> {
        match self.refusal {
            0 => Ok(self.word),
            number => {
                assert!(self.word == 0);
                Err(refusal(number))
            }
        }
    }
}

/// The refusal with a number that the library gave.
pub fn refusal(number: u32) -> Refusal {
    Refusal::from_number(number).unwrap_or_else(|| unreachable!("refusal {number}"))
}
