//! What cases were about, as far as the devices go: names for `Coverage`.

use crate::words::WORD;
use emulation::Refusal;
use protocol::{Answer, Control, Devices, Kind, Outcome, Report, Run};

/// All names that the functions here give.
pub const DEVICE_EVENTS: [&str; 43] = [
    "sense 0",
    "control 0",
    "read 0 with a character left",
    "read 0 with none left",
    "write 0",
    "write 0 with no character left",
    "sense 1",
    "control 1",
    "read 1",
    "read 1 with no space left",
    "write 1 with space left",
    "write 1 with none left",
    "sense another device",
    "control another device",
    "read another device",
    "write another device",
    "device over 65,535",
    "device 0 or 1 but for one bit",
    "IO with a modifier",
    "IO in task mode",
    "AW with 0 characters left",
    "AW with 1 character left",
    "AW with 2 characters left",
    "AW with 3 characters left",
    "AW with 4 characters left",
    "AW with 5 or more characters left",
    "AW to an absent address after four characters",
    "AW to an absent address with fewer than four",
    "AW to a register",
    "AW in task mode",
    "autoload key in the reset state with 4 characters",
    "autoload key in the reset state with 5 or more",
    "autoload key in the reset state with fewer than 4",
    "autoload key elsewhere",
    "run: 13 by a character",
    "run: 13 by the reader's register",
    "run: 13 by the typewriter's register",
    "run: 5 before 13",
    "autoload key: 13 by a character",
    "autoload key: 13 by the reader's register",
    "autoload key: 13 by the typewriter's register",
    "autoload key: 3 before 13",
    "autoload key: 13 outside the reset state",
];

/// An IO or AW that a cycle met.
pub struct DeviceInstruction {
    /// The operation code, 0 or 1.
    pub code: u32,
    /// The effective address.
    pub address: u32,
    /// Whether the cell of the instruction is forbidden.
    pub forbidden: bool,
    /// The number of cells.
    pub cells: usize,
    /// The characters left before it.
    pub characters: usize,
    /// The typing space left before it.
    pub space: usize,
}

impl DeviceInstruction {
    /// What a cycle that met this instruction was about.
    pub fn events(&self, report: &Report) -> Vec<&'static str> {
        match (report.outcome, self.code) {
            (Outcome::Interrupted(Kind::Line(_)), _) => Vec::new(),
            (Outcome::Interrupted(Kind::Exception), _) if report.taken == 0 => {
                // Not a forbidden fetch: the instruction itself was privileged.
                let name = ["AW in task mode", "IO in task mode"][self.code as usize];
                Vec::from_iter((!self.forbidden).then_some(name))
            }
            (_, 0) => self.autoload_word(report),
            _ => self.input_output(),
        }
    }

    fn is_absent(&self) -> bool {
        self.address as usize / 2 >= self.cells
    }

    fn autoload_word(&self, report: &Report) -> Vec<&'static str> {
        let mut events = vec![match self.characters {
            0 => "AW with 0 characters left",
            1 => "AW with 1 character left",
            2 => "AW with 2 characters left",
            3 => "AW with 3 characters left",
            4 => "AW with 4 characters left",
            _ => "AW with 5 or more characters left",
        }];
        events.extend(match (self.is_absent(), report.outcome) {
            (true, Outcome::Reset) => Some("AW to an absent address with fewer than four"),
            (true, _) => Some("AW to an absent address after four characters"),
            (false, Outcome::Spent) if self.address < 8 => Some("AW to a register"),
            _ => None,
        });
        events
    }

    fn input_output(&self) -> Vec<&'static str> {
        let (device, command) = (self.address >> 6, self.address & 3);
        let mut events = vec![match (device, command) {
            (0, 0) => "sense 0",
            (0, 1) => "control 0",
            (0, 2) if self.characters > 0 => "read 0 with a character left",
            (0, 2) => "read 0 with none left",
            (0, _) if self.characters > 0 => "write 0",
            (0, _) => "write 0 with no character left",
            (1, 0) => "sense 1",
            (1, 1) => "control 1",
            (1, 2) if self.space > 0 => "read 1",
            (1, 2) => "read 1 with no space left",
            (1, _) if self.space > 0 => "write 1 with space left",
            (1, _) => "write 1 with none left",
            (_, 0) => "sense another device",
            (_, 1) => "control another device",
            (_, 2) => "read another device",
            _ => "write another device",
        }];
        events.extend((device > 65_535).then_some("device over 65,535"));
        let one_bit = (device & !1).is_power_of_two();
        events.extend(one_bit.then_some("device 0 or 1 but for one bit"));
        events.extend((self.address & 60 != 0).then_some("IO with a modifier"));
        events
    }
}

/// Why 13 stands: for a character, the reader's register, the typewriter's.
fn causes(devices: &Devices, characters: &[u8]) -> [bool; 3] {
    [
        characters.iter().any(|&character| character > 63),
        devices.reader > WORD,
        devices.typewriter > WORD,
    ]
}

/// The name for the only cause, where there is one only.
fn only_cause(causes: [bool; 3], names: [&'static str; 3]) -> Option<&'static str> {
    let mut standing = names.into_iter().zip(causes).filter(|&(_, holds)| holds);
    match (standing.next(), standing.next()) {
        (Some((name, _)), None) => Some(name),
        _ => None,
    }
}

/// What a refused run was about.
pub fn run_events(run: &Run, answer: &Answer) -> Option<&'static str> {
    let causes = causes(&run.devices, &run.characters);
    match answer {
        Answer::Refused(Refusal::Device) => only_cause(
            causes,
            [
                "run: 13 by a character",
                "run: 13 by the reader's register",
                "run: 13 by the typewriter's register",
            ],
        ),
        Answer::Refused(Refusal::Budget) => causes.contains(&true).then_some("run: 5 before 13"),
        _ => None,
    }
}

/// What an autoload key was about.
pub fn key_events(
    control: &Control,
    devices: &Devices,
    characters: &[u8],
    answer: &Answer,
) -> Vec<&'static str> {
    let causes = causes(devices, characters);
    let mut events = Vec::new();
    match answer {
        Answer::Autoload { .. } => events.push(match (control.reset, characters.len()) {
            (false, _) => "autoload key elsewhere",
            (true, 4) => "autoload key in the reset state with 4 characters",
            (true, 5..) => "autoload key in the reset state with 5 or more",
            (true, _) => "autoload key in the reset state with fewer than 4",
        }),
        Answer::Refused(Refusal::Device) => {
            let names = [
                "autoload key: 13 by a character",
                "autoload key: 13 by the reader's register",
                "autoload key: 13 by the typewriter's register",
            ];
            events.extend(only_cause(causes, names));
            let outside = "autoload key: 13 outside the reset state";
            events.extend((!control.reset).then_some(outside));
        }
        Answer::Refused(Refusal::ControlField) if causes.contains(&true) => {
            events.push("autoload key: 3 before 13");
        }
        _ => (),
    }
    events
}
