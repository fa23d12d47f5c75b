//! Machines for the tests.
#![allow(dead_code)]

use emulation::{run, Control, Devices, Refusal, Report};

/// A store, a control record and what is lent for the devices, which a test
/// sets up and looks at.
pub struct Machine {
    pub store: Vec<u32>,
    pub control: Control,
    pub devices: Devices,
    pub characters: Vec<u8>,
    pub typing: Vec<u8>,
}

/// The word of an instruction: F, W, M, X, D.
pub fn instruction(f: u32, w: u32, m: u32, x: u32, d: i32) -> u32 {
    (f << 18) | (w << 16) | (m << 14) | (x << 12) | (d as u32 & 0xfff)
}

/// Bit `number` of a word, from the left.
pub fn bit(number: u32) -> u32 {
    1 << (23 - number)
}

/// A run with no characters, no space to type in and registers of zero.
pub fn run_alone(
    store: &mut [u32],
    control: &mut Control,
    lines: u32,
    budget: u32,
) -> Result<Report, Refusal> {
    let mut devices = Devices::default();
    run(store, control, lines, budget, &mut devices, &[], &mut [])
}

impl Machine {
    /// 32 cells of zero, IC 16, monitor mode, the interruption program at 62;
    /// no characters and no space to type in.
    pub fn new() -> Self {
        let control = Control {
            ic: 16,
            reset: false,
            ..Control::fresh()
        };
        let mut store = vec![0; 32];
        store[6] = 62;
        Machine {
            store,
            control,
            devices: Devices::default(),
            characters: Vec::new(),
            typing: Vec::new(),
        }
    }

    /// The machine with these working registers.
    pub fn with_registers(registers: [u32; 4]) -> Self {
        let mut machine = Self::new();
        machine.store[..4].copy_from_slice(&registers);
        machine
    }

    /// Executes one instruction, put where IC points, with no key.
    pub fn execute(&mut self, instruction: u32) -> Report {
        let place = (self.control.ic / 2) as usize;
        self.store[place] = instruction;
        self.cycles(1)
    }

    pub fn cycles(&mut self, budget: u32) -> Report {
        run(
            &mut self.store,
            &mut self.control,
            0,
            budget,
            &mut self.devices,
            &self.characters,
            &mut self.typing,
        )
        .unwrap()
    }
}
