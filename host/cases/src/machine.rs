//! A machine that a case is made of.

use compare::{assemble, MNEMONICS, WORD};
use protocol::{Control, Devices, Listed, Request, Run, Write};

/// The one key that a machine in task mode allows.
const ALLOWED: u32 = 1;

/// Store, control record, lines, budget and what is lent for the devices.
#[derive(Clone)]
pub struct Machine {
    /// The cells.
    pub cells: Vec<u32>,
    /// The control record.
    pub control: Control,
    /// Raised lines.
    pub lines: u32,
    /// The most cycles.
    pub budget: u32,
    /// The device buffer registers.
    pub devices: Devices,
    /// The characters in the reader.
    pub characters: Vec<u8>,
    /// The typing buffer.
    pub typing: Vec<u8>,
}

/// The word of an instruction by its mnemonic code.
pub fn instruction(name: &str, w: u32, m: u32, x: u32, d: i32) -> u32 {
    let code = MNEMONICS.iter().position(|&known| known == name);
    assemble(code.expect("a mnemonic code") as u32, w, m, x, d)
}

/// Bit `number` of a word, from the left.
pub fn bit(number: u32) -> u32 {
    1 << (23 - number)
}

impl Machine {
    /// Cells of zero, IC 16, monitor mode, the interruption program at the
    /// last cell, one cycle. All keys are 0, which is forbidden. Nothing is lent
    /// for the devices.
    pub fn new(cells: usize) -> Self {
        let control = Control {
            ic: 16,
            reset: false,
            ..Control::fresh()
        };
        let machine = Machine {
            cells: vec![0; cells],
            control,
            lines: 0,
            budget: 1,
            devices: Devices::default(),
            characters: Vec::new(),
            typing: Vec::new(),
        };
        machine.word(12, 2 * cells as u32 - 2)
    }

    /// Sets a word; its key stays.
    pub fn word(mut self, address: u32, word: u32) -> Self {
        let cell = &mut self.cells[address as usize / 2];
        *cell = (*cell & !WORD) | (word & WORD);
        self
    }

    /// Sets a key.
    pub fn key(mut self, address: u32, key: u32) -> Self {
        let cell = &mut self.cells[address as usize / 2];
        *cell = (key << 24) | (*cell & WORD);
        self
    }

    /// Sets the working registers.
    pub fn registers(self, words: [u32; 4]) -> Self {
        let places = (0..).step_by(2).zip(words);
        places.fold(self, |machine, (address, word)| machine.word(address, word))
    }

    /// Puts instructions where IC points.
    pub fn program(self, words: &[u32]) -> Self {
        let places = (self.control.ic..).step_by(2).zip(words);
        places.fold(self, |machine, (address, &word)| {
            machine.word(address, word)
        })
    }

    /// Sets the instruction counter.
    pub fn at(mut self, ic: u32) -> Self {
        self.control.ic = ic;
        self
    }

    /// Sets the exception register.
    pub fn ex(mut self, ex: u32) -> Self {
        self.control.ex = ex;
        self
    }

    /// Sets the pending modification.
    pub fn pending(mut self, pending: u32) -> Self {
        self.control.pending = pending & WORD;
        self
    }

    /// Task mode in which all cells may be written.
    pub fn task(mut self) -> Self {
        self.control.pr = 255 - (128 >> ALLOWED);
        self.control.monitor = false;
        for cell in &mut self.cells {
            *cell = (ALLOWED << 24) | (*cell & WORD);
        }
        self
    }

    /// The reset state.
    pub fn in_reset(mut self) -> Self {
        self.control.monitor = true;
        self.control.enabled = false;
        self.control.reset = true;
        self
    }

    /// Interrupts enabled, with these interrupt and mask registers.
    pub fn enabled(mut self, ir: u32, im: u32) -> Self {
        self.control.enabled = true;
        self.control.ir = ir;
        self.control.im = im;
        self
    }

    /// Sets the timer: period, phase and line.
    pub fn timer(mut self, period: u32, phase: u32, line: u8) -> Self {
        self.control.period = period;
        self.control.phase = phase;
        self.control.line = line;
        self
    }

    /// Sets the elapsed time.
    pub fn elapsed(mut self, elapsed: u32) -> Self {
        self.control.elapsed = elapsed;
        self
    }

    /// Sets the lines.
    pub fn lines(mut self, lines: u32) -> Self {
        self.lines = lines;
        self
    }

    /// Sets the budget.
    pub fn budget(mut self, budget: u32) -> Self {
        self.budget = budget;
        self
    }

    /// Sets the device buffer registers.
    pub fn devices(mut self, reader: u32, typewriter: u32) -> Self {
        self.devices = Devices { reader, typewriter };
        self
    }

    /// Puts characters in the reader.
    pub fn characters(mut self, characters: &[u8]) -> Self {
        self.characters = characters.to_vec();
        self
    }

    /// Lends a typing buffer.
    pub fn typing(mut self, typing: &[u8]) -> Self {
        self.typing = typing.to_vec();
        self
    }

    fn listed(&self) -> Listed {
        let cells = self.cells.iter().copied().enumerate();
        Listed {
            size: self.cells.len(),
            cells: cells.filter(|&(_, value)| value != 0).collect(),
        }
    }

    /// The case that runs it.
    pub fn run(&self) -> Request {
        Request::Run(Run {
            store: self.listed(),
            control: self.control,
            lines: self.lines,
            budget: self.budget,
            devices: self.devices,
            characters: self.characters.clone(),
            typing: self.typing.clone(),
        })
    }

    /// The case that presses the autoload key.
    pub fn press_autoload(&self) -> Request {
        Request::PressAutoload {
            store: self.listed(),
            control: self.control,
            devices: self.devices,
            characters: self.characters.clone(),
        }
    }

    /// The case that writes it, with a remark if given, into a buffer of so
    /// many bytes.
    pub fn write(&self, remark: Option<&[u8]>, space: usize) -> Request {
        Request::Write(Write {
            store: self.listed(),
            control: self.control,
            remark: remark.map(<[u8]>::to_vec),
            space,
        })
    }

    /// The case that presses the reset key.
    pub fn press_reset(&self) -> Request {
        Request::PressReset {
            store: self.listed(),
            control: self.control,
        }
    }

    /// The case that presses the start key.
    pub fn press_start(&self) -> Request {
        Request::PressStart {
            store: self.listed(),
            control: self.control,
        }
    }
}
