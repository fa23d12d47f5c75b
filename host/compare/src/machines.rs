//! Random machines: a store and a control record.

use crate::random::Random;
use crate::timers::set_timer;
use crate::words::{
    address, assemble, count, device_address, edge, float, float_near, instruction, word, WORD,
};
use protocol::{Control, Listed};

/// A machine. The cells of `low` come first, those of `high` last; all between
/// are zero.
pub struct Image {
    /// The number of cells.
    pub size: usize,
    /// The first cells.
    pub low: Vec<u32>,
    /// The last cells.
    pub high: Vec<u32>,
    /// The control record.
    pub control: Control,
    /// A loop for a long run.
    pub long: bool,
    /// A program for the monitor.
    monitor: bool,
}

/// How keys are given out.
#[derive(Clone, Copy, PartialEq)]
enum Keys {
    /// Any key anywhere.
    Any,
    /// Instructions that may be executed in task mode.
    Task,
    /// Forbidden cells, for the monitor.
    Monitor,
}

impl Image {
    /// The store as a request has it.
    pub fn listed(&self) -> Listed {
        let high_start = self.size.saturating_sub(self.high.len());
        let low = self.low.iter().copied().enumerate();
        let high = self.high.iter().copied().enumerate();
        let cells = low
            .chain(high.map(|(index, value)| (high_start + index, value)))
            .filter(|&(index, value)| index < self.size && value != 0)
            .collect();
        Listed {
            size: self.size,
            cells,
        }
    }

    /// Sets the word of a cell; its key stays.
    fn set_word(&mut self, cell: usize, word: u32) {
        if let Some(cell) = self.low.get_mut(cell) {
            *cell = (*cell & !WORD) | (word & WORD);
        }
    }

    /// Puts instructions where IC points, one after the other.
    fn set_program(&mut self, program: &[u32]) {
        let first = (self.control.ic / 2) as usize;
        for (place, &word) in program.iter().enumerate() {
            self.set_word(first + place, word);
        }
    }
}

/// A number of cells: 8 to 64, at times 4,096.
pub fn size(random: &mut Random) -> usize {
    match random.below(40) {
        0..=7 => 8,
        8..=12 => 9,
        13 => 4096,
        _ => random.between(8, 64) as usize,
    }
}

/// The fresh record, out of the reset state.
fn started() -> Control {
    Control {
        reset: false,
        ..Control::fresh()
    }
}

/// A random machine that no call refuses.
pub fn image(random: &mut Random) -> Image {
    if random.one_in(20_000) {
        return largest(random);
    }
    let size = size(random);
    let low = (0..size.min(64)).map(|_| word(random, size)).collect();
    let mut image = Image {
        size,
        low,
        high: Vec::new(),
        control: started(),
        long: false,
        monitor: false,
    };
    set_control(random, &mut image);
    for register in 0..4 {
        if !random.one_in(4) {
            let value = address(random, size);
            image.set_word(register, value);
        }
    }
    for cell in [6, 7] {
        if !random.one_in(10) {
            let value = address(random, size);
            image.set_word(cell, value);
        }
    }
    set_scenario(random, &mut image);
    set_keys(random, &mut image);
    image
}

/// A machine with the largest store, IC near its end.
fn largest(random: &mut Random) -> Image {
    let size = 8_388_608;
    let mut image = Image {
        size,
        low: (0..16).map(|_| word(random, 32)).collect(),
        high: (0..8).map(|_| word(random, 32)).collect(),
        control: started(),
        long: false,
        monitor: false,
    };
    set_control(random, &mut image);
    image.control.ic = WORD - random.below(6);
    set_keys(random, &mut image);
    image
}

/// The most cells of a store that are all put in use; of a larger one the first
/// and the last so many are.
const FILLED: usize = 70_000;

/// Puts a word, a key or, mostly, both in every cell.
pub fn fill(random: &mut Random, image: &mut Image) {
    image.low.resize(image.size.min(FILLED), 0);
    image
        .high
        .resize((image.size - image.low.len()).min(FILLED), 0);
    for cell in image.low.iter_mut().chain(&mut image.high) {
        let (key, word) = (1 + random.below(7), 1 + random.below(WORD));
        *cell = match random.below(16) {
            0 => word,
            1 => key << 24,
            _ => key << 24 | word,
        };
    }
}

fn set_control(random: &mut Random, image: &mut Image) {
    let limit = 2 * image.size as u32;
    let cells = image.low.len() as u32;
    image.control.ic = match random.below(32) {
        0 | 1 => random.below(limit) | 1,
        2 => random.pick(&[limit - 1, limit - 3, limit, limit + 1, WORD, WORD - 1]) & WORD,
        3 => limit - 2,
        4..=6 => 2 * random.below(8),
        _ => 2 * random.below(cells),
    };
    image.control.ir = register(random);
    image.control.im = register(random);
    image.control.pending = match random.below(8) {
        0 => random.bits(24) as u32,
        1 => random.between(-16, 16) as u32 & WORD,
        _ => 0,
    };
    image.control.ex = random.below(8);
    set_timer(random, &mut image.control);
    image.control.enabled = random.one_in(2);
    if random.one_in(40) {
        image.control.enabled = false;
        image.control.reset = true;
    }
}

/// A value of IR or IM.
fn register(random: &mut Random) -> u32 {
    match random.below(8) {
        0 | 1 => random.bits(24) as u32,
        2 => 1 << random.below(24),
        3 => WORD,
        4 => (random.bits(24) & random.bits(24) & random.bits(24)) as u32,
        _ => 0,
    }
}

/// Gives every cell a key, and sets PR and the mode.
fn set_keys(random: &mut Random, image: &mut Image) {
    image.control.pr = match random.below(8) {
        0 => 128,
        1 => 255,
        _ => 128 | random.bits(7) as u32,
    };
    let pr = image.control.pr;
    let (allowed, forbidden): (Vec<u32>, Vec<u32>) =
        (0..8).partition(|&key| pr & (128 >> key) == 0);
    let mut keys = random.pick(&[Keys::Any, Keys::Task, Keys::Task, Keys::Monitor]);
    if allowed.is_empty() || image.monitor && !random.one_in(4) {
        keys = Keys::Monitor;
    }
    image.control.monitor = match keys {
        _ if image.control.reset => true,
        Keys::Any => random.one_in(2),
        Keys::Task => random.one_in(5),
        Keys::Monitor => !random.one_in(12),
    };
    let stray = random.pick(&[3, 10, 40]);
    for cell in image.low.iter_mut().chain(&mut image.high) {
        let key = match keys {
            Keys::Task if !random.one_in(stray) => random.pick(&allowed),
            Keys::Monitor if !random.one_in(stray) => random.pick(&forbidden),
            _ => random.below(8),
        };
        *cell = (key << 24) | (*cell & WORD);
    }
}

/// Puts what a case is about where IC points.
fn set_scenario(random: &mut Random, image: &mut Image) {
    match random.below(250) {
        0 => long_loop(random, image),
        1..=39 => floating(random, image),
        40..=59 => integers(random, image),
        60..=69 => modifications(random, image),
        70..=129 => program(random, image),
        130..=179 => input_output(random, image),
        _ => single(random, image),
    }
}

fn instruction_at(random: &mut Random, image: &Image, code: u32, place: u32) -> u32 {
    instruction(random, code, image.control.ic + 2 * place, image.size)
}

/// One instruction, every code as often as the others.
fn single(random: &mut Random, image: &mut Image) {
    let code = random.below(64);
    let word = instruction_at(random, image, code, 0);
    image.set_program(&[word]);
}

/// Some instructions; those that end a run are rarer.
fn program(random: &mut Random, image: &mut Image) {
    let program: Vec<u32> = (0..random.between(2, 12) as u32)
        .map(|place| {
            let mut code = random.below(58);
            if matches!(code, 0 | 1 | 12..=15 | 28 | 47 | 51) && random.one_in(2) {
                code = random.pick(&[11, 20, 7, 23, 26, 36, 56]);
            }
            instruction_at(random, image, code, place)
        })
        .collect();
    image.set_program(&program);
}

/// IO and AW, with instructions that bring and look at what they use; at times
/// a loop that types what it reads.
fn input_output(random: &mut Random, image: &mut Image) {
    image.monitor = true;
    if random.one_in(6) {
        let w = random.below(4);
        let io = |device, command| assemble(1, w, 0, 0, 64 * device + command);
        let back = assemble(13, 0, 2, 0, -6);
        return image.set_program(&[io(0, 2), io(0, 0), io(1, 3), back]);
    }
    let program: Vec<u32> = (0..random.between(1, 12) as u32)
        .map(|place| match random.below(10) {
            0..=4 => {
                let d = device_address(random);
                assemble(1, random.below(4), 0, 0, d)
            }
            5 if random.one_in(2) => {
                let x = 1 + random.below(3);
                let device = 1 << random.below(18) ^ random.below(2);
                image.set_word(x as usize, device << 6);
                assemble(1, random.below(4), 0, x, random.below(64) as i32)
            }
            5 => instruction_at(random, image, 1, place),
            6 | 7 => instruction_at(random, image, 0, place),
            _ => {
                let code = random.pick(&[11, 20, 23, 27, 46]);
                instruction_at(random, image, code, place)
            }
        })
        .collect();
    image.set_program(&program);
}

/// One to four AM and an instruction after them.
fn modifications(random: &mut Random, image: &mut Image) {
    let chain = random.between(1, 4) as u32;
    let mut program: Vec<u32> = (0..chain)
        .map(|place| instruction_at(random, image, 9, place))
        .collect();
    let code = random.below(64);
    program.push(instruction_at(random, image, code, chain));
    image.set_program(&program);
}

/// A cell for an operand, away from the instruction where there is room.
fn operand_cell(random: &mut Random, image: &Image) -> usize {
    let cells = image.low.len() as u32;
    match random.below(8) {
        0 => random.below(4) as usize,
        1 => cells as usize - 1,
        _ => random.below(cells) as usize,
    }
}

/// The registers cyclically before a register and the cell before a cell.
fn first_of(cell: usize) -> usize {
    if cell == 0 {
        3
    } else {
        cell - 1
    }
}

fn set_double(image: &mut Image, first: usize, second: usize, bits: u64) {
    image.set_word(first, (bits >> 24) as u32);
    image.set_word(second, bits as u32);
}

/// A floating-point instruction on edges.
fn floating(random: &mut Random, image: &mut Image) {
    let code = random.pick(&[48, 48, 49, 49, 50, 50, 52, 52, 32, 53]);
    let w = random.below(4);
    let cell = operand_cell(random, image);
    let storage = float(random);
    let register = match random.below(3) {
        0 => float(random),
        _ => float_near(random, storage),
    };
    set_double(image, first_of(cell), cell, storage);
    set_double(image, (w as usize + 3) % 4, w as usize, register);
    let word = if code == 32 || code == 53 {
        scaled(random, image, code, w)
    } else {
        assemble(code, w, 0, 0, 2 * cell as i32 + random.between(0, 1))
    };
    image.set_program(&[word]);
}

/// CI or CF with a scale factor from its displacement, or from an index
/// register that holds more than a displacement can.
fn scaled(random: &mut Random, image: &mut Image, code: u32, w: u32) -> u32 {
    if code == 32 && random.one_in(2) {
        let integer = edge(random);
        image.set_word(w as usize, integer);
    }
    let x = 1 + random.below(3);
    if x != w && random.one_in(2) {
        let scale = random.pick(&[
            8192,
            4096,
            4095,
            -4096,
            2047,
            2048,
            2024,
            2025,
            2026,
            -2048,
            -2070,
            -2071,
            -2072,
            1 << 22,
        ]);
        image.set_word(x as usize, scale as u32);
        return assemble(code, w, 0, x, random.between(-2, 2));
    }
    let exponent = (image.low[w as usize & 3] & 0xfff) as i32;
    let signed = (exponent ^ 0x800) - 0x800;
    let d = match random.below(3) {
        0 => count(random),
        1 => (random.between(-1, 24) - signed).clamp(-2048, 2047),
        _ => random.bits(12) as i32,
    };
    assemble(code, w, 0, 0, d)
}

/// WM, WD and the sums of words and double words on edges.
fn integers(random: &mut Random, image: &mut Image) {
    let code = random.pick(&[24, 24, 24, 24, 10, 10, 7, 8, 56, 57, 17, 18]);
    let w = random.below(4);
    let cell = operand_cell(random, image);
    let operand = integer(random);
    image.set_word(cell, operand);
    let pair = if code == 24 {
        dividend(random, operand)
    } else {
        u64::from(integer(random)) << 24 | u64::from(integer(random))
    };
    set_double(image, (w as usize + 3) % 4, w as usize, pair);
    let word = assemble(code, w, 0, 0, 2 * cell as i32 + random.between(0, 1));
    image.set_program(&[word]);
}

fn integer(random: &mut Random) -> u32 {
    match random.below(4) {
        0 | 1 => edge(random),
        2 => random.between(-20, 20) as u32 & WORD,
        _ => random.bits(24) as u32 >> random.below(24),
    }
}

/// A pair that divided by `divisor` gives a quotient near an edge.
fn dividend(random: &mut Random, divisor: u32) -> u64 {
    if random.one_in(8) {
        return random.bits(48);
    }
    let divisor = i64::from(((divisor ^ 0x80_0000) as i32) - 0x80_0000);
    let quotient = match random.below(3) {
        0 => i64::from(random.pick(&[
            8_388_607, 8_388_606, 8_388_608, -8_388_608, -8_388_609, 0, 1, -1,
        ])),
        1 => i64::from(random.between(-20, 20)),
        _ => i64::from(random.between(-8_388_608, 8_388_607)),
    };
    let remainder = match random.below(3) {
        0 => 0,
        1 => i64::from(random.pick(&[1, -1])),
        _ => {
            let size = divisor.abs().max(1);
            i64::from(random.between(-(size as i32), size as i32))
        }
    };
    (quotient * divisor + remainder) as u64 & 0xffff_ffff_ffff
}

/// A loop of a few register operations that does not end by itself.
fn long_loop(random: &mut Random, image: &mut Image) {
    let body = random.between(1, 4) as usize;
    let first = 8;
    if image.low.len() < first + body + 1 {
        return single(random, image);
    }
    image.control.ic = 2 * first as u32;
    image.control.reset = false;
    let mut program = Vec::new();
    for _ in 0..body {
        let code = random.pick(&[11, 33, 7, 8, 10, 36, 37, 38, 39, 32, 53, 48, 50, 56, 2, 20]);
        let d = 2 * random.below(4) as i32;
        program.push(assemble(code, random.below(4), 0, 0, d));
    }
    program.push(assemble(13, 0, 2, 0, -2 * body as i32));
    image.set_program(&program);
    image.long = true;
}
