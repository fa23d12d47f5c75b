//! Random requests.

use crate::assembly;
use crate::lent::{self, refuse_device};
use crate::machines::{self, Image};
use crate::random::Random;
use crate::tapes::{self, Damage};
use crate::timers::refuse_timer;
use crate::writes::{self, refuse_length, refuse_remark, refuse_space};
use emulation::MAXIMUM_CELLS;
use protocol::{Request, Run, Write};

/// A request, with what was done to its tape.
pub struct Case {
    /// The request.
    pub request: Request,
    /// How its tape was damaged.
    pub damages: Vec<Damage>,
    /// A tape to be laid over what a load leaves.
    pub second: Option<Vec<u8>>,
}

/// The case that a seed and a number determine; every tenth is a line for the
/// assembler.
pub fn case(seed: u64, number: u64) -> Case {
    let mut random = Random::for_case(seed, number);
    let random = &mut random;
    if number % 10 == 9 {
        let line = assembly::line(random);
        return without_tape(Request::Assemble { line });
    }
    if random.one_in(7) {
        return without_tape(write(random));
    }
    match random.below(100) {
        0..=71 => without_tape(run(random)),
        72..=75 => without_tape(autoload_key(random)),
        76..=79 => without_tape(key(random, true)),
        80..=83 => without_tape(key(random, false)),
        84..=92 => load(random),
        _ => remark(random),
    }
}

fn without_tape(request: Request) -> Case {
    Case {
        request,
        damages: Vec::new(),
        second: None,
    }
}

fn budget(random: &mut Random) -> u32 {
    match random.below(10) {
        0 => random.below(3),
        1..=4 => random.between(1, 3) as u32,
        _ => random.below(21),
    }
}

fn lines(random: &mut Random) -> u32 {
    match random.below(4) {
        0 => random.bits(21) as u32,
        1 => 1 << random.below(21),
        _ => 0,
    }
}

fn run(random: &mut Random) -> Request {
    let mut image = machines::image(random);
    let mut lent = lent::lent(random, image.size);
    let mut lines = lines(random);
    let mut budget = if image.long {
        random.pick(&[65_535, 65_534, 1000, 40_000])
    } else {
        budget(random)
    };
    for number in refusals(random, 7) {
        match number {
            1 => refuse_size(random, &mut image),
            2 => refuse_cell(random, &mut image),
            3 => refuse_control(random, &mut image),
            4 => refuse_timer(random, &mut image.control),
            5 => lines |= random.pick(&[1 << 23, 1 << 22, 1 << 21, 1 << 24, 1 << 31, 7 << 21]),
            6 => budget = random.pick(&[65_536, 65_537, 1 << 24, u32::MAX]),
            _ => refuse_device(random, &mut lent),
        }
    }
    Request::Run(Run {
        store: image.listed(),
        control: image.control,
        lines,
        budget,
        devices: lent.devices,
        characters: lent.characters,
        typing: lent.typing,
    })
}

/// A machine to press a key of, in the reset state in one of two.
fn image_for_key(random: &mut Random) -> Image {
    let mut image = machines::image(random);
    if random.one_in(2) {
        image.control.monitor = true;
        image.control.enabled = false;
        image.control.reset = true;
    }
    image
}

fn autoload_key(random: &mut Random) -> Request {
    let mut image = image_for_key(random);
    let mut lent = lent::lent(random, image.size);
    for number in refusals(random, 5) {
        match number {
            1 => refuse_size(random, &mut image),
            2 => refuse_cell(random, &mut image),
            3 => refuse_control(random, &mut image),
            4 => refuse_timer(random, &mut image.control),
            _ => refuse_device(random, &mut lent),
        }
    }
    Request::PressAutoload {
        store: image.listed(),
        control: image.control,
        devices: lent.devices,
        characters: lent.characters,
    }
}

fn key(random: &mut Random, reset: bool) -> Request {
    let mut image = image_for_key(random);
    for number in refusals(random, 4) {
        match number {
            1 => refuse_size(random, &mut image),
            2 => refuse_cell(random, &mut image),
            3 => refuse_control(random, &mut image),
            _ => refuse_timer(random, &mut image.control),
        }
    }
    let (store, control) = (image.listed(), image.control);
    if reset {
        Request::PressReset { store, control }
    } else {
        Request::PressStart { store, control }
    }
}

/// A machine to load a tape into; in one of two, or more, every cell is in use.
fn image_for_tape(random: &mut Random) -> Image {
    let mut image = machines::image(random);
    if random.one_in(2) {
        if random.one_in(200) {
            image.size = 65_536 + random.below(3000) as usize;
        }
        machines::fill(random, &mut image);
    }
    image
}

/// A load, with a second tape in one of two, or an overlay.
fn load(random: &mut Random) -> Case {
    let mut image = image_for_tape(random);
    let size = image.size;
    let (tape, damages) = tapes::tape(random, size);
    for number in refusals(random, 2) {
        match number {
            1 => refuse_size(random, &mut image),
            _ => refuse_cell(random, &mut image),
        }
    }
    let store = image.listed();
    if random.one_in(3) {
        return Case {
            request: Request::Overlay { store, tape },
            damages,
            second: None,
        };
    }
    let with_second = random.one_in(2);
    Case {
        request: Request::Load { store, tape },
        damages,
        second: with_second.then(|| tapes::tape(random, size).0),
    }
}

fn remark(random: &mut Random) -> Case {
    let size = match random.below(40) {
        0 => MAXIMUM_CELLS,
        _ => machines::size(random),
    };
    let (tape, damages) = tapes::tape(random, size);
    let cells = if random.one_in(12) {
        random.pick(&[0, 1, 7, 8_388_609, 1 << 24, usize::MAX])
    } else {
        size
    };
    Case {
        request: Request::Remark { cells, tape },
        damages,
        second: None,
    }
}

fn write(random: &mut Random) -> Request {
    let mut writing = writes::writing(random);
    // From the last test to the first: 6 brings another store and buffer.
    for number in refusals(random, 7).into_iter().rev() {
        match number {
            1 => refuse_size(random, &mut writing.image),
            2 => refuse_cell(random, &mut writing.image),
            3 => refuse_control(random, &mut writing.image),
            4 => refuse_timer(random, &mut writing.image.control),
            5 => refuse_remark(random, &mut writing),
            6 => refuse_length(random, &mut writing),
            _ => refuse_space(random, &mut writing),
        }
    }
    Request::Write(Write {
        store: writing.image.listed(),
        control: writing.image.control,
        remark: writing.remark,
        space: writing.space,
    })
}

/// Which of a call's refusals to bring about, 1 to `last` in the order of its
/// tests: mostly none, else one, two neighbours, or some.
fn refusals(random: &mut Random, last: u32) -> Vec<u32> {
    if !random.one_in(8) {
        return Vec::new();
    }
    let number = 1 + random.below(last);
    match random.below(6) {
        0..=2 => vec![number],
        3 | 4 => (number..=last.min(number + 1)).collect(),
        _ => (number..=last).filter(|_| random.one_in(2)).collect(),
    }
}

fn refuse_size(random: &mut Random, image: &mut Image) {
    if random.one_in(60) {
        image.size = random.pick(&[8_388_609, 8_388_610, 1 << 24, 1 << 33]);
    } else {
        image.size = random.pick(&[0, 1, 3, 6, 7, 7]);
        image.low.truncate(image.size);
        image.high.clear();
    }
}

fn refuse_cell(random: &mut Random, image: &mut Image) {
    let value = random.pick(&[134_217_728, 134_217_729, u32::MAX, 1 << 31]);
    let places = image.low.len() as u32;
    if places > 0 {
        let any = random.below(places);
        let place = random.pick(&[0, places - 1, any]);
        image.low[place as usize] = value;
    }
}

fn refuse_control(random: &mut Random, image: &mut Image) {
    let control = &mut image.control;
    let wide = random.pick(&[1 << 24, (1 << 24) + 1, u32::MAX]);
    match random.below(9) {
        0 => control.ic = wide,
        1 => control.ir = wide,
        2 => control.im = wide,
        3 => control.pending = wide,
        4 => control.pr = random.pick(&[0, 1, 127]),
        5 => control.pr = random.pick(&[256, 257, 384, u32::MAX]),
        6 => control.ex = random.pick(&[8, 9, u32::MAX]),
        7 => {
            control.reset = true;
            control.monitor = false;
        }
        _ => {
            control.reset = true;
            control.enabled = true;
        }
    }
}
