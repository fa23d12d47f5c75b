//! Random elapsed times and interval timers.

use crate::random::Random;
use protocol::Control;

/// Times of single cycles: periods that they reach exactly.
const CYCLES: [u32; 8] = [1, 2, 15, 30, 35, 50, 75, 150];

/// Sets an elapsed time and a timer that no call refuses; it is off in one of
/// four.
pub fn set_timer(random: &mut Random, control: &mut Control) {
    control.elapsed = match random.below(4) {
        0 => 0,
        1 => u32::MAX - random.below(400),
        _ => random.bits(32) as u32,
    };
    if random.one_in(4) {
        let (phase, line) = (random.bits(32) as u32, random.bits(8) as u8);
        control.period = 0;
        control.phase = random.pick(&[0, 1, u32::MAX, phase]);
        control.line = random.pick(&[0, 5, 24, line]);
    } else {
        start(random, control);
    }
}

/// Sets a timer that runs; its line is often masked in, at times raised.
fn start(random: &mut Random, control: &mut Control) {
    control.period = match random.below(8) {
        0..=3 => 1 + random.below(200),
        4 => random.pick(&CYCLES),
        5 => 1 + random.below(3000),
        6 => u32::MAX - random.below(400),
        _ => 1 + random.bits(31) as u32,
    };
    control.phase = match random.below(4) {
        0 => 0,
        1 => random.below(control.period),
        _ => control.period - 1 - random.below(control.period.min(300)),
    };
    control.line = 3 + random.below(21) as u8;
    let bit = 1 << (23 - control.line);
    if random.one_in(3) {
        control.im |= bit;
    }
    if random.one_in(12) {
        control.ir |= bit;
    }
}

/// Brings about refusal 18.
pub fn refuse_timer(random: &mut Random, control: &mut Control) {
    if control.period == 0 {
        start(random, control);
    }
    let over = control.period.saturating_add(random.below(3000));
    match random.below(4) {
        0 => control.line = random.pick(&[0, 1, 2, 2]),
        1 => control.line = random.pick(&[24, 24, 25, 128, 255]),
        2 => control.phase = control.period,
        _ => control.phase = random.pick(&[over, over, u32::MAX]),
    }
}
