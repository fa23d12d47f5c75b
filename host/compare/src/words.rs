//! Random words, instructions and floating-point numbers, with their edges.

use crate::random::Random;

/// The 24 bits of a word.
pub const WORD: u32 = 0xff_ffff;

/// Words at the edges of integer arithmetic.
const EDGES: [u32; 20] = [
    0, 1, 2, 3, 5, 7, 0xff_ffff, 0xff_fffe, 0xff_fffd, 0x80_0000, 0x80_0001, 0x7f_ffff, 0x7f_fffe,
    0x40_0000, 0x3f_ffff, 0xc0_0000, 0xbf_ffff, 2048, 4095, 4096,
];

/// Shift counts and scale factors at their edges.
const COUNTS: [i32; 24] = [
    0, 1, -1, 2, -2, 22, 23, -23, 24, -24, 25, 35, 46, 47, -47, 48, -48, 49, 63, -63, 64, -64, 65,
    -2048,
];

/// Operation codes that use the effective address as a number.
const NUMBER_CODES: [u32; 17] = [
    9, 11, 32, 33, 36, 37, 38, 39, 40, 41, 42, 43, 44, 45, 46, 47, 53,
];

/// An edge of integer arithmetic.
pub fn edge(random: &mut Random) -> u32 {
    random.pick(&EDGES)
}

/// Any word: an edge, an address of a store of `size` cells, a small number,
/// an instruction or any 24 bits.
pub fn word(random: &mut Random, size: usize) -> u32 {
    match random.below(16) {
        0 => edge(random),
        1..=6 => address(random, size),
        7 => count(random) as u32 & WORD,
        8 => random.bits(24) as u32,
        _ => {
            let code = random.below(60);
            let ic = random.below(2 * size as u32);
            instruction(random, code, ic, size)
        }
    }
}

/// A byte address, mostly one that a store of `size` cells has.
pub fn address(random: &mut Random, size: usize) -> u32 {
    let limit = 2 * size as u32;
    if random.one_in(12) {
        return random.pick(&[
            limit,
            limit + 1,
            limit - 1,
            limit - 2,
            limit + 2,
            0,
            1,
            WORD,
        ]) & WORD;
    }
    if random.one_in(4) {
        return random.below(16);
    }
    random.below(limit)
}

/// A shift count or scale factor.
pub fn count(random: &mut Random) -> i32 {
    if random.one_in(2) {
        random.pick(&COUNTS)
    } else {
        random.between(-70, 70)
    }
}

/// An address for IO that a displacement can hold: device number, modifier and
/// command, the device often one of the two that are there.
pub fn device_address(random: &mut Random) -> i32 {
    let device = random.pick(&[0, 0, 0, 0, 1, 1, 1, 1, 2, 3, 31, -1, -32]);
    let modifier = match random.below(2) {
        0 => 0,
        _ => random.below(16) as i32,
    };
    64 * device + 4 * modifier + random.below(4) as i32
}

/// The word of an instruction.
pub fn assemble(code: u32, w: u32, m: u32, x: u32, d: i32) -> u32 {
    (code << 18) | (w << 16) | (m << 14) | (x << 12) | (d as u32 & 0xfff)
}

/// An instruction at address `ic` of a store of `size` cells, its displacement
/// mostly such that the address exists.
pub fn instruction(random: &mut Random, code: u32, ic: u32, size: usize) -> u32 {
    let m = random.pick(&[0, 0, 0, 1, 2, 2, 3]);
    let x = random.pick(&[0, 0, 0, 1, 2, 3]);
    let numeric = NUMBER_CODES.contains(&code);
    let d = match random.below(12) {
        0 => random.bits(12) as i32,
        1 => count(random),
        2..=5 if numeric => count(random),
        _ if x != 0 && !random.one_in(4) => {
            let near = random.between(-6, 6);
            if m >= 2 {
                near - ic as i32
            } else {
                near
            }
        }
        _ => {
            let target = match code {
                1 => device_address(random),
                _ => address(random, size) as i32,
            };
            if m >= 2 {
                target - ic as i32
            } else {
                target
            }
        }
    };
    assemble(code, random.below(4), m, x, d)
}

/// Fractions of 36 bits at the edges.
const FRACTIONS: [i64; 22] = [
    0,
    1,
    -1,
    2,
    -2,
    3,
    4,
    0xfff,
    0x1000,
    -0x1000,
    -0x1001,
    1 << 34,
    (1 << 34) + 1,
    (1 << 34) - 1,
    -(1 << 34),
    -(1 << 34) - 1,
    -(1 << 34) + 1,
    (1 << 35) - 1,
    (1 << 35) - 2,
    -(1 << 35),
    -(1 << 35) + 1,
    0x5_5555_5555,
];

/// A fraction of 36 bits, an edge, normalized or any.
fn fraction(random: &mut Random) -> u64 {
    const MASK: u64 = 0xf_ffff_ffff;
    match random.below(8) {
        0..=2 => random.pick(&FRACTIONS) as u64 & MASK,
        3 => random.bits(36),
        4 => random.bits(36) >> random.below(36),
        _ => {
            let sign = random.bits(1);
            (sign << 35) | ((1 - sign) << 34) | random.bits(34)
        }
    }
}

/// An exponent of 12 bits.
fn exponent(random: &mut Random) -> i32 {
    match random.below(6) {
        0 => random.pick(&[-2048, -2047, -2046, 2047, 2046, 2045, 0, 1, -1]),
        1 => random.between(-2048, -1980),
        2 => random.between(1980, 2047),
        3 => random.between(-2048, 2047),
        _ => random.between(-40, 40),
    }
}

fn float_bits(fraction: u64, exponent: i32) -> u64 {
    (fraction << 12) | u64::from(exponent as u32 & 0xfff)
}

/// A floating-point number of 48 bits.
pub fn float(random: &mut Random) -> u64 {
    if random.one_in(12) {
        return float_bits(0, -2048);
    }
    float_bits(fraction(random), exponent(random))
}

/// A floating-point number whose exponent is near that of another.
pub fn float_near(random: &mut Random, other: u64) -> u64 {
    let given = ((other as u32 & 0xfff) ^ 0x800) as i32 - 0x800;
    let difference = if random.one_in(3) {
        random.pick(&[-39, -38, -37, -36, -1, 0, 1, 36, 37, 38, 39])
    } else {
        random.between(-40, 40)
    };
    let near = (given + difference).clamp(-2048, 2047);
    // Equal or opposite fractions now and then.
    let bits = match random.below(10) {
        0 => other >> 12,
        1 => (other >> 12).wrapping_neg() & 0xf_ffff_ffff,
        _ => fraction(random),
    };
    float_bits(bits, near)
}
