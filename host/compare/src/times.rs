//! Which of the times of A.3 an instruction has: by its address, and by its
//! shifts.

use crate::words::WORD;

/// M, whether it is indexed, and the group of its code.
pub type Form = (u32, bool, usize);

/// The groups of codes: the middle one takes less for an indirect address than
/// the others.
pub const GROUPS: [&str; 3] = ["codes 0 to 31", "codes 32 to 47", "codes 48 to 63"];

/// How the address of an instruction is formed.
pub fn form(code: u32, m: u32, x: u32) -> Form {
    let group = match code {
        0..=31 => 0,
        32..=47 => 1,
        _ => 2,
    };
    (m, x != 0, group)
}

/// All forms.
pub fn forms() -> impl Iterator<Item = Form> {
    (0..24).map(|number| (number / 6, number % 2 == 1, number as usize / 2 % 3))
}

/// AS, AD, LS and LD.
const SHIFTS: [&str; 5] = [
    "by 0",
    "left by 1 to 63",
    "right by 1 to 63",
    "left by 64 or more",
    "right by 64 or more",
];
/// NS, ND and CI.
const NORMALIZING: [&str; 3] = ["of zero", "without a shift", "with shifts"];
/// CF.
const CONVERTING: [&str; 6] = [
    "under 0",
    "zero under 0",
    "by 0",
    "by 1 to 63",
    "zero by 1 to 63",
    "by 64 or more",
];

/// The instructions whose time depends on their shifts, with the classes of each.
const SHIFTING: [(u32, &[&str]); 8] = [
    (32, &NORMALIZING),
    (34, &NORMALIZING),
    (35, &NORMALIZING),
    (36, &SHIFTS),
    (37, &SHIFTS),
    (38, &SHIFTS),
    (39, &SHIFTS),
    (53, &CONVERTING),
];

/// All instructions and classes.
pub fn shift_classes() -> impl Iterator<Item = (u32, &'static str)> {
    SHIFTING
        .into_iter()
        .flat_map(|(code, classes)| classes.iter().map(move |&class| (code, class)))
}

/// The class of an instruction by its effective address and the register pair.
pub fn shift_class(code: u32, address: u32, pair: u64) -> Option<(u32, &'static str)> {
    let class = match code {
        36..=39 => shift(signed(address)),
        32 | 34 => normalizing(pair & u64::from(WORD), 24),
        35 => normalizing(pair, 48),
        53 => converting(address, pair),
        _ => return None,
    };
    Some((code, class))
}

fn signed(word: u32) -> i32 {
    ((word << 8) as i32) >> 8
}

fn shift(amount: i32) -> &'static str {
    SHIFTS[match amount {
        0 => 0,
        1..=63 => 1,
        -63..=-1 => 2,
        64.. => 3,
        _ => 4,
    }]
}

fn normalizing(bits: u64, width: u32) -> &'static str {
    let normalized = (bits >> (width - 1) ^ bits >> (width - 2)) & 1 == 1;
    NORMALIZING[match (bits, normalized) {
        (0, _) => 0,
        (_, true) => 1,
        _ => 2,
    }]
}

fn converting(address: u32, pair: u64) -> &'static str {
    let exponent = ((pair << 52) as i64 >> 52) as i32;
    let count = signed(23_i32.wrapping_sub(signed(address)).wrapping_sub(exponent) as u32);
    let zero = pair >> 12 == 0;
    CONVERTING[match (count, zero) {
        (..=-1, false) => 0,
        (..=-1, true) => 1,
        (0, _) => 2,
        (1..=63, false) => 3,
        (1..=63, true) => 4,
        _ => 5,
    }]
}
