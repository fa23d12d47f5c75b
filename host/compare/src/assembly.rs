//! Random lines for the assembler, and the ways to damage one.

use crate::random::Random;
use emulation::{MAXIMUM_DEPTH, MAXIMUM_LINE, MNEMONIC_CODES};

/// The largest number and result of an address.
const LARGEST: i64 = 8_388_607;

/// Numbers at the edges of addresses and of results, and some whose products
/// lie near them.
const EDGES: [i64; 12] = [
    0, 1, 2047, 2048, 2049, 2896, 2897, 4096, 4_194_304, 8_388_607, 8_388_608, 8_388_609,
];

/// Characters that stand in lines.
const CHARACTERS: &[u8] = b" .,0123456789()[]+-*WXAL";

/// An expression and its value, which stays at the ends of 64 bits where it
/// would leave them.
struct Expression {
    text: String,
    value: i64,
}

/// A line of the grammar in three of four, else a damaged one.
pub fn line(random: &mut Random) -> Vec<u8> {
    let (begin, end) = frame(random);
    let mut address = address(random);
    if random.one_in(16) {
        let long = MAXIMUM_LINE as u32;
        let any = random.between(200, 300) as u32;
        let length = random.pick(&[long - 1, long, long, long, long + 1, long + 1, any]);
        let used = begin.len() + address.len() + end.len();
        let more = (length as usize).saturating_sub(used);
        address = format!("{}{address}", padding(random, more));
    }
    let mut line = format!("{begin}{address}{end}").into_bytes();
    if random.one_in(4) {
        damage(random, &mut line);
    }
    line
}

/// What stands before and behind the address.
fn frame(random: &mut Random) -> (String, &'static str) {
    let name = random.pick(&MNEMONIC_CODES);
    let dot = random.pick(&["", "."]);
    let index = random.pick(&["", "", "", "X1,", "X2,", "X3,"]);
    let (open, close) = random.pick(&[("", ""), ("[", "]")]);
    let begin = format!("{name}{dot} W{} {open}{index}", random.below(4));
    (begin, close)
}

/// So many characters, none for one, that keep the value of an address which
/// they precede.
fn padding(random: &mut Random, count: usize) -> String {
    let halves = count / 2;
    match random.below(3) {
        _ if count < 2 => String::new(),
        0 => format!("{}+", "0".repeat(count - 1)),
        1 => format!("{}{}", "0".repeat(count % 2), "0+".repeat(halves)),
        _ => format!("{}{}", "0".repeat(count % 2), "1*".repeat(halves)),
    }
}

fn address(random: &mut Random) -> String {
    match random.below(16) {
        0..=6 => aimed(random),
        7..=10 => near_limit(random),
        11..=13 => deep(random),
        _ => sum(random, 3).text,
    }
}

/// An address with a value that was chosen, mostly one that passes.
fn aimed(random: &mut Random) -> String {
    let given = sum(random, 3);
    let any = random.between(-2048, 2047).into();
    let value = random.pick(&[any, any, any, 2047, 2048, -2048, -2049, 0, -1]);
    let more = value - given.value.clamp(-2 * LARGEST, 2 * LARGEST);
    let sign = if more < 0 { '-' } else { '+' };
    format!("{}{sign}{}", given.text, more.abs())
}

fn number(random: &mut Random) -> Expression {
    let value = match random.below(40) {
        0 | 1 => random.pick(&EDGES),
        2 => random.bits(23) as i64,
        3 => random.bits(40) as i64,
        4 => return long_number(random),
        5..=15 => random.between(0, 2100).into(),
        _ => random.between(0, 30).into(),
    };
    let zeroes = match random.below(8) {
        0 => random.below(4) as usize,
        _ => 0,
    };
    Expression {
        text: format!("{}{value}", "0".repeat(zeroes)),
        value,
    }
}

/// A number of up to 40 digits, zero or about as large as they allow.
fn long_number(random: &mut Random) -> Expression {
    let count = random.between(8, 40) as usize;
    let (digit, value) = random.pick(&[("0", 0), ("9", i64::MAX), ("1", i64::MAX)]);
    Expression {
        text: digit.repeat(count),
        value,
    }
}

/// A number, or a sum in parentheses to so many levels.
fn primary(random: &mut Random, levels: u32) -> Expression {
    if levels == 0 || !random.one_in(3) {
        return number(random);
    }
    let Expression { text, value } = sum(random, levels - 1);
    let text = format!("({text})");
    Expression { text, value }
}

fn product(random: &mut Random, levels: u32) -> Expression {
    let mut product = primary(random, levels);
    for _ in 1..random.pick(&[1, 1, 1, 1, 2, 2, 3]) {
        let factor = primary(random, levels);
        product.text = format!("{}*{}", product.text, factor.text);
        product.value = product.value.saturating_mul(factor.value);
    }
    product
}

fn sum(random: &mut Random, levels: u32) -> Expression {
    let mut sum = product(random, levels);
    for _ in 1..random.pick(&[1, 1, 2, 2, 3, 4]) {
        let term = product(random, levels);
        let minus = random.one_in(2);
        let sign = if minus { '-' } else { '+' };
        sum.text = format!("{}{sign}{}", sum.text, term.text);
        sum.value = match minus {
            true => sum.value.saturating_sub(term.value),
            false => sum.value.saturating_add(term.value),
        };
    }
    sum
}

/// An address with a number, a sum or a product just in range or just out of it,
/// which mostly goes on to a value that passes.
fn near_limit(random: &mut Random) -> String {
    let out = random.below(2) as i64;
    let part = i64::from(random.between(2, LARGEST as i32));
    let [two, other] = powers(random);
    let (text, value) = match (random.below(6), out) {
        (0, _) => ((LARGEST + out).to_string(), LARGEST + out),
        (1, _) => {
            let value = LARGEST + out;
            (format!("{part}+{}", value - part), value)
        }
        (2, _) => {
            let value = -LARGEST - 1 - out;
            (format!("0-{part}-{}", -value - part), value)
        }
        (3, 0) => ("47*178481".into(), LARGEST),
        (3, _) => (format!("{two}*{other}"), LARGEST + 1),
        (4, 0) => (format!("(0-{two})*{other}"), -LARGEST - 1),
        (4, _) => ("2796203*(0-3)".into(), -LARGEST - 2),
        _ if random.one_in(2) => return (2047 + out).to_string(),
        _ => return format!("0-{}", 2048 + out),
    };
    back(random, &text, value)
}

/// Two powers of two whose product is 8,388,608.
fn powers(random: &mut Random) -> [i64; 2] {
    let power = random.below(23);
    [1 << power, 1 << (23 - power)]
}

/// An address that takes a value near a limit back into the range of addresses.
fn back(random: &mut Random, text: &str, value: i64) -> String {
    let left = i64::from(random.between(3, 2047));
    let sign = if value < 0 { '+' } else { '-' };
    match random.below(8) {
        0 => text.into(),
        1 => format!("0*({text})"),
        2 => format!("({text})*0"),
        3 => format!("(({text}){sign}{})", value.abs() - left),
        _ => format!("{text}{sign}{}", value.abs() - left),
    }
}

/// An address in about as many parentheses as pass, or in many; in one of four
/// another one stands behind it.
fn deep(random: &mut Random) -> String {
    let first = nested(random);
    if random.one_in(4) {
        let sign = random.pick(&['+', '-', '*']);
        return format!("{first}{sign}{}", nested(random));
    }
    first
}

fn nested(random: &mut Random) -> String {
    let most = MAXIMUM_DEPTH as u32;
    let any = random.between(1, 122) as u32;
    let levels = random.pick(&[
        most - 1,
        most,
        most,
        most,
        most + 1,
        most + 1,
        most + 2,
        any,
    ]);
    let inside = match random.below(6) {
        0 => near_limit(random),
        1 => sum(random, 1).text,
        2 | 3 => random.below(40).to_string(),
        _ => random.below(2100).to_string(),
    };
    (0..levels).fold(inside, |text, _| match random.below(12) {
        0 if levels < 30 => format!("0+({text})"),
        1 if levels < 30 => format!("({text})*1"),
        2 if levels < 30 => format!("({text}-0)"),
        _ => format!("({text})"),
    })
}

fn damage(random: &mut Random, line: &mut Vec<u8>) {
    let length = line.len() as u32;
    let place = random.below(length) as usize;
    let any = random.bits(8) as u8;
    let character = random.pick(CHARACTERS);
    match random.below(20) {
        0 => line[place] = any,
        1 | 2 => line[place] = character,
        3 => line.insert(place, any),
        4 | 5 => line.insert(place, character),
        6 => {
            line.remove(place);
        }
        7 => line.truncate(place),
        8 => line.swap(place, length as usize - 1),
        9 => line.push(random.pick(b" ])+-*.0\n\0")),
        10 => line.truncate(length as usize - 1),
        11 => line.make_ascii_lowercase(),
        12 => line.fill_with(|| random.bits(8) as u8),
        13 => line.clear(),
        14 => line[..2].fill_with(|| b'A' + random.below(26) as u8),
        15 => drop(line.drain(place..place + random.below(length - place as u32) as usize)),
        16 => add_sign(random, line),
        _ => damage_part(random, line),
    }
}

/// Parts of lines, and what makes them wrong.
const PARTS: [(&[u8], &[u8]); 13] = [
    (b"X1", b"X0"),
    (b"X2", b"X0"),
    (b"X3", b"X4"),
    (b"W0", b"W4"),
    (b"W3", b"W9"),
    (b" W", b"  W"),
    (b" W", b"W"),
    (b"(", b"(-"),
    (b"*", b"*-"),
    (b"+", b"+-"),
    (b"[", b"("),
    (b",", b",["),
    (b")", b")("),
];

/// Makes a part of a line wrong where it first stands.
fn damage_part(random: &mut Random, line: &mut Vec<u8>) {
    let place_of = |part: &[u8]| line.windows(part.len()).position(|place| place == part);
    let parts = PARTS.iter();
    let found: Vec<(usize, usize, &[u8])> = parts
        .filter_map(|(part, wrong)| Some((place_of(part)?, part.len(), *wrong)))
        .collect();
    let (place, length, wrong) = random.pick(&found);
    line.splice(place..place + length, wrong.iter().copied());
}

/// Puts a sign in front of the address.
fn add_sign(random: &mut Random, line: &mut Vec<u8>) {
    let before = line.iter().rposition(|byte| b" [,".contains(byte));
    line.insert(before.map_or(0, |place| place + 1), random.pick(b"+-"));
}
