//! What cases were about, as far as the assembler goes: names for `Coverage`, and
//! the fields of the words that lines gave.

use crate::addresses::{address, depth, is_outside, numbers, Evaluation, LARGEST, SMALLEST};
use crate::coverage::{absent, add, holding, times};
use emulation::{assemble, Refusal, MAXIMUM_DEPTH, MAXIMUM_LINE, MNEMONIC_CODES};
use protocol::Answer;
use std::collections::BTreeMap;
use std::fmt;

/// All names that the functions here give.
pub const ASSEMBLY_EVENTS: [&str; 56] = [
    "assembled: a number alone",
    "assembled: +",
    "assembled: -",
    "assembled: *",
    "assembled: a sum from the left",
    "assembled: a product from the left",
    "assembled: a product before a sum",
    "assembled: a product behind + or -",
    "assembled: parentheses",
    "assembled: parentheses before *",
    "assembled: parentheses behind *",
    "assembled: parentheses behind -",
    "assembled: leading zeroes",
    "assembled: number 8,388,607",
    "assembled: sum 8,388,607",
    "assembled: sum -8,388,608",
    "assembled: product 8,388,607",
    "assembled: product -8,388,608",
    "assembled: address 2047",
    "assembled: address -2048",
    "assembled: depth 16",
    "assembled: over 16 parentheses, not too deep",
    "assembled: 255 characters",
    "19: empty",
    "19: 256 characters in the grammar",
    "19: a character over 127",
    "19: lower-case letters",
    "19: unknown mnemonic",
    "19: W4 or more",
    "19: X0",
    "19: X4 or more",
    "19: a sign in front",
    "19: a sign behind an operator",
    "19: a sign in parentheses",
    "19: a space too many",
    "19: no ) at the end",
    "19: no ] at the end",
    "19: a character too many at the end",
    "19: in a line too deep",
    "19: behind a line too deep",
    "19: behind a value out of range",
    "20: depth 17",
    "20: depth over 100",
    "20: a value out of range too",
    "21: number 8,388,608",
    "21: sum 8,388,608",
    "21: sum -8,388,609",
    "21: product 8,388,608",
    "21: product -8,388,609",
    "21: address 2048",
    "21: address -2049",
    "21: number that comes back",
    "21: sum that comes back",
    "21: product that comes back",
    "21: a number of over 19 digits",
    "21: depth 16",
];

/// What a line was about.
pub fn assembly_events(line: &[u8], answer: &Answer) -> Vec<&'static str> {
    match answer {
        Answer::Word(_) => assembled_events(line),
        Answer::Refused(Refusal::LineGrammar) => grammar_events(line),
        Answer::Refused(Refusal::LineDepth) => depth_events(line),
        Answer::Refused(Refusal::LineValue) => value_events(line),
        _ => Vec::new(),
    }
}

fn contains(line: &[u8], part: &str) -> bool {
    line.windows(part.len())
        .any(|place| place == part.as_bytes())
}

fn assembled_events(line: &[u8]) -> Vec<&'static str> {
    let address = address(line);
    let evaluation = Evaluation::new(address);
    let opened = address.iter().filter(|&&byte| byte == b'(').count();
    let mut events = production_events(address, &evaluation);
    events.extend(limit_events(&evaluation));
    events.extend(holding(&[
        (depth(line) == MAXIMUM_DEPTH, "assembled: depth 16"),
        (
            opened > MAXIMUM_DEPTH,
            "assembled: over 16 parentheses, not too deep",
        ),
        (line.len() == MAXIMUM_LINE, "assembled: 255 characters"),
    ]));
    events
}

fn production_events(address: &[u8], evaluation: &Evaluation) -> Vec<&'static str> {
    let has = |part: &str| contains(address, part);
    let alone = address.iter().all(u8::is_ascii_digit);
    let zeroes = numbers(address).any(|digits| digits.len() > 1 && digits[0] == b'0');
    let Evaluation {
        sum_from_left,
        product_from_left,
        product_before_sum,
        product_behind_sign,
        ..
    } = *evaluation;
    holding(&[
        (alone, "assembled: a number alone"),
        (has("+"), "assembled: +"),
        (has("-"), "assembled: -"),
        (has("*"), "assembled: *"),
        (sum_from_left, "assembled: a sum from the left"),
        (product_from_left, "assembled: a product from the left"),
        (product_before_sum, "assembled: a product before a sum"),
        (product_behind_sign, "assembled: a product behind + or -"),
        (has("("), "assembled: parentheses"),
        (has(")*"), "assembled: parentheses before *"),
        (has("*("), "assembled: parentheses behind *"),
        (has("-("), "assembled: parentheses behind -"),
        (zeroes, "assembled: leading zeroes"),
    ])
}

/// Numbers and results at the ends of their ranges.
fn limit_events(evaluation: &Evaluation) -> Vec<&'static str> {
    let Evaluation {
        numbers,
        sums,
        products,
        ..
    } = evaluation;
    let last = evaluation.last();
    holding(&[
        (numbers.contains(&LARGEST), "assembled: number 8,388,607"),
        (sums.contains(&LARGEST), "assembled: sum 8,388,607"),
        (sums.contains(&SMALLEST), "assembled: sum -8,388,608"),
        (products.contains(&LARGEST), "assembled: product 8,388,607"),
        (
            products.contains(&SMALLEST),
            "assembled: product -8,388,608",
        ),
        (last == 2047, "assembled: address 2047"),
        (last == -2048, "assembled: address -2048"),
    ])
}

/// Whether a line is in the grammar.
fn is_line(line: &[u8]) -> bool {
    assemble(line) != Err(Refusal::LineGrammar)
}

/// Whether a line is in the grammar when the first part of it that is this one is
/// another.
fn is_line_with(line: &[u8], part: &str, other: &str) -> bool {
    let parts = &mut line.windows(part.len());
    let Some(place) = parts.position(|place| place == part.as_bytes()) else {
        return false;
    };
    let behind = &line[place + part.len()..];
    is_line(&[&line[..place], other.as_bytes(), behind].concat())
}

/// A part and what stands in its place where the line is in the grammar but for
/// it.
const REPAIRS: [(&str, &str, &str); 15] = [
    ("W4", "W0", "19: W4 or more"),
    ("W9", "W0", "19: W4 or more"),
    ("X0", "X1", "19: X0"),
    ("X4", "X1", "19: X4 or more"),
    (" -", " ", "19: a sign in front"),
    (" +", " ", "19: a sign in front"),
    ("[-", "[", "19: a sign in front"),
    ("[+", "[", "19: a sign in front"),
    (",-", ",", "19: a sign in front"),
    (",+", ",", "19: a sign in front"),
    ("*-", "*", "19: a sign behind an operator"),
    ("+-", "+", "19: a sign behind an operator"),
    ("(-", "(", "19: a sign in parentheses"),
    ("(+", "(", "19: a sign in parentheses"),
    ("  ", " ", "19: a space too many"),
];

fn grammar_events(line: &[u8]) -> Vec<&'static str> {
    let Some((_, shorter)) = line.split_last() else {
        return vec!["19: empty"];
    };
    let with = |character: u8| is_line(&[line, &[character]].concat());
    let other = line.get(2..).unwrap_or_default();
    let letters = line.iter().take(2).all(u8::is_ascii_uppercase);
    let deep = depth(line) > MAXIMUM_DEPTH && line.len() <= MAXIMUM_LINE;
    let long = line.len() == MAXIMUM_LINE + 1 && is_line_with(line, "00", "0");
    let mut events = holding(&[
        (long, "19: 256 characters in the grammar"),
        (!line.is_ascii(), "19: a character over 127"),
        (
            is_line(&line.to_ascii_uppercase()),
            "19: lower-case letters",
        ),
        (
            letters && is_line(&[b"AL", other].concat()),
            "19: unknown mnemonic",
        ),
        (with(b')'), "19: no ) at the end"),
        (with(b']'), "19: no ] at the end"),
        (is_line(shorter), "19: a character too many at the end"),
        (deep, "19: in a line too deep"),
        (
            assemble(shorter) == Err(Refusal::LineDepth),
            "19: behind a line too deep",
        ),
        (
            assemble(shorter) == Err(Refusal::LineValue),
            "19: behind a value out of range",
        ),
    ]);
    let repaired = REPAIRS
        .iter()
        .filter(|(part, other, _)| is_line_with(line, part, other));
    events.extend(repaired.map(|&(_, _, name)| name));
    events
}

fn depth_events(line: &[u8]) -> Vec<&'static str> {
    let depth = depth(line);
    let outside = Evaluation::new(address(line)).outside() > 0;
    holding(&[
        (depth == MAXIMUM_DEPTH + 1, "20: depth 17"),
        (depth > 100, "20: depth over 100"),
        (outside, "20: a value out of range too"),
    ])
}

fn value_events(line: &[u8]) -> Vec<&'static str> {
    let address = address(line);
    let evaluation = Evaluation::new(address);
    let last = evaluation.last();
    let in_range = evaluation.outside() == 0;
    let comes_back = (-2048..2048).contains(&last);
    let only = |values: &[i128]| {
        let value = values.iter().find(|value| is_outside(value));
        value.copied().filter(|_| evaluation.outside() == 1)
    };
    let [number, sum, product] =
        [&evaluation.numbers, &evaluation.sums, &evaluation.products].map(|values| only(values));
    let long = numbers(address).any(|digits| digits.len() > 19 && digits[0] != b'0');
    holding(&[
        (number == Some(LARGEST + 1), "21: number 8,388,608"),
        (sum == Some(LARGEST + 1), "21: sum 8,388,608"),
        (sum == Some(SMALLEST - 1), "21: sum -8,388,609"),
        (product == Some(LARGEST + 1), "21: product 8,388,608"),
        (product == Some(SMALLEST - 1), "21: product -8,388,609"),
        (in_range && last == 2048, "21: address 2048"),
        (in_range && last == -2049, "21: address -2049"),
        (number.is_some() && comes_back, "21: number that comes back"),
        (sum.is_some() && comes_back, "21: sum that comes back"),
        (
            product.is_some() && comes_back,
            "21: product that comes back",
        ),
        (long, "21: a number of over 19 digits"),
        (depth(line) == MAXIMUM_DEPTH, "21: depth 16"),
    ])
}

/// Counts of the fields of words that lines gave.
#[derive(Default)]
pub struct AssembledWords {
    codes: BTreeMap<u32, u64>,
    registers: BTreeMap<u32, u64>,
    /// By M and X.
    modes: BTreeMap<(u32, u32), u64>,
}

impl AssembledWords {
    /// Counts the fields of a word.
    pub fn count(&mut self, word: u32) {
        let [w, m, x] = [16, 14, 12].map(|place| (word >> place) & 3);
        add(&mut self.codes, word >> 18);
        add(&mut self.registers, w);
        add(&mut self.modes, (m, x));
    }

    /// What no word had.
    pub fn missing(&self) -> Vec<String> {
        let mut missing = absent(0..58, &self.codes, |code| {
            format!("{} assembled", MNEMONIC_CODES[code as usize])
        });
        missing.extend(absent(0..4, &self.registers, |w| format!("W{w} assembled")));
        let modes = (0..16).map(|both| (both / 4, both % 4));
        missing.extend(absent(modes, &self.modes, |(m, x)| {
            format!("M {m} X {x} assembled")
        }));
        missing
    }
}

impl fmt::Display for AssembledWords {
    fn fmt(&self, formatter: &mut fmt::Formatter) -> fmt::Result {
        write!(formatter, "assembled:")?;
        for (code, name) in (0..).zip(MNEMONIC_CODES) {
            let separator = if code % 12 == 0 { "\n " } else { "" };
            write!(formatter, "{separator} {name} {}", times(&self.codes, code))?;
        }
        let registers = [0, 1, 2, 3].map(|w| format!("W{w} {}", times(&self.registers, w)));
        write!(formatter, "\n  {}", registers.join(" "))?;
        for (m, x) in (0..16).map(|both| (both / 4, both % 4)) {
            let separator = if x == 0 {
                format!("\n  M {m}, X = 0 to 3:")
            } else {
                String::new()
            };
            write!(formatter, "{separator} {}", times(&self.modes, (m, x)))?;
        }
        writeln!(formatter)
    }
}
