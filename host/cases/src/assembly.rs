//! Lines for the assembler: every production, every mnemonic code, the refusals
//! and the ends of every range.

use emulation::MNEMONIC_CODES;
use protocol::Request;

/// All of them.
pub fn cases() -> Vec<Request> {
    let mut lines = fields();
    lines.extend(ADDRESSES.map(with_address));
    lines.extend(OUTSIDE.map(String::from));
    lines.extend(depths());
    lines.extend(lengths());
    lines.extend(parts());
    let mut cases: Vec<Request> = lines.into_iter().map(case).collect();
    cases.extend(bytes().map(|line| Request::Assemble { line }));
    cases
}

fn case(line: String) -> Request {
    let line = line.into_bytes();
    Request::Assemble { line }
}

fn with_address(address: &str) -> String {
    format!("AL W1 {address}")
}

/// Each mnemonic code, in one form; each form, with one mnemonic code.
fn fields() -> Vec<String> {
    let mut lines = Vec::new();
    for (place, name) in MNEMONIC_CODES.iter().enumerate() {
        lines.push(form(name, place % 4, place / 4 % 4, place / 16, "12"));
    }
    for place in 0..64 {
        lines.push(form("RS", place % 4, place / 4 % 4, place / 16, "0-5"));
    }
    lines
}

fn form(name: &str, w: usize, m: usize, x: usize, address: &str) -> String {
    let dot = if m >= 2 { "." } else { "" };
    let index = ["", "X1,", "X2,", "X3,"][x];
    match m % 2 {
        0 => format!("{name}{dot} W{w} {index}{address}"),
        _ => format!("{name}{dot} W{w} [{index}{address}]"),
    }
}

/// Addresses in the grammar: how their parts go together, and numbers, sums,
/// products and last values at the ends of their ranges and beyond.
const ADDRESSES: [&str; 66] = [
    "0",
    "7",
    "007",
    "000000000000000000000000000000002047",
    "1+2",
    "1-2",
    "2*3",
    "1+2*3",
    "1-2*3",
    "2*3+4",
    "2*3-4",
    "10-4-3",
    "10-4+3",
    "10+4-3",
    "10-(4-3)",
    "2*3*4",
    "2*3*4-5*6",
    "(7)",
    "((7))",
    "(1+2)*3",
    "3*(1+2)",
    "(0-2)*(0-3)",
    "1-2*(3-4*(5-6))-7",
    "0-(0-7)",
    "(1)+(2)+(3)+(4)+(5)+(6)+(7)+(8)+(9)+(10)+(11)+(12)+(13)+(14)+(15)+(16)+(17)",
    "2046",
    "2047",
    "2048",
    "2049",
    "0-2047",
    "0-2048",
    "0-2049",
    "0-2050",
    "8388607",
    "8388608",
    "8388607-8388607",
    "8388608-8388608",
    "8388606-8388600",
    "0*8388607",
    "0*8388608",
    "99999999999999999999999999999999999999*0",
    "4294967296-0",
    "18446744073709551616-0",
    "8388606+1-8388000",
    "8388607+1-8388600",
    "8388607+8388607-8388607-8388607",
    "0*(8388607+1)",
    "(8388607+1)*0",
    "0-8388607-1+8388000",
    "0-8388607-2+8388600",
    "0-(8388607+1)+8388600",
    "47*178481-8388000",
    "2048*4096-8388600",
    "2*4194304-8388600",
    "(0-2048)*4096+8388000",
    "(0-3)*2796203+8388600",
    "4096*4096*0",
    "0*4096*4096",
    "8388607*8388607-0",
    "(0-8388607)*8388607*0",
    "8388607-1*8388607",
    "1+8388607-8388607",
    "8388607-8388607+1",
    "1-8388607-2+8388607",
    "0-2048*4096",
    "2896*2896-8386816",
];

/// Lines outside the grammar.
const OUTSIDE: [&str; 62] = [
    "",
    "A",
    "AL",
    "AL ",
    "AL W",
    "AL W1",
    "AL W1 ",
    "al W1 5",
    "Al W1 5",
    "AL w1 5",
    "ZZ W1 5",
    "AL W4 5",
    "AL W9 5",
    "AL W 5",
    "AL W-1 5",
    "AL 1 5",
    "AL 5",
    "AL W1  5",
    "AL  W1 5",
    " AL W1 5",
    "AL W1 5 ",
    "AL W1 5\n",
    "AL W1 5\0",
    "AL .W1 5",
    "AL.. W1 5",
    "AL.W1 5",
    "AL W1 -5",
    "AL W1 +5",
    "AL W1 [-5]",
    "AL W1 X1,-5",
    "AL W1 2*-1",
    "AL W1 2--1",
    "AL W1 (-1)",
    "AL W1 5+",
    "AL W1 5*",
    "AL W1 *5",
    "AL W1 X0,5",
    "AL W1 X4,5",
    "AL W1 X1",
    "AL W1 X1,",
    "AL W1 X15",
    "AL W1 ,5",
    "AL W1 X1 ,5",
    "AL W1 X1, 5",
    "AL W1 x1,5",
    "AL W1 [5",
    "AL W1 5]",
    "AL W1 []",
    "AL W1 [X1,]",
    "AL W1 X1,[5]",
    "AL W1 [[5]]",
    "AL W1 ([5])",
    "AL W1 [X1],5",
    "AL W1 (X1,5)",
    "AL W1 ()",
    "AL W1 (5",
    "AL W1 5)",
    "AL W1 2(3)",
    "AL W1 (2)3",
    "AL W1 5/1",
    "AL W1 5 + 1",
    "AL W1 8388608-",
];

/// An address in so many parentheses.
fn nested(levels: usize, address: &str) -> String {
    format!("{}{address}{}", "(".repeat(levels), ")".repeat(levels))
}

/// Depths about 16, with a value out of range and with a fault too.
fn depths() -> Vec<String> {
    let mut addresses = Vec::new();
    for levels in [1, 15, 16, 17, 18, 32, 110, 124] {
        addresses.push(nested(levels, "5"));
    }
    for levels in [16, 17] {
        addresses.push(nested(levels, "8388608"));
        addresses.push(nested(levels, "5-"));
        addresses.push(format!("{}-", nested(levels, "5")));
        addresses.push(format!("{})", nested(levels, "5")));
        addresses.push(format!("({}", nested(levels, "5")));
        addresses.push(format!("[{}]", nested(levels, "5")));
        addresses.push(format!("{0}-{0}", nested(levels, "5")));
        addresses.push(format!("2*({})+3", nested(levels - 1, "5")));
        addresses.push(format!("8388608+{}", nested(levels, "5")));
    }
    addresses
        .iter()
        .map(|address| with_address(address))
        .collect()
}

/// Lines of 254 to 257 characters, by leading zeroes, by sums, and by
/// parentheses that are not closed.
fn lengths() -> Vec<String> {
    let mut lines = Vec::new();
    for length in 254..=257 {
        let left = length - with_address("").len();
        for end in ["5", "(5)", "2048", "8388608-8388608", "5-"] {
            let zeroes = "0+".repeat((left - end.len()) / 2);
            let odd = "0".repeat((left - end.len()) % 2);
            lines.push(with_address(&format!("{odd}{zeroes}{end}")));
        }
        lines.push(with_address(&format!("{}5", "0".repeat(left - 1))));
        lines.push(with_address(&"9".repeat(left)));
        lines.push(with_address(&"(".repeat(left)));
    }
    lines
}

/// The beginnings of a line, and the line without one of its characters.
fn parts() -> Vec<String> {
    let line = "SS. W3 [X2,(3+40)*5-6]";
    let mut lines = vec![line.to_string()];
    for place in 0..line.len() {
        lines.push(line[..place].to_string());
        lines.push(format!("{}{}", &line[..place], &line[place + 1..]));
    }
    lines
}

/// A line with one byte that is no character of ASCII, and such bytes alone.
fn bytes() -> impl Iterator<Item = Vec<u8>> {
    let places = [0, 1, 2, 4, 6, 7];
    let wrong = places.into_iter().flat_map(|place| {
        [0x00, 0x80, 0xb5, 0xff].map(|byte| {
            let mut line = b"AL W1 5.".to_vec();
            line[place] = byte;
            line.truncate(7.max(place + 1));
            line
        })
    });
    wrong.chain([vec![0], vec![255; 255], vec![0; 256]])
}
