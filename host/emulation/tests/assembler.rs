//! The assembler: the words of lines, what it refuses and in which order, and
//! every word there and back.

use emulation::{assemble, disassemble, Refusal, MAXIMUM_LINE, MNEMONIC_CODES};
use std::io::Write;
use std::process::{Command, Stdio};

const GRAMMAR: Result<u32, Refusal> = Err(Refusal::LineGrammar);
const DEPTH: Result<u32, Refusal> = Err(Refusal::LineDepth);
const VALUE: Result<u32, Refusal> = Err(Refusal::LineValue);

/// A line with this address.
fn at(address: &str) -> String {
    format!("AW W0 {address}")
}

fn assembled(line: &str) -> Result<u32, Refusal> {
    assemble(line.as_bytes())
}

/// The displacement of a line with this address, or the refusal.
fn displaced(address: &str) -> Result<i32, Refusal> {
    let word = assembled(&at(address))?;
    assert!(word < 4096);
    Ok((word ^ 0x800) as i32 - 0x800)
}

#[test]
fn the_fields_of_a_word() {
    let al = 11 << 18;
    for (line, word) in [
        ("AL W0 0", al),
        ("AL W3 0", al | 3 << 16),
        ("AL. W0 0", al | 1 << 15),
        ("AL W0 [0]", al | 1 << 14),
        ("AL W0 X3,0", al | 3 << 12),
        ("AL W0 2047", al | 2047),
        ("AL W0 0-1", al | 4095),
        ("AL W0 0-2048", al | 2048),
        ("AL. W1 [X2,5]", al | 1 << 16 | 3 << 14 | 2 << 12 | 5),
        ("SS. W3 [X3,0-1]", 57 << 18 | 0x3_ffff),
        ("AW W0 0", 0),
    ] {
        assert_eq!(assembled(line), Ok(word), "{line}");
    }
}

#[test]
fn every_pair_of_letters() {
    let mut codes = Vec::new();
    for first in 'A'..='Z' {
        for second in 'A'..='Z' {
            match assembled(&format!("{first}{second} W0 0")) {
                Ok(word) => codes.push(word >> 18),
                refused => assert_eq!(refused, GRAMMAR),
            }
        }
    }
    codes.sort_unstable();
    assert!(codes.into_iter().eq(0..58));
}

#[test]
fn the_codes_of_some_mnemonics() {
    for (name, code) in [("AW", 0), ("AM", 9), ("JL", 13), ("IS", 31), ("CI", 32)] {
        assert_eq!(assembled(&format!("{name} W0 0")), Ok(code << 18));
    }
    assert_eq!(MNEMONIC_CODES[51..54], ["KS", "FD", "CF"]);
}

#[test]
fn the_order_of_operations() {
    for (address, value) in [
        ("2+3*4", 14),
        ("2*3+4", 10),
        ("(2+3)*4", 20),
        ("10-4-3", 3),
        ("10-(4-3)", 9),
        ("10-4+3", 9),
        ("2*3*4-5*4", 4),
        ("1-2*(3-4*(5-6))-7", -20),
        ("(0-2)*(0-3)", 6),
        ("0-(0-7)", 7),
        ("((((7))))", 7),
        ("0007", 7),
        ("00000000000000000000000000002047", 2047),
        ("8388607-8388607", 0),
        ("0-8388607-1+8388607", -1),
        ("2896*2896-8386816", 0),
    ] {
        assert_eq!(displaced(address), Ok(value), "{address}");
    }
}

const OUTSIDE: [&str; 60] = [
    "",
    "A",
    "AL",
    "AL ",
    "AL W",
    "AL W1",
    "AL W1 ",
    "al W1 5",
    "Al W1 5",
    "AL w1 5",
    "ZZ W1 5",
    "AL W4 5",
    "AL W 5",
    "AL W-1 5",
    "AL 1 5",
    "AL 5",
    "AL W1  5",
    "AL  W1 5",
    " AL W1 5",
    "AL W1 5 ",
    "AL W1 5\n",
    "AL W1 5\0",
    "AL .W1 5",
    "AL.. W1 5",
    "AL.W1 5",
    "AL W1 -5",
    "AL W1 +5",
    "AL W1 2*-1",
    "AL W1 2--1",
    "AL W1 (-1)",
    "AL W1 5+",
    "AL W1 5*",
    "AL W1 *5",
    "AL W1 X0,5",
    "AL W1 X4,5",
    "AL W1 X1",
    "AL W1 X1,",
    "AL W1 X15",
    "AL W1 ,5",
    "AL W1 X1 ,5",
    "AL W1 X1, 5",
    "AL W1 x1,5",
    "AL W1 [5",
    "AL W1 5]",
    "AL W1 []",
    "AL W1 [X1,]",
    "AL W1 X1,[5]",
    "AL W1 [[5]]",
    "AL W1 ([5])",
    "AL W1 [X1],5",
    "AL W1 (X1,5)",
    "AL W1 ()",
    "AL W1 (5",
    "AL W1 5)",
    "AL W1 (5))",
    "AL W1 2(3)",
    "AL W1 (2)3",
    "AL W1 5/1",
    "AL W1 5 + 1",
    "AL W1 0x5",
];

#[test]
fn lines_outside_the_grammar() {
    for line in OUTSIDE {
        assert_eq!(assembled(line), GRAMMAR, "{line:?}");
    }
    assert_eq!(assemble(b"AL W1 5\xff"), GRAMMAR);
    assert_eq!(assemble(b"AL W1 \xb25"), GRAMMAR);
    assert_eq!(assemble(&[0; 255]), GRAMMAR);
}

/// The bytes that may stand in each place of a line where the others stay.
const PASSING: [&str; 15] = [
    "ABDHJKMPRSX",
    "ACDLMSW",
    ".",
    " ",
    "W",
    "0123",
    " ",
    "[",
    "X",
    "123",
    ",",
    "(",
    "0123456789",
    ")",
    "]",
];

#[test]
fn every_byte_in_every_place() {
    for (place, passing) in PASSING.into_iter().enumerate() {
        for byte in 0..=255 {
            let mut line = *b"AL. W1 [X2,(5)]";
            line[place] = byte;
            let passes = passing.as_bytes().contains(&byte);
            assert_eq!(assemble(&line) != GRAMMAR, passes, "{place} {byte}");
        }
    }
}

/// The address in so many parentheses.
fn deep(count: usize, address: &str) -> String {
    format!("{}{address}{}", "(".repeat(count), ")".repeat(count))
}

#[test]
fn depth_16_passes_and_17_does_not() {
    assert_eq!(displaced(&deep(16, "5")), Ok(5));
    assert_eq!(displaced(&deep(17, "5")), Err(Refusal::LineDepth));
    // Parentheses that are closed again do not count, nor do brackets.
    assert_eq!(displaced(&["(1)"; 40].join("+")), Ok(40));
    let sixteen = deep(16, "1");
    assert_eq!(displaced(&format!("{sixteen}-{sixteen}*3")), Ok(-2));
    assert_eq!(assembled(&format!("AW W0 [{sixteen}]")), Ok(1 << 14 | 1));
    assert_eq!(assembled(&format!("AW W0 [{}]", deep(17, "1"))), DEPTH);
}

#[test]
fn numbers_and_results_in_and_out_of_range() {
    for (inside, value) in [
        ("8388607-8388607", 0),
        ("8388606+1-8388607", 0),
        ("0-8388607-1+8388607", -1),
        ("2047", 2047),
        ("0-2048", -2048),
        ("47*178481-8388607", 0),
        ("(0-2048)*4096+8388607", -1),
    ] {
        assert_eq!(displaced(inside), Ok(value), "{inside}");
    }
    for outside in [
        "8388608-8388608",
        "0*8388608",
        "0*(8388607+1)",
        "8388607+1-8388607",
        "0-8388607-2+8388607",
        "2048*4096-8388607",
        "(0-3)*2796203+8388607",
        "4096*4096*0",
        "2048",
        "0-2049",
        "99999999999999999999999999999999-99999999999999999999999999999999",
        "18446744073709551616-0",
        "(((8388608)))*0",
    ] {
        assert_eq!(displaced(outside), Err(Refusal::LineValue), "{outside}");
    }
    // A product comes before a sum that would leave the range.
    assert_eq!(displaced("8388607-1*8388607"), Ok(0));
    assert_eq!(displaced("1+8388607*1-8388607"), Err(Refusal::LineValue));
}

/// Each refusal with those that come after it.
#[test]
fn refusals_in_their_order() {
    let long = "9".repeat(100);
    let too_deep = deep(17, &long);
    for (address, refused) in [
        (format!("{too_deep}]"), GRAMMAR),
        (format!("{too_deep}-"), GRAMMAR),
        (deep(17, "5-"), GRAMMAR),
        (format!("{long}-"), GRAMMAR),
        (format!("-{long}"), GRAMMAR),
        (deep(17, &long), DEPTH),
        (format!("{long}+{}", deep(17, "5")), DEPTH),
        (format!("{}+{long}", deep(17, "5")), DEPTH),
        (deep(16, &long), VALUE),
    ] {
        assert_eq!(assembled(&at(&address)), refused, "{address}");
    }
}

/// A line of so many characters, by leading zeroes.
fn of_length(length: usize, end: &str) -> String {
    let begin = "AL W1 ";
    let zeroes = "0".repeat(length - begin.len() - end.len());
    format!("{begin}{zeroes}{end}")
}

#[test]
fn length_255_passes_and_256_does_not() {
    let word = assembled("AL W1 5");
    assert!(word.is_ok());
    assert_eq!(assembled(&of_length(MAXIMUM_LINE, "5")), word);
    assert_eq!(assembled(&of_length(256, "5")), GRAMMAR);
    assert_eq!(assembled(&of_length(100_000, "5")), GRAMMAR);
    assert_eq!(assembled(&of_length(255, "2048")), VALUE);
    assert_eq!(assembled(&of_length(256, &deep(17, "5"))), GRAMMAR);
    // As deep as a line can be, closed and not.
    assert_eq!(assembled(&at(&deep(124, "5"))), DEPTH);
    assert_eq!(assembled(&at(&"(".repeat(249))), GRAMMAR);
}

#[test]
fn every_word_there_and_back() {
    for word in 0..58 << 18 {
        let line = disassemble(word).unwrap();
        assert_eq!(assembled(&line), Ok(word), "{line}");
    }
}

#[test]
fn words_that_are_no_instruction() {
    for word in (58 << 18..1 << 24).step_by(4093) {
        assert_eq!(disassemble(word), None);
    }
    for word in [(1 << 24) - 1, 1 << 24, u32::MAX] {
        assert_eq!(disassemble(word), None);
    }
}

#[test]
fn lines_of_words() {
    for line in [
        "AW W0 0",
        "AL. W1 [X2,5]",
        "RS W3 X1,0-2048",
        "JL. W0 0-6",
        "SS W2 [2047]",
    ] {
        assert_eq!(disassemble(assembled(line).unwrap()).as_deref(), Some(line));
    }
}

/// The program `disassemble` on words in decimal.
#[test]
fn the_program() {
    let mut program = Command::new(env!("CARGO_BIN_EXE_disassemble"))
        .stdin(Stdio::piped())
        .stdout(Stdio::piped())
        .spawn()
        .unwrap();
    let words = b"0\n3006469\r\n 15204351\n15204352\n16777216\n99999999999\nAL\n\n7";
    program.stdin.take().unwrap().write_all(words).unwrap();
    let output = program.wait_with_output().unwrap();
    let none = "no instruction\n".repeat(5);
    let lines = format!("AW W0 0\nAL. W1 [X2,5]\nSS. W3 [X3,0-1]\n{none}AW W0 7\n");
    assert!(output.status.success());
    assert_eq!(String::from_utf8(output.stdout).unwrap(), lines);
}
