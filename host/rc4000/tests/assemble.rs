//! Lines through the wrapper: their words, what is refused and in which order,
//! and words there and back.

use emulation::disassemble;
use rc4000::{assemble, Machine, Outcome, Refusal};

const AL: u32 = 11 << 18;

#[test]
fn words() {
    for (line, word) in [
        ("AW W0 0", 0),
        ("AL W3 0", AL | 3 << 16),
        ("AL. W0 0", AL | 1 << 15),
        ("AL W0 [0]", AL | 1 << 14),
        ("AL W0 X3,0", AL | 3 << 12),
        ("AL W0 2047", AL | 2047),
        ("AL W0 0-2048", AL | 2048),
        ("AL. W1 [X2,2*(3+4)]", AL | 1 << 16 | 3 << 14 | 2 << 12 | 14),
        ("SS. W3 [X3,0-1]", 57 << 18 | 0x3_ffff),
        ("AL W0 10-4-3", AL | 3),
        ("AL W0 8388607-1*8388607", AL),
    ] {
        assert_eq!(assemble(line.as_bytes()), Ok(word), "{line}");
    }
}

#[test]
fn refusals_in_their_order() {
    let [open, close] = ["(", ")"].map(|character| character.repeat(17));
    for (line, refusal) in [
        (String::new(), Refusal::LineGrammar),
        ("AL W0 -5".into(), Refusal::LineGrammar),
        (format!("AL W0 {open}8388608{close}-"), Refusal::LineGrammar),
        (format!("AL W0 {open}8388608{close}"), Refusal::LineDepth),
        (format!("AL W0 {open}5{close}"), Refusal::LineDepth),
        ("AL W0 8388608-8388608".into(), Refusal::LineValue),
        ("AL W0 2048".into(), Refusal::LineValue),
    ] {
        assert_eq!(assemble(line.as_bytes()), Err(refusal), "{line}");
    }
    let passes = format!("AL W0 {}5{}", &open[1..], &close[1..]);
    assert_eq!(assemble(passes.as_bytes()), Ok(AL | 5));
}

#[test]
fn lengths() {
    let mut line = b"AL W0 ".to_vec();
    line.resize(255, b'0');
    assert_eq!(assemble(&line), Ok(AL));
    line.push(b'0');
    assert_eq!(assemble(&line), Err(Refusal::LineGrammar));
    line.resize(1_000_000, b'(');
    assert_eq!(assemble(&line), Err(Refusal::LineGrammar));
}

/// All words with an assigned code, by the proved library.
#[test]
fn words_there_and_back() {
    for word in 0..58 << 18 {
        let line = disassemble(word).unwrap();
        assert_eq!(assemble(line.as_bytes()), Ok(word), "{line}");
    }
}

/// Adds the numbers 5 to 1 in W1.
#[test]
fn an_assembled_program_runs() {
    let mut machine = Machine::fresh(16);
    let lines = [
        "AL W2 5",
        "WA W1 2*2",
        "AL W2 X2,0-1",
        "SE W2 0",
        "JL. W0 0-6",
        "AW W0 0",
    ];
    for (address, line) in (16..).step_by(2).zip(lines) {
        machine.set_word(address, assemble(line.as_bytes()).unwrap());
    }
    machine.control.ic = 16;
    machine.control.reset = false;
    let report = machine.run_without_devices(0, 100).unwrap();
    assert_eq!(report.outcome, Outcome::Reset);
    assert_eq!(machine.word(2), Some(15));
}

#[test]
fn numbers_of_the_assemblers_refusals() {
    let refusals = [Refusal::LineGrammar, Refusal::LineDepth, Refusal::LineValue];
    assert_eq!(refusals.map(Refusal::number), [19, 20, 21]);
    for refusal in refusals {
        assert_eq!(Refusal::from_number(refusal.number()), Some(refusal));
    }
}
