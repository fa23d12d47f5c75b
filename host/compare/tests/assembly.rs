//! The emulation against assemblers with one flaw each.

use compare::{compare, Coverage};
use emulation::assemble;
use protocol::{Control, Devices, Emulation, Machine, Refusal, Report, Request};

/// What is wrong with an assembler.
#[derive(Clone, Copy, Debug, PartialEq)]
enum Flaw {
    Nothing,
    Length255Refused,
    Length256Passes,
    Depth16Refused,
    Depth17Passes,
    DepthOfAllParentheses,
    DepthBeforeGrammar,
    ValueBeforeGrammar,
    ValueBeforeDepth,
    NumbersNotTested,
    FactorAfterZeroNotRead,
    LastNotTested,
    SumFromRight,
    SignPasses,
    X0Passes,
    LowerCasePasses,
    LineEndPasses,
    SpacePasses,
    BracketLeftOpenPasses,
    IndexOutsideBracketsPasses,
    ModesExchanged,
    CodesExchanged,
    NoNegativeDisplacement,
}

/// All of them but `Nothing`.
const FLAWS: [Flaw; 22] = [
    Flaw::Length255Refused,
    Flaw::Length256Passes,
    Flaw::Depth16Refused,
    Flaw::Depth17Passes,
    Flaw::DepthOfAllParentheses,
    Flaw::DepthBeforeGrammar,
    Flaw::ValueBeforeGrammar,
    Flaw::ValueBeforeDepth,
    Flaw::NumbersNotTested,
    Flaw::FactorAfterZeroNotRead,
    Flaw::LastNotTested,
    Flaw::SumFromRight,
    Flaw::SignPasses,
    Flaw::X0Passes,
    Flaw::LowerCasePasses,
    Flaw::LineEndPasses,
    Flaw::SpacePasses,
    Flaw::BracketLeftOpenPasses,
    Flaw::IndexOutsideBracketsPasses,
    Flaw::ModesExchanged,
    Flaw::CodesExchanged,
    Flaw::NoNegativeDisplacement,
];

/// The emulation with one flaw.
struct Flawed(Flaw);

/// The line with the first part of it that is this one as another.
fn with(line: &[u8], part: &str, other: &str) -> Vec<u8> {
    let text: String = line.iter().copied().map(char::from).collect();
    let changed = text.replacen(part, other, 1);
    changed.chars().map(|character| character as u8).collect()
}

/// How many parentheses are open at one time.
fn depth(line: &[u8]) -> i32 {
    let depths = line.iter().scan(0, |open, &byte| {
        *open += i32::from(byte == b'(') - i32::from(byte == b')');
        Some(*open)
    });
    depths.max().unwrap_or(0)
}

/// The line without its outermost parentheses.
fn shallower(line: &[u8]) -> Vec<u8> {
    let mut line = with(line, "(", "");
    let last = line.iter().rposition(|&byte| byte == b')');
    last.map(|place| line.remove(place));
    line
}

/// The line with the second sign after a minus exchanged, as where what is behind
/// the minus goes first.
fn from_right(line: &[u8]) -> Vec<u8> {
    let mut line = line.to_vec();
    let mut signs = line.iter_mut().filter(|byte| b"+-".contains(byte));
    let minus = signs.by_ref().find(|byte| **byte == b'-');
    if let (Some(_), Some(sign)) = (minus, signs.next()) {
        *sign = if *sign == b'-' { b'+' } else { b'-' };
    }
    line
}

/// The line without what parentheses behind `0*` hold.
fn without_factor(line: &[u8]) -> Vec<u8> {
    let place = line.windows(3).position(|part| part == b"0*(");
    let end = if line.ends_with(b"]") { "]" } else { "" };
    let kept = place.map_or(line, |place| &line[..place + 1]);
    [kept, end.as_bytes()].concat()
}

/// The places of a word exchanged.
fn exchanged(word: u32, places: [u32; 2]) -> u32 {
    let [first, second] = places.map(|place| (word >> place) & 1);
    let kept = word & !(1 << places[0]) & !(1 << places[1]);
    kept | first << places[1] | second << places[0]
}

impl Flawed {
    /// What becomes of a word.
    fn word(&self, line: &[u8], word: u32) -> Result<u32, Refusal> {
        let opened = line.iter().filter(|&&byte| byte == b'(').count();
        match self.0 {
            Flaw::Length255Refused if line.len() == 255 => Err(Refusal::LineGrammar),
            Flaw::Depth16Refused if depth(line) == 16 => Err(Refusal::LineDepth),
            Flaw::DepthOfAllParentheses if opened > 16 => Err(Refusal::LineDepth),
            Flaw::ModesExchanged => Ok(exchanged(word, [14, 15])),
            Flaw::CodesExchanged if matches!(word >> 18, 51 | 52) => Ok(word ^ 7 << 18),
            Flaw::NoNegativeDisplacement if word & 2048 != 0 => Err(Refusal::LineValue),
            Flaw::SumFromRight => assemble(&from_right(line)).or(Ok(word)),
            _ => Ok(word),
        }
    }

    /// What becomes of refusal 19.
    fn outside(&self, line: &[u8]) -> Result<u32, Refusal> {
        let shorter = line.split_last().map_or(line, |(_, shorter)| shorter);
        match self.0 {
            Flaw::Length256Passes if line.len() == 256 => assemble(&with(line, "00", "0")),
            Flaw::DepthBeforeGrammar if depth(line) > 16 => Err(Refusal::LineDepth),
            Flaw::ValueBeforeGrammar if assemble(shorter) == Err(Refusal::LineValue) => {
                Err(Refusal::LineValue)
            }
            Flaw::SignPasses => assemble(&with(line, " -", " 0-")),
            Flaw::X0Passes => assemble(&with(line, "X0,", "")),
            Flaw::LowerCasePasses => assemble(&line.to_ascii_uppercase()),
            Flaw::LineEndPasses if line.ends_with(b"\n") => assemble(shorter),
            Flaw::SpacePasses => assemble(&with(line, "  ", " ")),
            Flaw::BracketLeftOpenPasses => assemble(&[line, b"]"].concat()),
            Flaw::IndexOutsideBracketsPasses if line.ends_with(b"]") => {
                assemble(&with(&with(line, "X", "[X"), ",[", ","))
            }
            _ => Err(Refusal::LineGrammar),
        }
    }

    /// What becomes of refusal 21.
    fn beyond(&self, line: &[u8]) -> Result<u32, Refusal> {
        match self.0 {
            Flaw::NumbersNotTested => assemble(&with(line, "8388608", "8388607")),
            Flaw::FactorAfterZeroNotRead => assemble(&without_factor(line)),
            Flaw::LastNotTested => assemble(&with(line, " 2048", " 0-2048")),
            _ => Err(Refusal::LineValue),
        }
    }
}

impl Machine for Flawed {
    fn run(
        &self,
        store: &mut [u32],
        control: &mut Control,
        lines: u32,
        budget: u32,
        devices: &mut Devices,
        characters: &[u8],
        typing: &mut [u8],
    ) -> Result<Report, Refusal> {
        Emulation.run(store, control, lines, budget, devices, characters, typing)
    }

    fn press_reset(&self, store: &mut [u32], control: &mut Control) -> Result<(), Refusal> {
        Emulation.press_reset(store, control)
    }

    fn press_start(&self, store: &mut [u32], control: &mut Control) -> Result<(), Refusal> {
        Emulation.press_start(store, control)
    }

    fn press_autoload(
        &self,
        store: &mut [u32],
        control: &mut Control,
        devices: &mut Devices,
        characters: &[u8],
    ) -> Result<usize, Refusal> {
        Emulation.press_autoload(store, control, devices, characters)
    }

    fn load(&self, store: &mut [u32], control: &mut Control, tape: &[u8]) -> Result<(), Refusal> {
        Emulation.load(store, control, tape)
    }

    fn overlay(
        &self,
        store: &mut [u32],
        control: &mut Control,
        tape: &[u8],
    ) -> Result<(), Refusal> {
        Emulation.overlay(store, control, tape)
    }

    fn remark<'t>(&self, tape: &'t [u8], cells: usize) -> Result<Option<&'t [u8]>, Refusal> {
        Emulation.remark(tape, cells)
    }

    fn write(
        &self,
        store: &[u32],
        control: Control,
        remark: Option<&[u8]>,
        tape: &mut [u8],
    ) -> Result<usize, Refusal> {
        Emulation.write(store, control, remark, tape)
    }

    fn assemble(&self, line: &[u8]) -> Result<u32, Refusal> {
        let deep = depth(line);
        match (Emulation.assemble(line), self.0) {
            (Ok(word), _) => self.word(line, word),
            (Err(Refusal::LineGrammar), _) => self.outside(line),
            (Err(Refusal::LineDepth), Flaw::Depth17Passes) if deep == 17 => {
                assemble(&shallower(line))
            }
            (Err(Refusal::LineDepth), Flaw::ValueBeforeDepth) if deep == 17 => {
                assemble(&shallower(line)).and(Err(Refusal::LineDepth))
            }
            (Err(Refusal::LineValue), _) => self.beyond(line),
            (refused, _) => refused,
        }
    }
}

#[test]
fn each_flaw_is_found() {
    for flaw in FLAWS {
        let mut coverage = Coverage::default();
        let result = compare(Flawed(flaw), Emulation, 1, 100_000, &mut coverage);
        let difference = result.err().unwrap_or_else(|| panic!("{flaw:?} not found"));
        assert!(matches!(difference.request, Request::Assemble { .. }));
        let shown = Request::parse(&difference.request.to_string());
        assert_eq!(shown, Ok(difference.request));
    }
}

/// A flaw that both have shows where the shortest line of the word is assembled.
#[test]
fn a_flaw_of_both_is_found() {
    for flaw in [Flaw::ModesExchanged, Flaw::CodesExchanged] {
        let mut coverage = Coverage::default();
        let result = compare(Flawed(flaw), Flawed(flaw), 1, 100_000, &mut coverage);
        assert!(result.is_err(), "{flaw:?} not found");
    }
}

#[test]
fn without_a_flaw_nothing_is_found() {
    let mut coverage = Coverage::default();
    let result = compare(Flawed(Flaw::Nothing), Emulation, 1, 20_000, &mut coverage);
    assert!(result.is_ok());
}

/// Every tenth case is a line, and at least one line in four gives a word.
#[test]
fn many_lines_are_assembled() {
    let mut coverage = Coverage::default();
    let result = compare(Emulation, Emulation, 4000, 50_000, &mut coverage);
    assert!(result.is_ok());
    assert!(coverage.assembled() > 1250, "{}", coverage.assembled());
}
