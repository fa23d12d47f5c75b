//! The assembler of lines (02, E7), and the way back from a word to a line.

use crate::refusal::Refusal;
use std::ops::RangeInclusive;

/// The most characters of a line.
pub const MAXIMUM_LINE: usize = 255;
/// The most round parentheses that may be open at one time.
pub const MAXIMUM_DEPTH: usize = 16;

/// The mnemonic codes of A.2, by numeric code.
pub const MNEMONIC_CODES: [&str; 58] = [
    "AW", "IO", "BL", "HL", "LA", "LO", "LX", "WA", "WS", "AM", "WM", "AL", "ML", "JL", "JD", "JE",
    "XL", "BS", "BA", "BZ", "RL", "SP", "KL", "RS", "WD", "RX", "HS", "XS", "PL", "PS", "MS", "IS",
    "CI", "AC", "NS", "ND", "AS", "AD", "LS", "LD", "SH", "SL", "SE", "SN", "SO", "SZ", "SX", "IC",
    "FA", "FS", "FM", "KS", "FD", "CF", "DL", "DS", "AA", "SS",
];

/// The numbers and the results of every operation.
const INTERMEDIATE: RangeInclusive<i64> = -8_388_608..=8_388_607;
/// The values of an address.
const LAST: RangeInclusive<i64> = -2048..=2047;

/// The value of a part of an address, none where a value in it is out of range.
type Value = Option<i64>;

fn in_range(value: i64) -> Value {
    Some(value).filter(|value| INTERMEDIATE.contains(value))
}

/// The operation on two values, none where it or one of them is out of range.
fn combined(left: Value, right: Value, operation: fn(i64, i64) -> i64) -> Value {
    in_range(operation(left?, right?))
}

/// What is left of a line, and how deep it went so far.
struct Reader<'a> {
    rest: &'a [u8],
    depth: usize,
    deepest: usize,
}

/// A function reads the longest part of the grammar with its name, or refuses
/// with 19. Depth and range are looked at only when the whole line was read.
impl Reader<'_> {
    /// Passes these characters if they come next.
    fn passes(&mut self, characters: &[u8]) -> bool {
        match self.rest.strip_prefix(characters) {
            Some(rest) => {
                self.rest = rest;
                true
            }
            None => false,
        }
    }

    fn expect(&mut self, characters: &[u8]) -> Result<(), Refusal> {
        if self.passes(characters) {
            Ok(())
        } else {
            Err(Refusal::LineGrammar)
        }
    }

    /// The next digit, if there is one.
    fn digit(&mut self) -> Option<u32> {
        let (&first, rest) = self.rest.split_first()?;
        let digit = char::from(first).to_digit(10)?;
        self.rest = rest;
        Some(digit)
    }

    /// A digit in this range, the number of a register.
    fn register(&mut self, numbers: RangeInclusive<u32>) -> Result<u32, Refusal> {
        let register = self.digit().filter(|digit| numbers.contains(digit));
        register.ok_or(Refusal::LineGrammar)
    }

    fn mnemonic(&mut self) -> Result<u32, Refusal> {
        let letters = self.rest.get(..2).ok_or(Refusal::LineGrammar)?;
        self.rest = &self.rest[2..];
        let mut names = MNEMONIC_CODES.iter();
        let code = names.position(|name| name.as_bytes() == letters);
        code.map(|code| code as u32).ok_or(Refusal::LineGrammar)
    }

    /// All digits that come next.
    fn number(&mut self) -> Result<Value, Refusal> {
        let first = self.digit().ok_or(Refusal::LineGrammar)?;
        let mut value = Some(i64::from(first));
        while let Some(digit) = self.digit() {
            value = value.and_then(|value| in_range(10 * value + i64::from(digit)));
        }
        Ok(value)
    }

    fn primary(&mut self) -> Result<Value, Refusal> {
        if !self.passes(b"(") {
            return self.number();
        }
        self.depth += 1;
        self.deepest = self.deepest.max(self.depth);
        let value = self.sum()?;
        self.expect(b")")?;
        self.depth -= 1;
        Ok(value)
    }

    fn product(&mut self) -> Result<Value, Refusal> {
        let mut value = self.primary()?;
        while self.passes(b"*") {
            value = combined(value, self.primary()?, |left, right| left * right);
        }
        Ok(value)
    }

    fn sum(&mut self) -> Result<Value, Refusal> {
        let mut value = self.product()?;
        loop {
            if self.passes(b"+") {
                value = combined(value, self.product()?, |left, right| left + right);
            } else if self.passes(b"-") {
                value = combined(value, self.product()?, |left, right| left - right);
            } else {
                return Ok(value);
            }
        }
    }

    /// The index register, 0 for none, and the address.
    fn operand(&mut self) -> Result<(u32, Value), Refusal> {
        let mut x = 0;
        if self.passes(b"X") {
            x = self.register(1..=3)?;
            self.expect(b",")?;
        }
        Ok((x, self.sum()?))
    }

    /// The whole line: the word with a displacement of zero (3.4), and the
    /// address.
    fn line(&mut self) -> Result<(u32, Value), Refusal> {
        let code = self.mnemonic()?;
        let relative = self.passes(b".");
        self.expect(b" W")?;
        let w = self.register(0..=3)?;
        self.expect(b" ")?;
        let indirect = self.passes(b"[");
        let (x, address) = self.operand()?;
        if indirect {
            self.expect(b"]")?;
        }
        if !self.rest.is_empty() {
            return Err(Refusal::LineGrammar);
        }
        let m = 2 * u32::from(relative) + u32::from(indirect);
        Ok(((code << 18) | (w << 16) | (m << 14) | (x << 12), address))
    }
}

/// The word of a line such as `AL. W1 [X2,5]`. Refusals 19, 20 and 21, in this
/// order, each for the whole line.
pub fn assemble(line: &[u8]) -> Result<u32, Refusal> {
    if line.len() > MAXIMUM_LINE {
        return Err(Refusal::LineGrammar);
    }
    let mut reader = Reader {
        rest: line,
        depth: 0,
        deepest: 0,
    };
    let (word, address) = reader.line()?;
    if reader.deepest > MAXIMUM_DEPTH {
        return Err(Refusal::LineDepth);
    }
    let displacement = address
        .filter(|address| LAST.contains(address))
        .ok_or(Refusal::LineValue)?;
    Ok(word | (displacement as u32 & 0xfff))
}

/// The shortest line that gives a word, a negative displacement taken from 0;
/// none for a code that A.2 does not use and for more than 24 bits.
pub fn disassemble(word: u32) -> Option<String> {
    let name = MNEMONIC_CODES.get((word >> 18) as usize)?;
    let [w, m, x] = [16, 14, 12].map(|place| (word >> place) & 3);
    let dot = if m >= 2 { "." } else { "" };
    let [open, close] = if m % 2 == 1 { ["[", "]"] } else { ["", ""] };
    let index = match x {
        0 => String::new(),
        _ => format!("X{x},"),
    };
    let address = match word & 0xfff {
        displacement @ 0..=2047 => displacement.to_string(),
        negative => format!("0-{}", 4096 - negative),
    };
    Some(format!("{name}{dot} W{w} {open}{index}{address}{close}"))
}
