//! What the addresses of lines hold, as far as it is looked at: each number and
//! each result, whatever their size, and the depth.

/// The smallest number or result that passes.
pub const SMALLEST: i128 = -8_388_608;
/// The largest one.
pub const LARGEST: i128 = 8_388_607;

/// How many parentheses of a line are open at one time.
pub fn depth(line: &[u8]) -> usize {
    let (mut open, mut deepest) = (0_usize, 0);
    for character in line {
        match character {
            b'(' => open += 1,
            b')' => open = open.saturating_sub(1),
            _ => (),
        }
        deepest = deepest.max(open);
    }
    deepest
}

/// The address of a line in the grammar.
pub fn address(line: &[u8]) -> &[u8] {
    let before = line.iter().rposition(|byte| b" [,".contains(byte));
    let address = &line[before.map_or(0, |place| place + 1)..];
    address.strip_suffix(b"]").unwrap_or(address)
}

/// The digits of each number.
pub fn numbers(address: &[u8]) -> impl Iterator<Item = &[u8]> {
    let parts = address.split(|byte| !byte.is_ascii_digit());
    parts.filter(|digits| !digits.is_empty())
}

/// How the parts of an address go together.
#[derive(Default)]
pub struct Evaluation {
    values: Vec<i128>,
    operators: Vec<u8>,
    /// The value of each number.
    pub numbers: Vec<i128>,
    /// The result of each `+` and `-`.
    pub sums: Vec<i128>,
    /// The result of each `*`.
    pub products: Vec<i128>,
    /// A sign after a `-` with nothing that goes before it.
    pub sum_from_left: bool,
    /// A `*` after a `*`.
    pub product_from_left: bool,
    /// A sign after a `*`.
    pub product_before_sum: bool,
    /// A `*` after a sign.
    pub product_behind_sign: bool,
}

impl Evaluation {
    /// Of an address in the grammar. A value stays at the ends of 128 bits where
    /// it would leave them.
    pub fn new(address: &[u8]) -> Self {
        let mut evaluation = Evaluation::default();
        let mut in_number = false;
        for &character in address {
            evaluation.character(character, in_number);
            in_number = character.is_ascii_digit();
        }
        evaluation.apply_all();
        evaluation.numbers = numbers(address).map(value_of).collect();
        evaluation
    }

    fn character(&mut self, character: u8, in_number: bool) {
        match character {
            b'0'..=b'9' => {
                let before = if in_number { self.values.pop() } else { None };
                let digit = i128::from(character - b'0');
                self.values.push(with_digit(before.unwrap_or(0), digit));
            }
            b'(' => self.operators.push(character),
            b')' => {
                self.apply_all();
                self.operators.pop();
            }
            _ => self.operator(character),
        }
    }

    /// Makes the operations before an operator that go before it.
    fn operator(&mut self, operator: u8) {
        let before = self.operators.last().copied();
        match (before, operator) {
            (Some(b'*'), b'*') => self.product_from_left = true,
            (Some(b'*'), _) => self.product_before_sum = true,
            (Some(b'+' | b'-'), b'*') => self.product_behind_sign = true,
            (Some(b'-'), _) => self.sum_from_left = true,
            _ => (),
        }
        if operator != b'*' {
            self.apply_all();
        } else if before == Some(b'*') {
            self.apply();
        }
        self.operators.push(operator);
    }

    /// Makes all operations up to an open parenthesis.
    fn apply_all(&mut self) {
        while self.operators.last().is_some_and(|&last| last != b'(') {
            self.apply();
        }
    }

    fn apply(&mut self) {
        let right = self.values.pop().unwrap_or(0);
        let left = self.values.pop().unwrap_or(0);
        let (value, results) = match self.operators.pop() {
            Some(b'*') => (left.saturating_mul(right), &mut self.products),
            Some(b'-') => (left.saturating_sub(right), &mut self.sums),
            _ => (left.saturating_add(right), &mut self.sums),
        };
        results.push(value);
        self.values.push(value);
    }

    /// The value of the whole.
    pub fn last(&self) -> i128 {
        self.values.last().copied().unwrap_or(0)
    }

    /// How many numbers and results are out of range.
    pub fn outside(&self) -> usize {
        let all = self.numbers.iter().chain(&self.sums).chain(&self.products);
        all.filter(|value| is_outside(value)).count()
    }
}

fn with_digit(value: i128, digit: i128) -> i128 {
    value.saturating_mul(10).saturating_add(digit)
}

fn value_of(digits: &[u8]) -> i128 {
    digits.iter().fold(0, |value, digit| {
        with_digit(value, i128::from(digit - b'0'))
    })
}

/// Whether a number or result is out of range.
pub fn is_outside(value: &i128) -> bool {
    !(SMALLEST..=LARGEST).contains(value)
}
