//! Integer arithmetic (chapter 4, 14.7, 14.8).

use crate::bits::{add, bit, extend_byte, signed, signed_word, subtract, Sum, WORD};
use crate::cycle::{Processor, Step};
use crate::store::{first_word, register_before};

/// EX(22): overflow.
pub const EX_OVERFLOW: u32 = 2;
/// EX(23): carry.
const EX_CARRY: u32 = 1;
/// IR(1): integer overflow.
const IR_INTEGER: u32 = bit(1);

/// The dividend's registers after the division loop, ARBR(-1:47), before the
/// corrections: the quotient so far, its overflow digit and the remainder.
struct Division {
    /// BR.
    quotient: u32,
    /// AR(23).
    digit: bool,
    /// AR(-1:22).
    remainder: i64,
}

impl Division {
    /// `AR(23) = BR(0)`.
    fn overflows(&self) -> bool {
        self.digit == (self.quotient & bit(0) != 0)
    }

    fn change_quotient(&mut self, by: i32) {
        self.quotient = self.quotient.wrapping_add_signed(by) & WORD;
    }
}

/// The steps of WM: ARBR(-1:47) after multiplying `br` by `sb`.
fn multiply_steps(br: u32, sb: i32) -> i64 {
    let sb = i64::from(sb) << 24;
    let mut arbr = i64::from(br);
    for _ in 0..23 {
        if arbr & 1 == 1 {
            arbr += sb;
        }
        arbr >>= 1;
    }
    if arbr & 1 == 1 {
        arbr -= sb;
    }
    arbr >> 1
}

/// The non-restoring division loop of WD.
fn divide_steps(ar: u32, br: u32, sb: i32) -> Division {
    let divisor = i64::from(sb) << 24;
    let shiftleft = |arbr: i64, digit: bool| wrap_49((arbr << 1) | i64::from(digit));
    let digit_of = |arbr: i64| (arbr < 0) == (sb < 0);
    let mut arbr = (i64::from(signed_word(ar)) << 24) | i64::from(br);
    let mut next_digit = digit_of(arbr);
    for _ in 0..24 {
        arbr = shiftleft(arbr, next_digit);
        arbr = wrap_49(if next_digit {
            arbr - divisor
        } else {
            arbr + divisor
        });
        next_digit = digit_of(arbr);
    }
    arbr = shiftleft(arbr, true);
    Division {
        quotient: arbr as u32 & WORD,
        digit: (arbr >> 24) & 1 == 1,
        remainder: arbr >> 25,
    }
}

/// ARBR has 49 bits, -1 to 47.
fn wrap_49(arbr: i64) -> i64 {
    signed(arbr as u64, 49)
}

impl Processor<'_> {
    /// `EX(22:23) := 0`.
    pub fn clear_exceptions(&mut self) {
        self.control.ex &= 4;
    }

    /// `IR(1) := EX(22) := 1`.
    pub fn integer_overflow(&mut self) {
        self.control.ir |= IR_INTEGER;
        self.control.ex |= EX_OVERFLOW;
    }

    /// `Test Integer` (14.7).
    fn test_integer(&mut self, sum: &Sum) {
        if sum.overflow {
            self.integer_overflow();
        }
        self.control.ex &= !EX_CARRY;
        if sum.carry {
            self.control.ex |= EX_CARRY;
        }
    }

    /// `W := AR(0:23); Test Integer`.
    fn set_sum(&mut self, w: u32, sum: Sum) {
        self.store.set_register(w, sum.word);
        self.test_integer(&sum);
    }

    /// AC.
    pub fn load_address_complemented(&mut self, w: u32, sb: u32) -> Step {
        self.clear_exceptions();
        self.set_sum(w, subtract(0, sb, true));
        Ok(())
    }

    /// BA.
    pub fn add_byte(&mut self, w: u32, sb: u32) -> Step {
        self.clear_exceptions();
        self.test_address(sb)?;
        let byte = extend_byte(self.store.byte(sb));
        self.set_sum(w, add(self.store.register(w), byte, false));
        Ok(())
    }

    /// BS.
    pub fn subtract_byte(&mut self, w: u32, sb: u32) -> Step {
        self.clear_exceptions();
        self.test_address(sb)?;
        let byte = extend_byte(self.store.byte(sb));
        self.set_sum(w, subtract(self.store.register(w), byte, true));
        Ok(())
    }

    /// WA.
    pub fn add_word(&mut self, w: u32, sb: u32) -> Step {
        self.clear_exceptions();
        self.test_address(sb)?;
        let sum = add(self.store.register(w), self.store.word(sb), false);
        self.set_sum(w, sum);
        Ok(())
    }

    /// WS.
    pub fn subtract_word(&mut self, w: u32, sb: u32) -> Step {
        self.clear_exceptions();
        self.test_address(sb)?;
        let sum = subtract(self.store.register(w), self.store.word(sb), true);
        self.set_sum(w, sum);
        Ok(())
    }

    /// AA.
    pub fn add_double_word(&mut self, w: u32, sb: u32) -> Step {
        self.double_word(w, sb, add, false)
    }

    /// SS.
    pub fn subtract_double_word(&mut self, w: u32, sb: u32) -> Step {
        self.double_word(w, sb, subtract, true)
    }

    /// AA and SS: the first word of the operand is read after W was written,
    /// and only the second sum is tested.
    fn double_word(
        &mut self,
        w: u32,
        sb: u32,
        operator: fn(u32, u32, bool) -> Sum,
        carry: bool,
    ) -> Step {
        self.clear_exceptions();
        self.test_address(sb)?;
        let second = operator(self.store.register(w), self.store.word(sb), carry);
        self.store.set_register(w, second.word);
        let before = register_before(w);
        let first = self.store.word(first_word(sb));
        let sum = operator(self.store.register(before), first, second.carry);
        self.set_sum(before, sum);
        Ok(())
    }

    /// WM; EX stays.
    pub fn multiply_word(&mut self, w: u32, sb: u32) -> Step {
        self.test_address(sb)?;
        let multiplicand = signed_word(self.store.word(sb));
        let product = multiply_steps(self.store.register(w), multiplicand);
        self.store
            .set_register(register_before(w), (product >> 24) as u32);
        self.store.set_register(w, product as u32);
        Ok(())
    }

    /// WD.
    pub fn divide_word(&mut self, w: u32, sb: u32) -> Step {
        self.clear_exceptions();
        self.test_address(sb)?;
        let before = register_before(w);
        let dividend = (self.store.register(before), self.store.register(w));
        let divisor = signed_word(self.store.word(sb));
        match divide(dividend, divisor) {
            None => self.integer_overflow(),
            Some((remainder, quotient)) => {
                self.store.set_register(before, remainder);
                self.store.set_register(w, quotient);
            }
        }
        Ok(())
    }
}

/// WD on the pair `(Wpre, W)`: remainder and quotient, none on overflow.
fn divide((ar, br): (u32, u32), sb: i32) -> Option<(u32, u32)> {
    let mut division = divide_steps(ar, br, sb);
    if division.overflows() {
        return None;
    }
    let divisor = i64::from(sb);
    // abs(remainder) < abs(divisor). With a positive divisor the quotient goes
    // up, as printed.
    if division.remainder.abs() == divisor.abs() {
        if sb < 0 {
            division.change_quotient(-1);
        } else {
            division.change_quotient(1);
            if division.overflows() {
                return None;
            }
        }
        division.remainder = 0;
    }
    // sign(remainder) = sign(dividend).
    let negative = division.remainder < 0;
    if division.remainder != 0 && negative != (signed_word(ar) < 0) {
        if negative == (sb < 0) {
            division.remainder -= divisor;
            division.change_quotient(1);
        } else {
            division.remainder += divisor;
            division.change_quotient(-1);
        }
    }
    Some((division.remainder as u32 & WORD, division.quotient))
}
