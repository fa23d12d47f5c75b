//! Floating-point arithmetic and conversion (chapter 5, 14.7, 14.8).
//!
//! AF has 39 bits, -1 to 37, and is held sign-extended; SF has 38 bits, 0 to
//! 37, BF 36 bits, 0 to 35, and SC 13 bits, 11 to 23.

use crate::bits::{bit, signed, signed_word, BYTE, WORD};
use crate::cycle::{Processor, Step};
use crate::integer::EX_OVERFLOW;
use crate::store::first_word;

/// IR(2): floating-point overflow.
const IR_FLOATING: u32 = bit(2);
/// The exponent of a floating-point zero.
const ZERO_EXPONENT: i32 = -2048;
/// The exponent with which an integer of 24 bits is a fraction (5.6).
const INTEGER_EXPONENT: i32 = 23;
/// What FD adds to the exponent difference before its loop (5.2).
const DIVISION_START: i32 = 35;

/// AF and SC.
#[derive(Clone, Copy)]
struct Accumulator {
    af: i64,
    sc: i32,
}

/// What Fetch Floating Operands leaves in AF, SF, Wexp and SBexp (14.7).
struct Operands {
    af: i64,
    wexp: i32,
    sf: i64,
    sbexp: i32,
}

/// Bit `number` of AF, -1 to 37.
fn af_bit(af: i64, number: i32) -> bool {
    (af >> (37 - number)) & 1 == 1
}

/// AF keeps 39 bits.
fn wrap_af(af: i64) -> i64 {
    signed(af as u64, 39)
}

/// SC keeps 13 bits.
fn wrap_sc(sc: i32) -> i32 {
    signed(sc as u64, 13) as i32
}

/// `AF(0:37) := AF(-1:36)`.
fn af_right(af: i64) -> i64 {
    af >> 1
}

/// The fraction of a floating-point number of 48 bits, followed by two zeros.
fn fraction(bits: u64) -> i64 {
    signed(bits >> 12, 36) << 2
}

/// The exponent of a floating-point number of 48 bits.
fn exponent(bits: u64) -> i32 {
    signed(bits, 12) as i32
}

impl Accumulator {
    /// The steps of Normalize and Round Floating, without its last test.
    fn normalize_and_round(&mut self) {
        self.normalize();
        while af_bit(self.af, 36) {
            self.af = wrap_af(self.af + 4) & !3;
            self.normalize();
        }
    }

    /// One right shift, the exponent of zero, or left shifts.
    fn normalize(&mut self) {
        if af_bit(self.af, -1) != af_bit(self.af, 0) {
            self.af = af_right(self.af);
            self.sc = wrap_sc(self.sc + 1);
        } else if self.af == 0 {
            self.sc = ZERO_EXPONENT;
        } else {
            while af_bit(self.af, 0) == af_bit(self.af, 1) {
                self.af = wrap_af(self.af << 1);
                self.sc = wrap_sc(self.sc - 1);
            }
        }
    }

    /// `SC(11) <> SC(12)`.
    fn exponent_overflows(&self) -> bool {
        (self.sc >> 12) & 1 != (self.sc >> 11) & 1
    }

    /// `AF(35) := AF(34) := AF(33)`.
    fn lower_precision(&mut self) {
        let low = if af_bit(self.af, 33) { 0b1100 } else { 0 };
        self.af = (self.af & !0b1100) | low;
    }

    /// AF(0:35) and SC(12:23), as they stand in a register pair.
    fn bits(&self) -> u64 {
        let fraction = (self.af >> 2) as u64 & 0xf_ffff_ffff;
        (fraction << 12) | u64::from(self.sc as u32 & BYTE)
    }
}

/// The add-and-shift steps of FM: AF after multiplying BF by SF.
fn multiply_fractions(af: i64, sf: i64) -> i64 {
    let mut bf = (af >> 2) as u64 & 0xf_ffff_ffff;
    let mut af = 0;
    for _ in 0..35 {
        if bf & 1 == 1 {
            af = wrap_af(af + sf);
        }
        af = af_right(af);
        bf >>= 1;
    }
    if bf & 1 == 1 {
        af = wrap_af(af - sf);
    }
    af
}

/// The division steps of FD. SC goes down by one for each pass.
fn divide_fractions(af: i64, sf: i64, mut sc: i32) -> Accumulator {
    let digit_of = |af: i64| (af < 0) == (sf < 0);
    let (mut bf, mut af) = if digit_of(af) {
        (0, wrap_af((af - sf) << 1))
    } else {
        (-1, wrap_af((af + sf) << 1))
    };
    let mut next_digit = digit_of(af);
    while (bf >> 35) & 1 == (bf >> 34) & 1 {
        bf = signed(((bf << 1) | i64::from(next_digit)) as u64, 36);
        af = wrap_af(if next_digit { af - sf } else { af + sf });
        next_digit = digit_of(af);
        af = wrap_af(af << 1);
        sc = wrap_sc(sc - 1);
    }
    let rounding = if digit_of(af) { 2 } else { 0 };
    Accumulator {
        af: (bf << 2) | rounding,
        sc,
    }
}

impl Processor<'_> {
    /// `Fetch Floating Operands` (14.7).
    fn fetch_floating_operands(&self, w: u32, sb: u32) -> Operands {
        let register = self.pair(w);
        let first = u64::from(self.store.word(first_word(sb)));
        let storage = (first << 24) | u64::from(self.store.word(sb));
        Operands {
            af: fraction(register),
            wexp: exponent(register),
            sf: fraction(storage),
            sbexp: exponent(storage),
        }
    }

    /// `EX(22) := IR(2) := 1`.
    fn floating_overflow(&mut self) {
        self.control.ir |= IR_FLOATING;
        self.control.ex |= EX_OVERFLOW;
    }

    /// `Test Precision Mode and Store` (14.7).
    fn test_precision_and_store(&mut self, w: u32, mut accumulator: Accumulator) {
        if self.control.ex & 4 != 0 {
            accumulator.lower_precision();
        }
        self.set_pair(w, accumulator.bits());
    }

    /// `Normalize and Round Floating` (14.7).
    fn normalize_and_round(&mut self, accumulator: &mut Accumulator) {
        accumulator.normalize_and_round();
        if accumulator.exponent_overflows() {
            self.floating_overflow();
        }
    }

    /// `Normalize and Round Floating; Test Precision Mode and Store`.
    fn finish_floating(&mut self, w: u32, mut accumulator: Accumulator) {
        self.normalize_and_round(&mut accumulator);
        self.test_precision_and_store(w, accumulator);
    }

    /// FA.
    pub fn add_floating(&mut self, w: u32, sb: u32) -> Step {
        self.clear_exceptions();
        self.test_address(sb)?;
        let Operands {
            mut af,
            mut wexp,
            mut sf,
            sbexp,
        } = self.fetch_floating_operands(w, sb);
        let difference = wexp - sbexp;
        if difference >= 38 {
            self.test_precision_and_store(w, Accumulator { af, sc: wexp });
            return Ok(());
        }
        if difference <= -38 {
            self.test_precision_and_store(w, Accumulator { af: sf, sc: sbexp });
            return Ok(());
        }
        align(difference, &mut af, &mut sf);
        wexp = wexp.max(sbexp);
        let af = wrap_af(af + sf);
        self.finish_floating(w, Accumulator { af, sc: wexp });
        Ok(())
    }

    /// FS.
    pub fn subtract_floating(&mut self, w: u32, sb: u32) -> Step {
        self.clear_exceptions();
        self.test_address(sb)?;
        let Operands {
            mut af,
            mut wexp,
            mut sf,
            sbexp,
        } = self.fetch_floating_operands(w, sb);
        let difference = wexp - sbexp;
        if difference >= 38 {
            self.test_precision_and_store(w, Accumulator { af, sc: wexp });
            return Ok(());
        }
        if difference <= -38 {
            af = 0;
        } else {
            align(difference, &mut af, &mut sf);
        }
        wexp = wexp.max(sbexp);
        let af = wrap_af(af - sf);
        self.finish_floating(w, Accumulator { af, sc: wexp });
        Ok(())
    }

    /// FM.
    pub fn multiply_floating(&mut self, w: u32, sb: u32) -> Step {
        self.clear_exceptions();
        self.test_address(sb)?;
        let operands = self.fetch_floating_operands(w, sb);
        let af = multiply_fractions(operands.af, operands.sf);
        let sc = wrap_sc(operands.wexp + operands.sbexp);
        self.finish_floating(w, Accumulator { af, sc });
        Ok(())
    }

    /// FD. The tests for zero look at the first word of each fraction.
    pub fn divide_floating(&mut self, w: u32, sb: u32) -> Step {
        self.clear_exceptions();
        self.test_address(sb)?;
        let operands = self.fetch_floating_operands(w, sb);
        let sc = wrap_sc(operands.wexp - operands.sbexp + DIVISION_START);
        let dividend_zero = operands.af >> 14 == 0;
        let divisor_zero = operands.sf >> 14 == 0;
        if divisor_zero {
            self.floating_overflow();
        } else if dividend_zero {
            self.set_exponent(w, ZERO_EXPONENT);
        } else {
            let quotient = divide_fractions(operands.af, operands.sf, sc);
            self.finish_floating(w, quotient);
        }
        Ok(())
    }

    /// `Wexp := exponent`.
    fn set_exponent(&mut self, w: u32, exponent: i32) {
        let left = self.store.register(w) & !BYTE;
        self.store.set_register(w, left | (exponent as u32 & BYTE));
    }

    /// CI.
    pub fn convert_integer_to_floating(&mut self, w: u32, sb: u32) -> Step {
        self.clear_exceptions();
        let integer = signed_word(self.store.register(w));
        let mut accumulator = Accumulator {
            af: i64::from(integer) << 14,
            sc: INTEGER_EXPONENT,
        };
        if integer == 0 {
            accumulator.sc = ZERO_EXPONENT;
        } else {
            self.normalize_and_round(&mut accumulator);
            // SC went down by one for each left shift.
            self.take_shifts((INTEGER_EXPONENT - accumulator.sc).unsigned_abs());
            accumulator.sc = wrap_sc(accumulator.sc + signed(u64::from(sb), 13) as i32);
            if accumulator.exponent_overflows() {
                self.floating_overflow();
            }
        }
        self.set_pair(w, accumulator.bits());
        Ok(())
    }

    /// CF.
    pub fn convert_floating_to_integer(&mut self, w: u32, sb: u32) -> Step {
        self.clear_exceptions();
        let register = self.pair(w);
        let mut af = fraction(register);
        let difference = INTEGER_EXPONENT - signed_word(sb) - exponent(register);
        let count = signed_word(difference as u32 & WORD);
        if count < 0 && af != 0 {
            self.integer_overflow();
            return Ok(());
        }
        if count >= 64 {
            af = 0;
        }
        if 0 < count && count < 64 {
            for _ in 0..count {
                af = af_right(af);
            }
            self.take_shifts(count.unsigned_abs());
        }
        // Rounding by AF(24); AR is AF(-1:23).
        let ar = (af >> 14) + i64::from(af_bit(af, 24));
        if signed(ar as u64, 24) != ar {
            self.integer_overflow();
        } else {
            self.store.set_register(w, ar as u32);
        }
        Ok(())
    }
}

/// Shifts the fraction with the smaller exponent to the right.
fn align(difference: i32, af: &mut i64, sf: &mut i64) {
    for _ in 0..difference {
        *sf >>= 1;
    }
    for _ in difference..0 {
        *af = af_right(*af);
    }
}
