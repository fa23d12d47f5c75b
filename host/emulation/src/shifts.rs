//! Shift operations (14.8).

use crate::bits::signed_word;
use crate::cycle::{Processor, Step};
use crate::store::register_before;
use crate::times;

/// A register or register pair while it is shifted.
struct Shifter {
    bits: u64,
    width: u32,
}

impl Shifter {
    fn bit_0(&self) -> u64 {
        (self.bits >> (self.width - 1)) & 1
    }

    fn bit_1(&self) -> u64 {
        (self.bits >> (self.width - 2)) & 1
    }

    /// `shiftleft`.
    fn left(&mut self) {
        self.bits = (self.bits << 1) & ((1 << self.width) - 1);
    }

    /// `shiftright`.
    fn right(&mut self) {
        self.bits >>= 1;
    }

    /// A right shift in which bit 0 stays.
    fn right_with_sign(&mut self) {
        let sign = self.bits & (1 << (self.width - 1));
        self.bits = (self.bits >> 1) | sign;
    }

    /// AS, AD: whether a bit that differs from the sign was lost.
    fn arithmetically(&mut self, count: i32) -> bool {
        let mut overflow = false;
        for _ in count..0 {
            self.right_with_sign();
        }
        for _ in 0..count {
            overflow |= self.bit_0() != self.bit_1();
            self.left();
        }
        overflow
    }

    /// LS, LD.
    fn logically(&mut self, count: i32) {
        for _ in count..0 {
            self.right();
        }
        for _ in 0..count {
            self.left();
        }
    }

    /// NS, ND: SC, minus the number of shifts, or -2048 for a zero, and the
    /// number of shifts, 0 for a zero.
    fn normalize(&mut self) -> (i32, u32) {
        if self.bits == 0 {
            return (-2048, 0);
        }
        let mut sc = 0;
        while self.bit_0() == self.bit_1() {
            self.left();
            sc -= 1;
        }
        (sc, sc.unsigned_abs())
    }
}

/// The number of places: a count of 64 or more is taken as 48.
fn places(sb: u32) -> i32 {
    let count = signed_word(sb);
    if count.abs() >= 64 {
        count.signum() * 48
    } else {
        count
    }
}

impl Processor<'_> {
    fn single(&self, w: u32) -> Shifter {
        Shifter {
            bits: u64::from(self.store.register(w)),
            width: 24,
        }
    }

    fn double(&self, w: u32) -> Shifter {
        Shifter {
            bits: self.pair(w),
            width: 48,
        }
    }

    /// Puts a shifted register or pair back.
    fn set_shifted(&mut self, w: u32, shifter: &Shifter) {
        if shifter.width == 48 {
            self.set_pair(w, shifter.bits);
        } else {
            self.store.set_register(w, shifter.bits as u32);
        }
    }

    /// `Wpre concat W`, 48 bits.
    pub fn pair(&self, w: u32) -> u64 {
        let first = u64::from(self.store.register(register_before(w)));
        (first << 24) | u64::from(self.store.register(w))
    }

    /// Sets Wpre and W to 48 bits.
    pub fn set_pair(&mut self, w: u32, bits: u64) {
        self.store
            .set_register(register_before(w), (bits >> 24) as u32);
        self.store.set_register(w, bits as u32);
    }

    /// The time of so many single shifts.
    pub fn take_shifts(&mut self, count: u32) {
        self.time += count * times::SHIFT;
    }

    fn shift_arithmetically(&mut self, w: u32, sb: u32, mut shifter: Shifter) -> Step {
        self.clear_exceptions();
        let count = places(sb);
        if shifter.arithmetically(count) {
            self.integer_overflow();
        }
        self.take_shifts(count.unsigned_abs());
        self.set_shifted(w, &shifter);
        Ok(())
    }

    fn shift_logically(&mut self, w: u32, sb: u32, mut shifter: Shifter) -> Step {
        let count = places(sb);
        shifter.logically(count);
        self.take_shifts(count.unsigned_abs());
        self.set_shifted(w, &shifter);
        Ok(())
    }

    /// The count is stored after the shift.
    fn normalize(&mut self, w: u32, sb: u32, mut shifter: Shifter) -> Step {
        let (sc, count) = shifter.normalize();
        self.take_shifts(count);
        self.set_shifted(w, &shifter);
        self.store_byte(sb, sc as u32)
    }

    /// AS.
    pub fn shift_single_arithmetically(&mut self, w: u32, sb: u32) -> Step {
        self.shift_arithmetically(w, sb, self.single(w))
    }

    /// AD.
    pub fn shift_double_arithmetically(&mut self, w: u32, sb: u32) -> Step {
        self.shift_arithmetically(w, sb, self.double(w))
    }

    /// LS.
    pub fn shift_single_logically(&mut self, w: u32, sb: u32) -> Step {
        self.shift_logically(w, sb, self.single(w))
    }

    /// LD.
    pub fn shift_double_logically(&mut self, w: u32, sb: u32) -> Step {
        self.shift_logically(w, sb, self.double(w))
    }

    /// NS.
    pub fn normalize_single(&mut self, w: u32, sb: u32) -> Step {
        self.normalize(w, sb, self.single(w))
    }

    /// ND.
    pub fn normalize_double(&mut self, w: u32, sb: u32) -> Step {
        self.normalize(w, sb, self.double(w))
    }
}
