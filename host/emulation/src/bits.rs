//! Words, bytes and the operators `signed`, `+`, `-` of section 14.3.

/// The 24 bits of a word.
pub const WORD: u32 = 0xff_ffff;
/// The 12 bits of a byte.
pub const BYTE: u32 = 0xfff;

/// Bit `number` of a word; bits are numbered from the left, 0 to 23.
pub const fn bit(number: u32) -> u32 {
    1 << (23 - number)
}

/// The value of the right-most `width` bits as a signed integer.
pub fn signed(bits: u64, width: u32) -> i64 {
    let unused = 64 - width;
    ((bits << unused) as i64) >> unused
}

/// The value of a word as a signed integer.
pub fn signed_word(word: u32) -> i32 {
    signed(u64::from(word), 24) as i32
}

/// `signed byte`: a byte extended to the left to a word.
pub fn extend_byte(byte: u32) -> u32 {
    signed(u64::from(byte), 12) as u32 & WORD
}

/// An address sum; the carry out of 24 bits is dropped (3.4).
pub fn add_address(left: u32, right: u32) -> u32 {
    left.wrapping_add(right) & WORD
}

/// What one pass of the adder leaves in AR, and the carry out of bit 0.
pub struct Sum {
    /// AR(0:23).
    pub word: u32,
    /// `AR(-1) <> AR(0)`.
    pub overflow: bool,
    /// The carry out of bit 0.
    pub carry: bool,
}

/// `signed left + signed right + carry` in one pass of the 25-bit adder.
pub fn add(left: u32, right: u32, carry: bool) -> Sum {
    let unsigned = left + right + u32::from(carry);
    let value = signed_word(left) + signed_word(right) + i32::from(carry);
    let word = unsigned & WORD;
    Sum {
        word,
        overflow: value != signed_word(word),
        carry: unsigned > WORD,
    }
}

/// `signed left - signed right`, or one less where `carry` is zero: the
/// complement of `right` is added, in one pass of the adder.
pub fn subtract(left: u32, right: u32, carry: bool) -> Sum {
    add(left, !right & WORD, carry)
}
