//! Execution times (A.3; 02, E6), in tenths of a microsecond.

use crate::channel::Command;

/// An interruption entry: the response time of chapter 1. It is also all that an
/// instruction takes which ends in an exception.
pub const ENTRY: u32 = 75;

/// One shift of the instructions whose time depends on them.
pub const SHIFT: u32 = 5;

/// The times with direct addressing, by the numeric codes of A.2: without the
/// shifts of CI, NS, ND, AS, AD, LS, LD and CF; of a jump that with link. IO has
/// a time for each command, AW none, and the last six codes are not used.
#[rustfmt::skip]
const DIRECT: [u32; 64] = [
    // AW IO   BL   HL   LA   LO   LX   WA
        0,  0,  30,  30,  30,  30,  40,  30,
    // WS AM   WM   AL   ML   JL   JD   JE
       30, 20, 155,  15,  30,  30,  30,  30,
    // XL BS   BA   BZ   RL   SP   KL   RS
       30, 35,  35,  30,  30,  30,  30,  40,
    // WD RX   HS   XS   PL   PS   MS   IS
      170, 45,  40,  40,  30,  40,  40,  40,
    // CI AC   NS   ND   AS   AD   LS   LD
       40, 25,  50,  55,  30,  35,  30,  35,
    // SH SL   SE   SN   SO   SZ   SX   IC
       30, 30,  30,  30,  35,  30,  30,  25,
    // FA FS   FM   KS   FD   CF   DL   DS
      110, 110, 260, 40, 270, 50,  50,  70,
    // AA SS
       50, 50,   0,   0,   0,   0,   0,   0,
];

/// The time of an operation with direct addressing.
pub fn direct(operation: u32) -> u32 {
    DIRECT[operation as usize]
}

/// Relative addressing alone.
pub const RELATIVE: u32 = 5;

/// Indexing alone.
pub const INDEXED: u32 = 5;

/// Both together.
pub const RELATIVE_AND_INDEXED: u32 = 15;

/// Indirect addressing.
pub fn indirect(operation: u32) -> u32 {
    match operation {
        32..=47 => 10,
        _ => 15,
    }
}

/// IO that is rejected.
pub const REJECTED: u32 = 40;

/// IO that is not rejected.
pub fn input_output(command: Command) -> u32 {
    match command {
        Command::Read => 50,
        Command::Sense => 70,
        Command::Write | Command::Control => 65,
    }
}
