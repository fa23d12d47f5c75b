//! An emulation of the RC 4000 for controllers.
//!
//! It is written from the papers alone: the RC 4000 reference manual of 1969
//! (its sections are cited as "14.5"), the scope paper ("01") and the change
//! requests ("02"). Every instruction goes through the steps that chapter 14
//! prints, in their order. It is the independent measure for the proved library:
//! its answers are compared with the library's, and so is its speed.
//!
//! The store is a lent row of cells, `key * 16_777_216 + word`; cell `i` has
//! the byte addresses `2 * i` and `2 * i + 1`.
//!
//! ```
//! use emulation::{load, run, Control, Devices, Outcome};
//!
//! let mut store = vec![0; 4096];
//! let mut control = Control::fresh();
//! let mut tape = vec![20, 0, 0, 0, 2, 0];
//! tape.extend([0; 16]);
//! tape.extend([128, 0, 5, 0]);
//! tape.extend([0, 0, 0, 0, 3, 0]);
//!
//! load(&mut store, &mut control, &tape).unwrap();
//! let mut devices = Devices::default();
//! let report = run(&mut store, &mut control, 0, 100, &mut devices, &[], &mut []).unwrap();
//! assert_eq!(report.outcome, Outcome::Reset);
//! assert_eq!((report.executed, report.entries, control.ic), (0, 0, 0));
//! ```

#![forbid(unsafe_code)]
#![warn(missing_docs)]

mod assembler;
mod bits;
mod channel;
mod control;
mod cycle;
mod floating;
mod integer;
mod operations;
mod refusal;
mod run;
mod shifts;
mod store;
mod tape;
mod times;

pub use assembler::{assemble, disassemble, MAXIMUM_DEPTH, MAXIMUM_LINE, MNEMONIC_CODES};
pub use channel::Devices;
pub use control::Control;
pub use refusal::Refusal;
pub use run::{press_autoload, press_reset, press_start, run, Kind, Outcome, Report};
pub use store::{CELL_LIMIT, MAXIMUM_CELLS, MINIMUM_CELLS};
pub use tape::{load, overlay, remark, write, MAXIMUM_REMARK, MAXIMUM_TAPE};
