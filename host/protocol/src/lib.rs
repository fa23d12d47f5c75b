//! The case protocol: one request a line, one answer a line.
//!
//! Numbers are decimal, fields are separated by one space. `cells` is a list
//! `i=v,i=v,..` of the cells that are not zero, `-` for none; `ctl` is thirteen
//! fields, `ic ir im pending pr ex monitor enabled reset elapsed period phase
//! line`, those from `monitor` to `reset` 0 or 1; `tape` is lower-case hex, `-`
//! for no byte. `dev0 dev1` are the device buffer registers, `chars` the reader's
//! characters in hex, `typing` the typing buffer with what it holds, in an answer
//! the whole buffer after the run. In `write`, `remark` is `none`, `-` for an
//! empty one, or hex, and `buffer` the length of the output buffer. `line` is a
//! line of the assembler in hex, `-` for the empty one.
//!
//! | request | answer |
//! |---|---|
//! | `run N cells ctl lines budget dev0 dev1 chars typing` | `OUTCOME executed entries ctl changed taken typed dev0 dev1 typing` |
//! | `keyreset N cells ctl`, `keystart N cells ctl` | `ok ctl changed` |
//! | `keyautoload N cells ctl dev0 dev1 chars` | `ok ctl changed taken dev0 dev1` |
//! | `load N cells tape`, `overlay N cells tape` | `ok ctl changed` |
//! | `remark N tape` | `none` or `at S E` |
//! | `write N cells ctl remark buffer` | `tape HEX` |
//! | `asm line` | `word W` |
//!
//! OUTCOME is `spent`, `reset`, `exception` or `line:K`. A refusal answers
//! `refused K`, a request that cannot be read `bad`. `changed` lists the cells
//! that differ from the request's, in rising order.

#![forbid(unsafe_code)]
#![warn(missing_docs)]

mod answer;
mod front_end;
mod machine;
#[cfg(feature = "proved")]
mod proved;
mod request;

pub use answer::Answer;
pub use emulation::{Control, Devices, Kind, Outcome, Refusal, Report};
pub use front_end::{output_buffer, serve, FrontEnd};
pub use machine::{Emulation, Machine};
#[cfg(feature = "proved")]
pub use proved::Proved;
pub use request::{Bad, Listed, Request, Run, Write};
