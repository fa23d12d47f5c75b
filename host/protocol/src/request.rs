//! Requests, and how a line is read as one.

use emulation::{Control, Devices};
use std::fmt;

/// A request that cannot be read.
#[derive(Clone, Copy, Debug, PartialEq, Eq)]
pub struct Bad;

/// A store of `size` cells of which only those listed may be other than zero.
/// The list rises by index, each index once and below `size`.
#[derive(Clone, Debug, PartialEq, Eq, Default)]
pub struct Listed {
    /// The number of cells.
    pub size: usize,
    /// Index and value.
    pub cells: Vec<(usize, u32)>,
}

/// What a run is given.
#[derive(Clone, Debug, PartialEq, Eq)]
pub struct Run {
    /// The store.
    pub store: Listed,
    /// The control record.
    pub control: Control,
    /// Raised lines.
    pub lines: u32,
    /// The most cycles.
    pub budget: u32,
    /// The device buffer registers.
    pub devices: Devices,
    /// The characters in the reader.
    pub characters: Vec<u8>,
    /// The typing buffer with what it holds.
    pub typing: Vec<u8>,
}

/// What a writer is given.
#[derive(Clone, Debug, PartialEq, Eq)]
pub struct Write {
    /// The store.
    pub store: Listed,
    /// The control record.
    pub control: Control,
    /// The remark; none and an empty one differ.
    pub remark: Option<Vec<u8>>,
    /// The length of the output buffer.
    pub space: usize,
}

/// One line of requests.
#[derive(Clone, Debug, PartialEq, Eq)]
pub enum Request {
    /// `run N cells ctl lines budget dev0 dev1 chars typing`.
    Run(Run),
    /// `keyreset N cells ctl`.
    PressReset {
        /// The store.
        store: Listed,
        /// The control record.
        control: Control,
    },
    /// `keystart N cells ctl`.
    PressStart {
        /// The store.
        store: Listed,
        /// The control record.
        control: Control,
    },
    /// `keyautoload N cells ctl dev0 dev1 chars`.
    PressAutoload {
        /// The store.
        store: Listed,
        /// The control record.
        control: Control,
        /// The device buffer registers.
        devices: Devices,
        /// The characters in the reader.
        characters: Vec<u8>,
    },
    /// `load N cells tape`.
    Load {
        /// The store.
        store: Listed,
        /// The tape.
        tape: Vec<u8>,
    },
    /// `overlay N cells tape`.
    Overlay {
        /// The store.
        store: Listed,
        /// The tape.
        tape: Vec<u8>,
    },
    /// `remark N tape`.
    Remark {
        /// The number of cells.
        cells: usize,
        /// The tape.
        tape: Vec<u8>,
    },
    /// `write N cells ctl remark buffer`.
    Write(Write),
    /// `asm line`.
    Assemble {
        /// The characters of the line.
        line: Vec<u8>,
    },
}

impl Request {
    /// Reads a line, without its line end.
    pub fn parse(line: &str) -> Result<Self, Bad> {
        let fields: Vec<&str> = line.split(' ').collect();
        match fields[..] {
            ["run", ref fields @ ..] => run(fields).map(Request::Run),
            ["keyreset", size, cells, ref control @ ..] => Ok(Request::PressReset {
                store: listed(size, cells)?,
                control: control_fields(control)?,
            }),
            ["keystart", size, cells, ref control @ ..] => Ok(Request::PressStart {
                store: listed(size, cells)?,
                control: control_fields(control)?,
            }),
            ["keyautoload", size, cells, ref control @ .., reader, typewriter, characters] => {
                Ok(Request::PressAutoload {
                    store: listed(size, cells)?,
                    control: control_fields(control)?,
                    devices: devices(reader, typewriter)?,
                    characters: bytes(characters)?,
                })
            }
            ["load", size, cells, tape] => Ok(Request::Load {
                store: listed(size, cells)?,
                tape: bytes(tape)?,
            }),
            ["overlay", size, cells, tape] => Ok(Request::Overlay {
                store: listed(size, cells)?,
                tape: bytes(tape)?,
            }),
            ["remark", cells, tape] => Ok(Request::Remark {
                cells: number(cells)?,
                tape: bytes(tape)?,
            }),
            ["write", ref fields @ ..] => write(fields).map(Request::Write),
            ["asm", line] => Ok(Request::Assemble { line: bytes(line)? }),
            _ => Err(Bad),
        }
    }
}

/// The fields of a run after its name.
fn run(fields: &[&str]) -> Result<Run, Bad> {
    let [size, cells, ref control @ .., lines, budget, reader, typewriter, characters, typing] =
        *fields
    else {
        return Err(Bad);
    };
    Ok(Run {
        store: listed(size, cells)?,
        control: control_fields(control)?,
        lines: number(lines)?,
        budget: number(budget)?,
        devices: devices(reader, typewriter)?,
        characters: bytes(characters)?,
        typing: bytes(typing)?,
    })
}

/// The fields of a write after its name.
fn write(fields: &[&str]) -> Result<Write, Bad> {
    let [size, cells, ref control @ .., remark, space] = *fields else {
        return Err(Bad);
    };
    Ok(Write {
        store: listed(size, cells)?,
        control: control_fields(control)?,
        remark: optional_bytes(remark)?,
        space: number(space)?,
    })
}

fn devices(reader: &str, typewriter: &str) -> Result<Devices, Bad> {
    Ok(Devices {
        reader: number(reader)?,
        typewriter: number(typewriter)?,
    })
}

/// A decimal number.
fn number<T: std::str::FromStr>(field: &str) -> Result<T, Bad> {
    if field.starts_with('+') {
        return Err(Bad);
    }
    field.parse().map_err(|_| Bad)
}

fn flag(field: &str) -> Result<bool, Bad> {
    match field {
        "0" => Ok(false),
        "1" => Ok(true),
        _ => Err(Bad),
    }
}

fn control_fields(fields: &[&str]) -> Result<Control, Bad> {
    let [ic, ir, im, pending, pr, ex, ref flags_and_times @ ..] = *fields else {
        return Err(Bad);
    };
    let [monitor, enabled, reset, elapsed, period, phase, line] = *flags_and_times else {
        return Err(Bad);
    };
    Ok(Control {
        ic: number(ic)?,
        ir: number(ir)?,
        im: number(im)?,
        pending: number(pending)?,
        pr: number(pr)?,
        ex: number(ex)?,
        monitor: flag(monitor)?,
        enabled: flag(enabled)?,
        reset: flag(reset)?,
        elapsed: number(elapsed)?,
        period: number(period)?,
        phase: number(phase)?,
        line: number(line)?,
    })
}

fn listed(size: &str, field: &str) -> Result<Listed, Bad> {
    let size = number(size)?;
    let mut cells = Vec::new();
    if field != "-" {
        for cell in field.split(',') {
            let (index, value) = cell.split_once('=').ok_or(Bad)?;
            let index: usize = number(index)?;
            if index >= size {
                return Err(Bad);
            }
            cells.push((index, number(value)?));
        }
    }
    // An index given twice has its last value.
    cells.reverse();
    cells.sort_by_key(|&(index, _)| index);
    cells.dedup_by_key(|&mut (index, _)| index);
    Ok(Listed { size, cells })
}

fn bytes(field: &str) -> Result<Vec<u8>, Bad> {
    if field == "-" {
        return Ok(Vec::new());
    }
    let digits = field.as_bytes();
    if digits.is_empty() || digits.len() % 2 != 0 {
        return Err(Bad);
    }
    digits
        .chunks_exact(2)
        .map(|pair| Ok(hex_digit(pair[0])? * 16 + hex_digit(pair[1])?))
        .collect()
}

/// `none`, or bytes.
fn optional_bytes(field: &str) -> Result<Option<Vec<u8>>, Bad> {
    match field {
        "none" => Ok(None),
        _ => bytes(field).map(Some),
    }
}

fn hex_digit(digit: u8) -> Result<u8, Bad> {
    match digit {
        b'0'..=b'9' => Ok(digit - b'0'),
        b'a'..=b'f' => Ok(digit - b'a' + 10),
        _ => Err(Bad),
    }
}

/// Writes `i=v,i=v,..` or `-`.
pub(crate) fn write_cells(formatter: &mut fmt::Formatter, cells: &[(usize, u32)]) -> fmt::Result {
    if cells.is_empty() {
        return write!(formatter, "-");
    }
    for (position, (index, value)) in cells.iter().enumerate() {
        let separator = if position == 0 { "" } else { "," };
        write!(formatter, "{separator}{index}={value}")?;
    }
    Ok(())
}

/// Writes the thirteen fields of a control record.
pub(crate) fn write_control(formatter: &mut fmt::Formatter, control: &Control) -> fmt::Result {
    let Control {
        ic,
        ir,
        im,
        pending,
        pr,
        ex,
        elapsed,
        period,
        phase,
        line,
        ..
    } = *control;
    let [monitor, enabled, reset] =
        [control.monitor, control.enabled, control.reset].map(u32::from);
    write!(
        formatter,
        "{ic} {ir} {im} {pending} {pr} {ex} {monitor} {enabled} {reset} \
         {elapsed} {period} {phase} {line}"
    )
}

/// Writes the two device buffer registers.
pub(crate) fn write_devices(formatter: &mut fmt::Formatter, devices: &Devices) -> fmt::Result {
    write!(formatter, "{} {}", devices.reader, devices.typewriter)
}

/// Writes bytes as lower-case hex, or `-`.
pub(crate) fn write_bytes(formatter: &mut fmt::Formatter, bytes: &[u8]) -> fmt::Result {
    if bytes.is_empty() {
        return write!(formatter, "-");
    }
    bytes
        .iter()
        .try_for_each(|byte| write!(formatter, "{byte:02x}"))
}

/// Bytes as [`write_bytes`] writes them.
struct Hex<'a>(&'a [u8]);

impl fmt::Display for Hex<'_> {
    fn fmt(&self, formatter: &mut fmt::Formatter) -> fmt::Result {
        write_bytes(formatter, self.0)
    }
}

impl fmt::Display for Listed {
    /// `N cells`; cells of zero are left out.
    fn fmt(&self, formatter: &mut fmt::Formatter) -> fmt::Result {
        let mut cells = self.cells.clone();
        cells.retain(|&(_, value)| value != 0);
        write!(formatter, "{} ", self.size)?;
        write_cells(formatter, &cells)
    }
}

impl fmt::Display for Run {
    /// The fields after the name.
    fn fmt(&self, formatter: &mut fmt::Formatter) -> fmt::Result {
        write!(formatter, "{} ", self.store)?;
        write_control(formatter, &self.control)?;
        write!(formatter, " {} {} ", self.lines, self.budget)?;
        write_devices(formatter, &self.devices)?;
        write!(formatter, " ")?;
        write_bytes(formatter, &self.characters)?;
        write!(formatter, " ")?;
        write_bytes(formatter, &self.typing)
    }
}

impl fmt::Display for Write {
    /// The fields after the name.
    fn fmt(&self, formatter: &mut fmt::Formatter) -> fmt::Result {
        write!(formatter, "{} ", self.store)?;
        write_control(formatter, &self.control)?;
        write!(formatter, " ")?;
        match &self.remark {
            None => write!(formatter, "none")?,
            Some(text) => write_bytes(formatter, text)?,
        }
        write!(formatter, " {}", self.space)
    }
}

impl fmt::Display for Request {
    /// The line that parses as this request.
    fn fmt(&self, formatter: &mut fmt::Formatter) -> fmt::Result {
        match self {
            Request::Run(run) => write!(formatter, "run {run}"),
            Request::PressReset { store, control } => {
                write!(formatter, "keyreset {store} ")?;
                write_control(formatter, control)
            }
            Request::PressStart { store, control } => {
                write!(formatter, "keystart {store} ")?;
                write_control(formatter, control)
            }
            Request::PressAutoload {
                store,
                control,
                devices,
                characters,
            } => {
                write!(formatter, "keyautoload {store} ")?;
                write_control(formatter, control)?;
                write!(formatter, " ")?;
                write_devices(formatter, devices)?;
                write!(formatter, " ")?;
                write_bytes(formatter, characters)
            }
            Request::Load { store, tape } => write!(formatter, "load {store} {}", Hex(tape)),
            Request::Overlay { store, tape } => write!(formatter, "overlay {store} {}", Hex(tape)),
            Request::Remark { cells, tape } => write!(formatter, "remark {cells} {}", Hex(tape)),
            Request::Write(write) => write!(formatter, "write {write}"),
            Request::Assemble { line } => write!(formatter, "asm {}", Hex(line)),
        }
    }
}
