//! `bench [SECONDS]`: one table, the proved library against the emulation.
//!
//! A program is a tape whose loop does not end; it is run with the largest
//! budget again and again. An autoload is the two keys and a run until the
//! reader's characters end. Each run is lent the same characters and typing
//! space. In a row of write, load or assemble a call counts as one instruction,
//! and for load the time of one is shown too. The two machines take their slices
//! of time by turns; the pair of slices with the median ratio is shown. SECONDS is
//! the time for each row, 4 where it is not given.
//!
//! `bench MACHINE ROW RUNS`: no table, but so many runs of one row, counted from
//! 0, on one machine, `proved` or `emulation`, and the executed instructions; for
//! a counter of host instructions (`host/count`).

mod machine;
mod rows;

use emulation::MAXIMUM_TAPE;
use machine::{Emulation, Machine};
use rows::{Reader, Row, Work, ROWS};
use std::time::{Duration, Instant};

#[cfg(not(feature = "proved"))]
use machine::Emulation as Tested;
#[cfg(feature = "proved")]
use machine::Proved as Tested;

/// Slices of time that each machine has in a row of the table.
const SLICES: u32 = 9;

/// A machine with the tape of a row loaded, and what its runs are lent.
struct Loaded<M> {
    machine: M,
    budget: u32,
    autoload: bool,
    characters: Vec<u8>,
    typing: Vec<u8>,
    /// Where the row loads: the tape.
    loaded: Option<Vec<u8>>,
    /// Where the row writes: the buffer for the tape.
    written: Option<Vec<u8>>,
    /// Where the row assembles: the lines.
    lines: Option<Vec<String>>,
}

impl<M: Machine> Loaded<M> {
    fn new(row: &Row) -> Self {
        let mut machine = M::new(row.cells);
        machine.load(row.tape);
        let (loaded, lines) = match &row.work {
            Work::Load(blocks) => (Some(blocks.tape()), None),
            Work::Assemble(lines) => (None, Some(lines.all())),
            _ => (None, None),
        };
        let writes = matches!(row.work, Work::Write);
        Loaded {
            machine,
            budget: row.budget,
            autoload: matches!(row.reader, Reader::Autoload),
            characters: row.reader.characters(),
            typing: vec![0; row.space],
            loaded,
            written: writes.then(|| vec![0; MAXIMUM_TAPE]),
            lines,
        }
    }

    /// One run with the whole budget; gives the executed instructions. Or one
    /// load, one call of the writer, or the row's lines.
    fn run(&mut self) -> u64 {
        if let Some(lines) = &self.lines {
            return assembled::<M>(lines);
        }
        if let Some(tape) = &self.loaded {
            self.machine.load(tape);
            return 1;
        }
        if let Some(tape) = &mut self.written {
            assert_ne!(self.machine.write(tape), 0);
            return 1;
        }
        let taken = if self.autoload {
            self.machine.autoload(&self.characters)
        } else {
            0
        };
        let characters = &self.characters[taken..];
        let ran = self.machine.run(self.budget, characters, &mut self.typing);
        assert_eq!(ran.reset, self.autoload);
        assert!(ran.taken + 1 >= characters.len() && ran.typed + 1 >= self.typing.len());
        u64::from(ran.executed)
    }

    /// Runs for this time and gives the instructions per second.
    fn rate(&mut self, slice: Duration) -> f64 {
        let start = Instant::now();
        let mut executed = 0;
        loop {
            executed += self.run();
            let elapsed = start.elapsed();
            if elapsed >= slice {
                return executed as f64 / elapsed.as_secs_f64();
            }
        }
    }
}

/// Assembles lines; gives their number. None of them gives the word 0.
fn assembled<M: Machine>(lines: &[String]) -> u64 {
    for line in lines {
        assert_ne!(M::assemble(line.as_bytes()), 0);
    }
    lines.len() as u64
}

/// So many runs of a row's program and nothing else; shows the executed
/// instructions.
fn run_only<M: Machine>(row: &Row, runs: u32) {
    let mut loaded = Loaded::<M>::new(row);
    let executed: u64 = (0..runs).map(|_| loaded.run()).sum();
    println!("{executed}");
}

/// Millions, with four significant digits.
fn millions(figure: f64) -> String {
    let value = figure / 1e6;
    let before = value.log10().floor() as i32 + 1;
    let places = (4 - before).clamp(0, 8) as usize;
    format!("{value:.places$}")
}

/// Rates of both machines, measured by turns: the pair with the median ratio.
fn measure(row: &Row, seconds: f64) -> (f64, f64) {
    let slice = Duration::from_secs_f64(seconds / f64::from(2 * SLICES));
    let mut tested = Loaded::<Tested>::new(row);
    let mut emulation = Loaded::<Emulation>::new(row);
    tested.rate(slice / 4);
    emulation.rate(slice / 4);
    let mut pairs: Vec<(f64, f64)> = (0..SLICES)
        .map(|_| (tested.rate(slice), emulation.rate(slice)))
        .collect();
    pairs.sort_by(|left, right| (left.0 / left.1).total_cmp(&(right.0 / right.1)));
    pairs[pairs.len() / 2]
}

fn main() {
    let words: Vec<String> = std::env::args().skip(1).collect();
    match words.as_slice() {
        [] => table(4.0),
        [seconds] => table(seconds.parse().expect("a number of seconds")),
        [machine, row, runs] => {
            let row = &ROWS[row.parse::<usize>().expect("a row's number")];
            let runs = runs.parse().expect("a number of runs");
            match machine.as_str() {
                "proved" => run_only::<Tested>(row, runs),
                "emulation" => run_only::<Emulation>(row, runs),
                _ => panic!("a machine is `proved` or `emulation`"),
            }
        }
        _ => panic!("bench [SECONDS] or bench MACHINE ROW RUNS"),
    }
}

fn table(seconds: f64) {
    let tested = if cfg!(feature = "proved") {
        "proved"
    } else {
        "emulation"
    };
    println!("instructions per second, in millions (tapes in the rows of write and load, lines in those of assemble); ratio of the two speeds");
    println!(
        "{:36} {tested:>10} {:>10} {:>7}",
        "program", "emulation", "ratio"
    );
    for row in &ROWS {
        let (tested, emulation) = measure(row, seconds);
        let time = match row.work {
            Work::Load(_) => format!("  {:.1} microseconds each", 1e6 / tested),
            _ => String::new(),
        };
        println!(
            "{:36} {:>10} {:>10} {:>7.2}{time}",
            row.name,
            millions(tested),
            millions(emulation),
            tested / emulation
        );
    }
}
