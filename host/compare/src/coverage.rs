//! What a number of cases was about.
//!
//! A run is gone through again cycle by cycle by the emulation, to see which
//! instruction each cycle met and what became of it.

use crate::assembly_events::{assembly_events, AssembledWords, ASSEMBLY_EVENTS};
use crate::block_events::{block_events, load_events, BLOCK_EVENTS};
use crate::device_events::{key_events, run_events, DeviceInstruction, DEVICE_EVENTS};
use crate::generator::Case;
use crate::load_events::{cleared_events, kept_events, laid_events, LOAD_EVENTS};
use crate::loads::Laid;
use crate::stretch::Stretch;
use crate::tapes::DAMAGES;
use crate::timer_events::{
    autoload_key_events, raises, reset_key_events, run_timer_events, start_key_events,
    tape_timer_events, written_timer_events, Watch, TIMER_EVENTS,
};
use crate::times::{form, forms, shift_class, shift_classes, Form, GROUPS};
use crate::words::WORD;
use crate::write_events::{write_events, WRITE_EVENTS};
use protocol::{Answer, Control, Kind, Outcome, Request, Run};
use std::collections::BTreeMap;
use std::fmt;

/// The mnemonic codes of A.2, by numeric code.
pub const MNEMONICS: [&str; 64] = [
    "AW", "IO", "BL", "HL", "LA", "LO", "LX", "WA", "WS", "AM", "WM", "AL", "ML", "JL", "JD", "JE",
    "XL", "BS", "BA", "BZ", "RL", "SP", "KL", "RS", "WD", "RX", "HS", "XS", "PL", "PS", "MS", "IS",
    "CI", "AC", "NS", "ND", "AS", "AD", "LS", "LD", "SH", "SL", "SE", "SN", "SO", "SZ", "SX", "IC",
    "FA", "FS", "FM", "KS", "FD", "CF", "DL", "DS", "AA", "SS", "58", "59", "60", "61", "62", "63",
];

const CALLS: [&str; 9] = [
    "run",
    "reset key",
    "start key",
    "autoload key",
    "load",
    "overlay",
    "remark",
    "write",
    "assembler",
];
/// Those of them that put a tape into a store.
const LOADS: [usize; 2] = [4, 5];
const MODES: [&str; 4] = ["X+D", "(X+D)", "X+IC+D", "(X+IC+D)"];

/// The floating-point instructions: CI FA FS FM FD CF.
const FLOAT_CODES: [u32; 6] = [32, 48, 49, 50, 52, 53];

/// The classes of operands and results of the floating-point instructions.
const FLOAT_CLASSES: [&str; 12] = [
    "zero",
    "fraction -1",
    "largest fraction",
    "not normalized",
    "first word zero",
    "exponent -2048",
    "exponent 2047",
    "difference 38 or more",
    "difference 37",
    "difference -37",
    "difference -38 or less",
    "overflow",
];

/// The most cycles of a run that are gone through again.
const CYCLES: u32 = 40;

/// Counts of what the cases were about.
#[derive(Default)]
pub struct Coverage {
    cases: u64,
    executed: BTreeMap<u32, u64>,
    excepting: BTreeMap<u32, u64>,
    addressing: BTreeMap<(u32, u32), u64>,
    keys: BTreeMap<u32, u64>,
    lines: BTreeMap<u32, u64>,
    /// Lines that the timer raised.
    timer_lines: BTreeMap<u32, u64>,
    forms: BTreeMap<Form, u64>,
    shifts: BTreeMap<(u32, &'static str), u64>,
    floats: BTreeMap<(u32, usize), u64>,
    answers: BTreeMap<(usize, u32), u64>,
    /// The same where every cell of the store is in use.
    answers_in_use: BTreeMap<(usize, u32), u64>,
    damages: BTreeMap<usize, u64>,
    assembled: AssembledWords,
    events: BTreeMap<&'static str, u64>,
}

/// The events that `Coverage` counts by name, beside the tables.
const EVENTS: [&str; 28] = [
    "outcome spent",
    "outcome reset",
    "outcome exception",
    "outcome line",
    "budget 0",
    "budget 1 to 20",
    "budget over 20",
    "monitor mode",
    "task mode",
    "from monitor to task mode",
    "odd IC",
    "IC in the last cell",
    "IC absent",
    "forbidden fetch",
    "modification used",
    "AM after AM",
    "AM that leaves 0",
    "lines hidden by a modification",
    "masked line",
    "given IR bit 0",
    "low precision",
    "shift by 64 or more",
    "shift by -64 or less",
    "largest store",
    "tape of 65,536 bytes",
    "remark found",
    "remark empty",
    "no remark",
];

fn all_events() -> impl Iterator<Item = &'static str> {
    let devices_and_tapes = DEVICE_EVENTS
        .into_iter()
        .chain(WRITE_EVENTS)
        .chain(BLOCK_EVENTS)
        .chain(LOAD_EVENTS)
        .chain(TIMER_EVENTS)
        .chain(ASSEMBLY_EVENTS);
    EVENTS.into_iter().chain(devices_and_tapes)
}

/// The names whose condition holds.
pub fn holding(names: &[(bool, &'static str)]) -> Vec<&'static str> {
    let held = names.iter().filter(|(holds, _)| *holds);
    held.map(|&(_, name)| name).collect()
}

/// Counts one more.
pub fn add<K: Ord>(counts: &mut BTreeMap<K, u64>, key: K) {
    *counts.entry(key).or_insert(0) += 1;
}

/// The instruction that a cycle meets.
struct Met {
    code: u32,
    m: u32,
    x: u32,
    key: u32,
    /// The effective address, where an indirect one exists.
    address: Option<u32>,
    /// The register pair of the instruction.
    pair: u64,
    /// The double word at the effective address.
    double: u64,
}

impl Met {
    /// The bits of IR that the instruction clears.
    fn cleared(&self) -> u32 {
        match (self.code, self.address) {
            (47, Some(address)) => address,
            _ => 0,
        }
    }
}

impl Coverage {
    /// Counts a case and its answer.
    pub fn count(&mut self, case: &Case, answer: &Answer) {
        self.cases += 1;
        self.count_answer(&case.request, answer);
        for damage in &case.damages {
            let place = DAMAGES.iter().position(|known| known == damage);
            add(&mut self.damages, place.unwrap_or(DAMAGES.len()));
        }
        match &case.request {
            Request::Load { store, tape } => {
                self.count_tape(store.size, tape, answer);
                self.events(load_events(store, tape, answer));
                self.events(cleared_events(store, tape, answer));
            }
            Request::Overlay { store, tape } => {
                self.count_tape(store.size, tape, answer);
                self.events(kept_events(store, tape, answer));
            }
            Request::Remark { cells, tape } => self.count_tape(*cells, tape, answer),
            Request::Assemble { line } => self.count_line(line, answer),
            machine => self.count_machine(machine, answer),
        }
    }

    /// Counts a call with a control record.
    fn count_machine(&mut self, request: &Request, answer: &Answer) {
        match request {
            Request::Run(run) => {
                self.events(run_events(run, answer));
                self.events(run_timer_events(run, answer));
                if let Answer::Run { report, .. } = answer {
                    self.count_outcome(report.outcome, run.budget);
                    self.go_through(run);
                }
            }
            Request::PressAutoload {
                control,
                devices,
                characters,
                ..
            } => {
                self.events(key_events(control, devices, characters, answer));
                self.events(autoload_key_events(control, characters, answer));
            }
            Request::PressReset { control, .. } => self.events(reset_key_events(control, answer)),
            Request::PressStart { control, .. } => self.events(start_key_events(control, answer)),
            Request::Write(write) => {
                self.events(write_events(write, answer));
                self.events(written_timer_events(write, answer));
            }
            _ => (),
        }
    }

    fn count_line(&mut self, line: &[u8], answer: &Answer) {
        self.events(assembly_events(line, answer));
        if let Answer::Word(word) = answer {
            self.assembled.count(*word);
        }
    }

    /// Counts a tape that was laid over what a load left.
    pub fn count_laid(&mut self, laid: &Laid, answer: &Answer) {
        self.events(laid_events(laid, answer));
    }

    fn event(&mut self, name: &'static str) {
        debug_assert!(all_events().any(|known| known == name), "{name}");
        add(&mut self.events, name);
    }

    fn events(&mut self, names: impl IntoIterator<Item = &'static str>) {
        names.into_iter().for_each(|name| self.event(name));
    }

    fn event_if(&mut self, condition: bool, name: &'static str) {
        if condition {
            self.event(name);
        }
    }

    fn count_tape(&mut self, cells: usize, tape: &[u8], answer: &Answer) {
        let taken = !matches!(answer, Answer::Refused(_));
        self.event_if(taken && tape.len() == 65_536, "tape of 65,536 bytes");
        self.events(block_events(cells, tape, answer));
        self.events(tape_timer_events(tape, answer));
    }

    fn count_answer(&mut self, request: &Request, answer: &Answer) {
        let call = match request {
            Request::Run { .. } => 0,
            Request::PressReset { .. } => 1,
            Request::PressStart { .. } => 2,
            Request::PressAutoload { .. } => 3,
            Request::Load { .. } => 4,
            Request::Overlay { .. } => 5,
            Request::Remark { .. } => 6,
            Request::Write(_) => 7,
            Request::Assemble { .. } => 8,
        };
        let number = match answer {
            Answer::Refused(refusal) => refusal.number(),
            _ => 0,
        };
        add(&mut self.answers, (call, number));
        if let Request::Load { store, .. } | Request::Overlay { store, .. } = request {
            if store.cells.iter().filter(|cell| cell.1 != 0).count() == store.size {
                add(&mut self.answers_in_use, (call, number));
            }
        }
        if let Answer::Remark(text) = answer {
            match text {
                None => self.event("no remark"),
                Some(text) if text.is_empty() => self.event("remark empty"),
                Some(_) => self.event("remark found"),
            }
        }
    }

    fn count_outcome(&mut self, outcome: Outcome, budget: u32) {
        match outcome {
            Outcome::Spent => self.event("outcome spent"),
            Outcome::Reset => self.event("outcome reset"),
            Outcome::Interrupted(Kind::Exception) => self.event("outcome exception"),
            Outcome::Interrupted(Kind::Line(_)) => self.event("outcome line"),
        }
        match budget {
            0 => self.event("budget 0"),
            1..=20 => self.event("budget 1 to 20"),
            _ => self.event("budget over 20"),
        }
    }

    /// Makes the cycles of a run one by one.
    fn go_through(&mut self, run: &Run) {
        if run.store.size > 4096 {
            self.event_if(run.store.size == 8_388_608, "largest store");
            return;
        }
        let mut stretch = Stretch::new(run);
        let mut watch = Watch::default();
        for _ in 0..run.budget.min(CYCLES) {
            let before = stretch.control;
            let met = met(&stretch.store, &before);
            let device = met
                .as_ref()
                .and_then(|met| device_instruction(met, &stretch));
            let Some(report) = stretch.cycle() else {
                return;
            };
            self.events(device.iter().flat_map(|device| device.events(&report)));
            let Stretch { control, store, .. } = &stretch;
            let cleared = met.as_ref().map_or(0, Met::cleared);
            self.events(watch.cycle(&before, control, report.outcome, cleared));
            self.count_cycle(&before, control, met.as_ref(), report.outcome, store);
            if let (Some(met), Outcome::Spent) = (met, report.outcome) {
                self.count_operands(&met, control);
            }
            if report.outcome != Outcome::Spent {
                return;
            }
        }
    }

    fn count_cycle(
        &mut self,
        before: &Control,
        after: &Control,
        met: Option<&Met>,
        outcome: Outcome,
        store: &[u32],
    ) {
        let raised = before.ir & before.im;
        self.event_if(
            before.enabled && before.pending != 0 && raised != 0,
            "lines hidden by a modification",
        );
        self.event_if(before.enabled && before.ir & !before.im != 0, "masked line");
        if raises(before, after) {
            add(&mut self.timer_lines, before.line.into());
        }
        match outcome {
            Outcome::Interrupted(Kind::Line(number)) => {
                add(&mut self.lines, number);
                self.event_if(number == 0, "given IR bit 0");
            }
            Outcome::Interrupted(Kind::Exception) => self.count_exception(before, met),
            _ => {
                if let Some(met) = met {
                    let last = before.ic as usize / 2 == store.len() - 1;
                    self.event_if(last, "IC in the last cell");
                    self.count_executed(before, after, met);
                }
            }
        }
    }

    fn count_exception(&mut self, before: &Control, met: Option<&Met>) {
        let Some(met) = met else {
            return self.event("IC absent");
        };
        add(&mut self.excepting, met.code);
        let forbidden = before.pr & (128 >> met.key) != 0;
        self.event_if(!before.monitor && forbidden, "forbidden fetch");
    }

    fn count_executed(&mut self, before: &Control, after: &Control, met: &Met) {
        add(&mut self.executed, met.code);
        add(&mut self.addressing, (met.m, met.x));
        add(&mut self.forms, form(met.code, met.m, met.x));
        add(&mut self.keys, met.key);
        self.event(if after.monitor {
            "monitor mode"
        } else {
            "task mode"
        });
        self.event_if(
            before.monitor && !after.monitor,
            "from monitor to task mode",
        );
        self.event_if(before.ic % 2 == 1, "odd IC");
        self.event_if(before.pending != 0, "modification used");
        self.event_if(met.code == 9 && before.pending != 0, "AM after AM");
        self.event_if(met.code == 9 && after.pending == 0, "AM that leaves 0");
    }

    /// Counts shift counts and the classes of floating-point operands.
    fn count_operands(&mut self, met: &Met, after: &Control) {
        let address = met.address.unwrap_or(0);
        if let Some(class) = shift_class(met.code, address, met.pair) {
            add(&mut self.shifts, class);
        }
        if let (36..=39, Some(count)) = (met.code, met.address) {
            let count = signed_word(count);
            self.event_if(count >= 64, "shift by 64 or more");
            self.event_if(count <= -64, "shift by -64 or less");
        }
        if !FLOAT_CODES.contains(&met.code) {
            return;
        }
        self.event_if(after.ex & 4 != 0, "low precision");
        let (fraction, exponent) = split(met.pair);
        let (other, other_exponent) = split(met.double);
        let arithmetic = !matches!(met.code, 32 | 53);
        let difference = exponent - other_exponent;
        let classes = [
            fraction == 0,
            fraction == -(1 << 35),
            fraction == (1 << 35) - 1,
            fraction != 0 && (-(1 << 34)..1 << 34).contains(&fraction),
            fraction != 0 && (0..1 << 12).contains(&fraction)
                || arithmetic && other != 0 && (0..1 << 12).contains(&other),
            exponent == -2048,
            exponent == 2047,
            arithmetic && difference >= 38,
            arithmetic && difference == 37,
            arithmetic && difference == -37,
            arithmetic && difference <= -38,
            after.ex & 2 != 0,
        ];
        for (class, holds) in classes.into_iter().enumerate() {
            if holds {
                add(&mut self.floats, (met.code, class));
            }
        }
    }

    /// How many machines were written.
    pub fn written(&self) -> u64 {
        times(&self.answers, (7, 0))
    }

    /// How many lines gave a word.
    pub fn assembled(&self) -> u64 {
        times(&self.answers, (8, 0))
    }

    /// How many tapes were refused for overlapping blocks.
    pub fn overlapping(&self) -> u64 {
        let calls = [4, 5, 6].map(|call| times(&self.answers, (call, 17)));
        calls.iter().sum()
    }

    /// What no case was about.
    pub fn missing(&self) -> Vec<String> {
        let mut missing = self.missing_instructions();
        missing.extend(self.missing_floats());
        missing.extend(self.missing_answers());
        let addressing = (0..16).map(|both| (both / 4, both % 4));
        missing.extend(
            addressing
                .filter(|both| !self.addressing.contains_key(both))
                .map(|(m, x)| format!("M {m} X {x}")),
        );
        missing.extend(absent(0..8, &self.keys, |key| format!("key {key}")));
        let numbers = (0..24).map(|line| 2 * line);
        missing.extend(absent(numbers, &self.lines, |number| {
            format!("line {}", number / 2)
        }));
        missing.extend(self.missing_times());
        missing.extend(absent(0..DAMAGES.len(), &self.damages, |place| {
            format!("{:?}", DAMAGES[place])
        }));
        missing.extend(self.assembled.missing());
        missing.extend(absent(all_events(), &self.events, str::to_string));
        missing
    }

    fn missing_instructions(&self) -> Vec<String> {
        let name = |code: u32| MNEMONICS[code as usize];
        let mut missing = absent(0..58, &self.executed, |code| {
            format!("{} executed", name(code))
        });
        missing.extend(absent(0..64, &self.excepting, |code| {
            format!("{} excepting", name(code))
        }));
        missing
    }

    /// CI and CF have no second operand, so no difference of exponents.
    fn missing_floats(&self) -> Vec<String> {
        let classes = FLOAT_CODES
            .into_iter()
            .flat_map(|code| (0..FLOAT_CLASSES.len()).map(move |class| (code, class)))
            .filter(|&(code, class)| !(matches!(code, 32 | 53) && (7..=10).contains(&class)));
        absent(classes, &self.floats, |(code, class)| {
            format!("{} {}", MNEMONICS[code as usize], FLOAT_CLASSES[class])
        })
    }

    fn missing_times(&self) -> Vec<String> {
        let mut missing = absent(3..24, &self.timer_lines, |line| {
            format!("timer line {line}")
        });
        missing.extend(absent(forms(), &self.forms, |(m, indexed, group)| {
            let indexed = if indexed { ", indexed" } else { "" };
            format!("time of M {m}{indexed}, {}", GROUPS[group])
        }));
        missing.extend(absent(shift_classes(), &self.shifts, |(code, class)| {
            format!("{} {class}", MNEMONICS[code as usize])
        }));
        missing
    }

    fn missing_answers(&self) -> Vec<String> {
        let of = |call: usize| {
            EXPECTED_ANSWERS[call]
                .iter()
                .map(move |&number| (call, number))
        };
        let answers = (0..CALLS.len()).flat_map(of);
        let mut missing = absent(answers, &self.answers, |(call, number)| {
            format!("{} refused {number}", CALLS[call])
        });
        let in_use = LOADS.into_iter().flat_map(of);
        missing.extend(absent(in_use, &self.answers_in_use, |(call, number)| {
            format!("{} refused {number}, every cell in use", CALLS[call])
        }));
        missing
    }
}

/// The names of those that were never counted.
pub fn absent<K: Ord + Copy>(
    all: impl IntoIterator<Item = K>,
    counts: &BTreeMap<K, u64>,
    name: impl Fn(K) -> String,
) -> Vec<String> {
    all.into_iter()
        .filter(|key| !counts.contains_key(key))
        .map(name)
        .collect()
}

/// The refusals that each call can give; 0 stands for none.
const EXPECTED_ANSWERS: [&[u32]; 9] = [
    &[0, 1, 2, 3, 4, 5, 13, 18],
    &[0, 1, 2, 3, 18],
    &[0, 1, 2, 3, 18],
    &[0, 1, 2, 3, 13, 18],
    &[0, 1, 2, 3, 6, 7, 8, 9, 10, 11, 12, 17, 18],
    &[0, 1, 2, 3, 6, 7, 8, 9, 10, 11, 12, 17, 18],
    &[0, 1, 3, 6, 7, 8, 9, 10, 11, 12, 17, 18],
    &[0, 1, 2, 3, 14, 15, 16, 18],
    &[0, 19, 20, 21],
];

fn byte(store: &[u32], address: u32) -> Option<u32> {
    let cell = *store.get((address / 2) as usize)?;
    Some(if address % 2 == 0 {
        (cell >> 12) & 0xfff
    } else {
        cell & 0xfff
    })
}

/// The instruction at IC, where there is one.
fn met(store: &[u32], control: &Control) -> Option<Met> {
    let fr = byte(store, control.ic)?;
    let displacement = byte(store, (control.ic + 1) & WORD)?;
    let (w, m, x) = ((fr >> 4) & 3, (fr >> 2) & 3, fr & 3);
    let mut address = ((displacement ^ 0x800).wrapping_sub(0x800)).wrapping_add(control.pending);
    if m >= 2 {
        address = address.wrapping_add(control.ic);
    }
    if x != 0 {
        address = address.wrapping_add(store[x as usize]);
    }
    let direct = address & WORD;
    let address = if m % 2 == 0 {
        Some(direct)
    } else {
        store.get((direct / 2) as usize).map(|cell| cell & WORD)
    };
    Some(Met {
        code: fr >> 6,
        m,
        x,
        key: store[(control.ic / 2) as usize] >> 24,
        address,
        pair: double(store, w as usize),
        double: double(
            store,
            address.map_or(usize::MAX, |address| address as usize / 2),
        ),
    })
}

/// IO or AW with an effective address, and what is left for it.
fn device_instruction(met: &Met, stretch: &Stretch) -> Option<DeviceInstruction> {
    if met.code > 1 {
        return None;
    }
    Some(DeviceInstruction {
        code: met.code,
        address: met.address?,
        forbidden: stretch.control.pr & (128 >> met.key) != 0,
        cells: stretch.store.len(),
        characters: stretch.characters.len(),
        space: stretch.typing.len() - stretch.typed,
    })
}

/// The double word whose second word is in this cell, 0 where it is absent.
fn double(store: &[u32], cell: usize) -> u64 {
    let word = |cell: usize| u64::from(store.get(cell).copied().unwrap_or(0) & WORD);
    let first = if cell == 0 { 3 } else { cell - 1 };
    (word(first) << 24) | word(cell)
}

fn signed_word(word: u32) -> i32 {
    ((word << 8) as i32) >> 8
}

/// Fraction and exponent of a floating-point number.
fn split(bits: u64) -> (i64, i64) {
    let fraction = ((bits << 16) as i64) >> 28;
    let exponent = ((bits << 52) as i64) >> 52;
    (fraction, exponent)
}

/// How often something was counted.
pub fn times<K: Ord>(counts: &BTreeMap<K, u64>, key: K) -> u64 {
    counts.get(&key).copied().unwrap_or(0)
}

/// Writes how often a call was done and was refused with each number.
fn write_counts(
    formatter: &mut fmt::Formatter,
    name: &str,
    call: usize,
    answers: &BTreeMap<(usize, u32), u64>,
) -> fmt::Result {
    write!(formatter, "  {name}: done {}", times(answers, (call, 0)))?;
    for number in 1..=21 {
        if let Some(times) = answers.get(&(call, number)) {
            write!(formatter, ", refused {number} {times}")?;
        }
    }
    writeln!(formatter)
}

impl Coverage {
    fn write_instructions(&self, formatter: &mut fmt::Formatter) -> fmt::Result {
        writeln!(formatter, "instructions, executed / excepting:")?;
        for row in 0..16 {
            for code in (row..64).step_by(16) {
                let name = MNEMONICS[code as usize];
                let executed = times(&self.executed, code);
                let excepting = times(&self.excepting, code);
                write!(
                    formatter,
                    "  {code:2} {name:2} {executed:>9} / {excepting:<7}"
                )?;
            }
            writeln!(formatter)?;
        }
        writeln!(formatter, "address modes, X = 0 to 3:")?;
        for (m, name) in (0..).zip(MODES) {
            write!(formatter, "  {name:8}")?;
            for x in 0..4 {
                write!(formatter, " {:>9}", times(&self.addressing, (m, x)))?;
            }
            writeln!(formatter)?;
        }
        Ok(())
    }

    fn write_answers(&self, formatter: &mut fmt::Formatter) -> fmt::Result {
        writeln!(formatter, "answers of each call:")?;
        for (call, name) in CALLS.iter().enumerate() {
            write_counts(formatter, name, call, &self.answers)?;
        }
        writeln!(formatter, "the same, every cell in use:")?;
        for call in LOADS {
            write_counts(formatter, CALLS[call], call, &self.answers_in_use)?;
        }
        writeln!(formatter, "damages of tapes:")?;
        for (place, damage) in DAMAGES.iter().enumerate() {
            writeln!(formatter, "  {damage:?} {}", times(&self.damages, place))?;
        }
        Ok(())
    }

    fn write_times(&self, formatter: &mut fmt::Formatter) -> fmt::Result {
        writeln!(
            formatter,
            "address times, M = 0 to 3 not indexed, then indexed:"
        )?;
        for (group, name) in GROUPS.iter().enumerate() {
            write!(formatter, "  {name:14}")?;
            for (m, indexed) in (0..8).map(|place| (place % 4, place >= 4)) {
                write!(formatter, " {:>8}", times(&self.forms, (m, indexed, group)))?;
            }
            writeln!(formatter)?;
        }
        writeln!(formatter, "shift times:")?;
        for (code, class) in shift_classes() {
            let name = MNEMONICS[code as usize];
            let count = times(&self.shifts, (code, class));
            writeln!(formatter, "  {name} {class} {count}")?;
        }
        Ok(())
    }

    fn write_floats(&self, formatter: &mut fmt::Formatter) -> fmt::Result {
        let names = FLOAT_CODES.map(|code| MNEMONICS[code as usize]).join(" ");
        writeln!(formatter, "floating-point operands and results, {names}:")?;
        for (class, name) in FLOAT_CLASSES.iter().enumerate() {
            write!(formatter, "  {name:24}")?;
            for code in FLOAT_CODES {
                write!(formatter, " {:>8}", times(&self.floats, (code, class)))?;
            }
            writeln!(formatter)?;
        }
        Ok(())
    }
}

impl fmt::Display for Coverage {
    fn fmt(&self, formatter: &mut fmt::Formatter) -> fmt::Result {
        writeln!(formatter, "cases: {}", self.cases)?;
        self.write_instructions(formatter)?;
        write!(formatter, "keys 0 to 7:")?;
        for key in 0..8 {
            write!(formatter, " {}", times(&self.keys, key))?;
        }
        write!(formatter, "\nlines 0 to 23:")?;
        for line in 0..24 {
            write!(formatter, " {}", times(&self.lines, 2 * line))?;
        }
        write!(formatter, "\nlines 3 to 23 raised by the timer:")?;
        for line in 3..24 {
            write!(formatter, " {}", times(&self.timer_lines, line))?;
        }
        writeln!(formatter)?;
        self.write_times(formatter)?;
        self.write_answers(formatter)?;
        self.write_floats(formatter)?;
        write!(formatter, "{}", self.assembled)?;
        writeln!(formatter, "events:")?;
        for name in all_events() {
            writeln!(formatter, "  {name} {}", times(&self.events, name))?;
        }
        let missing = self.missing();
        if missing.is_empty() {
            write!(formatter, "not covered: nothing")
        } else {
            write!(formatter, "not covered: {}", missing.join(", "))
        }
    }
}
