//! The emulation against itself, and against machines with one flaw each.

use compare::{blocks, case, compare, first_overlap, overlap, overlaps_earlier, Block, Coverage};
use protocol::{
    output_buffer, Control, Devices, Emulation, Kind, Listed, Machine, Outcome, Refusal, Report,
    Request,
};

#[test]
fn no_difference_and_nothing_missing() {
    let mut coverage = Coverage::default();
    let result = compare(Emulation, Emulation, 7, 330_000, &mut coverage);
    assert!(result.is_ok());
    let missing = coverage.missing();
    assert!(missing.is_empty(), "{missing:?}");
}

#[test]
fn a_case_prints_as_the_request_that_it_is() {
    for number in 0..2000 {
        let request = case(3, number).request;
        assert_eq!(Request::parse(&request.to_string()), Ok(request));
    }
}

/// The store of a request that has one.
fn store_of(request: &Request) -> Option<&Listed> {
    match request {
        Request::Run(run) => Some(&run.store),
        Request::Write(write) => Some(&write.store),
        Request::PressReset { store, .. }
        | Request::PressStart { store, .. }
        | Request::PressAutoload { store, .. }
        | Request::Load { store, .. }
        | Request::Overlay { store, .. } => Some(store),
        Request::Remark { .. } | Request::Assemble { .. } => None,
    }
}

/// Among these is a machine with the largest store whose number of cells was
/// then made too small.
#[test]
fn the_cells_of_a_case_rise() {
    let (mut stores, mut small) = (0, 0);
    for number in 400_000..440_000 {
        let request = case(4001, number).request;
        if let Some(Listed { size, cells }) = store_of(&request) {
            assert!(cells.windows(2).all(|two| two[0].0 < two[1].0), "{number}");
            assert!(cells.iter().all(|&(index, _)| index < *size), "{number}");
            stores += 1;
            small += u32::from(*size < 8);
        }
    }
    assert!(stores > 30_000 && small > 0, "{stores} {small}");
}

/// What is wrong with a machine.
#[derive(Clone, Copy, Debug)]
enum Flaw {
    Outcome,
    LineNumber,
    Executed,
    Cell,
    Carry,
    RefusalNumber,
    RefusalChangesStore,
    RefusalChangesControl,
    ResetKeyKeepsPending,
    StartKeyKeepsBit23,
    LoadsOneCellLess,
    Remark,
    RefusalChangesReader,
    RefusalChangesTypewriter,
    RefusalChangesTyping,
    Taken,
    Typed,
    TypesNothing,
    ChangesBehindTyped,
    ReaderRegister,
    TypewriterRegister,
    AutoloadKeepsKey,
    AutoloadKeepsException,
    AutoloadTakesNone,
    AutoloadKeepsReader,
    AutoloadRefusalChangesReader,
    WritesNoKeyAlone,
    WritesNoEmptyRemark,
    WritesOtherText,
    WritesOtherControl,
    WritesBlocksInTwo,
    WritesOneByteLess,
    WritesBehindTape,
    WritesBeyondBuffer,
    WriteRefusalChangesTape,
    WriteRefusesExactBuffer,
    WriteRefusesLongestTape,
    WriteRefusesLongestRemark,
    WriteTestsBufferFirst,
    OverlapPasses,
    OverlapPassesForRemark,
    OverlapOnlyWithBlockBefore,
    OverlapNotByOneCell,
    OverlapOfTouchingBlocks,
    OverlapBeforePlace,
    OverlapAfterCells,
    OverlapAfterTape,
    OverlapLoadsFirstBlock,
    LoadKeepsCells,
    LoadKeepsKeys,
    LoadKeepsRegisters,
    LoadKeepsWords8To14,
    LoadKeepsLastCell,
    LoadKeepsBetweenBlocks,
    LoadKeepsBehind65536,
    LoadClearsNamedCells,
    LoadClearsBeforeJudging,
    LoadClearsBeforeTesting,
    OverlayClears,
    OverlayClearsKeys,
    OverlayClearsRegisters,
    OverlayClearsLastCell,
    OverlayKeepsControl,
    OverlayClearsWhereRefused,
    OverlayPassesOverlap,
}

/// All of them.
const FLAWS: [Flaw; 65] = [
    Flaw::Outcome,
    Flaw::LineNumber,
    Flaw::Executed,
    Flaw::Cell,
    Flaw::Carry,
    Flaw::RefusalNumber,
    Flaw::RefusalChangesStore,
    Flaw::RefusalChangesControl,
    Flaw::ResetKeyKeepsPending,
    Flaw::StartKeyKeepsBit23,
    Flaw::LoadsOneCellLess,
    Flaw::Remark,
    Flaw::RefusalChangesReader,
    Flaw::RefusalChangesTypewriter,
    Flaw::RefusalChangesTyping,
    Flaw::Taken,
    Flaw::Typed,
    Flaw::TypesNothing,
    Flaw::ChangesBehindTyped,
    Flaw::ReaderRegister,
    Flaw::TypewriterRegister,
    Flaw::AutoloadKeepsKey,
    Flaw::AutoloadKeepsException,
    Flaw::AutoloadTakesNone,
    Flaw::AutoloadKeepsReader,
    Flaw::AutoloadRefusalChangesReader,
    Flaw::WritesNoKeyAlone,
    Flaw::WritesNoEmptyRemark,
    Flaw::WritesOtherText,
    Flaw::WritesOtherControl,
    Flaw::WritesBlocksInTwo,
    Flaw::WritesOneByteLess,
    Flaw::WritesBehindTape,
    Flaw::WritesBeyondBuffer,
    Flaw::WriteRefusalChangesTape,
    Flaw::WriteRefusesExactBuffer,
    Flaw::WriteRefusesLongestTape,
    Flaw::WriteRefusesLongestRemark,
    Flaw::WriteTestsBufferFirst,
    Flaw::OverlapPasses,
    Flaw::OverlapPassesForRemark,
    Flaw::OverlapOnlyWithBlockBefore,
    Flaw::OverlapNotByOneCell,
    Flaw::OverlapOfTouchingBlocks,
    Flaw::OverlapBeforePlace,
    Flaw::OverlapAfterCells,
    Flaw::OverlapAfterTape,
    Flaw::OverlapLoadsFirstBlock,
    Flaw::LoadKeepsCells,
    Flaw::LoadKeepsKeys,
    Flaw::LoadKeepsRegisters,
    Flaw::LoadKeepsWords8To14,
    Flaw::LoadKeepsLastCell,
    Flaw::LoadKeepsBetweenBlocks,
    Flaw::LoadKeepsBehind65536,
    Flaw::LoadClearsNamedCells,
    Flaw::LoadClearsBeforeJudging,
    Flaw::LoadClearsBeforeTesting,
    Flaw::OverlayClears,
    Flaw::OverlayClearsKeys,
    Flaw::OverlayClearsRegisters,
    Flaw::OverlayClearsLastCell,
    Flaw::OverlayKeepsControl,
    Flaw::OverlayClearsWhereRefused,
    Flaw::OverlayPassesOverlap,
];

/// The emulation with one flaw.
struct Flawed(Flaw);

impl Flawed {
    fn refusal(&self, refusal: Refusal, store: &mut [u32], control: &mut Control) -> Refusal {
        match self.0 {
            Flaw::RefusalNumber if refusal == Refusal::BlockPlace => return Refusal::BlockCell,
            Flaw::RefusalChangesStore => store.iter_mut().take(1).for_each(|cell| *cell ^= 1),
            Flaw::RefusalChangesControl => control.ir ^= 1,
            _ => (),
        }
        refusal
    }
}

impl Flawed {
    fn spoil_report(&self, report: &mut Report) {
        match (self.0, report.outcome) {
            (Flaw::Outcome, Outcome::Reset) => report.outcome = Outcome::Spent,
            (Flaw::LineNumber, Outcome::Interrupted(Kind::Line(46))) => {
                report.outcome = Outcome::Interrupted(Kind::Line(44));
            }
            (Flaw::Executed, Outcome::Spent) if report.executed == 7 => report.executed = 6,
            (Flaw::Taken, _) if report.taken == 9 => report.taken = 8,
            (Flaw::Typed, _) if report.typed == 3 => report.typed = 4,
            _ => (),
        }
    }

    fn spoil_typing(&self, report: &Report, given: &[u8], typing: &mut [u8]) {
        match self.0 {
            Flaw::TypesNothing => typing.copy_from_slice(given),
            Flaw::ChangesBehindTyped if report.typed > 0 => {
                typing[report.typed..].iter_mut().for_each(|byte| *byte = 0);
            }
            _ => (),
        }
    }

    /// What a refused run does to what was lent for the devices.
    fn spoil_refused(&self, devices: &mut Devices, typing: &mut [u8]) {
        match self.0 {
            Flaw::RefusalChangesReader => devices.reader ^= 1,
            Flaw::RefusalChangesTypewriter => devices.typewriter ^= 1,
            Flaw::RefusalChangesTyping => typing.iter_mut().for_each(|byte| *byte ^= 1),
            _ => (),
        }
    }
}

impl Machine for Flawed {
    fn run(
        &self,
        store: &mut [u32],
        control: &mut Control,
        lines: u32,
        budget: u32,
        devices: &mut Devices,
        characters: &[u8],
        typing: &mut [u8],
    ) -> Result<Report, Refusal> {
        let (given, lent) = (typing.to_vec(), *devices);
        let result = Emulation.run(store, control, lines, budget, devices, characters, typing);
        let mut report = result.map_err(|refusal| {
            self.spoil_refused(devices, typing);
            self.refusal(refusal, store, control)
        })?;
        match (self.0, report.outcome) {
            (Flaw::Cell, Outcome::Spent) if report.executed > 2 => store[7] ^= 1 << 26,
            (Flaw::Carry, Outcome::Spent) if report.executed > 2 => control.ex &= 6,
            (Flaw::ReaderRegister, _) => devices.reader = lent.reader,
            (Flaw::TypewriterRegister, _) => devices.typewriter &= 255,
            _ => (),
        }
        self.spoil_typing(&report, &given, typing);
        self.spoil_report(&mut report);
        Ok(report)
    }

    fn press_reset(&self, store: &mut [u32], control: &mut Control) -> Result<(), Refusal> {
        let pending = control.pending;
        Emulation
            .press_reset(store, control)
            .map_err(|refusal| self.refusal(refusal, store, control))?;
        if let Flaw::ResetKeyKeepsPending = self.0 {
            control.pending = pending;
        }
        Ok(())
    }

    fn press_start(&self, store: &mut [u32], control: &mut Control) -> Result<(), Refusal> {
        let reset = control.reset;
        Emulation
            .press_start(store, control)
            .map_err(|refusal| self.refusal(refusal, store, control))?;
        if let (Flaw::StartKeyKeepsBit23, true) = (self.0, reset) {
            control.ic |= store[7] & 1;
        }
        Ok(())
    }

    fn press_autoload(
        &self,
        store: &mut [u32],
        control: &mut Control,
        devices: &mut Devices,
        characters: &[u8],
    ) -> Result<usize, Refusal> {
        let (key, ex) = (store.first().map_or(0, |cell| cell >> 24 << 24), control.ex);
        let lent = *devices;
        let result = Emulation.press_autoload(store, control, devices, characters);
        let taken = result.map_err(|refusal| {
            if let Flaw::AutoloadRefusalChangesReader = self.0 {
                devices.reader ^= 1;
            }
            self.refusal(refusal, store, control)
        })?;
        match self.0 {
            Flaw::AutoloadKeepsKey => store[0] |= key,
            Flaw::AutoloadKeepsException => control.ex = ex,
            Flaw::AutoloadTakesNone => return Ok(0),
            Flaw::AutoloadKeepsReader => *devices = lent,
            _ => (),
        }
        Ok(taken)
    }

    fn load(&self, store: &mut [u32], control: &mut Control, tape: &[u8]) -> Result<(), Refusal> {
        let given = (store.to_vec(), *control);
        let result = self.load_first(store, control, tape);
        let judged = self.judged(tape, store.len(), result);
        if judged.is_err() && !self.clears_first() {
            store.copy_from_slice(&given.0);
            *control = given.1;
        }
        if let (Flaw::OverlapLoadsFirstBlock, Err(Refusal::BlockOverlap)) = (self.0, judged) {
            let first = &blocks(tape)[0];
            for (cell, value) in first.cells.clone().zip(first.values()) {
                store[cell] = value;
            }
        }
        judged.map_err(|refusal| self.refusal(refusal, store, control))?;
        self.spoil_loaded(&given.0, store, tape);
        Ok(())
    }

    fn overlay(
        &self,
        store: &mut [u32],
        control: &mut Control,
        tape: &[u8],
    ) -> Result<(), Refusal> {
        let given = *control;
        let result = Emulation.overlay(store, control, tape);
        match (self.0, result) {
            (Flaw::OverlayPassesOverlap, Err(Refusal::BlockOverlap)) => return Ok(()),
            (Flaw::OverlayClearsWhereRefused, Err(_)) => store.fill(0),
            _ => (),
        }
        result.map_err(|refusal| self.refusal(refusal, store, control))?;
        if let Flaw::OverlayKeepsControl = self.0 {
            *control = given;
        }
        self.spoil_laid(store, tape);
        Ok(())
    }

    fn remark<'t>(&self, tape: &'t [u8], cells: usize) -> Result<Option<&'t [u8]>, Refusal> {
        let result = Emulation.remark(tape, cells);
        if let (Flaw::OverlapPassesForRemark, Err(Refusal::BlockOverlap)) = (self.0, result) {
            return Ok(None);
        }
        self.judged(tape, cells, result.map(|_| ()))?;
        let text = result.unwrap_or(None);
        Ok(match self.0 {
            Flaw::Remark => text.filter(|text| !text.is_empty()),
            _ => text,
        })
    }

    fn write(
        &self,
        store: &[u32],
        control: Control,
        remark: Option<&[u8]>,
        tape: &mut [u8],
    ) -> Result<usize, Refusal> {
        let (store, control) = self.spoil_written(store, control);
        let remark = match self.0 {
            Flaw::WritesNoEmptyRemark => remark.filter(|text| !text.is_empty()),
            _ => remark,
        };
        let result = Emulation.write(&store, control, remark, tape);
        match result {
            Ok(length) => self.spoil_tape(length, remark, tape),
            Err(refusal) => Err(self.spoil_write_refusal(refusal, tape)),
        }
    }

    fn assemble(&self, line: &[u8]) -> Result<u32, Refusal> {
        Emulation.assemble(line)
    }
}

/// The cells that no block of a tape names.
fn unnamed(cells: usize, tape: &[u8]) -> Vec<usize> {
    let blocks = blocks(tape);
    let named = |cell: &usize| blocks.iter().any(|block| block.cells.contains(cell));
    (0..cells).filter(|cell| !named(cell)).collect()
}

/// Whether blocks of a tape lie on both sides of a cell.
fn is_between_blocks(cell: usize, tape: &[u8]) -> bool {
    let blocks = blocks(tape);
    let left = blocks.iter().any(|block| block.cells.end <= cell);
    left && blocks.iter().any(|block| block.cells.start > cell)
}

impl Flawed {
    /// Whether its load clears the store before it is refused.
    fn clears_first(&self) -> bool {
        matches!(
            self.0,
            Flaw::LoadClearsBeforeJudging | Flaw::LoadClearsBeforeTesting
        )
    }

    /// The load, with the store cleared before it where the flaw says so.
    fn load_first(
        &self,
        store: &mut [u32],
        control: &mut Control,
        tape: &[u8],
    ) -> Result<(), Refusal> {
        let fits = store.iter().all(|&cell| cell < 1 << 27);
        match self.0 {
            Flaw::LoadClearsBeforeJudging if fits => store.fill(0),
            Flaw::LoadClearsBeforeTesting if !fits => store.fill(0),
            _ => (),
        }
        Emulation.load(store, control, tape)
    }

    /// What becomes of a store that was loaded.
    fn spoil_loaded(&self, given: &[u32], store: &mut [u32], tape: &[u8]) {
        let last = store.len() - 1;
        if let Flaw::LoadsOneCellLess = self.0 {
            store[last] = given[last];
        }
        if let Flaw::LoadClearsNamedCells = self.0 {
            let named = blocks(tape);
            let first = named.first().map_or(0..0, |block| block.cells.clone());
            store[first].fill(0);
        }
        for cell in unnamed(store.len(), tape) {
            store[cell] = match self.0 {
                Flaw::LoadKeepsCells => given[cell],
                Flaw::LoadKeepsKeys => given[cell] >> 24 << 24,
                Flaw::LoadKeepsRegisters if cell < 4 => given[cell],
                Flaw::LoadKeepsWords8To14 if (4..8).contains(&cell) => given[cell],
                Flaw::LoadKeepsLastCell if cell == last => given[cell],
                Flaw::LoadKeepsBehind65536 if cell >= 65_536 => given[cell],
                Flaw::LoadKeepsBetweenBlocks if is_between_blocks(cell, tape) => given[cell],
                _ => continue,
            };
        }
    }

    /// What becomes of a store that a tape was laid over.
    fn spoil_laid(&self, store: &mut [u32], tape: &[u8]) {
        let last = store.len() - 1;
        for cell in unnamed(store.len(), tape) {
            store[cell] = match self.0 {
                Flaw::OverlayClears => 0,
                Flaw::OverlayClearsKeys => store[cell] & 0xff_ffff,
                Flaw::OverlayClearsRegisters if cell < 4 => 0,
                Flaw::OverlayClearsLastCell if cell == last => 0,
                _ => continue,
            };
        }
    }
}

/// Whether the first block that overlaps an earlier one overlaps the one just
/// before it.
fn overlaps_block_before(blocks: &[Block]) -> bool {
    first_overlap(blocks)
        .is_some_and(|place| overlap(&blocks[place].cells, &blocks[place - 1].cells).is_some())
}

/// Whether the first block that overlaps earlier ones has one cell in common
/// with them.
fn overlaps_by_one_cell(blocks: &[Block]) -> bool {
    let Some(place) = first_overlap(blocks) else {
        return false;
    };
    let named = |cell: &usize| {
        blocks[..place]
            .iter()
            .any(|block| block.cells.contains(cell))
    };
    blocks[place].cells.clone().filter(named).count() == 1
}

fn touch(blocks: &[Block]) -> bool {
    let ends = |cell: usize| blocks.iter().any(|block| block.cells.end == cell);
    blocks.iter().any(|block| ends(block.cells.start))
}

impl Flawed {
    /// What the tests of a tape for so many cells give in place of this.
    fn judged(
        &self,
        tape: &[u8],
        cells: usize,
        result: Result<(), Refusal>,
    ) -> Result<(), Refusal> {
        let blocks = blocks(tape);
        match result {
            Ok(()) => match self.0 {
                Flaw::OverlapOfTouchingBlocks if touch(&blocks) => Err(Refusal::BlockOverlap),
                _ => Ok(()),
            },
            Err(Refusal::BlockPlace) => {
                let beyond = blocks.iter().position(|block| block.cells.end > cells);
                let both = beyond.is_some_and(|place| overlaps_earlier(&blocks, place));
                Err(match self.0 {
                    Flaw::OverlapBeforePlace if both => Refusal::BlockOverlap,
                    _ => Refusal::BlockPlace,
                })
            }
            Err(Refusal::BlockOverlap) => self.judged_overlap(&blocks, cells),
            Err(refusal) => Err(refusal),
        }
    }

    /// What refusal 17 of a tape with these blocks becomes.
    fn judged_overlap(&self, blocks: &[Block], cells: usize) -> Result<(), Refusal> {
        let overlapping = &blocks[first_overlap(blocks).unwrap()];
        match self.0 {
            Flaw::OverlapPasses => Ok(()),
            Flaw::OverlapOnlyWithBlockBefore if !overlaps_block_before(blocks) => Ok(()),
            Flaw::OverlapNotByOneCell if overlaps_by_one_cell(blocks) => Ok(()),
            Flaw::OverlapAfterCells if overlapping.is_too_large() => Err(Refusal::BlockCell),
            Flaw::OverlapAfterTape => {
                let rest = Emulation.remark(&overlapping.tape_without(), cells).err();
                Err(rest.unwrap_or(Refusal::BlockOverlap))
            }
            _ => Err(Refusal::BlockOverlap),
        }
    }
}

impl Flawed {
    /// What is written instead of this machine.
    fn spoil_written(&self, store: &[u32], mut control: Control) -> (Vec<u32>, Control) {
        let mut store = store.to_vec();
        match self.0 {
            Flaw::WritesNoKeyAlone if store.iter().all(|&cell| cell < 1 << 27) => {
                let alone = store.iter_mut().filter(|cell| **cell & 0xff_ffff == 0);
                alone.for_each(|cell| *cell = 0);
            }
            Flaw::WritesOtherControl if control.pending > 2 => control.pending -= 1,
            _ => (),
        }
        (store, control)
    }

    /// What becomes of a tape that was written.
    fn spoil_tape(
        &self,
        length: usize,
        remark: Option<&[u8]>,
        tape: &mut [u8],
    ) -> Result<usize, Refusal> {
        let text = remark.map_or(0, <[u8]>::len);
        match self.0 {
            Flaw::WritesOtherText if text == 255 => tape[6 + 254] ^= 1,
            Flaw::WritesBlocksInTwo => return Ok(in_two(length, tape)),
            Flaw::WritesOneByteLess => return Ok(length - 1),
            Flaw::WritesBehindTape => tape[length..].iter_mut().for_each(|byte| *byte = 0),
            Flaw::WritesBeyondBuffer => return Ok(length + 1),
            Flaw::WriteRefusesExactBuffer if tape.len() == length => {
                return Err(Refusal::BufferLength)
            }
            Flaw::WriteRefusesLongestTape if length == 65_536 => {
                tape.copy_from_slice(&output_buffer(tape.len()));
                return Err(Refusal::WrittenLength);
            }
            Flaw::WriteRefusesLongestRemark if text == 255 => {
                tape.copy_from_slice(&output_buffer(tape.len()));
                return Err(Refusal::RemarkLength);
            }
            _ => (),
        }
        Ok(length)
    }

    /// What becomes of a refusal to write.
    fn spoil_write_refusal(&self, refusal: Refusal, tape: &mut [u8]) -> Refusal {
        match self.0 {
            Flaw::WriteRefusalChangesTape => tape.iter_mut().take(1).for_each(|byte| *byte ^= 1),
            Flaw::WriteTestsBufferFirst if tape.len() < 65_536 => {
                if let Refusal::WrittenLength = refusal {
                    return Refusal::BufferLength;
                }
            }
            _ => (),
        }
        refusal
    }
}

/// Makes two blocks of the first one, where there is one of two cells or more
/// and room for it; the length of the tape.
fn in_two(length: usize, tape: &mut [u8]) -> usize {
    let is_block = tape[4..6] == [1, 0];
    let (cells, first) = (tape[0] / 4, tape[6]);
    if !is_block || tape[1] != 0 || cells < 3 || first > 250 || tape.len() < length + 10 {
        return length;
    }
    tape.copy_within(14..length, 24);
    let second = [tape[0] - 4, 0, 0, 0, 1, 0, first + 1, 0, 0, 0];
    tape[14..24].copy_from_slice(&second);
    tape[0] = 8;
    length + 10
}

#[test]
fn every_flaw_is_found() {
    for flaw in FLAWS {
        let mut coverage = Coverage::default();
        let result = compare(Flawed(flaw), Emulation, 1, 100_000, &mut coverage);
        let difference = result.err().unwrap_or_else(|| panic!("{flaw:?} not found"));
        let shown = Request::parse(&difference.request.to_string());
        assert_eq!(shown, Ok(difference.request));
    }
}

/// A flaw that both machines have shows where a written tape is loaded again.
#[test]
fn a_flaw_of_both_writers_is_found() {
    for flaw in [
        Flaw::WritesNoKeyAlone,
        Flaw::WritesNoEmptyRemark,
        Flaw::WritesOtherText,
        Flaw::WritesOtherControl,
        Flaw::LoadsOneCellLess,
        Flaw::Remark,
    ] {
        let mut coverage = Coverage::default();
        let result = compare(Flawed(flaw), Flawed(flaw), 1, 100_000, &mut coverage);
        let difference = result.err().unwrap_or_else(|| panic!("{flaw:?} not found"));
        let request = difference.request;
        assert!(matches!(
            request,
            Request::Load { .. } | Request::Remark { .. }
        ));
    }
}

/// A flaw that both machines have shows by the blocks of the tape.
#[test]
fn a_flaw_of_both_loaders_is_found() {
    for flaw in [
        Flaw::LoadKeepsCells,
        Flaw::LoadKeepsKeys,
        Flaw::LoadKeepsRegisters,
        Flaw::LoadKeepsLastCell,
        Flaw::LoadClearsNamedCells,
        Flaw::OverlayClears,
        Flaw::OverlayClearsKeys,
        Flaw::OverlayClearsLastCell,
        Flaw::OverlayKeepsControl,
    ] {
        let mut coverage = Coverage::default();
        let result = compare(Flawed(flaw), Flawed(flaw), 1, 100_000, &mut coverage);
        let difference = result.err().unwrap_or_else(|| panic!("{flaw:?} not found"));
        assert!(matches!(
            difference.request,
            Request::Load { .. } | Request::Overlay { .. }
        ));
    }
}

/// What no machine should answer is found where both answer so.
#[test]
fn a_change_that_both_make_is_found() {
    for flaw in [
        Flaw::RefusalChangesStore,
        Flaw::RefusalChangesTyping,
        Flaw::ChangesBehindTyped,
        Flaw::WritesOneByteLess,
        Flaw::WritesBehindTape,
        Flaw::WriteRefusalChangesTape,
        Flaw::OverlapLoadsFirstBlock,
        Flaw::LoadClearsBeforeJudging,
        Flaw::OverlayClearsWhereRefused,
    ] {
        let mut coverage = Coverage::default();
        let result = compare(Flawed(flaw), Flawed(flaw), 1, 100_000, &mut coverage);
        let difference = result.err().unwrap_or_else(|| panic!("{flaw:?} not found"));
        assert_eq!(difference.tested, difference.expected);
    }
}

/// Of the tapes, about one case in eight, at least one in ten is refused with 17.
#[test]
fn many_tapes_overlap() {
    let mut coverage = Coverage::default();
    let result = compare(Emulation, Emulation, 4000, 50_000, &mut coverage);
    assert!(result.is_ok());
    assert!(coverage.overlapping() > 700, "{}", coverage.overlapping());
}

/// At least one case in ten is a machine that is written.
#[test]
fn many_machines_are_written() {
    let mut coverage = Coverage::default();
    let result = compare(Emulation, Emulation, 4000, 50_000, &mut coverage);
    assert!(result.is_ok());
    assert!(coverage.written() > 5000, "{}", coverage.written());
}
