//! Load tapes, their refusals and the remark.

mod common;

use common::run_alone;
use emulation::{load, overlay, remark, Control, Outcome, Refusal};

fn record(kind: u16, payload: &[u8]) -> Vec<u8> {
    let mut bytes = (payload.len() as u32).to_le_bytes().to_vec();
    bytes.extend(kind.to_le_bytes());
    bytes.extend(payload);
    bytes
}

fn block(first: u32, cells: &[u32]) -> Vec<u8> {
    let mut payload = first.to_le_bytes().to_vec();
    for cell in cells {
        payload.extend(cell.to_le_bytes());
    }
    record(1, &payload)
}

fn control(pr: u8, ex: u8, flags: u8, last: u8) -> Vec<u8> {
    let mut payload = [0; 20];
    payload[16..].copy_from_slice(&[pr, ex, flags, last]);
    record(2, &payload)
}

fn good_control() -> Vec<u8> {
    control(128, 0, 5, 0)
}

/// A control record of 33 bytes: the first 20 as `control` has them, then
/// elapsed, period and phase, and the line.
fn timed(fields: [u8; 4], times: [u32; 3], line: u8) -> Vec<u8> {
    let [pr, ex, flags, last] = fields;
    let mut payload = control(pr, ex, flags, last)[6..].to_vec();
    payload.extend(times.map(u32::to_le_bytes).concat());
    payload.push(line);
    record(2, &payload)
}

fn end() -> Vec<u8> {
    record(3, &[])
}

/// Word and key in every cell.
fn full_store() -> Vec<u32> {
    (0..16)
        .map(|cell| ((cell % 7 + 1) << 24) + cell + 1)
        .collect()
}

/// The loader's refusal, which overlay and the remark reader give too; every
/// cell is kept.
fn refusal(parts: &[Vec<u8>]) -> Refusal {
    let tape = parts.concat();
    let mut store = full_store();
    let given = Control {
        ic: 6,
        ..Control::fresh()
    };
    let mut control = given;
    let refusal = load(&mut store, &mut control, &tape).unwrap_err();
    assert_eq!(overlay(&mut store, &mut control, &tape), Err(refusal));
    assert_eq!((store, control), (full_store(), given));
    assert_eq!(remark(&tape, 16), Err(refusal));
    refusal
}

#[test]
fn the_tape_of_the_paper() {
    let tape = [good_control(), end()].concat();
    let mut store = vec![0; 4096];
    let mut control = Control {
        ic: 6,
        reset: false,
        ..Control::fresh()
    };
    load(&mut store, &mut control, &tape).unwrap();
    assert_eq!(control, Control::fresh());
    let report = run_alone(&mut store, &mut control, 0, 100).unwrap();
    assert_eq!(report.outcome, Outcome::Reset);
    assert_eq!((report.executed, report.entries, control.ic), (0, 0, 0));
    assert_eq!(remark(&tape, 4096), Ok(None));
}

#[test]
fn blocks_are_loaded() {
    let tape = [
        block(2, &[20, 21]),
        record(4, b""),
        record(4, b"second"),
        block(5, &[50]),
        good_control(),
        end(),
    ]
    .concat();
    let mut store = vec![9; 8];
    overlay(&mut store, &mut Control::fresh(), &tape).unwrap();
    assert_eq!(store, [9, 9, 20, 21, 9, 50, 9, 9]);
    load(&mut store, &mut Control::fresh(), &tape).unwrap();
    assert_eq!(store, [0, 0, 20, 21, 0, 50, 0, 0]);
    let text = remark(&tape, 8).unwrap().unwrap();
    assert!(text.is_empty());
}

/// Tapes that name no cell, each cell alone and all of them, loaded and laid
/// over a full store, registers and words 8 to 14 included.
#[test]
fn unnamed_cells() {
    let last = [good_control(), end()].concat();
    let named: Vec<(usize, usize)> = (0..16).map(|cell| (cell, 1)).chain([(0, 16)]).collect();
    for (first, count) in named.into_iter().chain([(0, 0)]) {
        let cells = vec![5; count];
        let blocks = if count > 0 {
            block(first as u32, &cells)
        } else {
            Vec::new()
        };
        let tape = [blocks, last.clone()].concat();
        let [mut loaded, mut laid] = [vec![0; 16], full_store()];
        loaded[first..first + count].fill(5);
        laid[first..first + count].fill(5);
        let (mut store, mut control) = (
            full_store(),
            Control {
                ic: 6,
                ..Control::fresh()
            },
        );
        load(&mut store, &mut control, &tape).unwrap();
        assert_eq!((store, control), (loaded, Control::fresh()));
        let (mut store, mut control) = (
            full_store(),
            Control {
                ic: 6,
                ..Control::fresh()
            },
        );
        overlay(&mut store, &mut control, &tape).unwrap();
        assert_eq!((store, control), (laid, Control::fresh()));
    }
}

/// The largest store, every cell in use; the tape names its last cell but one.
#[test]
fn the_largest_store() {
    let cells = 8_388_608;
    let tape = [block(cells as u32 - 2, &[5]), good_control(), end()].concat();
    let mut store = vec![134_217_727; cells];
    let mut control = Control::fresh();
    overlay(&mut store, &mut control, &tape).unwrap();
    assert_eq!(store[cells - 2], 5);
    let kept = store.iter().filter(|&&cell| cell == 134_217_727).count();
    assert_eq!(kept, cells - 1);
    load(&mut store, &mut control, &tape).unwrap();
    assert_eq!(store[cells - 2], 5);
    assert_eq!(store.iter().filter(|&&cell| cell == 0).count(), cells - 1);
}

/// A cell of zero on the tape, and a border over a ground.
#[test]
fn a_border_over_a_ground() {
    let last = [good_control(), end()].concat();
    let ground = [block(1, &[1, 2, 3 << 24, 4]), last.clone()].concat();
    let border = [block(0, &[7]), block(3, &[0, 6]), last].concat();
    let (mut store, mut control) = (vec![9; 8], Control::fresh());
    load(&mut store, &mut control, &ground).unwrap();
    assert_eq!(store, [0, 1, 2, 3 << 24, 4, 0, 0, 0]);
    overlay(&mut store, &mut control, &border).unwrap();
    assert_eq!(store, [7, 1, 2, 0, 6, 0, 0, 0]);
    load(&mut store, &mut control, &ground).unwrap();
    assert_eq!(store, [0, 1, 2, 3 << 24, 4, 0, 0, 0]);
}

/// A cell that is too large is refused though the load would clear it, and
/// after the number of cells.
#[test]
fn the_store_is_tested_as_it_came() {
    let tape = [good_control(), end()].concat();
    for call in [load, overlay] {
        for (cells, refusal) in [(8, Refusal::CellValue), (7, Refusal::StoreSize)] {
            let mut store = vec![5; cells];
            store[3] = 1 << 27;
            let (given, mut control) = (store.clone(), Control::fresh());
            assert_eq!(call(&mut store, &mut control, &tape), Err(refusal));
            assert_eq!(call(&mut store, &mut control, &[]), Err(refusal));
            assert_eq!(store, given);
        }
    }
}

#[test]
fn the_first_remark() {
    let tape = [record(4, b"part 7"), record(4, b"x"), good_control(), end()].concat();
    assert_eq!(remark(&tape, 8), Ok(Some(&tape[6..12])));
    assert_eq!(remark(&tape, 7), Err(Refusal::StoreSize));
}

#[test]
fn tape_refusals() {
    assert_eq!(refusal(&[]), Refusal::TapeEnds);
    assert_eq!(refusal(&[good_control()]), Refusal::TapeEnds);
    assert_eq!(refusal(&[vec![20, 0, 0, 0, 2, 0, 0]]), Refusal::TapeEnds);
    assert_eq!(refusal(&[record(0, &[])]), Refusal::RecordKind);
    assert_eq!(
        refusal(&[good_control(), record(5, &[])]),
        Refusal::RecordKind
    );
    assert_eq!(refusal(&[end()]), Refusal::RecordOrder);
    assert_eq!(
        refusal(&[good_control(), record(4, &[])]),
        Refusal::RecordOrder
    );
    assert_eq!(refusal(&[record(1, &[0; 4])]), Refusal::RecordLength);
    assert_eq!(refusal(&[record(1, &[0; 9])]), Refusal::RecordLength);
    assert_eq!(refusal(&[record(2, &[0; 19])]), Refusal::RecordLength);
    assert_eq!(refusal(&[record(4, &[0; 256])]), Refusal::RecordLength);
    assert_eq!(
        refusal(&[good_control(), record(3, &[0])]),
        Refusal::RecordLength
    );
    assert_eq!(refusal(&[block(15, &[0, u32::MAX])]), Refusal::BlockPlace);
    assert_eq!(refusal(&[block(u32::MAX, &[0])]), Refusal::BlockPlace);
    assert_eq!(refusal(&[block(14, &[0, u32::MAX])]), Refusal::BlockCell);
    assert_eq!(
        refusal(&[good_control(), end(), vec![0]]),
        Refusal::RecordOrder
    );
    assert_eq!(refusal(&[vec![0; 65_537]]), Refusal::TapeLength);
    assert_eq!(refusal(&[vec![0; 65_536]]), Refusal::RecordKind);
}

/// The refusal of blocks with so many cells of zero from these first cells on.
fn refusal_of_blocks(blocks: &[(u32, usize)]) -> Refusal {
    let mut parts: Vec<Vec<u8>> = blocks
        .iter()
        .map(|&(first, count)| block(first, &vec![0; count]))
        .collect();
    parts.extend([good_control(), end()]);
    refusal(&parts)
}

#[test]
fn overlapping_blocks() {
    for later in [
        (4, 3), // equal
        (5, 1), // inside
        (4, 2),
        (3, 5), // around
        (0, 16),
        (2, 3), // by one cell at the left end
        (3, 3),
        (6, 1), // by one cell at the right end
        (5, 11),
    ] {
        assert_eq!(refusal_of_blocks(&[(4, 3), later]), Refusal::BlockOverlap);
        assert_eq!(refusal_of_blocks(&[later, (4, 3)]), Refusal::BlockOverlap);
        let apart = [(0, 1), (4, 3), (15, 1), later];
        assert_eq!(refusal_of_blocks(&apart), Refusal::BlockOverlap);
    }
}

/// Every order of blocks that touch each other and both ends of the store.
#[test]
fn touching_blocks() {
    let blocks = [
        block(0, &[1, 2]),
        block(2, &[3]),
        block(3, &[4, 5, 6, 7, 8]),
    ];
    for order in [
        [0, 1, 2],
        [0, 2, 1],
        [1, 0, 2],
        [1, 2, 0],
        [2, 0, 1],
        [2, 1, 0],
    ] {
        let mut tape = order.map(|place| blocks[place].clone()).concat();
        tape.extend([good_control(), end()].concat());
        let mut store = vec![9; 8];
        load(&mut store, &mut Control::fresh(), &tape).unwrap();
        assert_eq!(store, [1, 2, 3, 4, 5, 6, 7, 8]);
        assert_eq!(remark(&tape, 8), Ok(None));
    }
}

#[test]
fn overlap_is_tested_after_9_and_before_10() {
    let (first, bad) = (block(14, &[5]), u32::MAX);
    let beyond = [first.clone(), block(14, &[0, bad, 0])];
    assert_eq!(refusal(&beyond), Refusal::BlockPlace);
    let overlapping = [first, block(13, &[bad, 0, bad])];
    assert_eq!(refusal(&overlapping), Refusal::BlockOverlap);
    let earlier = [block(14, &[bad]), block(14, &[0])];
    assert_eq!(refusal(&earlier), Refusal::BlockCell);
    let later = [block(14, &[0]), block(14, &[0]), vec![0; 5]];
    assert_eq!(refusal(&later), Refusal::BlockOverlap);
}

#[test]
fn overlap_behind_many_blocks() {
    let falling: Vec<Vec<u8>> = (0..4600)
        .rev()
        .map(|place| block(2 * place, &[1]))
        .collect();
    let last = [good_control(), end()].concat();
    let tape = [falling.concat(), last.clone()].concat();
    let mut store = vec![0; 9200];
    load(&mut store, &mut Control::fresh(), &tape).unwrap();
    assert_eq!(store, [1, 0].repeat(4600));
    for cell in [0, 4600, 9198] {
        let tape = [falling.concat(), block(cell, &[1]), last.clone()].concat();
        assert_eq!(remark(&tape, 9200), Err(Refusal::BlockOverlap));
        let tape = [falling.concat(), block(cell + 1, &[1]), last.clone()].concat();
        assert_eq!(remark(&tape, 9200), Ok(None));
    }
}

#[test]
fn the_number_of_the_overlap() {
    assert_eq!(Refusal::BlockOverlap.number(), 17);
    assert_eq!(Refusal::from_number(17), Some(Refusal::BlockOverlap));
    assert_eq!(Refusal::BlockOverlap.to_string(), "refused 17");
    assert_eq!(Refusal::from_number(22), None);
}

#[test]
fn control_record_refusals() {
    for (pr, ex, flags, last) in [
        (127, 0, 5, 0),
        (128, 8, 5, 0),
        (128, 0, 4, 0),
        (128, 0, 7, 0),
        (128, 0, 8, 0),
        (128, 0, 5, 1),
    ] {
        assert_eq!(
            refusal(&[control(pr, ex, flags, last)]),
            Refusal::ControlField
        );
    }
}

const GOOD_FIELDS: [u8; 4] = [128, 0, 5, 0];

#[test]
fn control_records_of_20_and_33_bytes() {
    let mut control = Control {
        elapsed: 1,
        period: 2,
        phase: 3,
        line: 4,
        ..Control::fresh()
    };
    let mut load = |control_record: Vec<u8>| {
        let tape = [control_record, end()].concat();
        load(&mut [0; 8], &mut control, &tape).map(|()| control)
    };
    assert_eq!(load(good_control()), Ok(Control::fresh()));
    for (times, line) in [
        ([0, 0, 0], 0),
        ([u32::MAX, u32::MAX, u32::MAX - 1], 3),
        ([1, 1, 0], 23),
        ([7, 0, u32::MAX], 255),
    ] {
        let [elapsed, period, phase] = times;
        let given = Control {
            elapsed,
            period,
            phase,
            line,
            ..Control::fresh()
        };
        assert_eq!(load(timed(GOOD_FIELDS, times, line)), Ok(given));
    }
}

#[test]
fn other_lengths_of_a_control_record() {
    for length in (0..20).chain(21..33).chain([34, 40, 53, 66]) {
        let payload = vec![0; length];
        assert_eq!(refusal(&[record(2, &payload)]), Refusal::RecordLength);
    }
    let cut = timed(GOOD_FIELDS, [0; 3], 0);
    for length in [6, 26, 38] {
        assert_eq!(refusal(&[cut[..length].to_vec()]), Refusal::TapeEnds);
    }
}

#[test]
fn timer_refusals() {
    for (period, phase, line) in [
        (1, 0, 0),
        (1, 0, 2),
        (1, 0, 24),
        (1, 0, 255),
        (1, 1, 3),
        (1, u32::MAX, 3),
        (u32::MAX, u32::MAX, 23),
    ] {
        let times = [5, period, phase];
        let record = timed(GOOD_FIELDS, times, line);
        assert_eq!(refusal(&[record]), Refusal::Timer);
        for fields in [[127, 0, 5, 0], [128, 0, 8, 0], [128, 0, 5, 1]] {
            let record = timed(fields, times, line);
            assert_eq!(refusal(&[record]), Refusal::ControlField);
        }
    }
    let record = timed([128, 0, 5, 1], [0; 3], 0);
    assert_eq!(refusal(&[record]), Refusal::ControlField);
    assert_eq!(Refusal::Timer.number(), 18);
    assert_eq!(Refusal::from_number(18), Some(Refusal::Timer));
}
