//! Every call of the wrapper, done and refused.

use rc4000::{cell, load, overlay, press_autoload, press_reset, press_start, remark, run};
use rc4000::{run_without_devices, Control, Devices, Kind, Outcome, Refusal, Report};

/// A remark, the control record in the reset state, the end.
fn tape() -> Vec<u8> {
    let mut tape = vec![4, 0, 0, 0, 4, 0];
    tape.extend(b"text");
    tape.extend([20, 0, 0, 0, 2, 0]);
    tape.extend([0; 16]);
    tape.extend([128, 0, 5, 0]);
    tape.extend([0, 0, 0, 0, 3, 0]);
    tape
}

#[test]
fn a_tape_is_loaded_and_run() {
    let mut store = vec![0; 4096];
    let mut control = Control {
        ic: 6,
        reset: false,
        ..Control::fresh()
    };
    load(&mut store, &mut control, &tape()).unwrap();
    assert_eq!(control, Control::fresh());
    let report = run_without_devices(&mut store, &mut control, 0, 100).unwrap();
    assert_eq!(report.outcome, Outcome::Reset);
    assert_eq!((report.executed, report.entries), (0, 0));
}

#[test]
fn the_remark_is_a_part_of_the_tape() {
    let tape = tape();
    assert_eq!(remark(&tape, 8), Ok(Some(&tape[6..10])));
    assert_eq!(remark(&tape[10..], 8), Ok(None));
    assert_eq!(remark(&tape, 7), Err(Refusal::StoreSize));
    assert_eq!(remark(&[], 8), Err(Refusal::TapeEnds));
}

#[test]
fn exceptions_and_lines() {
    let mut store = vec![0; 8];
    store[6] = 12;
    store[7] = 63 << 18;
    let mut control = Control {
        ic: 14,
        reset: false,
        ..Control::fresh()
    };
    let report = run_without_devices(&mut store, &mut control, 0, 5).unwrap();
    assert_eq!(report.outcome, Outcome::Interrupted(Kind::Exception));
    assert_eq!((report.executed, report.entries), (0, 1));
    assert_eq!((store[4], store[5], control.ic), (0, 16, 12));
    control.im = 1 << 18;
    control.enabled = true;
    let report = run_without_devices(&mut store, &mut control, 1 << 18, 5).unwrap();
    assert_eq!(report.outcome, Outcome::Interrupted(Kind::Line(10)));
    assert_eq!((store[4], control.ir), (10, 0));
}

#[test]
fn keys() {
    let mut store = vec![0; 8];
    store[7] = 13;
    let mut control = Control {
        ic: 6,
        reset: false,
        ..Control::fresh()
    };
    press_reset(&mut store, &mut control).unwrap();
    assert_eq!((store[5], control.reset), (6, true));
    press_start(&mut store, &mut control).unwrap();
    assert_eq!((control.ic, control.reset), (12, false));
}

#[test]
fn refusals() {
    let mut control = Control {
        pr: 127,
        ..Control::fresh()
    };
    let given = control;
    assert_eq!(
        run_without_devices(&mut [], &mut control, 0, 0),
        Err(Refusal::StoreSize)
    );
    assert_eq!(
        press_start(&mut [1 << 27; 8], &mut control),
        Err(Refusal::CellValue)
    );
    assert_eq!(
        press_reset(&mut [0; 8], &mut control),
        Err(Refusal::ControlField)
    );
    assert_eq!(
        load(&mut [0; 8], &mut control, &[0; 65_537]),
        Err(Refusal::TapeLength)
    );
    assert_eq!(control, given);
    control = Control::fresh();
    assert_eq!(
        run_without_devices(&mut [0; 8], &mut control, 1 << 21, 65_536),
        Err(Refusal::Lines)
    );
    assert_eq!(
        run_without_devices(&mut [0; 8], &mut control, 0, 65_536),
        Err(Refusal::Budget)
    );
}

/// A block of so many cells of 1.
fn block(first: u32, cells: u32) -> Vec<u8> {
    let mut block = (4 + 4 * cells).to_le_bytes().to_vec();
    block.extend([1, 0]);
    block.extend(first.to_le_bytes());
    block.extend([1, 0, 0, 0].repeat(cells as usize));
    block
}

#[test]
fn overlapping_blocks_are_refused() {
    let overlapping = [block(2, 3), block(6, 1), block(0, 3), tape()].concat();
    let given = Control {
        ic: 6,
        ..Control::fresh()
    };
    for call in [load, overlay] {
        let (mut store, mut control) = (vec![7; 8], given);
        let refused = call(&mut store, &mut control, &overlapping);
        assert_eq!(refused, Err(Refusal::BlockOverlap));
        assert_eq!((store, control), (vec![7; 8], given));
    }
    assert_eq!(remark(&overlapping, 8), Err(Refusal::BlockOverlap));
    let beyond = [block(2, 3), block(4, 5), tape()].concat();
    assert_eq!(remark(&beyond, 8), Err(Refusal::BlockPlace));
}

#[test]
fn touching_blocks_are_loaded() {
    let touching = [block(2, 3), block(5, 3), block(0, 2), tape()].concat();
    let mut store = vec![7; 8];
    load(&mut store, &mut Control::fresh(), &touching).unwrap();
    assert_eq!(store, vec![1; 8]);
    assert!(remark(&touching, 8).unwrap().is_some());
}

/// Word and key in every cell, registers and words 8 to 14 included.
fn full_store() -> Vec<u32> {
    (0..16)
        .map(|place| cell(place % 7 + 1, place + 1))
        .collect()
}

type TakesTape = fn(&mut [u32], &mut Control, &[u8]) -> Result<(), Refusal>;

/// The call leaves each block of one cell over these cells, and without a block
/// these cells; the control record is the tape's.
fn leaves_blocks_over(call: TakesTape, under: &[u32]) {
    let blocks = (0..16).map(|first| (block(first, 1), Some(first as usize)));
    for (block, named) in blocks.chain([(Vec::new(), None)]) {
        let mut control = Control {
            ic: 6,
            ..Control::fresh()
        };
        let mut store = full_store();
        let mut left = under.to_vec();
        if let Some(first) = named {
            left[first] = 1;
        }
        call(&mut store, &mut control, &[block, tape()].concat()).unwrap();
        assert_eq!((store, control), (left, Control::fresh()));
    }
}

#[test]
fn a_load_clears_the_cells_that_no_block_names() {
    leaves_blocks_over(load, &[0; 16]);
}

#[test]
fn an_overlay_keeps_the_cells_that_no_block_names() {
    leaves_blocks_over(overlay, &full_store());
}

#[test]
fn the_largest_store_is_cleared() {
    let cells = 8_388_608;
    let mut store = vec![134_217_727; cells];
    let mut control = Control::fresh();
    let named = [block(cells as u32 - 2, 1), tape()].concat();
    overlay(&mut store, &mut control, &named).unwrap();
    let kept = store.iter().filter(|&&cell| cell == 134_217_727).count();
    assert_eq!((store[cells - 2], kept), (1, cells - 1));
    load(&mut store, &mut control, &named).unwrap();
    let zero = store.iter().filter(|&&cell| cell == 0).count();
    assert_eq!((store[cells - 2], zero), (1, cells - 1));
}

#[test]
fn a_border_is_laid_over_a_ground() {
    let (mut store, mut control) = (full_store(), Control::fresh());
    let ground = [block(2, 6), tape()].concat();
    let border = [block(0, 1), block(7, 2), tape()].concat();
    load(&mut store, &mut control, &ground).unwrap();
    overlay(&mut store, &mut control, &border).unwrap();
    assert_eq!(store, [1, 0, 1, 1, 1, 1, 1, 1, 1, 0, 0, 0, 0, 0, 0, 0]);
    let mut zero = vec![0; 16];
    overlay(&mut zero, &mut control, &ground).unwrap();
    load(&mut store, &mut control, &ground).unwrap();
    assert_eq!(store, zero);
}

/// Neither call clears or changes anything; the store is tested as it came.
#[test]
fn a_refused_tape_leaves_every_cell() {
    let given = Control {
        ic: 6,
        ..Control::fresh()
    };
    let (good, beyond) = (tape(), [block(0, 17), tape()].concat());
    let mut large = full_store();
    large[15] = 1 << 27;
    for (cells, tape, refusal) in [
        (full_store(), &good[..9], Refusal::TapeEnds),
        (full_store(), &beyond[..], Refusal::BlockPlace),
        (large, &good[..], Refusal::CellValue),
        (vec![5; 7], &good[..], Refusal::StoreSize),
    ] {
        for call in [load, overlay] {
            let (mut store, mut control) = (cells.clone(), given);
            assert_eq!(call(&mut store, &mut control, tape), Err(refusal));
            assert_eq!((&store, control), (&cells, given));
        }
    }
}

/// An instruction by its code and address.
const fn instruction(code: u32, address: u32) -> u32 {
    code << 18 | address
}

const AW: u32 = 0;
const IO: u32 = 1;
const AL: u32 = 11;
const JL: u32 = 13;
/// Write to device 1, the typewriter.
const TYPE: u32 = 64 + 3;

/// A word as four reader characters, the first one left-most.
fn punched(word: u32) -> [u8; 4] {
    [18, 12, 6, 0].map(|shift| (word >> shift & 63) as u8)
}

/// The reader tape of section 11.5 for a program from 16 on that types
/// this text and then executes AW with no characters left.
fn reader_tape(text: &[u8]) -> Vec<u8> {
    let typing = text
        .iter()
        .flat_map(|&byte| [instruction(AL, byte.into()), instruction(IO, TYPE)]);
    let program: Vec<u32> = typing.chain([instruction(AW, 0)]).collect();
    let loading = (16..)
        .step_by(2)
        .zip(program)
        .flat_map(|(address, word)| [instruction(AW, address), word]);
    [2, 4, instruction(JL, 0)]
        .into_iter()
        .chain(loading)
        .chain([instruction(JL, 16)])
        .flat_map(punched)
        .collect()
}

/// What a list of runs leaves.
#[derive(Debug, PartialEq)]
struct Left {
    store: Vec<u32>,
    control: Control,
    devices: Devices,
    typing: Vec<u8>,
}

/// Presses the autoload key and runs with these budgets, each run on what the
/// one before left.
fn autoload(budgets: &[u32]) -> (Left, Vec<Report>) {
    let tape = reader_tape(b"TYPED");
    let (mut store, mut control) = (vec![0; 64], Control::fresh());
    let mut devices = Devices::default();
    let mut typing = vec![255; 9];
    let mut taken = press_autoload(&mut store, &mut control, &mut devices, &tape).unwrap();
    assert_eq!((taken, store[0], devices.reader), (4, 2, 2));
    let mut typed = 0;
    let mut reports = Vec::new();
    for &budget in budgets {
        let (characters, space) = (&tape[taken..], &mut typing[typed..]);
        let (cells, record, registers) = (&mut store, &mut control, &mut devices);
        let report = run(cells, record, 0, budget, registers, characters, space).unwrap();
        taken += report.taken;
        typed += report.typed;
        reports.push(report);
    }
    assert_eq!((taken, typed), (tape.len(), 5));
    let left = Left {
        store,
        control,
        devices,
        typing,
    };
    (left, reports)
}

#[test]
fn autoload_and_type() {
    let (left, reports) = autoload(&[65_535]);
    assert_eq!(left.typing, b"TYPED\xff\xff\xff\xff");
    assert_eq!(reports[0].outcome, Outcome::Reset);
    assert_eq!((reports[0].executed, reports[0].entries), (49, 0));
    assert_eq!((left.control.ic, left.control.reset), (38, true));
    assert_eq!(left.store[5], 38);
    let devices = Devices {
        reader: 16,
        typewriter: b'D'.into(),
    };
    assert_eq!(left.devices, devices);
}

#[test]
fn two_budgets_take_and_type_what_one_does() {
    let (whole, _) = autoload(&[65_535]);
    for first in 0..49 {
        let (left, reports) = autoload(&[first, 65_535 - first]);
        assert_eq!(left, whole);
        assert_eq!(reports[0].outcome, Outcome::Spent);
        assert_eq!(reports[1].outcome, Outcome::Reset);
        assert_eq!(
            (reports[0].executed, reports[1].executed),
            (first, 49 - first)
        );
    }
}

#[test]
fn autoload_key_without_effect() {
    let mut store = vec![5; 8];
    let mut control = Control::fresh();
    let mut devices = Devices {
        reader: 7,
        typewriter: 8,
    };
    let given = devices;
    let few = press_autoload(&mut store, &mut control, &mut devices, &[1, 2, 3]);
    assert_eq!((few, control), (Ok(0), Control::fresh()));
    control.reset = false;
    let elsewhere = press_autoload(&mut store, &mut control, &mut devices, &[1, 2, 3, 4]);
    assert_eq!((elsewhere, control.ic), (Ok(0), 0));
    assert_eq!((store, devices), (vec![5; 8], given));
}

/// Run and autoload key refuse these devices, and change nothing.
fn refused_devices(devices: Devices, characters: &[u8]) {
    let mut store = vec![7; 8];
    let mut control = Control::fresh();
    let mut typing = [9; 3];
    let mut lent = devices;
    let (cells, record, registers) = (&mut store, &mut control, &mut lent);
    let refused = run(cells, record, 1, 65_535, registers, characters, &mut typing);
    assert_eq!(refused, Err(Refusal::Device));
    let refused = press_autoload(&mut store, &mut control, &mut lent, characters);
    assert_eq!(refused, Err(Refusal::Device));
    assert_eq!(
        (store, control, lent, typing),
        (vec![7; 8], Control::fresh(), devices, [9; 3])
    );
}

#[test]
fn refusal_13_leaves_everything() {
    let wide = |reader, typewriter| Devices { reader, typewriter };
    refused_devices(wide(0, 0), &[0, 1, 2, 3, 64]);
    refused_devices(wide(0, 0), &[255]);
    refused_devices(wide(1 << 24, 0), &[]);
    refused_devices(wide(0, u32::MAX), &[63; 4]);
    assert_eq!(Refusal::from_number(13), Some(Refusal::Device));
    assert_eq!(Refusal::Device.number(), 13);
}

#[test]
fn refusal_13_comes_after_5() {
    let mut devices = Devices {
        reader: 1 << 24,
        typewriter: 0,
    };
    let (store, control) = (&mut [0; 8], &mut Control::fresh());
    let refused = run(store, control, 0, 65_536, &mut devices, &[64], &mut []);
    assert_eq!(refused, Err(Refusal::Budget));
}
