//! The tape reader, the typewriter and the autoload key (02, E1).

mod common;

use common::{instruction, Machine};
use emulation::{press_autoload, run, Control, Devices, Kind, Outcome, Refusal, Report};

const AW: u32 = 0;
const IO: u32 = 1;
const JL: u32 = 13;

const SENSE: u32 = 0;
const CONTROL: u32 = 1;
const READ: u32 = 2;
const WRITE: u32 = 3;
const COMMANDS: [u32; 4] = [SENSE, CONTROL, READ, WRITE];

const READER: u32 = 0;
const TYPEWRITER: u32 = 1;

const EXCEPTION: Outcome = Outcome::Interrupted(Kind::Exception);
const KEY_1: u32 = 1 << 24;

/// Registers that no operation gives by itself.
const REGISTERS: Devices = Devices {
    reader: 0xab_cdef,
    typewriter: 0x12_3456,
};

/// A machine with characters, space to type in, W1 = 16711937 and EX 7.
fn connected(characters: &[u8], typing: &[u8]) -> Machine {
    let mut machine = Machine::with_registers([0, 0xff_0141, 0, 0]);
    machine.devices = REGISTERS;
    machine.characters = characters.to_vec();
    machine.typing = typing.to_vec();
    machine.control.ex = 7;
    machine
}

/// Executes IO with W1; the address comes from W2.
fn execute_io(machine: &mut Machine, device: u32, modifier: u32, command: u32) -> Report {
    machine.store[2] = device << 6 | modifier << 2 | command;
    machine.execute(instruction(IO, 1, 0, 2, 0))
}

/// Taken, typed, registers, W1, EX.
fn state(machine: &Machine, report: &Report) -> (usize, usize, Devices, u32, u32) {
    (
        report.taken,
        report.typed,
        machine.devices,
        machine.store[1],
        machine.control.ex,
    )
}

/// What an operation leaves that only sets EX.
fn untouched(ex: u32) -> (usize, usize, Devices, u32, u32) {
    (0, 0, REGISTERS, 0xff_0141, ex)
}

#[test]
fn all_devices_but_two_are_disconnected() {
    for device in [2, 3, 63, 64, 65, 1 << 16, 1 << 17, (1 << 18) - 1] {
        for command in COMMANDS {
            let mut machine = connected(&[1, 2], &[9, 9]);
            let report = execute_io(&mut machine, device, 0, command);
            assert_eq!(state(&machine, &report), untouched(6), "{device} {command}");
            assert_eq!(machine.typing, [9, 9]);
        }
    }
}

#[test]
fn the_modifier_is_ignored() {
    for modifier in 1..16 {
        for device in [READER, TYPEWRITER, 2] {
            for command in COMMANDS {
                let mut plain = connected(&[1, 2], &[9, 9]);
                let report = execute_io(&mut plain, device, 0, command);
                let mut modified = connected(&[1, 2], &[9, 9]);
                let other = execute_io(&mut modified, device, modifier, command);
                assert_eq!(state(&plain, &report), state(&modified, &other));
                assert_eq!(plain.typing, modified.typing);
            }
        }
    }
}

#[test]
fn io_sets_ex_22_and_clears_ex_23() {
    for ex in 0..8 {
        for (device, set) in [(READER, 0), (TYPEWRITER, 0), (2, 2)] {
            for command in COMMANDS {
                let mut machine = connected(&[1], &[0]);
                machine.control.ex = ex;
                let report = execute_io(&mut machine, device, 0, command);
                assert_eq!(machine.control.ex, ex & 4 | set);
                assert_eq!((report.outcome, report.executed), (Outcome::Spent, 1));
                assert_eq!(machine.control.ir, 0);
            }
        }
    }
}

#[test]
fn sense_finds_both_devices() {
    for (device, register) in [(READER, 0xab_cdef), (TYPEWRITER, 0x12_3456)] {
        for (characters, typing) in [(&[1, 2][..], &[9][..]), (&[], &[])] {
            let mut machine = connected(characters, typing);
            machine.store[1] |= 5 << 24;
            let report = execute_io(&mut machine, device, 0, SENSE);
            let cell = 5 << 24 | register;
            assert_eq!(state(&machine, &report), (0, 0, REGISTERS, cell, 4));
        }
    }
}

#[test]
fn read_of_the_reader() {
    for character in [0, 1, 63] {
        let mut machine = connected(&[character, 5], &[]);
        let report = execute_io(&mut machine, READER, 0, READ);
        let devices = Devices {
            reader: u32::from(character),
            ..REGISTERS
        };
        assert_eq!(state(&machine, &report), (1, 0, devices, 0xff_0141, 4));
    }
    let mut machine = connected(&[], &[1, 2]);
    let report = execute_io(&mut machine, READER, 0, READ);
    assert_eq!(state(&machine, &report), untouched(6));
}

#[test]
fn read_of_the_typewriter_gives_zero() {
    for typing in [&[][..], &[1]] {
        let mut machine = connected(&[1], typing);
        let report = execute_io(&mut machine, TYPEWRITER, 0, READ);
        let devices = Devices {
            typewriter: 0,
            ..REGISTERS
        };
        assert_eq!(state(&machine, &report), (0, 0, devices, 0xff_0141, 4));
        assert_eq!(machine.typing, typing);
    }
}

#[test]
fn write_to_the_typewriter() {
    let mut machine = connected(&[1], &[7, 8]);
    let report = execute_io(&mut machine, TYPEWRITER, 0, WRITE);
    let devices = Devices {
        typewriter: 0xff_0141,
        ..REGISTERS
    };
    assert_eq!(state(&machine, &report), (0, 1, devices, 0xff_0141, 4));
    assert_eq!(machine.typing, [0x41, 8]);
    let mut machine = connected(&[1], &[]);
    let report = execute_io(&mut machine, TYPEWRITER, 0, WRITE);
    assert_eq!(state(&machine, &report), untouched(6));
}

#[test]
fn write_to_the_reader_and_control_do_nothing() {
    let operations = [(READER, WRITE), (READER, CONTROL), (TYPEWRITER, CONTROL)];
    for (device, command) in operations {
        for (characters, typing) in [(&[1, 2][..], &[9][..]), (&[], &[])] {
            let mut machine = connected(characters, typing);
            let report = execute_io(&mut machine, device, 0, command);
            assert_eq!(state(&machine, &report), untouched(4));
            assert_eq!(machine.typing, typing);
        }
    }
}

/// 4, 5, 6, 63 as a word.
const FOUR: [u8; 4] = [4, 5, 6, 63];
const WORD: u32 = 4 << 18 | 5 << 12 | 6 << 6 | 63;

#[test]
fn aw_loads_a_word() {
    for characters in [&[4, 5, 6, 63][..], &[4, 5, 6, 63, 1]] {
        let mut machine = connected(characters, &[]);
        machine.store[20] = 7 << 24 | 99;
        let report = machine.execute(instruction(AW, 1, 0, 0, 41));
        assert_eq!(report.outcome, Outcome::Spent);
        let devices = Devices {
            reader: 63,
            ..REGISTERS
        };
        assert_eq!(state(&machine, &report), (4, 0, devices, 0xff_0141, 4));
        assert_eq!(machine.store[20], WORD);
    }
}

#[test]
fn aw_loads_a_register_and_its_key() {
    let mut machine = connected(&FOUR, &[]);
    machine.store[3] = KEY_1 | 5;
    machine.execute(instruction(AW, 0, 0, 0, 6));
    assert_eq!(machine.store[3], WORD);
}

#[test]
fn aw_reads_before_the_address_is_tested() {
    let mut machine = connected(&FOUR, &[]);
    let report = machine.execute(instruction(AW, 0, 0, 0, 64));
    assert_eq!(report.outcome, EXCEPTION);
    let devices = Devices {
        reader: 63,
        ..REGISTERS
    };
    assert_eq!(state(&machine, &report), (4, 0, devices, 0xff_0141, 4));
    assert_eq!(machine.store[4..6], [0, 18]);
}

#[test]
fn aw_with_fewer_than_four_characters_resets() {
    for left in 0..4 {
        for address in [40, 64] {
            let mut machine = connected(&FOUR[..left], &[]);
            let report = machine.execute(instruction(AW, 0, 0, 0, address));
            assert_eq!((report.outcome, report.executed), (Outcome::Reset, 1));
            assert_eq!(state(&machine, &report), untouched(7));
            assert_eq!((machine.store[5], machine.store[20]), (18, 0));
            assert!(machine.control.reset);
        }
    }
}

#[test]
fn an_absent_indirect_address_comes_before_the_characters() {
    for code in [AW, IO] {
        let mut machine = connected(&FOUR, &[1]);
        let report = machine.execute(instruction(code, 1, 1, 0, 64));
        assert_eq!(report.outcome, EXCEPTION);
        assert_eq!(state(&machine, &report), untouched(7));
    }
}

#[test]
fn a_task_touches_no_device() {
    let mut words = vec![instruction(AW, 1, 0, 0, 40)];
    for address in 0..128 {
        words.push(instruction(IO, 1, 0, 0, address));
    }
    for word in words {
        let mut machine = connected(&FOUR, &[1, 2]);
        machine.control.pr = 255 & !64;
        machine.control.monitor = false;
        machine.store[8] = KEY_1 | word;
        let report = machine.cycles(1);
        assert_eq!(report.outcome, EXCEPTION);
        assert_eq!(state(&machine, &report), untouched(7));
        assert_eq!(machine.typing, [1, 2]);
    }
}

/// A machine in the reset state with a key in cell 0.
fn reset(characters: &[u8]) -> Machine {
    let mut machine = connected(characters, &[]);
    machine.store[0] = 7 << 24 | 9;
    machine.store[5] = 77;
    machine.control = Control {
        ic: 21,
        ir: 5,
        im: 6,
        pending: 7,
        pr: 170,
        ex: 7,
        ..Control::fresh()
    };
    machine
}

fn press(machine: &mut Machine) -> Result<usize, Refusal> {
    press_autoload(
        &mut machine.store,
        &mut machine.control,
        &mut machine.devices,
        &machine.characters,
    )
}

#[test]
fn the_autoload_key_in_the_reset_state() {
    for characters in [&[4, 5, 6, 63][..], &[4, 5, 6, 63, 1]] {
        let mut machine = reset(characters);
        let given = machine.control;
        assert_eq!(press(&mut machine), Ok(4));
        let loaded = Control {
            ic: 0,
            ex: 4,
            reset: false,
            ..given
        };
        assert_eq!(machine.control, loaded);
        assert_eq!((machine.store[0], machine.store[5]), (WORD, 77));
        assert_eq!(machine.devices.reader, 63);
        assert_eq!(machine.devices.typewriter, REGISTERS.typewriter);
    }
}

#[test]
fn the_autoload_key_elsewhere_changes_nothing() {
    let mut machines: Vec<Machine> = (0..4).map(|left| reset(&FOUR[..left])).collect();
    for enabled in [false, true] {
        let mut machine = reset(&FOUR);
        machine.control.reset = false;
        machine.control.enabled = enabled;
        machines.push(machine);
    }
    let mut task = reset(&FOUR);
    task.control.reset = false;
    task.control.monitor = false;
    machines.push(task);
    for machine in &mut machines {
        let given = (machine.store.clone(), machine.control);
        assert_eq!(press(machine), Ok(0));
        assert_eq!((machine.store.clone(), machine.control), given);
        assert_eq!(machine.devices, REGISTERS);
    }
}

/// The characters of words.
fn characters(words: &[u32]) -> Vec<u8> {
    let of_word = |&word: &u32| [18, 12, 6, 0].map(|places| (word >> places & 63) as u8);
    words.iter().flat_map(of_word).collect()
}

#[test]
fn the_example_of_section_11_5_loads_a_program() {
    let program = [instruction(11, 1, 0, 0, 7), instruction(11, 2, 0, 0, 8)];
    let mut machine = Machine::new();
    machine.control = Control::fresh();
    machine.characters = characters(&[
        instruction(AW, 0, 0, 0, 2),
        instruction(AW, 0, 0, 0, 4),
        instruction(JL, 0, 0, 0, 0),
        instruction(AW, 0, 0, 0, 16),
        program[0],
        instruction(AW, 0, 0, 0, 18),
        program[1],
        instruction(JL, 0, 0, 0, 16),
    ]);
    let taken = press(&mut machine).unwrap();
    machine.characters.drain(..taken);
    let report = machine.cycles(13);
    assert_eq!((report.outcome, report.taken), (Outcome::Spent, 28));
    assert_eq!(machine.store[8..10], program);
    assert_eq!(machine.store[1..3], [7, 8]);
}

/// The refusals of a run and of the autoload key, which change nothing.
fn refusals(machine: &Machine, budget: u32) -> [Refusal; 2] {
    let (mut store, mut control) = (machine.store.clone(), machine.control);
    let (mut devices, mut typing) = (machine.devices, machine.typing.clone());
    let of_run = run(
        &mut store,
        &mut control,
        3,
        budget,
        &mut devices,
        &machine.characters,
        &mut typing,
    );
    let of_key = press_autoload(&mut store, &mut control, &mut devices, &machine.characters);
    assert_eq!((&store, control), (&machine.store, machine.control));
    assert_eq!((devices, &typing), (machine.devices, &machine.typing));
    [of_run.unwrap_err(), of_key.unwrap_err()]
}

/// Machines that are refused with 13: in the reset state, with characters
/// enough, and elsewhere.
fn refused() -> Vec<Machine> {
    let mut machines = Vec::new();
    for in_reset in [true, false] {
        let mut machine = reset(&[1, 2, 3, 4, 64]);
        machine.control.reset = in_reset;
        machines.push(machine);
        let mut machine = reset(&[255, 2, 3]);
        machine.control.reset = in_reset;
        machines.push(machine);
        for wide in [1 << 24, u32::MAX] {
            let mut machine = reset(&FOUR);
            machine.control.reset = in_reset;
            machine.devices.reader = wide;
            machines.push(machine);
            let mut machine = reset(&FOUR);
            machine.control.reset = in_reset;
            machine.devices.typewriter = wide;
            machines.push(machine);
        }
    }
    machines
}

#[test]
fn thirteen_looks_at_all_characters_and_both_registers() {
    for machine in refused() {
        assert_eq!(refusals(&machine, 0), [Refusal::Device; 2]);
    }
}

#[test]
fn thirteen_comes_after_5_in_a_run_and_after_3_for_the_key() {
    for mut machine in refused() {
        assert_eq!(
            refusals(&machine, 65_536),
            [Refusal::Budget, Refusal::Device]
        );
        machine.control.ex = 8;
        assert_eq!(refusals(&machine, 0), [Refusal::ControlField; 2]);
    }
    assert_eq!(Refusal::Device.number(), 13);
    assert_eq!(Refusal::from_number(13), Some(Refusal::Device));
}

/// A loop that types what it reads: read 0, sense 0, write 1, jump.
fn copying(characters: &[u8], typing: &[u8]) -> Machine {
    let mut machine = connected(characters, typing);
    machine.store[8] = instruction(IO, 0, 0, 0, 2);
    machine.store[9] = instruction(IO, 3, 0, 0, 0);
    machine.store[10] = instruction(IO, 3, 0, 0, 64 + 3);
    machine.store[11] = instruction(JL, 0, 0, 0, 16);
    machine
}

#[test]
fn typed_bytes_stand_at_the_front_in_order() {
    let mut machine = copying(&[10, 20, 30], &[1, 2, 3, 4, 5]);
    let report = machine.cycles(11);
    assert_eq!((report.taken, report.typed), (3, 3));
    assert_eq!(machine.typing, [10, 20, 30, 4, 5]);
    let mut machine = copying(&[10, 20, 30], &[1, 2]);
    let report = machine.cycles(11);
    assert_eq!((report.taken, report.typed), (3, 2));
    assert_eq!((machine.typing, machine.control.ex), (vec![10, 20], 6));
}

#[test]
fn a_later_run_goes_on_with_what_is_left() {
    let all = [10, 20, 30, 40, 50];
    let mut one = copying(&all, &[7; 6]);
    let whole = one.cycles(30);
    for first in 0..=30 {
        let mut machine = copying(&all, &[7; 6]);
        let before = machine.cycles(first);
        machine.characters.drain(..before.taken);
        let typed: Vec<u8> = machine.typing.drain(..before.typed).collect();
        let after = machine.cycles(30 - first);
        assert_eq!(before.taken + after.taken, whole.taken);
        assert_eq!(before.typed + after.typed, whole.typed);
        assert_eq!([typed, machine.typing].concat(), one.typing);
        assert_eq!((machine.devices, &machine.store), (one.devices, &one.store));
        assert_eq!(machine.control, one.control);
    }
}

#[test]
fn with_nothing_lent_only_sense_control_read_1_and_write_0_find_a_device() {
    for device in [READER, TYPEWRITER] {
        for command in COMMANDS {
            let mut machine = Machine::with_registers([0, 5, 0, 0]);
            execute_io(&mut machine, device, 0, command);
            let lacks = [(READER, READ), (TYPEWRITER, WRITE)].contains(&(device, command));
            assert_eq!(machine.control.ex, if lacks { 2 } else { 0 });
            assert_eq!(machine.store[1], if command == SENSE { 0 } else { 5 });
            assert_eq!(machine.devices, Devices::default());
        }
    }
    let mut machine = Machine::new();
    let report = machine.execute(instruction(AW, 0, 0, 0, 4000));
    assert_eq!((report.outcome, report.entries), (Outcome::Reset, 0));
    assert_eq!(machine.store[5], 18);
}
