//! The tape reader, the typewriter, AW and the autoload key.

use crate::machine::{bit, instruction, Machine};
use protocol::Request;

/// All of them.
pub fn cases() -> Vec<Request> {
    let machines = [
        operations(),
        device_numbers(),
        words(),
        in_task_mode(),
        copies(),
        loads(),
        refused(),
    ];
    let mut cases: Vec<Request> = machines.iter().flatten().map(Machine::run).collect();
    cases.extend(keys().iter().map(Machine::press_autoload));
    cases.extend(refused().iter().map(Machine::press_autoload));
    cases
}

/// Words that no operation gives by itself in the device buffer registers.
fn machine() -> Machine {
    Machine::new(16).devices(0xab_cdef, 0x12_3456)
}

/// Every command to several devices, with something lent and with nothing.
/// The address comes from W2.
fn operations() -> Vec<Machine> {
    let mut machines = Vec::new();
    let lent: [(&[u8], &[u8]); 4] = [
        (&[], &[]),
        (&[63], &[]),
        (&[], &[0xa5]),
        (&[5, 6], &[1, 2, 3]),
    ];
    for device in [0, 1, 2, 3, 64, 65, (1 << 18) - 1] {
        for command in 0..4 {
            for (characters, typing) in lent {
                for (modifier, ex) in [(0, 7), (1 + device % 15, 0)] {
                    let address = device << 6 | modifier << 2 | command;
                    let machine = machine()
                        .registers([0, 0xff_0141, address, 0])
                        .program(&[instruction("IO", 1, 0, 2, 0)]);
                    machines.push(machine.ex(ex).characters(characters).typing(typing));
                }
            }
        }
    }
    // A working register keeps its key; an absent address comes first.
    let sense = instruction("IO", 1, 0, 0, 0);
    machines.push(machine().key(2, 5).program(&[sense]));
    let absent = instruction("IO", 1, 1, 0, 32);
    machines.push(machine().ex(7).program(&[absent]));
    machines
}

/// Device numbers that are 0 or 1 but for one bit.
fn device_numbers() -> Vec<Machine> {
    let mut machines = Vec::new();
    for place in 1..18 {
        for (device, command) in [(0, 0), (0, 2), (1, 0), (1, 3)] {
            let address = (1 << place | device) << 6 | command;
            let machine = machine()
                .registers([0, 5, address, 0])
                .program(&[instruction("IO", 1, 0, 2, 0)]);
            machines.push(machine.characters(&[9]).typing(&[7]));
        }
    }
    machines
}

/// AW with 0 to 6 characters left, to registers, to the words of the machine,
/// to the next instruction and beyond the store.
fn words() -> Vec<Machine> {
    let characters = [4, 5, 6, 63, 1, 2];
    let mut machines = Vec::new();
    for left in 0..=6 {
        for address in [0, 7, 8, 10, 12, 18, 31, 32, -1] {
            let machine = machine()
                .key(18, 3)
                .key(6, 7)
                .program(&[instruction("AW", 1, 0, 0, address)]);
            let lent = machine.ex(7).characters(&characters[..left]);
            machines.push(lent.clone());
            machines.push(lent.budget(2));
        }
        for (m, d) in [(1, 24), (2, 8), (3, 8), (1, 32)] {
            let machine = machine()
                .word(24, 29)
                .key(28, 6)
                .program(&[instruction("AW", 3, m, 0, d)]);
            machines.push(machine.ex(3).characters(&characters[..left]));
        }
    }
    machines
}

/// IO and AW in task mode, and in the monitor in a cell that brings task mode.
fn in_task_mode() -> Vec<Machine> {
    let mut machines = Vec::new();
    for (name, address) in [
        ("AW", 20),
        ("AW", 32),
        ("IO", 0),
        ("IO", 1),
        ("IO", 2),
        ("IO", 3),
        ("IO", 64),
        ("IO", 65),
        ("IO", 66),
        ("IO", 67),
        ("IO", 130),
    ] {
        let mut task = machine()
            .program(&[instruction(name, 1, 0, 0, address)])
            .ex(7)
            .characters(&[1, 2, 3, 4, 5])
            .typing(&[9, 9])
            .task();
        machines.push(task.clone());
        machines.push(task.clone().key(16, 0));
        task.control.monitor = true;
        machines.push(task);
    }
    machines
}

/// A loop that types what it reads: read 0, sense 0, write 1, jump.
fn copies() -> Vec<Machine> {
    let mut machines = Vec::new();
    let program = [
        instruction("IO", 0, 0, 0, 2),
        instruction("IO", 3, 0, 0, 0),
        instruction("IO", 3, 0, 0, 64 + 3),
        instruction("JL", 0, 2, 0, -6),
    ];
    let lent: [(&[u8], &[u8]); 3] = [
        (&[10, 20, 30, 40, 50], &[1, 2, 3, 4, 5, 6, 7, 8]),
        (&[10, 20, 30, 40, 50], &[1, 2]),
        (&[63], &[0, 0, 0, 0]),
    ];
    for (characters, typing) in lent {
        let ready = machine()
            .program(&program)
            .characters(characters)
            .typing(typing);
        for budget in (0..=20).chain([40]) {
            machines.push(ready.clone().budget(budget));
        }
        machines.push(ready.enabled(bit(7), bit(7)).budget(9));
    }
    machines
}

/// The characters of words, four each.
fn characters(words: &[u32]) -> Vec<u8> {
    let of_word = |&word: &u32| [18, 12, 6, 0].map(|places| (word >> places & 63) as u8);
    words.iter().flat_map(of_word).collect()
}

/// The tape of section 11.5 from the second word on; the key has loaded the
/// first one into W0.
fn loads() -> Vec<Machine> {
    let autoload = |address| instruction("AW", 0, 0, 0, address);
    let tape = characters(&[
        autoload(4),
        instruction("JL", 0, 0, 0, 0),
        autoload(16),
        instruction("AL", 1, 0, 0, 7),
        autoload(18),
        instruction("IO", 1, 0, 0, 64 + 3),
        instruction("JL", 0, 0, 0, 16),
        instruction("58", 0, 0, 0, 0),
    ]);
    let ready = machine()
        .at(0)
        .program(&[autoload(2)])
        .typing(&[0xee, 0xee]);
    let mut machines = Vec::new();
    for budget in 0..=14 {
        machines.push(ready.clone().characters(&tape).budget(budget));
    }
    for left in 0..tape.len() {
        machines.push(ready.clone().characters(&tape[..left]).budget(30));
    }
    machines
}

/// Machines for the autoload key: 0 to 6 characters, in the reset state and
/// elsewhere.
fn keys() -> Vec<Machine> {
    let characters = [0, 63, 33, 2, 5, 6];
    let mut machines = Vec::new();
    for left in 0..=6 {
        for pending in [0, 5] {
            let machine = machine()
                .at(21)
                .key(0, 7)
                .word(10, 77)
                .ex(7)
                .pending(pending)
                .characters(&characters[..left]);
            let mut reset = machine.clone().in_reset();
            reset.control.pr = 170;
            reset.control.ir = bit(5);
            reset.control.im = bit(6);
            machines.extend([
                reset,
                machine.clone(),
                machine.clone().enabled(bit(5), bit(6)),
                machine.task(),
            ]);
        }
    }
    machines
}

/// Characters and registers at their limits and beyond, in the reset state and
/// elsewhere, with a good and a bad budget and control record.
fn refused() -> Vec<Machine> {
    let good = machine().characters(&[1, 2, 3, 4, 5]).typing(&[7]);
    let mut machines = Vec::new();
    for value in [63, 64, 127, 128, 255] {
        for place in [0, 3, 4] {
            let mut machine = good.clone();
            machine.characters[place] = value;
            machines.push(machine);
        }
        machines.push(good.clone().characters(&[value]));
    }
    for value in [0xff_ffff, 1 << 24, 1 << 31, u32::MAX] {
        machines.push(good.clone().devices(value, 0));
        machines.push(good.clone().devices(0, value));
        machines.push(good.clone().devices(value, value));
    }
    let with = |change: fn(Machine) -> Machine| machines.iter().cloned().map(change);
    let changed = with(|machine| machine.in_reset())
        .chain(with(|machine| machine.budget(0)))
        .chain(with(|machine| machine.budget(65_536)))
        .chain(with(|machine| machine.in_reset().ex(8)));
    let changed: Vec<Machine> = changed.collect();
    machines.extend(changed);
    machines
}
