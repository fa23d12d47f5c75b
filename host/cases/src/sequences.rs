//! Lines, modifications, odd instruction counters, budgets and keys.

use crate::machine::{bit, instruction, Machine};
use protocol::Request;

/// All of them.
pub fn cases() -> Vec<Request> {
    let machines = [
        lines(),
        hidden_lines(),
        modifications(),
        odd_counters(),
        budgets(),
    ];
    let mut cases: Vec<Request> = machines.iter().flatten().map(Machine::run).collect();
    for machine in pressed() {
        cases.push(machine.press_reset());
        cases.push(machine.press_start());
    }
    cases
}

fn machine() -> Machine {
    Machine::new(16)
}

/// Four loads that can be executed one after the other.
fn loads() -> [u32; 4] {
    [1, 2, 3, 4].map(|d| instruction("AL", 1, 2, 0, d))
}

/// Each line by the interrupt register and by the call, with its neighbours
/// to the right and with its mask bit zero.
fn lines() -> Vec<Machine> {
    let ready = machine().program(&loads()).budget(3);
    let mut machines = Vec::new();
    for number in 0..24 {
        let right = bit(number) - 1;
        machines.push(ready.clone().enabled(bit(number), bit(number)));
        machines.push(ready.clone().enabled(bit(number) | right, 0xff_ffff));
        machines.push(ready.clone().enabled(0xff_ffff, bit(number)));
        machines.push(ready.clone().enabled(bit(number), !bit(number) & 0xff_ffff));
        if number >= 3 {
            machines.push(ready.clone().enabled(0, bit(number)).lines(bit(number)));
        }
    }
    let raised = ready.clone().lines(bit(7));
    machines.extend([
        raised.clone(),
        raised.clone().budget(0),
        raised.clone().enabled(bit(9), bit(9)).budget(0),
        raised.clone().in_reset(),
        raised.clone().in_reset().budget(0),
        raised.task().enabled(0, 0xff_ffff),
    ]);
    machines
}

/// Lines that wait: for JE, for the end of a modification, for an exception.
fn hidden_lines() -> Vec<Machine> {
    let modify = |d| instruction("AM", 0, 0, 0, d);
    let load = instruction("AL", 1, 0, 0, 7);
    let enable = instruction("JE", 3, 2, 0, 2);
    let disable = instruction("JD", 3, 2, 0, 2);
    let raised = |words: &[u32]| {
        let mut machine = machine().program(words).budget(5);
        machine.control.ir = bit(4);
        machine.control.im = bit(4) | bit(0);
        machine
    };
    let mut machines = vec![
        raised(&[load, enable, load]),
        raised(&[enable, modify(5), load]),
        raised(&[modify(5), enable, load]),
        raised(&[load, disable, load, load, load]),
        raised(&[instruction("58", 0, 0, 0, 0)]),
    ];
    for pending in [0, 1, 16_777_215] {
        for words in [
            [load, load, load],
            [modify(0), load, load],
            [modify(-1), load, load],
            [modify(3), modify(-4), load],
            [modify(3), instruction("58", 0, 0, 0, 0), load],
        ] {
            let mut machine = raised(&words).pending(pending);
            machine.control.enabled = true;
            machines.push(machine);
        }
    }
    machines
}

/// Chains of AM in each address mode, and what comes of a modification.
fn modifications() -> Vec<Machine> {
    let mut machines = Vec::new();
    for length in 1..=4 {
        for (m, d) in [(0, 2), (1, 24), (2, 2), (3, 8)] {
            let mut words = vec![instruction("AM", 0, m, 0, d); length];
            words.push(instruction("AL", 1, 0, 0, -3));
            let machine = machine().word(24, 26).word(26, 3).program(&words);
            machines.push(machine.clone().budget(length as u32));
            machines.push(machine.budget(length as u32 + 1));
        }
    }
    for (name, d) in [
        ("RS", 20),
        ("JL", 20),
        ("RL", 30),
        ("AW", 2),
        ("JE", 20),
        ("58", 0),
        ("AC", 5),
        ("DS", 24),
    ] {
        for m in 0..4 {
            let words = [instruction("AM", 0, 0, 1, 2), instruction(name, 2, m, 0, d)];
            let machine = machine().registers([1, 2, 3, 4]).program(&words);
            machines.push(machine.clone().word(24, 28).budget(3));
            machines.push(machine.at(18).pending(16_777_212).word(16, 28));
        }
    }
    machines
}

/// An odd instruction counter takes the displacement from the next cell.
fn odd_counters() -> Vec<Machine> {
    let mut machines = Vec::new();
    for name in [
        "AL", "JL", "AM", "RS", "SH", "AW", "JE", "58", "BL", "FA", "RL",
    ] {
        for m in [0, 1, 2] {
            let word = instruction(name, 2, m, 0, 0) >> 12;
            let machine = machine()
                .registers([9, 8, 7, 6])
                .at(17)
                .word(16, word)
                .word(18, (6 << 12) | word)
                .word(20, 3 << 12);
            machines.push(machine.clone());
            machines.push(machine.budget(2));
        }
    }
    let load = instruction("AL", 1, 2, 0, 0) >> 12;
    for ic in [29, 31, 33, 16_777_215] {
        let machine = machine().word(28, load).word(30, load);
        machines.push(machine.at(ic).budget(2));
    }
    let odd = machine().at(17).word(16, load).word(18, load);
    machines.extend([
        odd.clone().task(),
        odd.clone().task().key(16, 0),
        odd.clone().task().key(18, 0),
        odd.enabled(bit(3), bit(3)),
    ]);
    machines
}

/// Budgets 0 to 6 of programs that end spent, reset or interrupted.
fn budgets() -> Vec<Machine> {
    let mut machines = Vec::new();
    for last in ["AL", "AW", "58", "JL", "AM"] {
        for budget in 0..=6 {
            let mut words = loads();
            words[3] = instruction(last, 1, 2, 0, -6);
            let machine = machine().word(12, 17).program(&words).budget(budget);
            machines.push(machine.clone());
            machines.push(machine.task());
        }
    }
    machines
}

/// The keys, in the reset state and elsewhere.
fn pressed() -> Vec<Machine> {
    let mut machines = Vec::new();
    for start in [0, 20, 21, 16_777_215] {
        for pending in [0, 5] {
            let machine = machine().word(14, start).pending(pending).ex(5);
            let mut raised = machine.clone().enabled(bit(5), bit(6)).at(23);
            raised.control.pr = 170;
            machines.extend([
                machine.clone(),
                machine.clone().in_reset(),
                machine.clone().task(),
                machine.key(10, 5).key(14, 3).in_reset(),
                raised.key(10, 7),
            ]);
        }
    }
    machines
}
