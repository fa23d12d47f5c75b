//! Refusals 1 to 5, 13 and 18, alone and two at a time, with what just passes.

use crate::machine::Machine;
use protocol::Request;

/// All of them.
pub fn cases() -> Vec<Request> {
    let mut cases: Vec<Request> = alone().iter().flat_map(every_call).collect();
    cases.extend(control_fields().iter().flat_map(every_call));
    cases.extend(flags().iter().flat_map(every_call));
    cases.extend(timers().iter().flat_map(every_call));
    cases.extend(lines_and_budgets().iter().map(Machine::run));
    cases.extend(together().iter().flat_map(every_call));
    cases
}

fn every_call(machine: &Machine) -> Vec<Request> {
    vec![
        machine.run(),
        machine.press_reset(),
        machine.press_start(),
        machine.press_autoload(),
        machine.write(Some(b"part"), 90),
    ]
}

fn machine() -> Machine {
    Machine::new(8).at(0).budget(2)
}

/// The size of the store and the size of a cell.
fn alone() -> Vec<Machine> {
    let mut machines = Vec::new();
    for size in 0..=9 {
        let mut machine = machine();
        machine.cells.resize(size, 0);
        machines.push(machine);
    }
    for cell in [0, 4, 7] {
        for value in [134_217_727, 134_217_728, 1 << 31, u32::MAX] {
            let mut machine = machine();
            machine.cells[cell] = value;
            machines.push(machine);
        }
    }
    machines
}

/// Each field of the control record at its limits and beyond.
fn control_fields() -> Vec<Machine> {
    let mut machines = Vec::new();
    for value in [0xff_ffff, 1 << 24, u32::MAX] {
        for field in 0..4 {
            let mut machine = machine();
            let control = &mut machine.control;
            let fields = [
                &mut control.ic,
                &mut control.ir,
                &mut control.im,
                &mut control.pending,
            ];
            for (place, register) in fields.into_iter().enumerate() {
                if place == field {
                    *register = value;
                }
            }
            machines.push(machine);
        }
    }
    for pr in [0, 127, 128, 255, 256, 384, u32::MAX] {
        let mut machine = machine();
        machine.control.pr = pr;
        machines.push(machine);
    }
    machines.extend([7, 8, u32::MAX].map(|ex| machine().ex(ex)));
    machines
}

/// Every combination of monitor mode, enabled and reset state.
fn flags() -> Vec<Machine> {
    (0..8)
        .map(|flags| {
            let mut machine = machine();
            machine.control.monitor = flags & 1 != 0;
            machine.control.enabled = flags & 2 != 0;
            machine.control.reset = flags & 4 != 0;
            machine
        })
        .collect()
}

/// Lines and phases of a timer that is on, and of one that is off.
fn timers() -> Vec<Machine> {
    let mut machines = Vec::new();
    for line in [0, 2, 3, 23, 24, 31, 255] {
        for period in [0, 1, 1000] {
            machines.push(machine().timer(period, 0, line));
        }
    }
    for (period, phase) in [
        (1, 1),
        (1000, 999),
        (1000, 1000),
        (1000, 1001),
        (1 << 31, u32::MAX),
        (u32::MAX, u32::MAX - 1),
        (u32::MAX, u32::MAX),
        (0, u32::MAX),
    ] {
        machines.push(machine().timer(period, phase, 3));
        machines.push(machine().timer(period, phase, 24).in_reset());
        machines.push(machine().timer(period, phase, 2).ex(8));
    }
    machines
}

fn lines_and_budgets() -> Vec<Machine> {
    let lines = [0x1f_ffff, 1 << 21, 1 << 22, 1 << 23, 1 << 24, u32::MAX];
    let budgets = [0, 65_535, 65_536, 1 << 24, u32::MAX];
    let mut machines = Vec::from(lines.map(|lines| machine().lines(lines)));
    machines.extend(budgets.map(|budget| machine().budget(budget)));
    machines.extend(budgets.map(|budget| machine().in_reset().budget(budget)));
    machines
}

/// A machine that is refused for this number too.
fn refused(mut machine: Machine, number: u32) -> Machine {
    match number {
        1 => machine.cells.truncate(7),
        2 => machine.cells[6] = u32::MAX,
        3 => machine.control.ex = 8,
        18 => return machine.timer(5, 5, 3),
        4 => machine.lines = 1 << 23,
        5 => machine.budget = 65_536,
        _ => machine.characters = vec![1, 2, 3, 64],
    }
    machine
}

/// The refusals in the order of their tests.
const ORDER: [u32; 7] = [1, 2, 3, 18, 4, 5, 13];

/// Each pair of refusals, and all from one on.
fn together() -> Vec<Machine> {
    let mut machines = Vec::new();
    for (place, &first) in ORDER.iter().enumerate() {
        let later = &ORDER[place + 1..];
        let alone = refused(machine(), first);
        machines.push(alone.clone());
        for &second in later {
            machines.push(refused(alone.clone(), second));
        }
        machines.push(later.iter().copied().fold(alone, refused));
    }
    machines
}
