//! Every instruction executed, and ending in an exception where it can.

use crate::machine::{instruction, Machine};
use compare::assemble;
use protocol::Request;

/// The number of cells: addresses below 48 exist.
const CELLS: usize = 24;

/// The address of the operand, and of the word that holds this address.
const OPERAND: i32 = 40;
const INDIRECT: i32 = 36;

/// The codes that work on a double word in the store.
const DOUBLE: [u32; 8] = [48, 49, 50, 52, 54, 55, 56, 57];

/// The codes that task mode does not have: AW IO ML JD JE PL IC KS.
const PRIVILEGED: [u32; 8] = [0, 1, 12, 14, 15, 28, 47, 51];

/// All of them.
pub fn cases() -> Vec<Request> {
    let mut cases = Vec::new();
    for code in 0..64 {
        cases.extend(addressing(code).iter().map(Machine::run));
        cases.extend(in_task_mode(code).iter().map(Machine::run));
        cases.extend(at_the_end(code).iter().map(Machine::run));
    }
    for code in DOUBLE {
        let machine = first(code).task().key(OPERAND as u32 - 2, 0);
        cases.push(machine.run());
    }
    for code in PRIVILEGED {
        // In the monitor, but in a cell that brings task mode.
        let mut machine = first(code).task();
        machine.control.monitor = true;
        cases.push(machine.run());
    }
    cases.extend(fetches().iter().map(Machine::run));
    cases
}

/// A machine with operands and a clear exception register.
fn first(code: u32) -> Machine {
    Machine::new(CELLS)
        .registers([5, 8_388_607, 16_777_213, 6])
        .word(OPERAND as u32, 3)
        .word(OPERAND as u32 - 2, 4_194_304)
        .word(INDIRECT as u32, OPERAND as u32)
        .program(&[assemble(code, code % 4, 0, 0, OPERAND)])
}

/// A machine with other operands, a full exception register, an interrupt
/// register and a mask.
fn second(code: u32) -> Machine {
    let mut machine = first(code)
        .registers([8_388_608, 1, 4_194_304, 16_777_214])
        .word(OPERAND as u32, 16_777_215)
        .word(OPERAND as u32 - 2, 8_388_608)
        .ex(7);
    machine.control.ir = 0x5a_5a5a;
    machine.control.im = 0x0f_0f0f;
    machine
}

/// In each address mode, with no index and with W3.
fn addressing(code: u32) -> Vec<Machine> {
    let mut machines = Vec::new();
    for m in 0..4 {
        let target = if m % 2 == 1 { INDIRECT } else { OPERAND };
        let d = if m >= 2 { target - 16 } else { target };
        let word = assemble(code, (code + m) % 4, m, 0, d);
        machines.push(first(code).program(&[word]));
        let word = assemble(code, (code + m + 2) % 4, m, 3, d + 2);
        machines.push(second(code).program(&[word]));
    }
    machines
}

/// In task mode: all allowed, the operand forbidden, the registers forbidden.
fn in_task_mode(code: u32) -> Vec<Machine> {
    let allowed = first(code).task();
    let operand = second(code).task().key(OPERAND as u32, 0);
    let registers = [0, 2, 4, 6]
        .into_iter()
        .fold(allowed.clone(), |machine, address| machine.key(address, 0));
    vec![allowed, operand, registers]
}

/// At the last byte, at the first absent one, at the last address of all, and
/// through an absent address.
fn at_the_end(code: u32) -> Vec<Machine> {
    let limit = 2 * CELLS as i32;
    [(0, limit - 1), (0, limit), (0, -1), (1, limit)]
        .into_iter()
        .map(|(m, d)| first(code).program(&[assemble(code, 1, m, 0, d)]))
        .collect()
}

/// Instructions that are absent or forbidden.
fn fetches() -> Vec<Machine> {
    let load = instruction("AL", 1, 0, 0, 7);
    let machine = Machine::new(CELLS).program(&[load, load]);
    let task = machine.clone().task().budget(3);
    let limit = 2 * CELLS as u32;
    let mut machines: Vec<Machine> = [limit, limit + 1, 16_777_214, 16_777_215]
        .into_iter()
        .map(|ic| machine.clone().at(ic))
        .collect();
    machines.extend([
        task.clone(),
        task.clone().key(16, 0),
        task.clone().key(18, 0),
        task.key(20, 0),
        machine.clone().at(limit - 2).program(&[load]).budget(2),
    ]);
    machines
}
