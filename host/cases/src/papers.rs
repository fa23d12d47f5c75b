//! The table, the edges and the likely errors of document 01 as machines.

use crate::machine::{bit, instruction, Machine};
use protocol::Request;

/// All of them.
pub fn cases() -> Vec<Request> {
    let machines = [table(), edges(), likely_errors()];
    machines.iter().flatten().map(Machine::run).collect()
}

fn executes(registers: [u32; 4], word: u32) -> Machine {
    Machine::new(16).registers(registers).program(&[word])
}

/// The rows of the table. The row whose IC is 16777214 needs the largest
/// store; here its sum comes from an index register.
fn table() -> Vec<Machine> {
    vec![
        executes([8_388_607, 1, 0, 0], instruction("WA", 0, 0, 0, 2)),
        executes([16_777_215, 1, 0, 0], instruction("WA", 0, 0, 0, 2)),
        executes([0, 8_388_608, 0, 0], instruction("WM", 1, 0, 0, 2)),
        executes(
            [16_777_215, 16_777_209, 2, 0],
            instruction("WD", 1, 0, 0, 4),
        ),
        executes([0, 5, 0, 0], instruction("WD", 1, 0, 0, 4)),
        executes([0, 8_388_608, 0, 0], instruction("AC", 0, 0, 1, 0)),
        executes([0, 0, 0, 0], instruction("AL", 0, 0, 0, 4095)),
        executes([0, 16_777_198, 0, 0], instruction("AL", 0, 2, 1, 4)),
        executes([0, 1, 2, 0], instruction("AA", 1, 0, 0, 4)),
        executes([7, 0, 0, 0], instruction("CI", 1, 0, 0, 0)),
        executes([0, 1, 0, 0], instruction("CI", 1, 0, 0, 0)),
        Machine::new(16)
            .enabled(bit(3) | bit(5), bit(3) | bit(5))
            .budget(10),
    ]
}

/// 8 cells and 7, byte addresses 15 and 16, budgets 65,535 and 65,536.
fn edges() -> Vec<Machine> {
    let mut machines = vec![Machine::new(8).in_reset(), Machine::new(8).in_reset()];
    machines[1].cells.truncate(7);
    for address in [15, 16] {
        for name in ["BZ", "BL", "HL", "HS", "NS", "BA"] {
            let word = instruction(name, 0, 0, 0, address);
            machines.push(Machine::new(8).at(14).program(&[word]));
        }
    }
    let jump = instruction("JL", 0, 2, 0, 0);
    for budget in [65_535, 65_536] {
        machines.push(Machine::new(9).program(&[jump]).budget(budget));
    }
    machines
}

fn likely_errors() -> Vec<Machine> {
    let registers = [1, 2, 3, 4];
    let double = |address| executes(registers, instruction("DS", 2, 0, 0, address));
    let mut machines = vec![
        double(22).task().key(20, 0),
        double(22).task().key(22, 0),
        double(22).task(),
        double(0),
        double(1),
        double(8),
        double(0).task().key(6, 0),
        double(8).task().key(6, 0),
    ];
    // A one in PR forbids: each key's bit zero among ones, and the other way.
    for key in 0..8 {
        for pr in [128 | (255 - (128 >> key)), 128 | (128 >> key)] {
            let store = instruction("RS", 1, 0, 0, 20);
            let mut machine = executes(registers, store).task().key(20, key);
            machine.control.pr = pr;
            // The instruction's own cell is allowed where some key is.
            let allowed = (0..8).find(|key| pr & (128 >> key) == 0);
            machines.push(machine.key(16, allowed.unwrap_or(0)));
        }
    }
    // A store by address to a register whose key is forbidden.
    for name in ["RS", "HS", "RX", "XS", "MS", "IS", "PS", "NS", "ND", "DS"] {
        let word = instruction(name, 1, 0, 0, 4);
        machines.push(executes(registers, word).task().key(4, 0));
        machines.push(executes(registers, word).task());
    }
    for ex in 0..8 {
        let word = instruction("WM", 1, 0, 0, 4);
        machines.push(executes([0, 8_388_608, 8_388_608, 0], word).ex(ex));
    }
    machines
}
