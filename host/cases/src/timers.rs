//! Execution times, elapsed time and the interval timer. AS, AD, LS and LD are
//! among the cases of arithmetic.

use crate::machine::{bit, instruction, Machine};
use protocol::Request;

/// All of them.
pub fn cases() -> Vec<Request> {
    let machines = [
        normalizing(),
        converting(),
        phases(),
        lines(),
        entries(),
        periods(),
    ];
    let mut cases: Vec<Request> = machines.iter().flatten().map(Machine::run).collect();
    for machine in keys() {
        cases.push(machine.press_reset());
        cases.push(machine.press_start());
        cases.push(machine.press_autoload());
    }
    cases
}

fn machine() -> Machine {
    Machine::new(16)
}

/// NS, ND and CI of each number of shifts, of both signs and of zero.
fn normalizing() -> Vec<Machine> {
    let mut machines = Vec::new();
    for places in 0..=24 {
        for negative in [0, 0xff_ffff] {
            let word = (0x40_0000 >> places) ^ negative;
            for name in ["NS", "CI", "ND"] {
                let machine = machine().registers([word, word, negative, negative]);
                machines.push(machine.program(&[instruction(name, 1, 0, 0, 24)]));
            }
            let double = machine().registers([negative, word, 0, 0]);
            machines.push(double.program(&[instruction("ND", 1, 0, 0, 24)]));
        }
    }
    // The shifts are made, then the count finds no cell.
    machines.push(
        machine()
            .registers([1, 1, 0, 0])
            .program(&[instruction("NS", 0, 0, 0, 32)]),
    );
    machines
}

/// CF by each number of shifts at the edges, also of a zero fraction.
fn converting() -> Vec<Machine> {
    let mut machines = Vec::new();
    for fraction in [0, 1, 0x40_0000, 0x80_0000] {
        for count in [-2000, -1, 0, 1, 23, 62, 63, 64, 65, 2000] {
            for exponent in [0, 5, 4091] {
                let signed = (exponent ^ 2048) - 2048;
                let word = instruction("CF", 1, 0, 0, 23 - count - signed);
                let registers = [fraction, exponent as u32, 0, 0];
                machines.push(machine().registers(registers).program(&[word]));
            }
        }
    }
    machines
}

/// AL, which takes 15, with a period and a phase about it, also off.
fn phases() -> Vec<Machine> {
    let load = machine().program(&[instruction("AL", 1, 0, 0, 7)]);
    let mut machines = Vec::new();
    for period in [1, 2, 7, 14, 15, 16, 100, 1 << 31, u32::MAX] {
        for left in [1, 2, 14, 15, 16, period] {
            if left <= period {
                machines.push(load.clone().timer(period, period - left, 9));
            }
        }
    }
    for elapsed in [1, u32::MAX - 15, u32::MAX - 14, u32::MAX] {
        machines.push(load.clone().elapsed(elapsed));
        machines.push(load.clone().elapsed(elapsed).timer(0, elapsed, 200));
        machines.push(load.clone().elapsed(elapsed).timer(15, 0, 23));
    }
    machines
}

/// Each line raised, masked in and not, taken in the next cycle.
fn lines() -> Vec<Machine> {
    let load = instruction("AL", 1, 0, 0, 7);
    let mut machines = Vec::new();
    for line in 3..=23 {
        let ready = machine().program(&[load; 3]).timer(30, 10, line);
        let own = bit(line.into());
        machines.push(ready.clone().enabled(0, own).budget(4));
        machines.push(ready.clone().enabled(0, 0xff_ffff ^ own).budget(3));
        machines.push(ready.clone().enabled(own, own).budget(1));
        machines.push(ready.lines(bit(3)).enabled(bit(23), 0xff_ffff).budget(4));
    }
    machines
}

/// A period that ends in an entry, in the cycle of an exception, of AW, IC and
/// AM, and behind each of them.
fn entries() -> Vec<Machine> {
    let mut machines = Vec::new();
    let words = [
        instruction("58", 0, 0, 0, 0),
        instruction("AW", 0, 2, 0, 8),
        instruction("AW", 0, 0, 0, 20),
        instruction("IC", 0, 0, 0, -1),
        instruction("AM", 0, 0, 0, 1),
        instruction("JE", 1, 2, 0, 2),
        instruction("IO", 1, 0, 0, 64),
        instruction("RL", 1, 1, 0, 40),
    ];
    for word in words {
        for period in [5, 30, 70, 75, 80] {
            let mut ready = machine().program(&[word]).timer(period, period - 1, 14);
            ready.control.im = bit(14);
            machines.push(ready.clone().budget(2));
            machines.push(ready.clone().characters(&[1, 2, 3, 4]).budget(2));
            machines.push(ready.clone().task());
            ready.control.enabled = true;
            machines.push(ready.budget(2));
        }
    }
    for period in [74, 75, 76, 150] {
        let raised = machine().timer(period, 0, 8);
        machines.push(raised.clone().enabled(bit(8), bit(8)));
        machines.push(raised.clone().enabled(bit(8), bit(8)).pending(3));
        machines.push(raised.enabled(bit(8) | bit(5), bit(8) | bit(5)));
    }
    machines
}

/// A loop over many periods: AL indexed, WM, LS by 3, jump.
fn periods() -> Vec<Machine> {
    let program = [
        instruction("AL", 1, 0, 1, 1),
        instruction("WM", 2, 0, 0, 2),
        instruction("LS", 3, 0, 0, 3),
        instruction("JL", 0, 2, 0, -6),
    ];
    let mut machines = Vec::new();
    for period in [1, 10, 100, 1000, 10_000] {
        let ready = machine().program(&program).registers([1, 2, 3, 4]);
        let timed = ready.timer(period, 0, 6).elapsed(u32::MAX - 500);
        machines.push(timed.clone().budget(60));
        machines.push(timed.clone().enabled(0, bit(6)).budget(60));
        machines.push(timed.task().enabled(0, bit(6)).budget(12));
    }
    machines
}

/// Keys change neither time nor timer.
fn keys() -> Vec<Machine> {
    let timed = machine().elapsed(u32::MAX).characters(&[1, 2, 3, 4]);
    let mut machines = Vec::new();
    for (period, phase, line) in [(1, 0, 3), (75, 74, 23), (u32::MAX, 5, 9), (0, 8, 99)] {
        let machine = timed.clone().timer(period, phase, line);
        machines.push(machine.clone());
        machines.push(machine.in_reset());
    }
    machines
}
