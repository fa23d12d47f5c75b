//! Arithmetic, shifts and skips on edges.

use crate::machine::{instruction, Machine};
use compare::WORD;
use protocol::Request;

/// Words at the edges of integer arithmetic.
const EDGES: [u32; 6] = [0, 1, 5, 0x7f_ffff, 0x80_0000, 0xff_ffff];

/// Shift counts.
const COUNTS: [i32; 14] = [0, 1, -1, 23, -23, 24, 47, 48, -48, 63, -63, 64, -64, -65];

/// Floating-point numbers as fraction and exponent.
const FLOATS: [(i64, i32); 9] = [
    (0, -2048),
    (1 << 34, 1),
    (-(1 << 35), 0),
    ((1 << 35) - 1, 2047),
    (-(1 << 34) - 1, -2048),
    (1, 3),
    (-1, 38),
    (0x5_5555_5555, 37),
    (3 << 33, -2047),
];

/// The double word in the store.
const DOUBLE: i32 = 20;

/// All of them.
pub fn cases() -> Vec<Request> {
    let machines = [
        integers(),
        divisions(),
        shifts(),
        normalizations(),
        floats(),
        conversions(),
        comparisons(),
        tests(),
    ];
    machines.iter().flatten().map(Machine::run).collect()
}

fn machine() -> Machine {
    Machine::new(12)
}

fn pairs<T: Copy>(values: &[T]) -> Vec<(T, T)> {
    let with = |first: T| values.iter().map(move |&second| (first, second));
    values.iter().flat_map(|&first| with(first)).collect()
}

/// Sums, differences, products and logical operations.
fn integers() -> Vec<Machine> {
    let mut machines = Vec::new();
    for name in [
        "WA", "WS", "BA", "BS", "AA", "SS", "WM", "LA", "LO", "LX", "AC",
    ] {
        let index = if name == "AC" { 2 } else { 0 };
        let d = if name == "AC" { 0 } else { DOUBLE };
        for (a, b) in pairs(&EDGES) {
            let machine = machine()
                .registers([b, a, b, a])
                .word(DOUBLE as u32 - 2, a ^ 1)
                .word(DOUBLE as u32, b)
                .program(&[instruction(name, 1, 0, index, d)]);
            machines.push(machine.ex(7));
        }
    }
    machines
}

fn divisions() -> Vec<Machine> {
    let dividends = [
        [0, 0],
        [0, 5],
        [0, 6],
        [0, 0xff_ffff],
        [0xff_ffff, 0xff_fff9],
        [0xff_ffff, 0x80_0000],
        [0x7f_ffff, 0xff_ffff],
        [0x80_0000, 0],
        [1, 0],
    ];
    let mut machines = Vec::new();
    for [first, second] in dividends {
        for divisor in [0, 1, 2, 3, 0x7f_ffff, 0x80_0000, 0xff_fffe, 0xff_ffff] {
            let machine = machine()
                .registers([first, second, divisor, 0])
                .program(&[instruction("WD", 1, 0, 0, 4)]);
            machines.push(machine.ex(1));
        }
    }
    machines
}

fn shifts() -> Vec<Machine> {
    let mut machines = Vec::new();
    for name in ["AS", "AD", "LS", "LD"] {
        for count in COUNTS {
            for registers in [[0, 1], [0x80_0000, 0x7f_ffff], [0xff_ffff, 0x80_0001]] {
                let [first, second] = registers;
                let machine = machine()
                    .registers([first, second, 0, 0])
                    .program(&[instruction(name, 1, 0, 0, count)]);
                machines.push(machine.ex(7));
            }
        }
    }
    // A count of 24 bits.
    for (name, count) in [("AS", 0x80_0000), ("LD", 0x7f_ffff), ("LS", 0x80_0000)] {
        let machine = machine().registers([3, 5, count, 0]);
        machines.push(machine.program(&[instruction(name, 1, 0, 2, 0)]));
    }
    machines
}

fn normalizations() -> Vec<Machine> {
    let mut machines = Vec::new();
    for name in ["NS", "ND"] {
        for (first, second) in pairs(&[0, 1, 0x80_0000, 0xff_ffff]) {
            for address in [DOUBLE, 3] {
                let machine = machine()
                    .registers([first, second, 0, 0])
                    .program(&[instruction(name, 1, 0, 0, address)]);
                machines.push(machine);
            }
        }
    }
    machines
}

/// The two words of a floating-point number.
fn words((fraction, exponent): (i64, i32)) -> [u32; 2] {
    let bits = ((fraction as u64) << 12) | u64::from(exponent as u32 & 0xfff);
    [(bits >> 24) as u32 & WORD, bits as u32 & WORD]
}

/// Every pair of numbers; every other one in low precision.
fn floats() -> Vec<Machine> {
    let mut machines = Vec::new();
    for name in ["FA", "FS", "FM", "FD"] {
        for (number, (a, b)) in (0..).zip(pairs(&FLOATS)) {
            let ([a, b], [c, d]) = (words(a), words(b));
            let machine = machine()
                .registers([a, b, 0, 0])
                .word(DOUBLE as u32 - 2, c)
                .word(DOUBLE as u32, d)
                .program(&[instruction(name, 1, 0, 0, DOUBLE)]);
            machines.push(machine.ex(number % 2 * 7));
        }
    }
    machines.push(overflow("FA", 3 << 33));
    machines.push(overflow("FS", -(3 << 33)));
    machines
}

/// The sum or difference of two numbers with the largest exponent.
fn overflow(name: &str, fraction: i64) -> Machine {
    let ([a, b], [c, d]) = (words((3 << 33, 2047)), words((fraction, 2047)));
    machine()
        .registers([a, b, 0, 0])
        .word(DOUBLE as u32 - 2, c)
        .word(DOUBLE as u32, d)
        .program(&[instruction(name, 1, 0, 0, DOUBLE)])
}

/// CI and CF, with scale factors from the displacement and from an index.
fn conversions() -> Vec<Machine> {
    let mut machines = Vec::new();
    for scale in [0, 1, -1, 22, 23, 24, 41, 64, 2047, -2048] {
        for integer in EDGES.into_iter().chain([2047]) {
            let machine = machine().registers([7, integer, 0, 0]);
            machines.push(machine.program(&[instruction("CI", 1, 0, 0, scale)]));
        }
        for float in FLOATS {
            let [first, second] = words(float);
            let machine = machine().registers([first, second, 0, 0]);
            machines.push(machine.program(&[instruction("CF", 1, 0, 0, scale)]));
        }
    }
    for scale in [2024, 2048, 4095, 4096, 8191, 8192, 0x80_0000] {
        for name in ["CI", "CF"] {
            let machine = machine().registers([0x40_0000, 24, scale, 0]);
            machines.push(machine.program(&[instruction(name, 1, 0, 2, 0)]));
        }
    }
    // The register before the integer is zero.
    for integer in EDGES {
        let machine = machine().registers([0, integer, 0, 0]);
        machines.push(machine.program(&[instruction("CI", 1, 0, 0, 0)]));
    }
    machines
}

/// SH, SL, SE, SN, SO, SZ: W against an address that an index register holds.
fn comparisons() -> Vec<Machine> {
    let mut machines = Vec::new();
    for name in ["SH", "SL", "SE", "SN", "SO", "SZ"] {
        for (a, b) in pairs(&EDGES) {
            let machine = machine().registers([0, a, b, 0]);
            machines.push(machine.program(&[instruction(name, 1, 0, 2, 0)]));
        }
    }
    machines
}

/// SX on each exception register, SP on each key.
fn tests() -> Vec<Machine> {
    let mut machines = Vec::new();
    for ex in 0..8 {
        for address in 0..8 {
            let word = instruction("SX", 0, 0, 0, address);
            machines.push(machine().ex(ex).program(&[word]));
        }
    }
    for key in 0..8 {
        for pr in [128, 170, 255] {
            let word = instruction("SP", 1, 0, 0, DOUBLE);
            let mut machine = machine().key(DOUBLE as u32, key).program(&[word]);
            machine.control.pr = pr;
            machines.push(machine);
        }
    }
    machines
}
