//! The rows of the table.

pub const LARGEST_BUDGET: u32 = 65_535;

/// Words that the autoload row loads.
const AUTOLOADED: u32 = 4000;

/// What the reader has. Every run starts its characters again.
pub enum Reader {
    /// So many characters.
    Characters(usize),
    /// The tape of an autoload. A run then begins with the reset key and the
    /// autoload key and ends in the reset state, where the tape ends.
    Autoload,
}

/// What is made again and again in a row.
pub enum Work {
    /// A run, with the two keys before it where the reader has the tape of an
    /// autoload.
    Run,
    /// A call of the writer.
    Write,
    /// A load of the tape with these blocks, into the machine as it is.
    Load(Blocks),
    /// The assembling of these lines, one after the other.
    Assemble(Lines),
}

/// Lines for the assembler.
pub enum Lines {
    /// Such as a patch has.
    Short,
    /// One of as many characters as a line can have.
    Longest,
}

/// The blocks of a tape: so many, of so many cells each, in this order.
pub struct Blocks {
    pub count: u32,
    pub cells: u32,
    /// Cells that are left out after each block.
    pub between: u32,
    pub order: Order,
}

/// The order of the blocks of a tape.
pub enum Order {
    Rising,
    Falling,
    /// A fixed one in which neighbours on the tape lie far apart.
    Mixed,
}

/// A row of the table.
pub struct Row {
    pub name: &'static str,
    pub tape: &'static [u8],
    pub cells: usize,
    pub budget: u32,
    pub reader: Reader,
    /// Typing space of a run.
    pub space: usize,
    pub work: Work,
}

macro_rules! tape {
    ($name:literal) => {
        include_bytes!(concat!("../tapes/", $name, ".tape"))
    };
}

const fn program(name: &'static str, tape: &'static [u8]) -> Row {
    Row {
        name,
        tape,
        cells: 4096,
        budget: LARGEST_BUDGET,
        reader: Reader::Characters(0),
        space: 0,
        work: Work::Run,
    }
}

/// A program that takes or types a character in every loop of so many
/// instructions: enough are lent for a run, and at most one is left.
const fn loops(instructions: u32) -> usize {
    LARGEST_BUDGET.div_ceil(instructions) as usize
}

const fn calls(name: &'static str, cells: usize) -> Row {
    Row {
        cells,
        budget: 1,
        ..program(name, tape!("registers"))
    }
}

const fn writes(name: &'static str, cells: usize) -> Row {
    Row {
        work: Work::Write,
        ..calls(name, cells)
    }
}

const fn loads(name: &'static str, store: usize, blocks: Blocks) -> Row {
    Row {
        work: Work::Load(blocks),
        ..calls(name, store)
    }
}

const fn assembles(name: &'static str, lines: Lines) -> Row {
    Row {
        work: Work::Assemble(lines),
        ..calls(name, 4096)
    }
}

/// Of one cell each.
const fn many(between: u32, order: Order) -> Blocks {
    Blocks {
        count: 4600,
        cells: 1,
        between,
        order,
    }
}

const ONE: Blocks = Blocks {
    count: 1,
    cells: 4000,
    between: 0,
    order: Order::Rising,
};

pub const ROWS: [Row; 23] = [
    program("register loop", tape!("registers")),
    program("register loop, timer on", tape!("timer")),
    program("byte copy loop", tape!("bytes")),
    program("multiply loop (WM)", tape!("multiply")),
    program("divide loop (WD)", tape!("divide")),
    program("floating loop (FA FM FD)", tape!("floating")),
    program("task-mode loop with stores", tape!("task")),
    Row {
        reader: Reader::Characters(loops(6)),
        ..program("read loop (IO)", tape!("read"))
    },
    Row {
        space: loops(3),
        ..program("type loop (IO)", tape!("type"))
    },
    Row {
        reader: Reader::Autoload,
        ..program("autoload of 4,000 words", tape!("registers"))
    },
    calls("budget 1, 4,096 cells", 4096),
    calls("budget 1, 1,048,576 cells", 1_048_576),
    calls("budget 1, 8,388,608 cells", 8_388_608),
    writes("write, 1,048,576 cells", 1_048_576),
    writes("write, 8,388,608 cells", 8_388_608),
    loads("load, one block", 16_384, ONE),
    loads(
        "load, 4,600 blocks in falling order",
        16_384,
        many(2, Order::Falling),
    ),
    loads(
        "load, 4,600 blocks in mixed order",
        16_384,
        many(2, Order::Mixed),
    ),
    loads(
        "the same, 8,388,608 cells",
        8_388_608,
        many(2, Order::Mixed),
    ),
    loads(
        "the same, all over the cells",
        8_388_608,
        many(1822, Order::Mixed),
    ),
    loads("load, 1,048,576 cells", 1_048_576, ONE),
    assembles("assemble, short lines", Lines::Short),
    assembles("assemble, 255 characters", Lines::Longest),
];

impl Lines {
    /// The lines.
    pub fn all(&self) -> Vec<String> {
        match self {
            Lines::Short => SHORT_LINES.map(String::from).to_vec(),
            Lines::Longest => vec![longest_line()],
        }
    }
}

const SHORT_LINES: [&str; 12] = [
    "AL W1 20",
    "RL W2 X1,0-2",
    "RS. W3 24",
    "JL. W3 [X2,2*(100+12)]",
    "SE W0 0",
    "JL. W0 0-6",
    "AM W0 [1000]",
    "WM W1 X3,4*12+2",
    "LD W1 0-12",
    "FD. W2 [0-40]",
    "DS W3 X2,8",
    "SS W1 2046",
];

/// A line of 255 characters with numbers of one to four digits and all
/// operators.
fn longest_line() -> String {
    let mut line = String::from("AL. W1 [X2,");
    while line.len() < 220 {
        line.push_str("2*(17-3*(5+0012))+1000-0990+");
    }
    let left = 255 - line.len() - "]".len();
    format!("{line}{}]", "0".repeat(left))
}

impl Blocks {
    /// The tape; control record and end
    /// are those of the tape of document 01.
    pub fn tape(&self) -> Vec<u8> {
        let mut tape = Vec::new();
        for number in 0..self.count {
            let place = match self.order {
                Order::Rising => number,
                Order::Falling => self.count - 1 - number,
                // 2843 and 4600 have no divisor in common.
                Order::Mixed => number * 2843 % self.count,
            };
            tape.extend((4 + 4 * self.cells).to_le_bytes());
            tape.extend([1, 0]);
            tape.extend((place * (self.cells + self.between)).to_le_bytes());
            let cells = 0..self.cells;
            tape.extend(cells.flat_map(|cell| (place + cell + 1).to_le_bytes()));
        }
        tape.extend([20, 0, 0, 0, 2, 0]);
        tape.extend([0; 16]);
        tape.extend([128, 0, 5, 0]);
        tape.extend([0, 0, 0, 0, 3, 0]);
        tape
    }
}

impl Reader {
    /// Its characters.
    pub fn characters(&self) -> Vec<u8> {
        match self {
            Reader::Characters(count) => (0..64).cycle().take(*count).collect(),
            Reader::Autoload => autoload_tape(),
        }
    }
}

/// The bootstrap of section 11.5 and words from address 16 on. AW reaches 2046,
/// so W3 is the base of every thousand words.
fn autoload_tape() -> Vec<u8> {
    let (aw, al, jl) = (0, 11 << 18, 13 << 18);
    let (w3, x3) = (3 << 16, 3 << 12);
    let mut words = vec![aw | 2, aw | 4, jl, al | w3];
    for count in 0..AUTOLOADED {
        let place = count % 1000;
        if place == 0 && count > 0 {
            words.push(al | w3 | x3 | 2000);
        }
        words.extend([aw | x3 | (16 + 2 * place), count]);
    }
    words
        .iter()
        .flat_map(|word: &u32| [18, 12, 6, 0].map(|shift| (word >> shift & 63) as u8))
        .collect()
}
