//! Words in decimal, one a line, from standard input to standard output as lines
//! of the assembler; `no instruction` for what is none.

use emulation::disassemble;
use std::io::{stdin, stdout, BufRead, BufWriter, Write};

fn main() -> std::io::Result<()> {
    let mut output = BufWriter::new(stdout().lock());
    for line in stdin().lock().lines() {
        let instruction = line?.trim().parse().ok().and_then(disassemble);
        writeln!(
            output,
            "{}",
            instruction.as_deref().unwrap_or("no instruction")
        )?;
    }
    output.flush()
}
