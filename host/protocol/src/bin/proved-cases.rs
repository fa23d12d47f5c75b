//! Answers the case protocol from standard input to standard output by the
//! proved library.

use std::io::{stdin, stdout, BufReader, BufWriter};

fn main() -> std::io::Result<()> {
    let input = BufReader::with_capacity(1 << 16, stdin().lock());
    let output = BufWriter::new(stdout().lock());
    protocol::serve(protocol::Proved, input, output)
}
