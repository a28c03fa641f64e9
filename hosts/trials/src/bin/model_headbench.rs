//! The head's bench over the model: standard input to standard output.

use std::io::{self, BufReader, BufWriter};

fn main() -> io::Result<()> {
    let script = BufReader::with_capacity(1 << 16, io::stdin().lock());
    let transcript = BufWriter::with_capacity(1 << 16, io::stdout().lock());
    model::headbench::run(script, transcript)
}
