//! Reads a script on standard input and writes its results.

use second::script::Session;
use std::io::{self, BufRead, Write};

/// Results are written out in blocks of about this size.
const BLOCK: usize = 1 << 16;

fn main() -> io::Result<()> {
    let mut input = io::BufReader::with_capacity(BLOCK, io::stdin().lock());
    let mut output = io::stdout().lock();
    let mut session = Session::new();
    let mut line = Vec::new();
    let mut out = Vec::with_capacity(2 * BLOCK);
    loop {
        line.clear();
        // A last line without a newline is a line too.
        if input.read_until(b'\n', &mut line)? == 0 {
            break;
        }
        if line.last() == Some(&b'\n') {
            line.pop();
        }
        session.line(&line, &mut out);
        if out.len() >= BLOCK {
            output.write_all(&out)?;
            out.clear();
        }
    }
    output.write_all(&out)?;
    output.flush()
}
