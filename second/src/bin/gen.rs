//! `gen SEED LINES KIND` prints a generated script of LINES lines.

use second::generate::{generate, Kind};
use std::io::{self, Write};
use std::process::ExitCode;

fn main() -> ExitCode {
    let args: Vec<String> = std::env::args().collect();
    let parsed = match args.as_slice() {
        [_, seed, lines, kind] => match (seed.parse(), lines.parse(), Kind::named(kind)) {
            (Ok(seed), Ok(lines), Some(kind)) => Some((seed, lines, kind)),
            _ => None,
        },
        _ => None,
    };
    let Some((seed, lines, kind)) = parsed else {
        eprintln!("usage: gen SEED LINES {}", Kind::NAMES.join("|"));
        return ExitCode::from(2);
    };
    let mut out = io::BufWriter::new(io::stdout().lock());
    let written = generate(seed, lines, kind, &mut |line| {
        out.write_all(line)?;
        out.write_all(b"\n")
    });
    match written.and_then(|()| out.flush()) {
        Ok(()) => ExitCode::SUCCESS,
        // The reader of a pipe may have had enough.
        Err(error) if error.kind() == io::ErrorKind::BrokenPipe => ExitCode::SUCCESS,
        Err(error) => {
            eprintln!("gen: {error}");
            ExitCode::FAILURE
        }
    }
}
