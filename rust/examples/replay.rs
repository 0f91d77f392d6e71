//! Replays a call script: reads calls on standard input, or from a file that is named, and writes their trail on
//! standard output. docs/CALL-SCRIPTS.md of the repository says how both are written.
//!
//!     cargo run --release --example replay < ../examples/token.script
//!
//! The exit status is 0, 2 where a line is no call, and 1 where the script cannot be read or the trail not written.

mod play;

use play::Stop;
use std::io::{self, BufWriter, Read, Write};
use std::{env, fs, process::ExitCode};

fn read() -> io::Result<Vec<u8>> {
    match env::args_os().nth(1) {
        Some(path) => fs::read(path),
        None => {
            let mut script = Vec::new();
            io::stdin().lock().read_to_end(&mut script)?;
            Ok(script)
        }
    }
}

fn main() -> ExitCode {
    let script = match read() {
        Ok(script) => script,
        Err(error) => {
            eprintln!("replay: the script cannot be read: {error}");
            return ExitCode::FAILURE;
        }
    };
    let mut trail = BufWriter::new(io::stdout().lock());
    let played = play::play(&script, &mut trail);
    match played.and_then(|()| Ok(trail.flush()?)) {
        Ok(()) => ExitCode::SUCCESS,
        Err(Stop::Line(number)) => {
            eprintln!("line {number}: this is no call, or no such call can be made here");
            ExitCode::from(2)
        }
        Err(Stop::Unwritten(error)) => {
            eprintln!("replay: the trail cannot be written: {error}");
            ExitCode::FAILURE
        }
    }
}
