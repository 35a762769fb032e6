//! The program as a child process: a file on standard input, the bytes printed on standard output.

use crate::random::Random;
use std::io::{ErrorKind, Read, Write};
use std::path::Path;
use std::process::{Command, Stdio};

/// Runs the program on a file that is written in one or a few pieces.
pub fn run(program: &Path, file: &[u8], random: &mut Random) -> Result<Vec<u8>, String> {
    let told = |error: std::io::Error| format!("{}: {error}", program.display());
    let mut child = Command::new(program).stdin(Stdio::piped()).stdout(Stdio::piped()).spawn().map_err(told)?;
    let mut input = child.stdin.take().expect("piped");
    let first = random.below(file.len() + 1);
    for piece in [&file[..first], &file[first..]] {
        match input.write_all(piece) {
            // the program need not read a file that is too long to its end
            Err(error) if error.kind() == ErrorKind::BrokenPipe => break,
            result => result.map_err(told)?,
        }
    }
    drop(input);
    let mut printed = Vec::new();
    let mut output = child.stdout.take().expect("piped");
    output.read_to_end(&mut printed).map_err(told)?;
    let status = child.wait().map_err(told)?;
    match status.success() {
        true => Ok(printed),
        false => Err(format!("{} ended with {status}", program.display())),
    }
}
