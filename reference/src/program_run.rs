//! Runs a program of the port and takes what it prints.
use std::ffi::OsStr;
use std::io::{Error, ErrorKind, Read, Write};
use std::path::Path;
use std::process::{Command, Stdio};

/// What the program prints with these words and this standard input.
pub fn run(program: &Path, words: &[&OsStr], input: &[u8]) -> Result<String, String> {
    printed(program, words, input).map_err(|e| format!("{}: {e}", program.display()))
}

fn printed(program: &Path, words: &[&OsStr], input: &[u8]) -> std::io::Result<String> {
    let mut child = Command::new(program).args(words).stdin(Stdio::piped()).stdout(Stdio::piped()).spawn()?;
    // It reads its input before it writes, so no pipe fills up while the other waits.
    let written = child.stdin.take().unwrap().write_all(input);
    let mut text = String::new();
    child.stdout.take().unwrap().read_to_string(&mut text)?;
    let status = child.wait()?;
    if !status.success() {
        return Err(Error::other(format!("{status}")));
    }
    match written {
        // It need not read what lies behind the longest file that can be accepted.
        Err(e) if e.kind() == ErrorKind::BrokenPipe => Ok(text),
        written => written.map(|()| text),
    }
}
