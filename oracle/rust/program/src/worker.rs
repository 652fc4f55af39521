//! The worker: answers one line after the other until it dies of one.

use std::ffi::{c_int, c_ulong};
use std::io::{self, BufRead, BufReader, Write};

/// Room for the crate's recursion: a recording of 65,536 bytes nests up to
/// 32,768 masters.
const STACK: usize = 1 << 30;

const SET_DUMPABLE: c_int = 4;

extern "C" {
    fn prctl(option: c_int, ...) -> c_int;
}

/// Answers each line of standard input. An answer is written out before the
/// next question is read, so that the count of answers tells which question
/// ended the worker.
pub fn run() -> io::Result<()> {
    std::panic::set_hook(Box::new(|_| {}));
    // A worker that dies leaves no core file.
    unsafe { prctl(SET_DUMPABLE, c_ulong::MIN) };
    let thread = std::thread::Builder::new().stack_size(STACK).spawn(work)?;
    thread
        .join()
        .unwrap_or_else(|_| Err(io::Error::other("worker")))
}

fn work() -> io::Result<()> {
    let mut input = BufReader::with_capacity(1 << 16, io::stdin());
    let mut output = io::stdout().lock();
    let mut line = Vec::new();
    while input.read_until(b'\n', &mut line)? > 0 {
        if line.last() == Some(&b'\n') {
            line.pop();
        }
        let mut answer = matroska::driver::answer(&line);
        answer.push('\n');
        // Standard output is written through at each line feed.
        output.write_all(answer.as_bytes())?;
        line.clear();
    }
    Ok(())
}
