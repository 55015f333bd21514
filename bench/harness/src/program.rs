//! What the program `search` does, by the Rust crate: the same first two lines, the same rows and end, from standard input,
//! through a buffer of the same length.

use std::fs::File;
use std::io::{self, BufRead, BufReader, BufWriter, Write};
use std::os::fd::AsFd;

use grep_searcher::{Searcher, Sink, SinkContext, SinkFinish, SinkMatch};

use crate::ways::{context_row, match_row, slow_searcher, Asked, Ours, BREAK_ROW};

const WINDOW: usize = 4_096;

/// What `search` reads and writes at once.
const BUFFER: usize = 65_536;

struct Printed<W: Write> {
    out: W,
    matches: u64,
    bytes: u64,
}

impl<W: Write> Printed<W> {
    fn row(&mut self, [kind, offset, length, number]: [u64; 4]) -> io::Result<bool> {
        writeln!(self.out, "{kind} {number} {offset} {length}")?;
        Ok(true)
    }
}

impl<W: Write> Sink for Printed<W> {
    type Error = io::Error;

    fn matched(&mut self, _: &Searcher, m: &SinkMatch) -> io::Result<bool> {
        self.matches += 1;
        self.row(match_row(m))
    }

    fn context(&mut self, _: &Searcher, c: &SinkContext) -> io::Result<bool> {
        self.row(context_row(c))
    }

    fn context_break(&mut self, _: &Searcher) -> io::Result<bool> {
        self.row(BREAK_ROW)
    }

    fn finish(&mut self, _: &Searcher, end: &SinkFinish) -> io::Result<()> {
        self.bytes = end.byte_count();
        Ok(())
    }
}

/// The settings of the first line; a limit and pass-through are not measured, so they have to be off.
fn asked(line: &str) -> Option<Asked> {
    match line.split(' ').collect::<Vec<_>>()[..] {
        [before, after, invert, "0", "-"] => Some(Asked {
            before: before.parse().ok()?,
            after: after.parse().ok()?,
            invert: invert == "1",
            window: WINDOW,
            piece: 0,
        }),
        _ => None,
    }
}

pub fn run() -> Result<(), String> {
    let tell = |error: io::Error| error.to_string();
    let stdin = io::stdin().as_fd().try_clone_to_owned().map_err(tell)?;
    let mut input = BufReader::with_capacity(BUFFER, File::from(stdin));
    let mut lines = [String::new(), String::new()];
    for line in &mut lines {
        input.read_line(line).map_err(tell)?;
        line.pop();
    }
    let asked = asked(&lines[0]).ok_or("the first line has other settings than are measured")?;
    let mut printed = Printed {
        out: BufWriter::with_capacity(BUFFER, io::stdout().lock()),
        matches: 0,
        bytes: 0,
    };
    let matcher = Ours::new(lines[1].as_bytes());
    slow_searcher(asked)
        .search_reader(&matcher, input, &mut printed)
        .map_err(tell)?;
    // the crate does not count lines, so that field is left to the reader
    writeln!(printed.out, "end {} - {} 0", printed.bytes, printed.matches).map_err(tell)?;
    printed.out.flush().map_err(tell)
}
