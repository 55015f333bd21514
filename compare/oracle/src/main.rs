//! The oracle: runs the Rust crate grep-searcher on cases from standard input, one line a case, and
//! prints one line of answer for each, so that a comparison can ask about millions in one process.
//!
//! A case is these fields with a single space between:
//!
//! ```text
//! before after invert pass stop limit terminator binary byte capacity sniff cuts input answers
//! ```
//!
//! - `before`, `after`, `terminator`, `byte`: decimal numbers.
//! - `invert`, `pass`, `stop` (on a nonmatch), `sniff` (for a byte-order mark): 0 or 1.
//! - `limit`: decimal, or `-` for none.
//! - `binary`: `n` none, `q` Quit, `c` Convert; `byte` is the byte it looks for.
//! - `capacity`: the heap limit in bytes, or `-` for none. From 1 to 65,536 it is the length of a
//!   buffer that never grows.
//! - `cuts`: the lengths of the pieces in which the reader hands out the input, with commas between,
//!   or `-`. A piece is handed out by several reads where the crate asks for less; a piece of 0 is
//!   one read of 0 bytes; after the last piece reads give all that was asked for.
//! - `input`: hexadecimal, or `-` for an empty one.
//! - `answers`: a 0 or 1 for each line of the text in order, or `-` where it has none; or `has:` and
//!   a literal in hexadecimal, under which a line is a yes when it contains the literal.
//!
//! An answer is the rows `kind offset length number` with a comma and a space between, a semicolon
//! and a space, and then `end bytes binary-offset` with `-` for no offset, or `error` and its text.
//! Rows that came before an error stand before it. Kinds: 1 match, 2 before, 3 after, 4 other,
//! 5 break, the last with zeros.

mod case;
mod search;

use std::io::{self, BufRead, BufWriter, Write};
use std::process::ExitCode;

fn run() -> Result<(), String> {
    let watch = search::watch_paths()?;
    let mut out = BufWriter::new(io::stdout().lock());
    let mut begun = 0;
    for (at, line) in io::stdin().lock().lines().enumerate() {
        let line = line.map_err(|e| e.to_string())?;
        let case = case::parse(&line).map_err(|e| format!("case {}: {e}", at + 1))?;
        let rows = search::search(case);
        begun += rows.begun;
        writeln!(out, "{}", rows.text).map_err(|e| e.to_string())?;
    }
    out.flush().map_err(|e| e.to_string())?;
    watch.all_were_slow(begun)
}

fn main() -> ExitCode {
    match run() {
        Ok(()) => ExitCode::SUCCESS,
        Err(text) => {
            eprintln!("oracle: {text}");
            ExitCode::FAILURE
        }
    }
}
