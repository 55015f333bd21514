//! Running a case: the reader that cuts the input, the matcher that answers from the case, the sink
//! that writes rows, and the watch that tells which of the crate's paths was taken.

use std::cell::Cell;
use std::fmt::Write;
use std::io::{self, Read};
use std::sync::atomic::{AtomicU64, Ordering::Relaxed};

use grep_matcher::{Match, Matcher, NoCaptures};
use grep_searcher::{Searcher, Sink, SinkContext, SinkContextKind, SinkFinish, SinkMatch};

use crate::case::{Answers, Case};

struct Pieces<'a> {
    rest: &'a [u8],
    cuts: Vec<usize>,
    at: usize,
}

impl Read for Pieces<'_> {
    fn read(&mut self, room: &mut [u8]) -> io::Result<usize> {
        let piece = self.cuts.get(self.at).copied().unwrap_or(usize::MAX);
        let n = piece.min(room.len()).min(self.rest.len());
        let (now, later) = self.rest.split_at(n);
        room[..n].copy_from_slice(now);
        self.rest = later;
        if n == piece {
            self.at += 1;
        } else if self.at < self.cuts.len() {
            self.cuts[self.at] -= n;
        }
        Ok(n)
    }
}

/// Names neither a line terminator nor non-matching bytes, so the crate asks line by line. It asks
/// about every line in order until the limit, and about none after, so the n-th question is about
/// line n; a question about other bytes than that line's is an error.
struct FromCase<'a> {
    answers: &'a Answers,
    asked: Cell<usize>,
}

impl Matcher for FromCase<'_> {
    type Captures = NoCaptures;
    type Error = String;

    fn find_at(&self, line: &[u8], at: usize) -> Result<Option<Match>, String> {
        let number = self.asked.get();
        self.asked.set(number + 1);
        let yes = match self.answers {
            Answers::Has(literal) => {
                literal.is_empty() || line.windows(literal.len()).any(|part| part == literal)
            }
            Answers::Listed(listed) => match listed.get(number) {
                Some((bytes, yes)) if bytes == line => *yes,
                _ => return Err(format!("question {} is not about line {0}", number + 1)),
            },
        };
        Ok(yes.then(|| Match::zero(at)))
    }

    fn new_captures(&self) -> Result<NoCaptures, String> {
        Ok(NoCaptures::new())
    }
}

/// The answer to a case so far, and 1 in `begun` once the crate has begun a search.
#[derive(Default)]
pub struct Rows {
    pub text: String,
    pub begun: u64,
}

impl Rows {
    fn row(&mut self, kind: u8, offset: u64, length: usize, number: u64) {
        let comma = if self.text.is_empty() { "" } else { ", " };
        write!(self.text, "{comma}{kind} {offset} {length} {number}").expect("a string takes all");
    }

    fn last(&mut self, text: std::fmt::Arguments) {
        write!(self.text, "; {text}").expect("a string takes all");
    }
}

impl Sink for Rows {
    type Error = io::Error;

    fn begin(&mut self, _: &Searcher) -> io::Result<bool> {
        self.begun = 1;
        Ok(true)
    }

    fn matched(&mut self, _: &Searcher, m: &SinkMatch) -> io::Result<bool> {
        let number = m.line_number().expect("line numbers are on");
        self.row(1, m.absolute_byte_offset(), m.bytes().len(), number);
        Ok(true)
    }

    fn context(&mut self, _: &Searcher, c: &SinkContext) -> io::Result<bool> {
        let kind = match c.kind() {
            SinkContextKind::Before => 2,
            SinkContextKind::After => 3,
            SinkContextKind::Other => 4,
        };
        let number = c.line_number().expect("line numbers are on");
        self.row(kind, c.absolute_byte_offset(), c.bytes().len(), number);
        Ok(true)
    }

    fn context_break(&mut self, _: &Searcher) -> io::Result<bool> {
        self.row(5, 0, 0, 0);
        Ok(true)
    }

    fn finish(&mut self, _: &Searcher, end: &SinkFinish) -> io::Result<()> {
        let binary = end
            .binary_byte_offset()
            .map_or("-".to_string(), |n| n.to_string());
        self.last(format_args!("end {} {binary}", end.byte_count()));
        Ok(())
    }
}

pub fn search(mut case: Case) -> Rows {
    let matcher = FromCase {
        answers: &case.answers,
        asked: Cell::new(0),
    };
    let reader = Pieces {
        rest: &case.input,
        cuts: case.cuts,
        at: 0,
    };
    let mut rows = Rows::default();
    if let Err(error) = case.searcher.search_reader(&matcher, reader, &mut rows) {
        rows.last(format_args!("error {error}"));
    }
    rows
}

/// Counts the crate's own log lines about the path it takes.
pub struct Watch {
    rolled: AtomicU64,
    slow: AtomicU64,
}

static WATCH: Watch = Watch {
    rolled: AtomicU64::new(0),
    slow: AtomicU64::new(0),
};

impl log::Log for Watch {
    fn enabled(&self, _: &log::Metadata) -> bool {
        true
    }

    fn log(&self, record: &log::Record) {
        match record.args().as_str() {
            Some("generic reader: searching via roll buffer strategy") => {
                self.rolled.fetch_add(1, Relaxed)
            }
            Some("searcher core: will use slow line searcher") => self.slow.fetch_add(1, Relaxed),
            _ => 0,
        };
    }

    fn flush(&self) {}
}

pub fn watch_paths() -> Result<&'static Watch, String> {
    log::set_logger(&WATCH).map_err(|e| e.to_string())?;
    log::set_max_level(log::LevelFilter::Trace);
    Ok(&WATCH)
}

impl Watch {
    /// Each search that began has to have gone through the rolling buffer and the slow path, or the
    /// answers are those of other code than the part that is ported.
    pub fn all_were_slow(&self, begun: u64) -> Result<(), String> {
        let (rolled, slow) = (self.rolled.load(Relaxed), self.slow.load(Relaxed));
        if rolled == begun && slow == begun {
            return Ok(());
        }
        Err(format!(
            "{begun} searches, {rolled} through the rolling buffer, {slow} on the slow path"
        ))
    }
}
