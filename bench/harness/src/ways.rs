//! The ways to search a text in memory: the driver, and the Rust crate's slow line path with the driver's matcher or with
//! memmem. Each is fed the same pieces, and mixes the numbers of its rows into one.

use std::io::{self, Read};

use grep_matcher::{Match, Matcher, NoCaptures, NoError};
use grep_searcher::{
    BinaryDetection, Searcher, SearcherBuilder, Sink, SinkContext, SinkContextKind, SinkFinish,
    SinkMatch,
};
use memchr::memmem::Finder;

#[repr(C)]
#[derive(Clone, Copy)]
pub struct Pair {
    first: usize,
    second: usize,
}

extern "C" {
    fn literal_choose(literal: *const u8, size: usize) -> Pair;
    fn literal_contains_by(
        line: *const u8,
        length: usize,
        literal: *const u8,
        size: usize,
        pair: Pair,
    ) -> bool;
    fn searcher_search(
        before: usize,
        after: usize,
        invert: bool,
        text: *const u8,
        text_length: usize,
        piece: usize,
        literal: *const u8,
        size: usize,
        window: *mut u8,
        window_length: usize,
        table: *mut u64,
        table_length: usize,
        told: *mut u64,
    );
}

/// What is asked of each way. A piece of 0 is the whole text.
#[derive(Clone, Copy)]
pub struct Asked {
    pub before: usize,
    pub after: usize,
    pub invert: bool,
    pub window: usize,
    pub piece: usize,
}

/// What came out. The crate tells no number of lines.
#[derive(Clone, Copy, Default, PartialEq, Debug)]
pub struct Told {
    pub rows: u64,
    pub mixed: u64,
    pub bytes: u64,
    pub matches: u64,
}

impl Told {
    fn row(&mut self, numbers: [u64; 4]) {
        self.rows += 1;
        for x in numbers {
            self.mixed = self.mixed.wrapping_mul(3) ^ x;
        }
    }
}

#[derive(Clone, Copy, PartialEq)]
pub enum Way {
    Driver,
    SameMatcher,
    Memmem,
}

pub const WAYS: [(&str, Way); 3] = [
    ("driver", Way::Driver),
    ("same", Way::SameMatcher),
    ("memmem", Way::Memmem),
];

impl Way {
    pub fn search(self, asked: Asked, text: &[u8], literal: &[u8]) -> Result<Told, String> {
        match self {
            Way::Driver => by_driver(asked, text, literal),
            Way::SameMatcher => by_crate(asked, text, &Ours::new(literal)),
            Way::Memmem => by_crate(asked, text, &Theirs(Finder::new(literal))),
        }
    }
}

fn by_driver(asked: Asked, text: &[u8], literal: &[u8]) -> Result<Told, String> {
    let mut window = vec![0u8; asked.window];
    let mut table = vec![0u64; 4 * (asked.before + 2)];
    let mut told = [0u64; 7];
    // Safety: each pointer goes with the length of what it points to, and all live until the call returns.
    unsafe {
        searcher_search(
            asked.before,
            asked.after,
            asked.invert,
            text.as_ptr(),
            text.len(),
            asked.piece,
            literal.as_ptr(),
            literal.len(),
            window.as_mut_ptr(),
            window.len(),
            table.as_mut_ptr(),
            table.len(),
            told.as_mut_ptr(),
        );
    }
    match told {
        [0, rows, mixed, bytes, _, matches, _] => Ok(Told {
            rows,
            mixed,
            bytes,
            matches,
        }),
        [refusal, ..] => Err(format!("the driver refuses by {refusal}")),
    }
}

/// A name of its own, so that callgrind can be told where to count.
#[inline(never)]
fn by_crate<M: Matcher>(asked: Asked, text: &[u8], matcher: &M) -> Result<Told, String> {
    let mut told = Told::default();
    let reader = Pieces {
        rest: text,
        piece: if asked.piece == 0 {
            text.len()
        } else {
            asked.piece
        },
    };
    slow_searcher(asked)
        .search_reader(matcher, reader, &mut told)
        .map_err(|error| format!("the crate fails: {error}"))?;
    Ok(told)
}

/// The crate's searcher with a buffer that never grows.
pub fn slow_searcher(asked: Asked) -> Searcher {
    SearcherBuilder::new()
        .before_context(asked.before)
        .after_context(asked.after)
        .invert_match(asked.invert)
        .line_number(true)
        .bom_sniffing(false)
        .binary_detection(BinaryDetection::none())
        .heap_limit(Some(asked.window))
        .build()
}

struct Pieces<'a> {
    rest: &'a [u8],
    piece: usize,
}

impl Read for Pieces<'_> {
    fn read(&mut self, room: &mut [u8]) -> io::Result<usize> {
        let n = self.piece.min(room.len()).min(self.rest.len());
        let (now, later) = self.rest.split_at(n);
        room[..n].copy_from_slice(now);
        self.rest = later;
        Ok(n)
    }
}

/// Names no line terminator, as `Theirs` does, so that the crate asks line by line.
pub struct Ours<'a> {
    literal: &'a [u8],
    pair: Pair,
}

impl<'a> Ours<'a> {
    pub fn new(literal: &'a [u8]) -> Ours<'a> {
        // Safety: the pointer goes with its length.
        Ours {
            literal,
            pair: unsafe { literal_choose(literal.as_ptr(), literal.len()) },
        }
    }
}

impl Matcher for Ours<'_> {
    type Captures = NoCaptures;
    type Error = NoError;

    fn find_at(&self, line: &[u8], at: usize) -> Result<Option<Match>, NoError> {
        // Safety: each pointer goes with its length.
        let hit = unsafe {
            literal_contains_by(
                line.as_ptr(),
                line.len(),
                self.literal.as_ptr(),
                self.literal.len(),
                self.pair,
            )
        };
        Ok(hit.then(|| Match::zero(at)))
    }

    fn new_captures(&self) -> Result<NoCaptures, NoError> {
        Ok(NoCaptures::new())
    }
}

struct Theirs<'a>(Finder<'a>);

impl Matcher for Theirs<'_> {
    type Captures = NoCaptures;
    type Error = NoError;

    fn find_at(&self, line: &[u8], at: usize) -> Result<Option<Match>, NoError> {
        Ok(self.0.find(line).map(|_| Match::zero(at)))
    }

    fn new_captures(&self) -> Result<NoCaptures, NoError> {
        Ok(NoCaptures::new())
    }
}

/// Kind, offset, length and number of a context line.
pub fn context_row(c: &SinkContext) -> [u64; 4] {
    let kind = match c.kind() {
        SinkContextKind::Before => 2,
        SinkContextKind::After => 3,
        SinkContextKind::Other => 4,
    };
    [
        kind,
        c.absolute_byte_offset(),
        c.bytes().len() as u64,
        c.line_number().unwrap_or(0),
    ]
}

pub fn match_row(m: &SinkMatch) -> [u64; 4] {
    [
        1,
        m.absolute_byte_offset(),
        m.bytes().len() as u64,
        m.line_number().unwrap_or(0),
    ]
}

pub const BREAK_ROW: [u64; 4] = [5, 0, 0, 0];

impl Sink for Told {
    type Error = io::Error;

    fn matched(&mut self, _: &Searcher, m: &SinkMatch) -> io::Result<bool> {
        self.matches += 1;
        self.row(match_row(m));
        Ok(true)
    }

    fn context(&mut self, _: &Searcher, c: &SinkContext) -> io::Result<bool> {
        self.row(context_row(c));
        Ok(true)
    }

    fn context_break(&mut self, _: &Searcher) -> io::Result<bool> {
        self.row(BREAK_ROW);
        Ok(true)
    }

    fn finish(&mut self, _: &Searcher, end: &SinkFinish) -> io::Result<()> {
        self.bytes = end.byte_count();
        Ok(())
    }
}
