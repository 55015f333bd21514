//! Reading a case. The form of a line is told at the top of `main.rs`.

use grep_matcher::LineTerminator;
use grep_searcher::{BinaryDetection, Searcher, SearcherBuilder};

/// What the matcher says to a line.
pub enum Answers {
    /// A yes or no for each line of the text, with the bytes of that line, which show that the
    /// searcher asks about the line we think it asks about.
    Listed(Vec<(Vec<u8>, bool)>),
    /// A yes for a line that contains the literal.
    Has(Vec<u8>),
}

pub struct Case {
    pub searcher: Searcher,
    pub cuts: Vec<usize>,
    pub input: Vec<u8>,
    pub answers: Answers,
}

fn number<T: std::str::FromStr>(field: &str) -> Result<T, String> {
    field
        .parse()
        .map_err(|_| format!("not a number in range: {field}"))
}

fn flag(field: &str) -> Result<bool, String> {
    match field {
        "0" => Ok(false),
        "1" => Ok(true),
        _ => Err(format!("neither 0 nor 1: {field}")),
    }
}

fn optional<T: std::str::FromStr>(field: &str) -> Result<Option<T>, String> {
    if field == "-" {
        Ok(None)
    } else {
        number(field).map(Some)
    }
}

fn hex(field: &str) -> Result<Vec<u8>, String> {
    if field == "-" {
        return Ok(vec![]);
    }
    if !field.is_ascii() || field.len() % 2 != 0 {
        return Err(format!("not hexadecimal: {field}"));
    }
    (0..field.len())
        .step_by(2)
        .map(|i| u8::from_str_radix(&field[i..i + 2], 16).map_err(|e| format!("{e}: {field}")))
        .collect()
}

fn binary(kind: &str, byte: u8) -> Result<BinaryDetection, String> {
    match kind {
        "n" => Ok(BinaryDetection::none()),
        "q" => Ok(BinaryDetection::quit(byte)),
        "c" => Ok(BinaryDetection::convert(byte)),
        _ => Err(format!("no kind of binary detection: {kind}")),
    }
}

/// The lines of the text without their terminators, as the matcher ought to see them.
fn lines(input: &[u8], terminator: u8, kind: &str, byte: u8) -> Vec<Vec<u8>> {
    let cut = input
        .iter()
        .position(|&b| kind == "q" && b == byte)
        .unwrap_or(input.len());
    let text: Vec<u8> = input[..cut]
        .iter()
        .map(|&b| {
            if kind == "c" && b == byte {
                terminator
            } else {
                b
            }
        })
        .collect();
    let mut lines: Vec<Vec<u8>> = text
        .split(|&b| b == terminator)
        .map(<[u8]>::to_vec)
        .collect();
    // What follows the last terminator is a line only if there is something.
    if lines.last().is_some_and(Vec::is_empty) {
        lines.pop();
    }
    lines
}

fn answers(field: &str, lines: Vec<Vec<u8>>) -> Result<Answers, String> {
    if let Some(literal) = field.strip_prefix("has:") {
        return hex(literal).map(Answers::Has);
    }
    let said = if field == "-" { "" } else { field };
    if said.len() != lines.len() {
        return Err(format!("{} answers for {} lines", said.len(), lines.len()));
    }
    let said: Result<Vec<bool>, String> = (0..said.len())
        .map(|i| flag(said.get(i..=i).unwrap_or(said)))
        .collect();
    Ok(Answers::Listed(lines.into_iter().zip(said?).collect()))
}

fn cuts(field: &str) -> Result<Vec<usize>, String> {
    if field == "-" {
        Ok(vec![])
    } else {
        field.split(',').map(number).collect()
    }
}

pub fn parse(line: &str) -> Result<Case, String> {
    let fields: Vec<&str> = line.split(' ').collect();
    let [before, after, invert, pass, stop, limit, terminator, kind, byte, capacity, sniff, pieces, input, said] =
        fields[..]
    else {
        return Err(format!("{} fields", fields.len()));
    };
    let terminator: u8 = number(terminator)?;
    let byte: u8 = number(byte)?;
    let input = hex(input)?;
    let searcher = SearcherBuilder::new()
        .before_context(number(before)?)
        .after_context(number(after)?)
        .invert_match(flag(invert)?)
        .passthru(flag(pass)?)
        .stop_on_nonmatch(flag(stop)?)
        .max_matches(optional(limit)?)
        .line_terminator(LineTerminator::byte(terminator))
        .binary_detection(binary(kind, byte)?)
        .heap_limit(optional(capacity)?)
        .bom_sniffing(flag(sniff)?)
        .line_number(true)
        .build();
    let answers = answers(said, lines(&input, terminator, kind, byte))?;
    Ok(Case {
        searcher,
        cuts: cuts(pieces)?,
        input,
        answers,
    })
}
