//! The inputs: lines of words and numbers, the same bytes in every run.

/// Ten digits in a row stand nowhere but where they are planted.
pub const LITERAL: &[u8] = b"0049301234";

/// How often each letter stands in running text.
const LETTERS: &[u8] = b"eeeeeeeeeeeetttttttttaaaaaaaaooooooooiiiiiiinnnnnnnssssssrrrrrrhhhhhhllllddddcccuuummmffppgwwyybvk";

/// What an input is: the lengths of its lines without the newline, and one match in how many lines, or 0 for none.
#[derive(Clone, Copy)]
pub struct Kind {
    pub name: &'static str,
    shortest: usize,
    longest: usize,
    one_in: u64,
}

pub const KINDS: &[Kind] = &[
    Kind {
        name: "spool",
        shortest: 19,
        longest: 219,
        one_in: 1_000,
    },
    Kind {
        name: "short",
        shortest: 0,
        longest: 40,
        one_in: 1_000,
    },
    Kind {
        name: "long",
        shortest: 500,
        longest: 1_500,
        one_in: 1_000,
    },
    Kind {
        name: "every",
        shortest: 19,
        longest: 219,
        one_in: 1,
    },
    Kind {
        name: "none",
        shortest: 19,
        longest: 219,
        one_in: 0,
    },
];

pub fn kind(name: &str) -> Option<Kind> {
    KINDS.iter().copied().find(|kind| kind.name == name)
}

struct Random(u64);

impl Random {
    fn below(&mut self, n: u64) -> u64 {
        self.0 ^= self.0 << 13;
        self.0 ^= self.0 >> 7;
        self.0 ^= self.0 << 17;
        (self.0 >> 11) % n
    }

    /// Words, and now and then a number of at most nine digits, with a space after each.
    fn fill(&mut self, line: &mut Vec<u8>, length: usize) {
        line.clear();
        while line.len() < length {
            let number = self.below(12) == 0;
            for _ in 0..=self.below(9) {
                let byte = if number {
                    b'0' + self.below(10) as u8
                } else {
                    LETTERS[self.below(LETTERS.len() as u64) as usize]
                };
                line.push(byte);
            }
            line.push(b' ');
        }
        line.truncate(length);
    }
}

/// A text of a kind, cut at its size.
pub fn make(kind: Kind, size: usize) -> Vec<u8> {
    let mut random = Random(0x9e37_79b9_7f4a_7c15);
    let mut text = Vec::with_capacity(size + kind.longest + 1);
    let mut line = Vec::new();
    while text.len() < size {
        let length =
            kind.shortest + random.below((kind.longest - kind.shortest + 1) as u64) as usize;
        random.fill(&mut line, length);
        if kind.one_in > 0 && random.below(kind.one_in) == 0 && length >= LITERAL.len() {
            let at = random.below((length - LITERAL.len() + 1) as u64) as usize;
            line[at..at + LITERAL.len()].copy_from_slice(LITERAL);
        }
        text.extend_from_slice(&line);
        text.push(b'\n');
    }
    text.truncate(size);
    text
}
