//! Bench texts: lines, and how they are written out.

use std::fmt;

use super::Random;

/// The kind words, from kind 2 on.
pub const KIND_WORDS: [&str; 8] = ["AND", "NAND", "OR", "NOR", "XOR", "XNOR", "NOT", "BUF"];

/// The bytes that are skipped everywhere.
pub const BLANKS: [u8; 3] = [9, 13, 32];

/// A line of a bench text, without blanks and comments.
#[derive(Clone, Debug, PartialEq, Eq)]
pub enum Line {
    Input(String),
    Output(String),
    Gate {
        name: String,
        word: String,
        pins: Vec<String>,
    },
}

impl fmt::Display for Line {
    fn fmt(&self, f: &mut fmt::Formatter) -> fmt::Result {
        match self {
            Line::Input(name) => write!(f, "INPUT({name})"),
            Line::Output(name) => write!(f, "OUTPUT({name})"),
            Line::Gate { name, word, pins } => write!(f, "{name}={word}({})", pins.join(",")),
        }
    }
}

/// The lines as a text with nothing between them but their ends.
pub fn plain_text(lines: &[Line]) -> Vec<u8> {
    let lines = lines.iter().map(|line| format!("{line}\n"));
    lines.collect::<String>().into_bytes()
}

/// How a text is spread with blanks and comments.
struct Spread<'a> {
    random: &'a mut Random,
    /// One of so many bytes has blanks before it.
    blanks: usize,
    /// One of so many lines has a comment, and one an empty line before it.
    comments: usize,
    text: Vec<u8>,
}

/// The lines as a text with random blanks, comments, empty lines and ends. The last line may have no end.
pub fn spread_text(random: &mut Random, lines: &[Line]) -> Vec<u8> {
    let end = random.pick(&["\n", "\r\n", " \n"]);
    let last_end = random.pick(&["", end]);
    let mut spread = Spread {
        blanks: random.pick(&[2, 8, 64, 4096]),
        comments: random.pick(&[2, 8, 4096]),
        random,
        text: Vec::new(),
    };
    for (number, line) in lines.iter().enumerate() {
        spread.empty_lines(end);
        spread.line(line);
        let is_last = number + 1 == lines.len();
        spread
            .text
            .extend((if is_last { last_end } else { end }).bytes());
    }
    spread.text
}

impl Spread<'_> {
    fn is_one_of(&mut self, many: usize) -> bool {
        self.random.below(many) == 0
    }

    /// Perhaps lines of blanks, of a comment, or of nothing.
    fn empty_lines(&mut self, end: &str) {
        while self.is_one_of(self.comments) {
            if self.is_one_of(2) {
                self.blanks();
            }
            if self.is_one_of(2) {
                self.comment();
            }
            self.text.extend(end.bytes());
        }
    }

    /// The line with blanks anywhere in it, and perhaps a comment.
    fn line(&mut self, line: &Line) {
        for byte in line.to_string().bytes() {
            if self.is_one_of(self.blanks) {
                self.blanks();
            }
            self.text.push(byte);
        }
        if self.is_one_of(self.blanks) {
            self.blanks();
        }
        if self.is_one_of(self.comments) {
            self.comment();
        }
    }

    /// Up to six blanks, of any kind.
    fn blanks(&mut self) {
        for _ in 0..=self.random.below(6) {
            self.text.push(self.random.pick(&BLANKS));
        }
    }

    /// A comment: what would be a line by itself, or any bytes but a line's end.
    fn comment(&mut self) {
        self.text.push(b'#');
        match self.random.below(4) {
            0 => self.text.extend(b" INPUT(zz9)\t"),
            1 => self.text.extend(b"y = AND(a, b) # and again"),
            2 => {}
            _ => {
                let bytes = (0..self.random.below(20)).map(|_| self.random.byte(0, 255));
                self.text.extend(bytes.filter(|&byte| byte != b'\n'));
            }
        }
    }
}
