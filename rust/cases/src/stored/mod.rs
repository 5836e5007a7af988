//! The cases that are stored for the proved checker's program `cases`, with what
//! is known of their answers beforehand: document 01's examples, both sides of
//! its sizes, units of numbers, classes over structures, lines and columns, faults
//! that stand together in one unit, the manual's models within the part, and
//! generated ones.

mod examples;
mod lines;
mod manual;
mod measures;
mod over_structures;
mod sizes;
mod together;

use std::fmt::Write as _;

use crate::{gen, gen_small, Case};
use peer::Answer;

const HEAD: &str = "INTERLIS 2.4;MODEL M AT \"u\" VERSION \"1\"=";

/// The usual length of a buffer.
const ROOM: usize = 65_535;

/// A case, a word on it, and the refusal that it must get: its number, or 0 for
/// acceptance, and its place; and where they are known its line and its column.
pub struct Stored {
    pub word: String,
    pub case: Case,
    pub said: Option<(u8, usize)>,
    pub stands: Option<(usize, usize)>,
}

impl Stored {
    fn new(word: impl Into<String>, text: impl Into<Vec<u8>>, buffer_len: usize) -> Self {
        Stored {
            word: word.into(),
            case: Case {
                text: text.into(),
                buffer_len,
            },
            said: None,
            stands: None,
        }
    }

    /// A text with `^` before the place of its refusal; none if it is accepted.
    fn marked(number: u8, marked: &str) -> Self {
        let place = marked.find('^').unwrap_or(0);
        let text = marked.replacen('^', "", 1);
        let mut stored = Stored::new(format!("{number}: {marked}"), text, ROOM);
        stored.said = Some((number, place));
        stored
    }

    /// A model with this body, marked in the same way.
    fn body(number: u8, body: &str) -> Self {
        Stored::marked(number, &format!("{HEAD}{body}END M."))
    }

    /// A line with a number and a body.
    fn line(line: &str) -> Self {
        let (number, body) = line.split_once(' ').expect("a number and a body");
        Stored::body(number.parse().expect("a number"), body)
    }
}

/// So many seeds of generated texts.
const SMALL: u64 = 900;
const LARGE: u64 = 60;

fn generated() -> Vec<Stored> {
    let one = |word: &str, seed: u64, case: Case| {
        Stored::new(format!("{word} {seed}"), case.text, case.buffer_len)
    };
    let small = (0..SMALL).map(|seed| one("small seed", seed, gen_small(seed)));
    let large = (0..LARGE).map(|seed| one("seed", seed, gen(seed)));
    small.chain(large).collect()
}

/// Every reserved word as a name, and again in small letters.
fn reserved() -> Vec<Stored> {
    let mut words: Vec<&str> = peer::WORDS.iter().map(|(word, _)| *word).collect();
    words.sort_unstable();
    let mut stored: Vec<Stored> = words
        .iter()
        .map(|word| Stored::new(*word, format!("{HEAD}DOMAIN {word}=TEXT;END M."), ROOM))
        .collect();
    let small: String = words
        .iter()
        .map(|word| format!("{}=TEXT;", word.to_lowercase()))
        .collect();
    stored.push(Stored::body(0, &format!("DOMAIN {small}")));
    stored
}

/// All stored cases.
pub fn stored() -> Vec<Stored> {
    let mut all = examples::examples();
    all.extend(sizes::sizes());
    all.extend(measures::measures());
    all.extend(over_structures::over_structures());
    all.extend(lines::lines());
    all.extend(together::together());
    all.extend(manual::manual());
    all.extend(reserved());
    all.extend(generated());
    all
}

/// What the program reads: for each case a line with the lengths of the text and
/// of the buffer in six digits each, then the text and an LF.
pub fn input(stored: &[Stored]) -> Vec<u8> {
    let mut input = Vec::new();
    for Stored { case, .. } in stored {
        let line = format!("{:06} {:06}\n", case.text.len(), case.buffer_len);
        input.extend_from_slice(line.as_bytes());
        input.extend_from_slice(&case.text);
        input.push(b'\n');
    }
    input
}

/// What the program must write: the answer as `check` prints it and, if the text
/// is accepted, the book in hexadecimal.
pub fn output(stored: &[Stored]) -> String {
    let mut output = String::new();
    let mut buffer = Vec::new();
    for Stored { case, .. } in stored {
        buffer.clear();
        buffer.resize(case.buffer_len, 0xA5);
        let answer = peer::check(&case.text, &mut buffer);
        write!(output, "{answer}").expect("a string takes all");
        if let Answer::Accepted { book_len, .. } = answer {
            output.push(' ');
            for byte in &buffer[..book_len] {
                write!(output, "{byte:02x}").expect("a string takes all");
            }
        }
        output.push('\n');
    }
    output
}
