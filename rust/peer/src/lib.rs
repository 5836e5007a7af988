//! A checker for model texts in a part of INTERLIS 2.4, after the rules of
//! document 01 and of requests No. 1, 2, 3, 5 and 6 in document 02. It is read and
//! written independently of the proved checker (docs/COMPARISON.md says how far),
//! to be compared with it and to be the baseline of its speed.
#![forbid(unsafe_code)]

use std::fmt;

mod book;
mod chains;
mod classes;
mod enumerations;
mod grammar;
mod judge;
mod lines;
mod reserved;
mod scope;
mod symbols;
mod tables;
mod types;
mod units;

pub use book::{find_record, name_part, show_name, LONGEST_BOOK};
pub use lines::Spot;
pub use reserved::WORDS;
pub use types::read_number;

/// The longest text that is read, in bytes.
pub const LONGEST_TEXT: usize = 65_535;

/// The answer of `check`.
#[derive(Clone, Copy, Debug, PartialEq, Eq)]
pub enum Answer {
    Accepted {
        book_len: usize,
        definitions: usize,
    },
    Refused {
        number: u8,
        place: usize,
        line: usize,
        column: usize,
    },
}

/// As the program `check` prints it, without the LF.
impl fmt::Display for Answer {
    fn fmt(&self, to: &mut fmt::Formatter) -> fmt::Result {
        match self {
            Answer::Accepted {
                book_len,
                definitions,
            } => write!(to, "ok {book_len} {definitions}"),
            Answer::Refused {
                number,
                place,
                line,
                column,
            } => write!(to, "refused {number} {place} {line} {column}"),
        }
    }
}

/// One of the refusals 1 to 19, or 22, and where it stands.
#[derive(Clone, Copy, Debug, PartialEq, Eq)]
pub struct Refusal {
    pub number: u8,
    pub at: Spot,
}

impl Refusal {
    pub(crate) fn new(number: u8, at: Spot) -> Self {
        Refusal { number, at }
    }
}

/// Checks a text. The buffer then holds the book and zeros behind it, or,
/// after a refusal, nothing but zeros.
pub fn check(text: &[u8], buffer: &mut [u8]) -> Answer {
    let mut book = book::Book::new(buffer);
    let verdict = if text.len() > LONGEST_TEXT {
        Err(Refusal::new(1, Spot::FIRST))
    } else {
        judge::judge(text, &mut book)
    };
    match verdict {
        Ok(()) => {
            let (book_len, definitions) = book.close();
            Answer::Accepted {
                book_len,
                definitions,
            }
        }
        Err(Refusal { number, at }) => {
            book.erase();
            Answer::Refused {
                number,
                place: at.place as usize,
                line: at.line as usize,
                column: at.column as usize,
            }
        }
    }
}

/// The symbols of a text, each with where it stands and its length, up to its end
/// or to a refusal among 2, 3, 4 and 6.
pub fn symbols(text: &[u8]) -> Vec<(Spot, usize)> {
    let mut cursor = symbols::Cursor::new(text);
    let mut found = Vec::new();
    let mut symbol = symbols::Symbol::NONE;
    while cursor.next(&mut symbol).is_ok() && symbol.kind != symbols::Kind::End {
        found.push((symbol.at, symbol.length as usize));
    }
    found
}

/// A unit's kind, and the place of its name (of the header's number).
#[derive(Clone, Copy, Debug, PartialEq, Eq)]
pub struct UnitAt {
    pub kind: &'static str,
    pub place: usize,
}

/// Cuts a text into units without judging them: the units read, and the
/// refusal among 1 to 6 that ends the reading, if there is one. The
/// attribute count of 4 is not the grammar's and is not found here.
pub fn units(text: &[u8]) -> (Vec<UnitAt>, Option<Refusal>) {
    let mut found = Vec::new();
    if text.len() > LONGEST_TEXT {
        return (found, Some(Refusal::new(1, Spot::FIRST)));
    }
    let mut reader = grammar::Reader::new(text);
    loop {
        match reader.next() {
            Ok(Some(unit)) => found.push(UnitAt {
                kind: unit.kind(),
                place: unit.place(),
            }),
            Ok(None) => return (found, None),
            Err(refusal) => return (found, Some(refusal)),
        }
    }
}
