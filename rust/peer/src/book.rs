//! The book: writing its records, finding one, and showing its name.

use crate::enumerations::Piece;
use crate::units::Word;

pub const LONGEST_BOOK: usize = 65_535;
pub const NO_BASE: u32 = u32::MAX;

/// The kinds of records, as document 01 and the requests number them.
pub mod kind {
    pub const MODEL: u8 = 1;
    pub const TOPIC: u8 = 2;
    pub const END_OF_TOPIC: u8 = 3;
    pub const CLASS: u8 = 4;
    pub const STRUCTURE: u8 = 5;
    pub const ATTRIBUTE: u8 = 6;
    pub const DOMAIN: u8 = 7;
    pub const TEXT: u8 = 8;
    pub const MTEXT: u8 = 9;
    pub const RANGE: u8 = 10;
    pub const NUMERIC: u8 = 11;
    pub const TYPED_BY_STRUCTURE: u8 = 12;
    pub const OPEN: u8 = 13;
    pub const ELEMENT: u8 = 14;
    pub const CLOSE: u8 = 15;
    pub const END_OF_CLASS: u8 = 16;
    pub const TYPED_BY_DOMAIN: u8 = 17;
    pub const MEASURE: u8 = 18;
    pub const IN_MEASURE: u8 = 19;
}

/// The bits of a definition's flags.
pub mod flag {
    pub const ABSTRACT: u8 = 1;
    pub const FINAL: u8 = 2;
    pub const EXTENDED: u8 = 4;
    pub const MANDATORY: u8 = 8;
}

/// The records do not fit.
#[derive(Debug, PartialEq, Eq)]
pub struct Full;

/// The book under work, in the lent buffer.
pub struct Book<'b> {
    buffer: &'b mut [u8],
    room: usize,
    length: usize,
    records: u32,
    definitions: usize,
}

impl<'b> Book<'b> {
    pub fn new(buffer: &'b mut [u8]) -> Self {
        Book {
            room: buffer.len().min(LONGEST_BOOK),
            buffer,
            length: 0,
            records: 0,
            definitions: 0,
        }
    }

    /// Zeros behind the book; gives its length and definition count.
    pub fn close(self) -> (usize, usize) {
        self.buffer[self.length..].fill(0);
        (self.length, self.definitions)
    }

    /// Zeros in the whole buffer.
    pub fn erase(self) {
        self.buffer.fill(0);
    }

    /// The number that the next record will have.
    pub fn next_record(&self) -> u32 {
        self.records
    }

    pub fn put<const SIZE: usize>(&mut self, record: [u8; SIZE]) -> Result<(), Full> {
        let end = self.length + SIZE;
        if end > self.room {
            return Err(Full);
        }
        self.buffer[self.length..end].copy_from_slice(&record);
        self.length = end;
        self.records += 1;
        Ok(())
    }

    pub fn named(&mut self, kind: u8, name: Word) -> Result<(), Full> {
        let [a, b, c, d] = name.place.to_le_bytes();
        self.put([kind, a, b, c, d, name.length])
    }

    /// A record of kind 4 to 7, which is counted, or 18, which is not.
    pub fn definition(&mut self, kind: u8, name: Word, flags: u8, base: u32) -> Result<(), Full> {
        let mut record = [0; 11];
        record[0] = kind;
        record[1..5].copy_from_slice(&name.place.to_le_bytes());
        record[5] = name.length;
        record[6] = flags;
        record[7..].copy_from_slice(&base.to_le_bytes());
        self.put(record)?;
        self.definitions += usize::from(is_definition(kind));
        Ok(())
    }

    /// A record of a kind and a number of four bytes.
    pub fn number(&mut self, kind: u8, number: u32) -> Result<(), Full> {
        let [a, b, c, d] = number.to_le_bytes();
        self.put([kind, a, b, c, d])
    }

    pub fn range(&mut self, decimals: u8, first: i64, second: i64) -> Result<(), Full> {
        let mut record = [0; 18];
        record[0] = kind::RANGE;
        record[1] = decimals;
        record[2..10].copy_from_slice(&first.to_le_bytes());
        record[10..].copy_from_slice(&second.to_le_bytes());
        self.put(record)
    }

    pub fn enumeration(&mut self, pieces: &[Piece]) -> Result<(), Full> {
        pieces.iter().try_for_each(|&piece| match piece {
            Piece::Open { is_final, .. } => self.put([kind::OPEN, u8::from(is_final)]),
            Piece::Element(name) => self.named(kind::ELEMENT, name),
            Piece::Close => self.put([kind::CLOSE]),
        })
    }
}

fn is_definition(record_kind: u8) -> bool {
    (kind::CLASS..=kind::DOMAIN).contains(&record_kind)
}

/// The whole length of a record of this kind, if there is such a kind.
fn record_length(record_kind: u8) -> Option<usize> {
    Some(match record_kind {
        kind::MODEL | kind::TOPIC | kind::ELEMENT => 6,
        kind::END_OF_TOPIC | kind::END_OF_CLASS | kind::NUMERIC | kind::CLOSE => 1,
        kind::CLASS..=kind::DOMAIN | kind::MEASURE => 11,
        kind::TEXT | kind::MTEXT | kind::TYPED_BY_STRUCTURE => 5,
        kind::TYPED_BY_DOMAIN | kind::IN_MEASURE => 5,
        kind::RANGE => 18,
        kind::OPEN => 2,
        _ => return None,
    })
}

fn has_name(record_kind: u8) -> bool {
    let named = [kind::MODEL, kind::TOPIC, kind::ELEMENT, kind::MEASURE];
    named.contains(&record_kind) || is_definition(record_kind)
}

/// The record read from this byte of the book, if it is whole and of a kind.
fn record_at(book: &[u8], beginning: usize) -> Option<&[u8]> {
    let rest = book.get(beginning..)?;
    let length = record_length(*rest.first()?)?;
    rest.get(..length)
}

/// Where the record with this number begins, if it and all before it are whole
/// and of a kind.
pub fn find_record(book: &[u8], record: usize) -> Option<usize> {
    let mut beginning = 0;
    for _ in 0..record {
        beginning += record_at(book, beginning)?.len();
    }
    record_at(book, beginning).map(|_| beginning)
}

/// The start and length in the text of the name of the record read from this
/// byte of the book; the empty part at the text's start if there is none.
pub fn name_part(text: &[u8], book: &[u8], beginning: usize) -> (usize, usize) {
    let part = record_at(book, beginning)
        .filter(|record| has_name(record[0]))
        .map(|record| {
            let place = [record[1], record[2], record[3], record[4]];
            (u32::from_le_bytes(place) as usize, usize::from(record[5]))
        });
    match part {
        Some((start, length)) if start.saturating_add(length) <= text.len() => (start, length),
        _ => (0, 0),
    }
}

/// The part of the text that is the name of the record read from this byte.
pub fn show_name<'t>(text: &'t [u8], book: &[u8], beginning: usize) -> &'t [u8] {
    let (start, length) = name_part(text, book, beginning);
    &text[start..start + length]
}
