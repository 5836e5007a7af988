//! The proved checker for Rust. Each function hands its arguments to the archive
//! as they are: no operation asks anything of its caller, so nothing is tested
//! first. `include/auzuplens.h` has the same functions for C.
//!
//! A check keeps all that it needs on the stack, for which a thread of Rust's
//! usual 2 megabytes serves (`docs/BENCH.md`).
#![deny(unsafe_op_in_unsafe_fn)]

use std::iter::FusedIterator;

unsafe extern "C" {
    fn auzuplens_check(
        text: *const u8,
        text_length: usize,
        book: *mut u8,
        book_length: usize,
        answer: *mut Slots,
    );
    safe fn auzuplens_reading(value: i64, decimals: u64, base_decimals: u64) -> i64;
    safe fn auzuplens_reading_refusal(value: i64, decimals: u64, base_decimals: u64) -> u64;
    fn auzuplens_find(book: *const u8, book_length: usize, record: u64) -> u64;
    fn auzuplens_show(
        text: *const u8,
        text_length: usize,
        book: *const u8,
        book_length: usize,
        beginning: u64,
    ) -> u64;
}

/// The numbers of an answer, in the order of the header's names for them.
type Slots = [u64; 8];

/// What the archive gives for a record that is not there.
const NONE: u64 = u64::MAX;

/// The answer to a text.
#[derive(Clone, Copy, Debug, PartialEq, Eq)]
pub enum Answer {
    /// The book's length, and how many definitions it has.
    Accepted { book_len: usize, definitions: usize },
    /// One of the refusals 1 to 19, or 22, its place in the text, and the line and
    /// the column of that place, both from 1, columns in bytes. CR LF ends a line,
    /// and so does CR or LF alone.
    Refused {
        number: u8,
        place: usize,
        line: usize,
        column: usize,
    },
}

impl Answer {
    fn of(slots: Slots) -> Answer {
        let [number, rest @ ..] = slots;
        // The last two are 0 for now.
        let [place, line, column, book_len, definitions, _, _] = rest.map(|slot| slot as usize);
        match number {
            0 => Answer::Accepted {
                book_len,
                definitions,
            },
            number => Answer::Refused {
                number: number as u8,
                place,
                line,
                column,
            },
        }
    }
}

/// Hands a text, a buffer and the numbers of the answer to the archive.
fn check_into(text: &[u8], book: &mut [u8], slots: &mut Slots) {
    // SAFETY: the first two are slices, so each pointer leads to its length of
    // bytes, and the third leads to its eight numbers; the second and the third
    // are lent to be written by this call alone.
    unsafe {
        auzuplens_check(
            text.as_ptr(),
            text.len(),
            book.as_mut_ptr(),
            book.len(),
            slots,
        );
    }
}

/// Checks a text. The buffer then holds the book with zeros behind it, or, after
/// a refusal, nothing but zeros.
pub fn check(text: &[u8], book: &mut [u8]) -> Answer {
    let mut slots = Slots::default();
    check_into(text, book, &mut slots);
    Answer::of(slots)
}

/// A whole number with its decimals, read at the base's decimals; or 20 or 21.
pub fn read_number(value: i64, decimals: u64, base_decimals: u64) -> Result<i64, u8> {
    match auzuplens_reading_refusal(value, decimals, base_decimals) {
        0 => Ok(auzuplens_reading(value, decimals, base_decimals)),
        number => Err(number as u8),
    }
}

/// Where the record with this number begins in the book; none if there is no such
/// record, or it or one before it is cut off or of no kind.
pub fn find_record(book: &[u8], record: usize) -> Option<usize> {
    // SAFETY: it is a slice, so the pointer leads to its length of bytes; they are
    // only read.
    match unsafe { auzuplens_find(book.as_ptr(), book.len(), record as u64) } {
        NONE => None,
        beginning => Some(beginning as usize),
    }
}

/// The part of the text that is the name of the record read from this byte of the
/// book, wherever that is; the empty part at the text's start if there is none.
pub fn show_name<'a>(text: &'a [u8], book: &[u8], beginning: usize) -> &'a [u8] {
    // SAFETY: both are slices, so each pointer leads to its length of bytes; they
    // are only read.
    let part = unsafe {
        auzuplens_show(
            text.as_ptr(),
            text.len(),
            book.as_ptr(),
            book.len(),
            beginning as u64,
        )
    };
    let (start, length) = ((part >> 8) as usize, (part & 0xFF) as usize);
    &text[start..start + length]
}

/// A record of a book: its number, and where it begins.
#[derive(Clone, Copy, Debug, PartialEq, Eq)]
pub struct Record<'b> {
    book: &'b [u8],
    number: usize,
    beginning: usize,
}

impl Record<'_> {
    /// Its number in the book, counted from 0.
    pub fn number(&self) -> usize {
        self.number
    }

    /// Where it begins in the book.
    pub fn beginning(&self) -> usize {
        self.beginning
    }

    /// The number of its kind.
    pub fn kind(&self) -> u8 {
        self.book[self.beginning]
    }

    /// The part of the text that is its name, as `show_name` gives it.
    pub fn name<'a>(&self, text: &'a [u8]) -> &'a [u8] {
        show_name(text, self.book, self.beginning)
    }
}

/// The records of a book in order, up to the first that is cut off or of no kind.
/// The book is walked once, in time linear in its records.
pub fn records(book: &[u8]) -> Records<'_> {
    let first = find_record(book, 0).map(|beginning| Record {
        book,
        number: 0,
        beginning,
    });
    Records { next: first }
}

/// The records of a book that are still to come.
#[derive(Clone, Debug)]
pub struct Records<'b> {
    next: Option<Record<'b>>,
}

impl<'b> Iterator for Records<'b> {
    type Item = Record<'b>;

    fn next(&mut self) -> Option<Record<'b>> {
        let record = self.next?;
        // The record behind one is record 1 of the book from that one on.
        let behind = find_record(&record.book[record.beginning..], 1);
        self.next = behind.map(|further| Record {
            number: record.number + 1,
            beginning: record.beginning + further,
            ..record
        });
        Some(record)
    }
}

impl FusedIterator for Records<'_> {}

#[cfg(test)]
mod tests {
    use super::{check_into, Slots};

    /// All eight numbers of the answer, full of other bits before.
    fn slots(text: &[u8], room: usize) -> Slots {
        let mut slots = [u64::MAX; 8];
        check_into(text, &mut vec![0xA5; room], &mut slots);
        slots
    }

    #[test]
    fn every_number_of_the_answer_is_written() {
        let text = br#"INTERLIS 2.4;MODEL M AT "u" VERSION "1"=DOMAIN T=-10..40;END M."#;
        assert_eq!(slots(text, 35), [0, 0, 0, 0, 35, 1, 0, 0]);
        assert_eq!(slots(text, 65_535), [0, 0, 0, 0, 35, 1, 0, 0]);
        assert_eq!(slots(text, 34), [19, 47, 1, 48, 0, 0, 0, 0]);
        assert_eq!(slots(b"", 0), [5, 0, 1, 1, 0, 0, 0, 0]);
        assert_eq!(
            slots(&[b'\n'; 65_535], 9),
            [5, 65_535, 65_536, 1, 0, 0, 0, 0]
        );
        assert_eq!(slots(&[b'\n'; 65_536], 9), [1, 0, 1, 1, 0, 0, 0, 0]);
        assert_eq!(slots(b"INTERLIS\r\n 2.3;", 9), [7, 11, 2, 2, 0, 0, 0, 0]);
    }

    #[test]
    fn what_an_answer_does_not_have_is_0() {
        for seed in 0..3_000 {
            let case = cases::gen_small(seed);
            let [number, at @ .., length, definitions, edition, passed] =
                slots(&case.text, case.buffer_len);
            let place: [u64; 3] = at;
            match number {
                0 => assert_eq!(place, [0; 3], "seed {seed}"),
                _ => assert_eq!((length, definitions), (0, 0), "seed {seed}"),
            }
            assert_eq!((edition, passed), (0, 0), "seed {seed}");
        }
    }
}
