//! Books to find records in and to show names by, most of them broken, with
//! records to ask for and beginnings to read from.

use std::iter;

use crate::random::Random;

/// The sizes of records by kind, the byte of kind with them; 0 for no kind.
pub const SIZES: [usize; 20] = [
    0, 6, 6, 1, 11, 11, 11, 11, 5, 5, 18, 1, 5, 2, 6, 1, 1, 5, 11, 5,
];

/// Whether records of this kind have a name.
pub fn is_named(kind: u8) -> bool {
    matches!(kind, 1 | 2 | 4..=7 | 14 | 18)
}

/// The book of a text; empty if the text is refused.
pub fn book_of(text: &[u8]) -> Vec<u8> {
    let mut book = vec![0; peer::LONGEST_BOOK];
    match peer::check(text, &mut book) {
        peer::Answer::Accepted { book_len, .. } => book.truncate(book_len),
        peer::Answer::Refused { .. } => book.clear(),
    }
    book
}

/// Mostly a kind or a number next to the kinds, else any byte.
fn byte(random: &mut Random) -> u8 {
    let limit = if random.chance(1, 8) { 256 } else { 22 };
    random.below(limit) as u8
}

/// A name within a text of this length, one that ends about where it does, or any;
/// often with no bytes.
fn name(random: &mut Random, text_len: usize) -> [u8; 5] {
    let limit = if random.chance(1, 8) { 256 } else { 4 };
    let length = random.below(limit);
    let place = match random.below(6) {
        0 => random.draw() as usize,
        1 | 2 => (text_len + random.below(3)).saturating_sub(length + 1),
        _ => random.below(text_len + 1),
    };
    let [a, b, c, d] = (place as u32).to_le_bytes();
    [a, b, c, d, length as u8]
}

/// A book of any bytes: pieces that begin as records do, some of them a byte too
/// long or too short, and the last cut off or not.
fn drawn(random: &mut Random, text_len: usize) -> Vec<u8> {
    let mut book = Vec::new();
    for _ in 0..random.below(12) {
        let kind = match random.below(3) {
            0 => byte(random),
            _ => 1 + random.below(SIZES.len() - 1) as u8,
        };
        let mut piece = vec![kind];
        piece.extend(name(random, text_len));
        piece.extend(iter::repeat_with(|| byte(random)).take(13));
        let size = SIZES.get(usize::from(kind)).map_or(1, |&size| size.max(1));
        let off = if random.chance(1, 12) {
            random.below(3)
        } else {
            1
        };
        piece.truncate(size - 1 + off);
        book.extend(piece);
    }
    book.truncate(book.len().saturating_sub(random.below(4)));
    book
}

/// The book as it is, cut, changed in a byte, or with a byte behind; or, always
/// instead of an empty one, a book of any bytes.
pub fn any_book(random: &mut Random, text: &[u8], mut book: Vec<u8>) -> Vec<u8> {
    if book.is_empty() {
        return drawn(random, text.len());
    }
    let at = random.below(book.len());
    match random.below(6) {
        0 => {}
        1 => book.truncate(at),
        2 => book[at] = byte(random),
        3 => book.push(byte(random)),
        _ => return drawn(random, text.len()),
    }
    book
}

/// Where the records of a book begin, walked once.
pub fn beginnings(book: &[u8]) -> impl Iterator<Item = usize> + '_ {
    iter::successors(peer::find_record(book, 0), |&beginning| {
        let behind = peer::find_record(&book[beginning..], 1);
        behind.map(|further| beginning + further)
    })
}

/// The number of a record, of one near the last, or any number.
pub fn any_record(random: &mut Random, book: &[u8]) -> usize {
    let records = beginnings(book).count();
    match random.below(8) {
        0 => usize::MAX - random.below(2),
        1 => any_number(random, records + 1),
        2 | 3 => (records + random.below(4)).saturating_sub(2),
        _ => random.below(records + 1),
    }
}

/// Where a record begins, any byte of the book, its end, one past it, or any
/// number.
pub fn any_beginning(random: &mut Random, book: &[u8]) -> usize {
    match random.below(16) {
        0 => usize::MAX - random.below(2),
        1 => any_number(random, book.len() + 1),
        2 => book.len(),
        3 => book.len() + 1 + random.below(20),
        4..=8 => random.below(book.len().max(1)),
        _ => {
            let records: Vec<usize> = beginnings(book).collect();
            random.any(&records).copied().unwrap_or(usize::MAX)
        }
    }
}

/// A number of any size, or one below the limit with a high bit set, which a
/// machine with shorter numbers would take for it.
fn any_number(random: &mut Random, limit: usize) -> usize {
    if random.chance(1, 2) {
        return (random.draw() >> random.below(64)) as usize;
    }
    random.below(limit) | 1 << (16 + random.below(48))
}
