//! Finding a record, showing the name of the record at a beginning, and the two
//! in a row: each rule on both sides.

mod common;
use common::*;
use peer::{find_record, name_part, show_name};

const TEXT: &[u8] = b"abcdef";

/// The kinds, each with the length of its body.
const BODIES: [(u8, usize); 19] = [
    (1, 5),
    (2, 5),
    (3, 0),
    (4, 10),
    (5, 10),
    (6, 10),
    (7, 10),
    (8, 4),
    (9, 4),
    (10, 17),
    (11, 0),
    (12, 4),
    (13, 1),
    (14, 5),
    (15, 0),
    (16, 0),
    (17, 4),
    (18, 10),
    (19, 4),
];

const NAMED: [u8; 8] = [1, 2, 4, 5, 6, 7, 14, 18];

const NO_KINDS: [u8; 6] = [0, 20, 21, 64, 128, 255];

/// A record of this kind: the name `bc`, as far as the body has room, then zeros.
fn record(kind: u8, body: usize) -> Vec<u8> {
    let mut record = vec![kind, 1, 0, 0, 0, 2];
    record.resize(1 + body, 0);
    record
}

/// An element with this name.
fn element(place: u32, length: u8) -> Vec<u8> {
    let mut book = vec![14];
    book.extend(place.to_le_bytes());
    book.push(length);
    book
}

#[test]
fn the_records_of_a_model() {
    let text = model("TOPIC Tt=CLASS Cc=aa:(xx);END Cc;END Tt;");
    let book = passes_text(&text);
    let records = [
        (0, "M"),
        (6, "Tt"),
        (12, "Cc"),
        (23, "aa"),
        (34, ""),
        (36, "xx"),
        (42, ""),
        (43, ""),
        (44, ""),
    ];
    for (number, (beginning, name)) in records.into_iter().enumerate() {
        assert_eq!(find_record(&book, number), Some(beginning));
        let found = show_name(text.as_bytes(), &book, beginning);
        assert_eq!(found, name.as_bytes());
        assert_eq!(shown(&text, &book, number), name);
    }
    for number in [4, 6, 7, 8, 9, 10, 1000, usize::MAX] {
        assert_eq!(part(text.as_bytes(), &book, number), (0, 0));
    }
    for number in [9, 10, 1000, 1 << 32, usize::MAX] {
        assert_eq!(find_record(&book, number), None);
    }
}

#[test]
fn books_cut_anywhere() {
    let book = bytes("01 01000000 02  07 02000000 03 00 FFFFFFFF  0B");
    let records = [(0, 6, (1, 2)), (6, 17, (2, 3)), (17, 18, (0, 0))];
    for length in 0..=book.len() {
        let cut = &book[..length];
        for (number, (beginning, end, name)) in records.into_iter().enumerate() {
            let is_whole = length >= end;
            let found = find_record(cut, number);
            assert_eq!(found, is_whole.then_some(beginning));
            let expected = if is_whole { name } else { (0, 0) };
            assert_eq!(name_part(TEXT, cut, beginning), expected);
            assert_eq!(part(TEXT, cut, number), expected);
        }
        assert_eq!(find_record(cut, 3), None);
    }
}

#[test]
fn each_kind_whole_and_without_its_last_byte() {
    for (kind, body) in BODIES {
        let book = record(kind, body);
        let name = if NAMED.contains(&kind) {
            (1, 2)
        } else {
            (0, 0)
        };
        assert_eq!(find_record(&book, 0), Some(0), "kind {kind}");
        assert_eq!(find_record(&book, 1), None, "kind {kind}");
        assert_eq!(name_part(TEXT, &book, 0), name, "kind {kind}");
        let cut = &book[..body];
        assert_eq!(find_record(cut, 0), None, "kind {kind}");
        assert_eq!(name_part(TEXT, cut, 0), (0, 0), "kind {kind}");
    }
}

#[test]
fn a_record_behind_each_kind() {
    for (kind, body) in BODIES {
        let mut book = record(kind, body);
        book.extend(element(3, 2));
        assert_eq!(find_record(&book, 1), Some(1 + body), "kind {kind}");
        assert_eq!(part(TEXT, &book, 1), (3, 2), "kind {kind}");
        // Without its last byte it is none, and the one before still is.
        book.pop();
        assert_eq!(find_record(&book, 0), Some(0), "kind {kind}");
        assert_eq!(find_record(&book, 1), None, "kind {kind}");
    }
}

#[test]
fn of_no_kind() {
    for kind in NO_KINDS {
        let mut book = vec![kind];
        book.extend(element(1, 2));
        book.extend([0; 20]);
        for number in 0..8 {
            assert_eq!(find_record(&book, number), None);
            assert_eq!(part(TEXT, &book, number), (0, 0));
        }
        assert_eq!(name_part(TEXT, &book, 0), (0, 0));
        // What is behind it can be shown, if not found.
        assert_eq!(name_part(TEXT, &book, 1), (1, 2));
    }
}

#[test]
fn what_follows_a_record_is_not_looked_at() {
    let tails = NO_KINDS.map(|kind| vec![kind]).into_iter();
    for tail in tails.chain([vec![], vec![10], vec![14, 0, 0, 0, 0], vec![255; 40]]) {
        let mut book = element(1, 2);
        book.push(3);
        book.extend(tail);
        assert_eq!(find_record(&book, 0), Some(0));
        assert_eq!(find_record(&book, 1), Some(6));
        assert_eq!(find_record(&book, 2), None);
        assert_eq!(name_part(TEXT, &book, 0), (1, 2));
        assert_eq!(name_part(TEXT, &book, 6), (0, 0));
    }
}

#[test]
fn names_at_the_texts_end() {
    let part = |place: u32, length: u8| name_part(TEXT, &element(place, length), 0);
    assert_eq!(part(0, 6), (0, 6));
    assert_eq!(part(0, 7), (0, 0));
    assert_eq!(part(4, 2), (4, 2));
    assert_eq!(part(4, 3), (0, 0));
    assert_eq!(part(5, 2), (0, 0));
    assert_eq!(part(u32::MAX, 255), (0, 0));
    // A name of length 0 is the empty part at its own offset.
    assert_eq!(part(3, 0), (3, 0));
    assert_eq!(part(6, 0), (6, 0));
    assert_eq!(part(7, 0), (0, 0));
    assert_eq!(show_name(TEXT, &element(7, 0), 0), b"");
    assert_eq!(show_name(b"", &element(0, 1), 0), b"");
    assert_eq!(name_part(b"", &element(0, 0), 0), (0, 0));
    // Its record is found all the same.
    assert_eq!(find_record(&element(u32::MAX, 255), 0), Some(0));
}

#[test]
fn beginnings_anywhere() {
    // A range whose second bound reads as an element, and a model behind it.
    let book = bytes("0A 00 0000000000000000 0E03000000020000 01 01000000 02");
    assert_eq!(find_record(&book, 1), Some(18));
    for beginning in 0..book.len() + 3 {
        let expected = match beginning {
            10 => (3, 2),
            18 => (1, 2),
            _ => (0, 0),
        };
        let found = name_part(TEXT, &book, beginning);
        assert_eq!(found, expected, "from byte {beginning}");
    }
    for beginning in [1 << 32, (1 << 32) + 10, usize::MAX - 1, usize::MAX] {
        assert_eq!(name_part(TEXT, &book, beginning), (0, 0));
    }
    // Within a name: a body's byte is read as a kind.
    let book = bytes("01 02 05000000 01");
    assert_eq!(name_part(TEXT, &book, 1), (5, 1));
}

#[test]
fn books_with_nothing() {
    for number in [0, 1, usize::MAX] {
        assert_eq!(find_record(b"", number), None);
        assert_eq!(name_part(TEXT, b"", number), (0, 0));
        assert_eq!(name_part(b"", b"", number), (0, 0));
    }
}

/// Showing by number, as document 01 has it: over the records of the book, as far
/// as they are whole and of a kind.
fn by_number(text: &[u8], book: &[u8], number: usize) -> (usize, usize) {
    let mut records = Vec::new();
    let mut rest = book;
    while let Some(&(_, body)) = BODIES.iter().find(|(kind, _)| rest.first() == Some(kind)) {
        if rest.len() <= body {
            break;
        }
        let (record, behind) = rest.split_at(1 + body);
        records.push(record);
        rest = behind;
    }
    let named = records
        .get(number)
        .filter(|record| NAMED.contains(&record[0]));
    let part = named.map(|record| {
        let place = u32::from_le_bytes(record[1..5].try_into().expect("four bytes"));
        (place as usize, usize::from(record[5]))
    });
    part.filter(|(start, length)| start + length <= text.len())
        .unwrap_or((0, 0))
}

#[test]
fn two_in_a_row_show_by_number() {
    let mut state = 1_u64;
    let mut below = |limit: u64| {
        state = state
            .wrapping_mul(6_364_136_223_846_793_005)
            .wrapping_add(1);
        (state >> 33) % limit
    };
    let mut names = 0;
    for _ in 0..20_000 {
        let mut book = Vec::new();
        for _ in 0..below(8) {
            let (kind, body) = BODIES[below(19) as usize];
            let mut record = record(kind, body);
            let at = below(2 * record.len() as u64) as usize;
            if let Some(byte) = record.get_mut(at) {
                *byte = below(22) as u8;
            }
            book.extend(record);
        }
        book.truncate(book.len().saturating_sub(below(4) as usize));
        for number in 0..10 {
            let expected = by_number(TEXT, &book, number);
            assert_eq!(part(TEXT, &book, number), expected, "{book:?}");
            names += usize::from(expected.1 > 0);
        }
    }
    assert!(names > 5_000, "{names}");
}
