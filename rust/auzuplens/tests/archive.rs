//! The archive by way of the wrapper: document 01's examples, lines and columns,
//! the part of the caller's text that a name is, the records of whole and of
//! broken books, long texts on a thread of 2 megabytes, and generated cases beside
//! the independent checker.

use std::thread;

use auzuplens::{check, find_record, read_number, records, show_name, Answer};
use cases::{any_beginning, any_book, any_record, gen, gen_small, stretched, Random};

const THERMOMETER: &[u8] = br#"INTERLIS 2.4;MODEL M AT "u" VERSION "1"=DOMAIN T=-10..40;END M."#;

fn accepted(book_len: usize, definitions: usize) -> Answer {
    Answer::Accepted {
        book_len,
        definitions,
    }
}

fn refused(number: u8, place: usize, line: usize, column: usize) -> Answer {
    Answer::Refused {
        number,
        place,
        line,
        column,
    }
}

fn beside(answer: peer::Answer) -> Answer {
    match answer {
        peer::Answer::Accepted {
            book_len,
            definitions,
        } => accepted(book_len, definitions),
        peer::Answer::Refused {
            number,
            place,
            line,
            column,
        } => refused(number, place, line, column),
    }
}

/// Both checkers on one text, with other bytes in the buffers before.
#[track_caller]
fn agree(text: &[u8], room: usize) -> Answer {
    let (mut book, mut expected) = (vec![0xA5; room], vec![0x5A; room]);
    let answer = check(text, &mut book);
    assert_eq!(answer, beside(peer::check(text, &mut expected)));
    assert!(book == expected, "the buffers differ");
    answer
}

#[test]
fn the_63_bytes() {
    let mut book = [1; 35];
    assert_eq!(check(THERMOMETER, &mut book), accepted(35, 1));
    assert_eq!(book[..6], [1, 19, 0, 0, 0, 1]);
    let listed: Vec<_> = records(&book)
        .map(|record| {
            let name = record.name(THERMOMETER);
            (record.number(), record.beginning(), record.kind(), name)
        })
        .collect();
    let expected: [(usize, usize, u8, &[u8]); 3] =
        [(0, 0, 1, b"M"), (1, 6, 7, b"T"), (2, 17, 10, b"")];
    assert_eq!(listed, expected);
    assert_eq!(check(THERMOMETER, &mut book[..34]), refused(19, 47, 1, 48));
    assert_eq!(book[..34], [0; 34]);
    assert_eq!(check(b"", &mut []), refused(5, 0, 1, 1));
    assert_eq!(check(THERMOMETER, &mut []), refused(19, 19, 1, 20));
    assert_eq!(agree(THERMOMETER, 70_000), accepted(35, 1));
    assert_eq!(agree(&[b' '; 65_536], 10), refused(1, 0, 1, 1));
}

#[test]
fn lines_and_columns() {
    for (text, line, column) in [
        ("INTERLIS 2.3;", 1, 10),
        ("INTERLIS\n 2.3;", 2, 2),
        ("INTERLIS\r2.3;", 2, 1),
        ("INTERLIS\r\n2.3;", 2, 1),
        ("INTERLIS\n\r2.3;", 3, 1),
        ("INTERLIS/*\r*/ 2.3;", 2, 4),
        ("INTERLIS !!\r\n2.3;", 2, 1),
    ] {
        let place = text.find("2.3").expect("it is there");
        let expected = refused(7, place, line, column);
        assert_eq!(agree(text.as_bytes(), 10), expected, "{text:?}");
    }
    assert_eq!(agree(b"INTERLIS 2.4;\r\n", 0), refused(5, 15, 2, 1));
    assert_eq!(agree(&[b'\n'; 65_535], 0), refused(5, 65_535, 65_536, 1));
    let doubled = br#"INTERLIS 2.4;MODEL M AT "u" VERSION "1"=DOMAIN D=(a,/*
*/ a);END M."#;
    assert_eq!(agree(doubled, 99), refused(9, 58, 2, 4));
    let string = b"INTERLIS 2.4;\rMODEL M AT \"a\nb\"";
    assert_eq!(agree(string, 99), refused(2, 27, 2, 14));
}

#[test]
fn readings() {
    let power = 10_i64.pow(17);
    assert_eq!(read_number(power, 0, 1), Err(21));
    assert_eq!(read_number(power - 1, 0, 1), Ok((power - 1) * 10));
    assert_eq!(read_number(-25, 1, 0), Ok(-2));
    assert_eq!(read_number(0, 18, 0), Err(20));
    assert_eq!(read_number(i64::MIN, 0, 0), Err(20));
    assert_eq!(read_number(5, u64::MAX, 0), Err(20));
}

/// A name is a part of the text that was lent, not a copy; without a name it is
/// the empty part at the text's start.
#[test]
fn names_are_parts_of_the_text() {
    let mut book = [0; 35];
    check(THERMOMETER, &mut book);
    let name = show_name(THERMOMETER, &book, 6);
    assert!(std::ptr::eq(name, &THERMOMETER[47..48]));
    for beginning in [5, 7, 17, 34, 35, 36, usize::MAX] {
        let name = show_name(THERMOMETER, &book, beginning);
        assert!(std::ptr::eq(name, &THERMOMETER[..0]), "{beginning}");
    }
    assert_eq!(show_name(&THERMOMETER[..47], &book, 6), b"");
    assert_eq!(show_name(b"", &[], 0), b"");
}

#[test]
fn records_are_found() {
    let mut book = [0; 35];
    check(THERMOMETER, &mut book);
    for (record, beginning) in [(0, 0), (1, 6), (2, 17)] {
        assert_eq!(find_record(&book, record), Some(beginning));
    }
    for record in [3, 1 << 32, usize::MAX] {
        assert_eq!(find_record(&book, record), None);
    }
    // What is behind the record asked for is not looked at.
    assert_eq!(find_record(&book[..34], 1), Some(6));
    assert_eq!(find_record(&book[..34], 2), None);
    book[6] = 20;
    assert_eq!(find_record(&book, 0), Some(0));
    assert_eq!(find_record(&book, 1), None);
    assert_eq!(find_record(&book, 2), None);
    assert_eq!(find_record(&[], 0), None);
}

/// Walking a book gives what finding each record from the front does, and no more.
#[track_caller]
fn walks(text: &[u8], book: &[u8]) {
    let mut walk = records(book);
    for number in 0.. {
        let found = find_record(book, number);
        let record = walk.next();
        assert_eq!(found, peer::find_record(book, number));
        assert_eq!(record.map(|record| record.beginning()), found);
        let Some(record) = record else { break };
        assert_eq!(record.number(), number);
        assert_eq!(record.kind(), book[record.beginning()]);
        let name = peer::show_name(text, book, record.beginning());
        assert!(std::ptr::eq(record.name(text), name));
    }
    assert_eq!(walk.next(), None);
}

#[test]
fn books_are_walked() {
    let mut book = [0; 36];
    check(THERMOMETER, &mut book[..35]);
    for length in 0..=book.len() {
        walks(THERMOMETER, &book[..length]);
    }
    for (at, kind) in [
        (0, 0),
        (0, 255),
        (6, 20),
        (6, 3),
        (17, 21),
        (17, 14),
        (35, 16),
    ] {
        let mut broken = book;
        broken[at] = kind;
        walks(THERMOMETER, &broken);
    }
    assert_eq!(records(&[3; 1_000]).count(), 1_000);
    assert_eq!(records(&[]).count(), 0);
}

#[test]
fn generated_books() {
    for seed in 0..3_000 {
        let case = if seed % 10 == 0 {
            gen(seed)
        } else {
            gen_small(seed)
        };
        let mut book = vec![0; case.buffer_len];
        let length = match check(&case.text, &mut book) {
            Answer::Accepted { book_len, .. } => book_len,
            Answer::Refused { .. } => 0,
        };
        book.truncate(length);
        walks(&case.text, &book);
        let mut random = Random::new(seed);
        let book = any_book(&mut random, &case.text, book);
        walks(&case.text, &book);
        let (record, beginning) = (
            any_record(&mut random, &book),
            any_beginning(&mut random, &book),
        );
        assert_eq!(find_record(&book, record), peer::find_record(&book, record));
        let name = peer::show_name(&case.text, &book, beginning);
        assert!(std::ptr::eq(show_name(&case.text, &book, beginning), name));
    }
}

#[test]
fn long_texts_on_a_thread_of_2_megabytes() {
    let texts = stretched(65_535);
    assert!(texts.iter().any(|(_, text)| text.len() == 65_535));
    let run = move || {
        for (word, text) in &texts {
            let answer = agree(text, 65_535);
            assert_ne!(answer, refused(1, 0, 1, 1), "{word}");
        }
    };
    let thread = thread::Builder::new().stack_size(2 << 20).spawn(run);
    thread.expect("it starts").join().expect("it ends");
}

#[test]
fn generated_cases() {
    for seed in 0..3_000 {
        for case in [gen_small(seed), gen(seed)] {
            agree(&case.text, case.buffer_len);
        }
    }
}
