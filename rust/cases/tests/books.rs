//! The books that records are looked for in: each way to be whole or broken comes
//! often, and walking a book once is finding each of its records from the front.

use std::collections::HashMap;

use cases::{any_beginning, any_book, any_record, beginnings, book_of, gen_small, is_named};
use cases::{Random, SIZES};
use peer::{find_record, name_part};

/// A text and a book of each seed, and what draws the records and beginnings.
fn every(seeds: std::ops::Range<u64>, mut judge: impl FnMut(&[u8], &[u8], &mut Random)) {
    for seed in seeds {
        let text = gen_small(seed).text;
        let mut random = Random::new(seed);
        let book = any_book(&mut random, &text, book_of(&text));
        judge(&text, &book, &mut random);
    }
}

/// What there is at this byte of the book.
fn at(text: &[u8], book: &[u8], beginning: usize) -> &'static str {
    let Some(rest) = book.get(beginning..) else {
        return "past the book";
    };
    let Some(&kind) = rest.first() else {
        return "the book's end";
    };
    match SIZES.get(usize::from(kind)) {
        None | Some(0) => return "no kind",
        Some(&size) if size > rest.len() => return "cut off",
        Some(_) => {}
    }
    if !is_named(kind) {
        return "nameless";
    }
    let start = u32::from_le_bytes(rest[1..5].try_into().expect("four bytes")) as usize;
    match (start + usize::from(rest[5])).cmp(&text.len()) {
        std::cmp::Ordering::Greater => "a name past the text",
        _ if rest[5] == 0 => "an empty name",
        std::cmp::Ordering::Equal => "a name that ends with the text",
        std::cmp::Ordering::Less => "a name",
    }
}

/// No record, at or before the book's end; and what a record that is found shows.
const NOT_FOUND: [&str; 3] = ["the book's end", "no kind", "cut off"];
const FOUND: [&str; 5] = [
    "nameless",
    "a name past the text",
    "an empty name",
    "a name that ends with the text",
    "a name",
];

/// Each of these comes in one of two hundred draws.
fn often(found: &HashMap<&str, usize>, wanted: &[&str]) {
    let draws: usize = found.values().sum();
    for word in wanted {
        let count = found.get(word).copied().unwrap_or(0);
        assert!(count * 200 >= draws, "{word}: {count} of {draws}");
    }
}

#[test]
fn every_flavour_is_shown() {
    let (mut anywhere, mut first_not_found) = (HashMap::new(), HashMap::new());
    let mut found = HashMap::new();
    every(0..20_000, |text, book, random| {
        let beginning = any_beginning(random, book);
        *anywhere.entry(at(text, book, beginning)).or_default() += 1;
        if let Some(beginning) = find_record(book, any_record(random, book)) {
            *found.entry(at(text, book, beginning)).or_default() += 1;
        }
        let last = beginnings(book).last();
        let end = last.map_or(0, |last| last + SIZES[usize::from(book[last])]);
        let word = at(text, book, end);
        *first_not_found.entry(word).or_default() += 1;
    });
    often(&anywhere, &["past the book"]);
    often(&anywhere, &NOT_FOUND);
    often(&anywhere, &FOUND);
    often(&found, &FOUND);
    often(&first_not_found, &NOT_FOUND);
    assert_eq!(found.len(), FOUND.len());
    assert_eq!(first_not_found.len(), NOT_FOUND.len());
}

#[test]
fn every_record_is_asked_for() {
    let mut found = HashMap::new();
    every(0..20_000, |_, book, random| {
        let count = beginnings(book).count();
        let word = match any_record(random, book) {
            usize::MAX => "the greatest number",
            0 if count > 0 => "the first",
            record if record + 1 == count => "the last",
            record if record < count => "one between",
            record if record == count => "the one behind",
            _ => "one further off",
        };
        *found.entry(word).or_default() += 1;
    });
    let wanted: Vec<&str> = found.keys().copied().collect();
    assert_eq!(wanted.len(), 6);
    often(&found, &wanted);
}

#[test]
fn walking_once_is_finding_from_the_front() {
    every(20_000..24_000, |text, book, _| {
        let walked: Vec<usize> = beginnings(book).collect();
        for (number, &beginning) in walked.iter().enumerate() {
            assert_eq!(find_record(book, number), Some(beginning));
            // The book from there on shows the same name.
            let part = name_part(text, book, beginning);
            assert_eq!(name_part(text, &book[beginning..], 0), part);
        }
        assert_eq!(find_record(book, walked.len()), None);
    });
}
