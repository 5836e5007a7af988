//! Helpers: a model around a body, and places marked by `^`, a byte that
//! stands for itself nowhere in these texts.
#![allow(dead_code)]

use peer::{check, find_record, name_part, Answer};

pub const HEAD: &str = r#"INTERLIS 2.4;MODEL M AT "u" VERSION "1"="#;

/// A model with this body.
pub fn model(body: &str) -> String {
    format!("{HEAD}{body} END M.")
}

/// The answer with a buffer of 65,535 bytes, and the book; checks the zeros.
pub fn answer(text: &[u8]) -> (Answer, Vec<u8>) {
    answer_in(text, 65_535)
}

/// The same with a buffer of this length, full of other bytes before.
pub fn answer_in(text: &[u8], room: usize) -> (Answer, Vec<u8>) {
    let mut buffer = vec![0xA5; room];
    let answer = check(text, &mut buffer);
    let length = match answer {
        Answer::Accepted { book_len, .. } => book_len,
        Answer::Refused { .. } => 0,
    };
    assert!(
        buffer[length..].iter().all(|&byte| byte == 0),
        "zeros behind the book"
    );
    buffer.truncate(length);
    (answer, buffer)
}

#[track_caller]
pub fn passes_text(text: &str) -> Vec<u8> {
    match answer(text.as_bytes()) {
        (Answer::Accepted { .. }, book) => book,
        (refused, _) => panic!("{refused:?} for {}", shortened(text)),
    }
}

#[track_caller]
pub fn passes(body: &str) -> Vec<u8> {
    passes_text(&model(body))
}

/// A refusal at a place of the text. Its line and column are counted in what stands
/// before, as an editor does that makes every line end an LF; the place is not
/// within a line end.
pub fn refusal(text: &[u8], number: u8, place: usize) -> Answer {
    let before: String = text[..place].iter().copied().map(char::from).collect();
    let unified = before.replace("\r\n", "\n").replace('\r', "\n");
    let last = unified.rsplit('\n').next().unwrap_or("");
    Answer::Refused {
        number,
        place,
        line: 1 + unified.matches('\n').count(),
        column: 1 + last.chars().count(),
    }
}

/// The text, with `^` before the place, gets this refusal.
#[track_caller]
pub fn refused_text(number: u8, marked: &str) {
    let place = marked.find('^').expect("a mark for the place");
    let text = marked.replacen('^', "", 1);
    let expected = refusal(text.as_bytes(), number, place);
    let (found, _) = answer(text.as_bytes());
    assert_eq!(found, expected, "for {}", shortened(marked));
}

#[track_caller]
pub fn refused(number: u8, body: &str) {
    refused_text(number, &model(body));
}

fn shortened(text: &str) -> String {
    text.chars().take(300).collect()
}

/// Each line is an example: a number and a body with a mark, or 0 and one that is
/// accepted.
pub fn examples(lines: &str, count: usize) {
    assert_eq!(lines.lines().count(), count);
    for line in lines.lines() {
        let (number, body) = line.split_once(' ').expect("a number and a body");
        match number.parse().expect("a number") {
            0 => drop(passes_text(&format!("{HEAD}{body}END M."))),
            number => refused_text(number, &format!("{HEAD}{body}END M.")),
        }
    }
}

/// On a buffer of every length the text is refused by 19 at the place of the first
/// record that does not fit, or accepted. Of each unit: where its records end, and
/// its place.
pub fn every_buffer(text: &str, ends: &[(usize, usize)]) {
    let most = ends[ends.len() - 1].0;
    for room in 0..most + 15 {
        let (found, book) = answer_in(text.as_bytes(), room);
        match ends.iter().find(|(end, _)| *end > room) {
            Some(&(_, place)) => assert_eq!(found, refusal(text.as_bytes(), 19, place)),
            None => assert_eq!(book.len(), most),
        }
    }
}

/// Bytes from hexadecimal digits; blanks are passed over.
pub fn bytes(hexadecimal: &str) -> Vec<u8> {
    let digits: Vec<u32> = hexadecimal.chars().filter_map(|c| c.to_digit(16)).collect();
    digits
        .chunks(2)
        .map(|pair| (pair[0] * 16 + pair[1]) as u8)
        .collect()
}

/// Where the name of the record with this number stands: found, then shown.
pub fn part(text: &[u8], book: &[u8], record: usize) -> (usize, usize) {
    let beginning = find_record(book, record).unwrap_or(usize::MAX);
    name_part(text, book, beginning)
}

/// The name of the record with this number.
pub fn shown<'t>(text: &'t str, book: &[u8], record: usize) -> &'t str {
    let (start, length) = part(text.as_bytes(), book, record);
    &text[start..start + length]
}
