//! The stored cases get the answers that are known of them beforehand, and they
//! are what they are said to be.

use cases::stored::{stored, Stored};
use peer::{check, Answer};

fn checked(stored: &Stored) -> Answer {
    let mut buffer = vec![0xA5; stored.case.buffer_len];
    check(&stored.case.text, &mut buffer)
}

/// The refusal's number and place, and its line and column; zeros if there is none.
fn answer(stored: &Stored) -> ((u8, usize), (usize, usize)) {
    match checked(stored) {
        Answer::Accepted { .. } => ((0, 0), (0, 0)),
        Answer::Refused {
            number,
            place,
            line,
            column,
        } => ((number, place), (line, column)),
    }
}

#[test]
fn known_answers() {
    let stored = stored();
    let differs = |stored: &&Stored| {
        let (said, stands) = answer(stored);
        stored.said.is_some_and(|known| known != said)
            || stored.stands.is_some_and(|known| known != stands)
    };
    let wrong: Vec<String> = stored
        .iter()
        .filter(differs)
        .map(|stored| format!("{} for {:.300?}", checked(stored), stored.word))
        .collect();
    assert!(wrong.is_empty(), "{}", wrong.join("\n"));
    let on_lines = stored.iter().filter(|stored| stored.stands.is_some());
    assert!(on_lines.count() >= 100);
}

#[test]
fn at_least_3000_with_every_refusal() {
    let stored = stored();
    assert!(stored.len() >= 3_000, "{}", stored.len());
    for number in (0..=19).chain([22]) {
        let some = stored.iter().any(|stored| answer(stored).0 .0 == number);
        assert!(some, "none with {number}");
    }
}

#[test]
fn lengths_that_the_program_takes() {
    for Stored { word, case, .. } in stored() {
        assert!(case.text.len() <= 65_536, "{word}");
        assert!(case.buffer_len <= 131_072, "{word}");
    }
}
