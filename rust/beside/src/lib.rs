//! The proved checker's archive and the independent checker, side by side.
#![forbid(unsafe_code)]

use cases::{ordinary, stretched};
use peer::Answer;

/// The longest text, and a buffer that takes any book.
pub const LONGEST: usize = 65_535;

/// The texts that are timed, each with a word on it: ordinary ones and stretched
/// ones, or the same so many times smaller.
pub fn texts(times: usize) -> Vec<(String, Vec<u8>)> {
    let models = [4_096, 60_000].map(|size| {
        let word = format!("ordinary model of {} KB", size / 1_000);
        (word, ordinary(size / times))
    });
    let hostile = stretched(LONGEST / times);
    let named = hostile
        .into_iter()
        .map(|(word, text)| (word.to_owned(), text));
    models.into_iter().chain(named).collect()
}

/// Which of the two: the archive, or the independent checker.
#[derive(Clone, Copy, Debug, PartialEq, Eq)]
pub enum Checker {
    Archive,
    Peer,
}

impl Checker {
    pub fn check(self, text: &[u8], book: &mut [u8]) -> Answer {
        match self {
            Checker::Archive => same(auzuplens::check(text, book)),
            Checker::Peer => peer::check(text, book),
        }
    }
}

/// The archive's answer as the independent checker would give it.
fn same(answer: auzuplens::Answer) -> Answer {
    match answer {
        auzuplens::Answer::Accepted {
            book_len,
            definitions,
        } => Answer::Accepted {
            book_len,
            definitions,
        },
        auzuplens::Answer::Refused {
            number,
            place,
            line,
            column,
        } => Answer::Refused {
            number,
            place,
            line,
            column,
        },
    }
}
