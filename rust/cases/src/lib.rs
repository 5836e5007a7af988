//! Cases from a seed: nearly valid models, about half of them damaged in one
//! to three places, each with the length of a buffer to lend.
#![forbid(unsafe_code)]

mod books;
mod chosen;
mod damage;
mod flavours;
mod layout;
mod random;
mod shapes;
mod sketch;
pub mod stored;
mod stretched;

pub use books::{any_beginning, any_book, any_record, beginnings, book_of, is_named, SIZES};
pub use chosen::chosen;
pub use flavours::{flavours, FLAVOURS, LARGE_ONLY};
use peer::Answer;
pub use random::Random;
use sketch::{Fault, Sketch, Style};
pub use stretched::{ordinary, stretched};

/// A text to check, and how long a buffer to lend.
#[derive(Clone, Debug, PartialEq, Eq)]
pub struct Case {
    pub text: Vec<u8>,
    pub buffer_len: usize,
}

/// The longest text that `gen_small` gives.
pub const SMALL: usize = 200;

/// A case with a text of up to a few thousand bytes.
pub fn gen(seed: u64) -> Case {
    let mut random = Random::new(seed);
    let definitions = 1 + random.below(12) + random.below(8);
    let text = text(&mut random, Style::Large, definitions);
    let buffer_len = buffer_len(&mut random, &text);
    Case { text, buffer_len }
}

/// A case with a text of at most 200 bytes.
pub fn gen_small(seed: u64) -> Case {
    let mut random = Random::new(seed ^ 0x5_3A11);
    let wanted = 1 + random.below(8);
    for attempt in 0.. {
        let definitions = if attempt < 5 { wanted } else { 1 };
        let text = text(&mut random, Style::Small, definitions);
        if text.len() <= SMALL {
            let buffer_len = buffer_len(&mut random, &text);
            return Case { text, buffer_len };
        }
    }
    unreachable!("some text of one definition is short")
}

fn text(random: &mut Random, style: Style, definitions: usize) -> Vec<u8> {
    let damages = if random.chance(1, 2) {
        1 + random.below(3)
    } else {
        0
    };
    // Some faults are planned while the model is drawn up, the rest is done
    // to its symbols or bytes afterwards.
    let planned = (0..damages).filter(|_| random.chance(5, 6)).count();
    let faults = (0..planned).map(|_| Fault::any(random)).collect();
    let mut sketch = Sketch::new(random, style, faults);
    let mut symbols = sketch.model(definitions);
    let unused = sketch.faults_left();
    let left = damages - planned + (0..unused).filter(|_| random.chance(1, 3)).count();
    let in_bytes = (0..left).filter(|_| random.chance(1, 3)).count();
    for _ in in_bytes..left {
        damage::symbols(random, &mut symbols);
    }
    let mut text = layout::laid_out(random, &symbols, style);
    for _ in 0..in_bytes {
        damage::bytes(random, &mut text);
    }
    text
}

/// Any length that may matter: none, tiny, about the book's, the usual one,
/// and longer ones.
fn buffer_len(random: &mut Random, text: &[u8]) -> usize {
    match random.below(40) {
        0 => random.below(8),
        1 => random.below(80),
        2..=11 => {
            let book = book_len(text).unwrap_or_else(|| random.below(500));
            match random.below(7) {
                0..=2 => book,
                3 => book.saturating_sub(1),
                4 | 5 => random.below(book + 1),
                _ => book + 1 + random.below(20),
            }
        }
        12 | 13 => 65_536 + random.below(5_000),
        14 => 65_536,
        15 => 65_534,
        _ => 65_535,
    }
}

fn book_len(text: &[u8]) -> Option<usize> {
    let mut buffer = vec![0; peer::LONGEST_BOOK];
    match peer::check(text, &mut buffer) {
        Answer::Accepted { book_len, .. } => Some(book_len),
        Answer::Refused { .. } => None,
    }
}
