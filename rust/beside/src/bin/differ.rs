//! Runs generated cases through the archive and the independent checker, and
//! says where they differ: `differ [COUNT] [FIRST SEED]`, a million from seed 0
//! if not said otherwise.
//!
//! Of each seed: a case of `gen_small`, of every fourth seed one of `gen` too,
//! with the answers and the whole buffers, full of other bytes before; by its book
//! as it is, broken, or of any bytes, records found and names shown, now and then
//! all of them; a reading.

use std::process::ExitCode;

use beside::Checker;
use cases::{any_beginning, any_book, any_record, gen, gen_small, Case, Random};
use peer::Answer;

/// What was compared, and how often it differed.
#[derive(Default)]
struct Tally {
    accepted: u64,
    refused: [u64; 23],
    found: u64,
    shown: u64,
    walked: u64,
    readings: u64,
    differences: u64,
}

impl Tally {
    fn differs(&mut self, what: &str, found: &str, expected: &str) {
        self.differences += 1;
        println!("{what}: the archive says {found}, the independent checker {expected}");
    }

    /// The book of the case, of either checker if they agree.
    fn case(&mut self, word: &str, case: &Case) -> Vec<u8> {
        let (mut book, mut expected) = (vec![0xA5; case.buffer_len], vec![0x5A; case.buffer_len]);
        let found = Checker::Archive.check(&case.text, &mut book);
        let wanted = Checker::Peer.check(&case.text, &mut expected);
        if found != wanted {
            self.differs(word, &found.to_string(), &wanted.to_string());
        } else if book != expected {
            self.differs(word, "another buffer", &wanted.to_string());
        }
        match wanted {
            Answer::Accepted { book_len, .. } => {
                self.accepted += 1;
                expected.truncate(book_len);
                expected
            }
            Answer::Refused { number, .. } => {
                self.refused[usize::from(number)] += 1;
                Vec::new()
            }
        }
    }

    fn find(&mut self, word: &str, book: &[u8], record: usize) -> Option<usize> {
        self.found += 1;
        let found = auzuplens::find_record(book, record);
        let wanted = peer::find_record(book, record);
        if found != wanted {
            let what = format!("{word}, finding record {record} in {book:?}");
            self.differs(&what, &format!("{found:?}"), &format!("{wanted:?}"));
        }
        found
    }

    fn show(&mut self, word: &str, text: &[u8], book: &[u8], beginning: usize) {
        self.shown += 1;
        let found = auzuplens::show_name(text, book, beginning);
        let wanted = peer::show_name(text, book, beginning);
        if !std::ptr::eq(found, wanted) {
            let what = format!("{word}, the name from byte {beginning} of {book:?}");
            self.differs(&what, &format!("{found:?}"), &format!("{wanted:?}"));
        }
    }

    /// Every record of a book, walked once and found from the front.
    fn walk(&mut self, word: &str, text: &[u8], book: &[u8]) {
        let mut walk = auzuplens::records(book);
        for number in 0.. {
            let found = self.find(word, book, number);
            let walked = walk.next();
            let reached = walked.map(|record| (record.number(), record.beginning()));
            let wanted = found.map(|beginning| (number, beginning));
            if reached != wanted {
                let what = format!("{word}, walking to record {number} of {book:?}");
                self.differs(&what, &format!("{reached:?}"), &format!("{wanted:?}"));
            }
            let Some(beginning) = found else { break };
            self.walked += 1;
            self.show(word, text, book, beginning);
        }
    }

    /// Some records of a book like this one, and names from some of its bytes.
    fn records(&mut self, random: &mut Random, word: &str, text: &[u8], book: Vec<u8>) {
        let book = any_book(random, text, book);
        let text = match random.below(8) {
            0 => &text[..random.below(text.len() + 1)],
            _ => text,
        };
        for _ in 0..2 {
            let record = any_record(random, &book);
            let found = self.find(word, &book, record);
            self.show(word, text, &book, found.unwrap_or(usize::MAX));
            self.show(word, text, &book, any_beginning(random, &book));
        }
        if random.chance(1, 16) {
            self.walk(word, text, &book);
        }
    }

    fn reading(&mut self, random: &mut Random) {
        let power = 10_i64.pow(random.below(19) as u32);
        let value = match random.below(10) {
            0 => power,
            1 => -power,
            2 => power - 1,
            3 => 1 - power,
            4 => i64::MIN,
            5 => random.draw() as i64,
            _ => random.draw() as i64 % power,
        };
        let (decimals, base) = (random.below(20) as u64, random.below(20) as u64);
        self.readings += 1;
        let found = auzuplens::read_number(value, decimals, base);
        let wanted = peer::read_number(value, decimals, base);
        if found != wanted {
            let what = format!("reading {value} with {decimals} decimals at {base}");
            self.differs(&what, &format!("{found:?}"), &format!("{wanted:?}"));
        }
    }

    fn seed(&mut self, seed: u64) {
        let mut random = Random::new(seed ^ 0xD1FF);
        let word = format!("small case {seed}");
        let small = gen_small(seed);
        let book = self.case(&word, &small);
        self.records(&mut random, &word, &small.text, book);
        if seed.is_multiple_of(4) {
            let word = format!("case {seed}");
            let large = gen(seed);
            let book = self.case(&word, &large);
            self.records(&mut random, &word, &large.text, book);
        }
        self.reading(&mut random);
    }

    fn print(&self) {
        println!("accepted {:>9}", self.accepted);
        for (number, cases) in self.refused.iter().enumerate().skip(1) {
            println!("refused {number:>2} {cases:>7}");
        }
        println!("found    {:>9}", self.found);
        println!("shown    {:>9}", self.shown);
        println!("walked   {:>9}", self.walked);
        println!("readings {:>9}", self.readings);
        println!("differences {}", self.differences);
    }
}

fn main() -> ExitCode {
    let number = |position: usize, usual: u64| {
        let argument = std::env::args().nth(position);
        argument.map_or(usual, |argument| argument.parse().expect("a number"))
    };
    let (count, first) = (number(1, 1_000_000), number(2, 0));
    let mut tally = Tally::default();
    for seed in first..first + count {
        tally.seed(seed);
    }
    tally.print();
    ExitCode::from(u8::from(tally.differences > 0))
}
