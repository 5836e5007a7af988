//! Times the archive and the independent checker side by side and prints the
//! tables of `docs/BENCH.md`: the least of several runs each, and how the
//! archive's time grows from half of a size to the whole. The first is of checks,
//! on a buffer of 65,535 bytes that neither clears before; the second of listing
//! the records of a book, by the archive alone.

use std::hint::black_box;
use std::time::{Duration, Instant};

use auzuplens::{find_record, records, show_name};
use beside::{texts, Checker, LONGEST};

/// The least time of one run, in microseconds: runs for a tenth of a second, and
/// five times at least.
fn least(mut run: impl FnMut()) -> f64 {
    let mut least = Duration::MAX;
    let begin = Instant::now();
    let mut runs = 0;
    while runs < 5 || begin.elapsed() < Duration::from_millis(100) {
        let before = Instant::now();
        run();
        least = least.min(before.elapsed());
        runs += 1;
    }
    least.as_secs_f64() * 1e6
}

fn check_time(checker: Checker, text: &[u8], book: &mut [u8]) -> f64 {
    least(|| {
        black_box(checker.check(black_box(text), book));
    })
}

/// A line: bytes, answer, both times, their ratio, nanoseconds a byte, growth.
fn line(word: &str, text: &[u8], half: &[u8], book: &mut [u8]) {
    let answer = Checker::Archive.check(text, book);
    assert_eq!(answer, Checker::Peer.check(text, book), "{word}");
    let ours = check_time(Checker::Archive, text, book);
    let peers = check_time(Checker::Peer, text, book);
    let before = check_time(Checker::Archive, half, book);
    println!(
        "| {word} | {} | {answer} | {ours:.0} | {peers:.0} | {:.2} | {:.1} | {:.1} |",
        text.len(),
        ours / peers,
        ours * 1e3 / text.len() as f64,
        ours / before
    );
}

fn checks() {
    let mut book = vec![0; LONGEST];
    println!(
        "| text | bytes | answer | archive, µs | Rust checker, µs | archive / Rust \
         | archive, ns a byte | growth |"
    );
    println!("|---|---|---|---|---|---|---|---|");
    for ((word, text), (_, half)) in texts(1).iter().zip(texts(2)) {
        line(word, text, &half, &mut book);
    }
}

/// The text that the names of the books below stand in.
const TEXT: [u8; 256] = [b'n'; 256];

/// As many of these records as the bytes hold, one after the other.
fn full(record: &[u8], bytes: usize) -> Vec<u8> {
    record.repeat(bytes / record.len())
}

/// Lists number, kind and name of each record, walking the book once: how many.
fn walked(book: &[u8]) -> usize {
    let mut count = 0;
    for record in records(book) {
        black_box((record.number(), record.kind(), record.name(&TEXT)));
        count += 1;
    }
    count
}

/// The same, finding each record from the front.
fn found(book: &[u8]) -> usize {
    let mut count = 0;
    while let Some(beginning) = find_record(book, count) {
        let name = show_name(&TEXT, book, beginning);
        black_box((count, book[beginning], name));
        count += 1;
    }
    count
}

/// A line: bytes, records, and of both ways to list them time and growth.
fn listing(word: &str, record: &[u8]) {
    let [book, half] = [1, 2].map(|times| full(record, LONGEST / times));
    let count = walked(&book);
    assert_eq!(count, found(&book), "{word}");
    print!("| {word} | {} | {count} |", book.len());
    for list in [walked, found] {
        let [whole, before] = [&book, &half].map(|book| {
            least(|| {
                black_box(list(black_box(book)));
            })
        });
        print!(" {whole:.0} | {:.1} |", whole / before);
    }
    println!();
}

fn listings() {
    println!(
        "| records listed | bytes | records | walking once, µs | growth \
         | each from the front, µs | growth |"
    );
    println!("|---|---|---|---|---|---|---|");
    let attribute = [6, 9, 0, 0, 0, 8, 0, 255, 255, 255, 255];
    let text = [8, 0, 0, 0, 0];
    listing(
        "attributes and their TEXT",
        &[&attribute[..], &text].concat(),
    );
    listing("elements", &[14, 9, 0, 0, 0, 8]);
}

fn main() {
    checks();
    println!();
    listings();
}
