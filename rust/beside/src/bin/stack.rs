//! Measures how much stack the archive takes at most: for each text the least
//! stack of a thread, in kilobytes, on which checking it ends. Each try is a
//! process of its own, since running out of stack ends it.

use std::process::Command;
use std::thread;

use beside::Checker;
use cases::{ordinary, stretched};

/// What a thread needs in any case, so that it starts at all.
const LEAST: usize = 16;
const MOST: usize = 8_192;

fn texts() -> Vec<(&'static str, Vec<u8>)> {
    let mut texts = vec![
        ("an ordinary model of 2 KB", ordinary(2_048)),
        ("an ordinary model of 16 KB", ordinary(16_384)),
        ("an ordinary model of 65 KB", ordinary(65_535)),
    ];
    texts.extend(stretched(65_535));
    texts
}

/// Checks the text with this number on a thread with this stack.
fn on_thread(number: usize, kilobytes: usize) {
    // The text is drawn up elsewhere, so that only the check is on the small stack.
    let (_, text) = texts().swap_remove(number);
    let check = move || {
        let mut book = vec![0; 65_535];
        std::hint::black_box(Checker::Archive.check(&text, &mut book));
    };
    let thread = thread::Builder::new()
        .stack_size(kilobytes << 10)
        .spawn(check);
    thread.expect("it starts").join().expect("it ends");
}

fn ends(number: usize, kilobytes: usize) -> bool {
    let program = std::env::current_exe().expect("this program has a place");
    let arguments = [number.to_string(), kilobytes.to_string()];
    let output = Command::new(program).args(arguments).output();
    output.expect("it starts").status.success()
}

/// The least stack, to 4 kilobytes.
fn least(number: usize) -> usize {
    let (mut low, mut high) = (LEAST, MOST);
    while high - low > 4 {
        let middle = (low + high) / 2;
        if ends(number, middle) {
            high = middle;
        } else {
            low = middle;
        }
    }
    high
}

fn main() {
    let arguments: Vec<usize> = std::env::args()
        .skip(1)
        .map(|argument| argument.parse().expect("a number"))
        .collect();
    if let [number, kilobytes] = arguments[..] {
        return on_thread(number, kilobytes);
    }
    let mut most = 0;
    for (number, (word, text)) in texts().iter().enumerate() {
        let kilobytes = least(number);
        most = most.max(kilobytes);
        println!("{kilobytes:>5} KB  {word}, {} bytes", text.len());
    }
    println!("{most:>5} KB  the most");
}
