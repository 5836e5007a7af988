//! Prints how often the cases of a range of seeds get each answer, and each
//! flavour of units of numbers, of classes over structures and of lines.
//!
//! `tally [--small] [count] [first seed]`

use std::collections::HashMap;

use cases::{flavours, gen, gen_small, FLAVOURS};
use peer::Answer;

fn main() {
    let mut arguments: Vec<String> = std::env::args().skip(1).collect();
    let small = arguments.iter().any(|argument| argument == "--small");
    arguments.retain(|argument| argument != "--small");
    let number = |position: usize, usual: u64| {
        arguments
            .get(position)
            .map_or(usual, |argument| argument.parse().expect("a number"))
    };
    let (count, first) = (number(0, 100_000), number(1, 0));
    let mut buffer = Vec::new();
    let mut tally = [0u64; 23];
    let mut with: HashMap<&str, u64> = HashMap::new();
    let (mut bytes, mut longest) = (0, 0);
    for seed in first..first + count {
        let case = if small { gen_small(seed) } else { gen(seed) };
        bytes += case.text.len();
        longest = longest.max(case.text.len());
        for flavour in flavours(&case) {
            *with.entry(flavour).or_default() += 1;
        }
        buffer.resize(case.buffer_len, 0);
        match peer::check(&case.text, &mut buffer) {
            Answer::Accepted { .. } => tally[0] += 1,
            Answer::Refused { number, .. } => tally[usize::from(number)] += 1,
        }
    }
    println!(
        "seeds {first}..{}: {bytes} bytes, longest text {longest}",
        first + count
    );
    println!("accepted {:>8}", tally[0]);
    for (number, cases) in tally.iter().enumerate().skip(1) {
        println!("refused {number:>2} {cases:>6}");
    }
    for flavour in FLAVOURS {
        println!("{:>6} {flavour}", with.get(flavour).copied().unwrap_or(0));
    }
}
