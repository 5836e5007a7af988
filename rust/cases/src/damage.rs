//! Damage done to a model: to its symbols, or to its bytes.

use crate::random::Random;

const MARKS: [&str; 17] = [
    "(", ")", ",", ";", ":", "=", "*", ".", "..", "5", "x", "\"s\"", "[", "]", "UNIT", "UNIT",
    "UNIT",
];

/// Damages the symbols in one place.
pub fn symbols(random: &mut Random, symbols: &mut Vec<String>) {
    if symbols.is_empty() {
        return;
    }
    let at = random.below(symbols.len());
    match random.below(15) {
        0 | 1 => {
            symbols.remove(at);
        }
        2 => {
            let copied = symbols[at].clone();
            symbols.insert(at, copied);
        }
        3 => {
            let other = random.below(symbols.len());
            symbols.swap(at, other);
        }
        4 if at > 0 => symbols.swap(at - 1, at),
        5 => symbols.insert(at, random.pick(&MARKS).to_owned()),
        6 | 7 => replace_word(random, symbols),
        8 => reserved_name(random, symbols),
        9 => change_number(random, symbols),
        10 => break_string(random, symbols),
        11 => symbols.insert(
            at,
            random
                .pick(&["/*", "/*", "\"", "!!", "/", "+", "#"])
                .to_owned(),
        ),
        12 => symbols.truncate(at),
        13 => too_large(random, symbols),
        _ => {
            let copied = symbols[at..(at + 1 + random.below(8)).min(symbols.len())].to_vec();
            symbols.splice(at..at, copied);
        }
    }
}

/// A symbol of this sort, if the model has one.
fn find(random: &mut Random, symbols: &[String], sort: fn(u8) -> bool) -> Option<usize> {
    let first = |symbol: &String| symbol.bytes().next().unwrap_or(b' ');
    let found: Vec<usize> = (0..symbols.len())
        .filter(|&at| sort(first(&symbols[at])))
        .collect();
    random.any(&found).copied()
}

fn is_letter(byte: u8) -> bool {
    byte.is_ascii_alphabetic()
}

fn begins_number(byte: u8) -> bool {
    byte.is_ascii_digit() || byte == b'-' || byte == b'+'
}

/// A word takes the place of another.
fn replace_word(random: &mut Random, symbols: &mut [String]) {
    let target = find(random, symbols, is_letter);
    let source = find(random, symbols, is_letter);
    if let (Some(target), Some(source)) = (target, source) {
        symbols[target] = symbols[source].clone();
    }
}

fn reserved_name(random: &mut Random, symbols: &mut [String]) {
    let (word, _) = peer::WORDS[random.below(peer::WORDS.len())];
    if let Some(at) = find(random, symbols, is_letter) {
        symbols[at] = word.to_owned();
    }
}

fn change_number(random: &mut Random, symbols: &mut [String]) {
    let Some(at) = find(random, symbols, begins_number) else {
        return;
    };
    let number = &mut symbols[at];
    match random.below(7) {
        0 => number.push('0'),
        1 => number.push_str(".0"),
        2 => number.insert(0, '0'),
        3 => number.insert(0, '-'),
        4 => *number = random.between(-20, 20).to_string(),
        5 => *number = "0".to_owned(),
        _ => {
            number.pop();
        }
    }
}

fn break_string(random: &mut Random, symbols: &mut [String]) {
    let Some(at) = find(random, symbols, |byte| byte == b'"') else {
        return;
    };
    let inside = random.pick(&[
        "\"\\x\"",
        "\"\\u12\"",
        "\"a\nb\"",
        "\"a\rb\"",
        "\"\r\n\"",
        "\"a",
        "\"\\\"",
        "\"\\",
        "\"\t\\q",
        "\"\\u00e9\"",
    ]);
    symbols[at] = inside.to_owned();
}

fn too_large(random: &mut Random, symbols: &mut [String]) {
    let digits = 18 + random.below(2);
    if random.chance(1, 2) {
        if let Some(at) = find(random, symbols, begins_number) {
            symbols[at] = "1234567890123456789"[..digits].to_owned();
        }
    } else if let Some(at) = find(random, symbols, is_letter) {
        symbols[at] = "w".repeat(237 + digits);
    }
}

/// Damages the bytes in one place.
pub fn bytes(random: &mut Random, text: &mut Vec<u8>) {
    if text.is_empty() {
        return;
    }
    let at = random.below(text.len());
    let likely = b" ()[];:,=*.\"\\/!+-059aAzZ_\n\r\0\x1F\x7F\x80\xFF";
    let byte = match random.below(3) {
        0 => random.below(256) as u8,
        _ => likely[random.below(likely.len())],
    };
    match random.below(9) {
        0..=2 => text[at] = byte,
        3 | 4 => {
            text.remove(at);
        }
        5 | 6 => text.insert(at, byte),
        7 => text.truncate(at),
        _ => text.push(byte),
    }
}
