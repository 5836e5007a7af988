//! The lines of the program `vectors` say what the checker says.

use std::process::Command;

use cases::{gen, gen_small, Case};
use peer::{check, Answer};

fn lines(arguments: &[&str]) -> Vec<String> {
    let output = Command::new(env!("CARGO_BIN_EXE_vectors"))
        .args(arguments)
        .output()
        .expect("the program runs");
    assert!(output.status.success());
    let text = String::from_utf8(output.stdout).expect("plain letters");
    text.lines().map(str::to_owned).collect()
}

fn bytes(hexadecimal: &str) -> Vec<u8> {
    if hexadecimal == "-" {
        return Vec::new();
    }
    let digit = |digit: u8| char::from(digit).to_digit(16).expect("a digit") as u8;
    let pairs = hexadecimal.as_bytes().chunks(2);
    pairs
        .map(|pair| digit(pair[0]) * 16 + digit(pair[1]))
        .collect()
}

fn agrees(line: &str, case: &Case) {
    let fields: Vec<&str> = line.split(' ').collect();
    assert_eq!(bytes(fields[0]), case.text);
    assert_eq!(fields[1], case.buffer_len.to_string());
    let mut buffer = vec![0; case.buffer_len];
    let answer = check(&case.text, &mut buffer);
    let printed = answer.to_string();
    let expected: Vec<&str> = printed.split(' ').collect();
    let (said, book) = fields[2..].split_at(expected.len());
    assert_eq!(said, expected);
    match answer {
        Answer::Accepted { book_len, .. } => {
            assert_eq!(book.len(), 1);
            assert_eq!(bytes(book[0]), buffer[..book_len]);
        }
        Answer::Refused { .. } => assert!(book.is_empty()),
    }
}

#[test]
fn lines_of_large_and_small_cases() {
    let large = lines(&["--first", "30", "--count", "200"]);
    assert_eq!(large.len(), 200);
    for (line, seed) in large.iter().zip(30..) {
        agrees(line, &gen(seed));
    }
    let small = lines(&["--small", "--count", "200"]);
    assert_eq!(small.len(), 200);
    for (line, seed) in small.iter().zip(0..) {
        agrees(line, &gen_small(seed));
    }
}
