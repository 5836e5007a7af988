//! Larger cases drawn up by hand: many attributes, deep merges, long chains and
//! long books.

use crate::Case;

const HEAD: &str = "INTERLIS 2.4;MODEL M AT \"u\" VERSION \"1\"=";

fn model(units: &str) -> Vec<u8> {
    format!("{HEAD}{units}END M.").into_bytes()
}

/// A class of `own` attributes over a class or structure of `inherited`, of other
/// names.
fn attributes(sort: &str, inherited: usize, own: usize) -> String {
    let list = |prefix: &str, count| -> String {
        (0..count).map(|i| format!("{prefix}{i}:TEXT;")).collect()
    };
    format!(
        "{sort} A={}END A;CLASS B EXTENDS A={}END B;",
        list("a", inherited),
        list("b", own)
    )
}

/// An enumeration nested so deep, with `wide` elements a level; `shift` numbers
/// its leaves from there on.
fn nested(depth: usize, wide: usize, shift: usize) -> String {
    let inner = if depth > 1 {
        nested(depth - 1, wide, shift)
    } else {
        String::new()
    };
    let leaves: String = (0..wide).map(|i| format!(",e{}", i + shift)).collect();
    format!("(d{inner}{leaves})")
}

/// A chain of domains, each within the one before.
fn chain(length: usize) -> String {
    let links: String = (1..length)
        .map(|i| format!("D{i} EXTENDS D{}={i}..{};", i - 1, 99_999 - i))
        .collect();
    format!("DOMAIN D0=0..99999;{links}")
}

/// One long list, and a second one that shares every other element with it.
fn lists(length: usize) -> String {
    let list = |step: usize| -> String {
        let names: Vec<String> = (0..length).map(|i| format!("x{}", i * step)).collect();
        names.join(",")
    };
    format!("DOMAIN L=({});K EXTENDS L=({});", list(1), list(2))
}

/// A chain of units; a domain in the first, and one over it in each.
fn units(length: usize) -> String {
    let links: String = (1..length)
        .map(|i| format!("u{i} EXTENDS u{};", i - 1))
        .collect();
    let domains: String = (1..length)
        .map(|i| format!("D{i} EXTENDS D0=1..2[u{i}];"))
        .collect();
    format!("UNIT u0;{links}DOMAIN D0=0..9[u0];{domains}")
}

/// The larger units, each with a word on it.
fn bodies() -> Vec<(String, String)> {
    let crowds = [
        (20, 20),
        (0, 60),
        (60, 0),
        (50, 50),
        (0, 120),
        (128, 128),
        (0, 256),
        (0, 257),
        (200, 57),
    ];
    let crowd = |(inherited, own)| {
        let word = format!("{inherited} attributes inherited, {own} own");
        (word, attributes("CLASS", inherited, own))
    };
    let over_structure = |(inherited, own)| {
        let word = format!("{inherited} attributes from a structure, {own} own");
        (word, attributes("STRUCTURE", inherited, own))
    };
    let deep = |(depth, wide): (usize, usize)| {
        let base = nested(depth, wide, 0);
        let over = nested(depth.min(8), wide, 2);
        let word = format!("{depth} deep, {wide} wide, merged");
        (word, format!("DOMAIN E={base};F EXTENDS E={over};"))
    };
    let long = |length| (format!("a chain of {length} domains"), chain(length));
    let two = |length| (format!("two lists of {length} elements"), lists(length));
    let measured = |length| (format!("a chain of {length} units"), units(length));
    let mut bodies: Vec<(String, String)> = crowds.map(crowd).to_vec();
    bodies.extend([(8, 1), (8, 4), (9, 1), (8, 12)].map(deep));
    bodies.extend([20, 60, 120].map(long));
    bodies.extend([50, 150, 300].map(two));
    bodies.extend([20, 60].map(measured));
    bodies.extend([(20, 20), (200, 57)].map(over_structure));
    bodies
}

/// The cases with a word on each.
pub fn chosen() -> Vec<(String, Case)> {
    let case = |(word, body): (String, String), buffer_len: usize| {
        let text = model(&body);
        (word, Case { text, buffer_len })
    };
    let on = |word: &str, buffer_len: usize| case((word.to_owned(), chain(20)), buffer_len);
    let mut cases: Vec<_> = bodies()
        .into_iter()
        .map(|body| case(body, 65_535))
        .collect();
    cases.push(on("a book that ends the buffer", 586));
    cases.push(on("a buffer of one byte less", 585));
    cases
}
