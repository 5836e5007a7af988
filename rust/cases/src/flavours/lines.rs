//! The ways in which request No. 6, line and column, can show: by how the line
//! begins on which a refusal stands, and by what stands at its place.

use super::View;

/// A refusal with its line and column.
#[derive(Clone, Copy)]
pub struct At {
    pub number: u8,
    pub place: usize,
    pub line: usize,
    pub column: usize,
}

/// How a line begins, as far as comments go.
enum Begins {
    Plain,
    BehindComment,
    WithinComment,
}

/// What a refusal shows of lines and columns.
pub fn refused(view: &View, at: At) -> Vec<&'static str> {
    let mut found = Vec::new();
    if at.line > 1 {
        let beginning = at.place + 1 - at.column;
        found.push(behind(&view.text[..beginning]));
        found.extend(begins(view, beginning));
    }
    found.extend(standing(view, at));
    found
}

/// The line end that a line begins behind.
fn behind(before: &[u8]) -> &'static str {
    match before {
        [.., b'\r', b'\n'] => "a refusal on a line behind a CR LF",
        [.., b'\n', b'\r'] => "a refusal on a line behind an LF CR",
        [.., b'\r'] => "a refusal on a line behind a CR",
        _ => "a refusal on a line behind an LF",
    }
}

/// How a line begins: behind an empty line, behind a comment, within one.
fn begins(view: &View, beginning: usize) -> Vec<&'static str> {
    let before = &view.text[..beginning];
    let empty = [&b"\n\n"[..], b"\r\r", b"\r\n\r\n", b"\n\r"];
    let mut found = Vec::new();
    if empty.iter().any(|ends| before.ends_with(ends)) {
        found.push("a refusal on a line behind an empty one");
    }
    match between(view, beginning) {
        Begins::Plain => {}
        Begins::BehindComment => found.push("a refusal on a line behind a `!!` comment"),
        Begins::WithinComment => {
            found.push("a refusal on a line that begins within a comment");
            let closes = view.text[beginning..].starts_with(b"*/");
            found.extend(closes.then_some("a refusal on a line that begins with a comment's end"));
        }
    }
    found
}

/// Goes through what is between the last symbol before a line and the line.
fn between(view: &View, beginning: usize) -> Begins {
    let before = view.symbols.partition_point(|symbol| symbol.0 < beginning);
    let last = before.checked_sub(1).map(|last| view.symbols[last]);
    let mut at = last.map_or(0, |(place, length)| place + length);
    while at < beginning {
        let rest = &view.text[at..];
        if rest.starts_with(b"!!") {
            at += rest.iter().position(is_end).map_or(rest.len(), |end| {
                end + if rest[end..].starts_with(b"\r\n") {
                    2
                } else {
                    1
                }
            });
            if at == beginning {
                return Begins::BehindComment;
            }
        } else if rest.starts_with(b"/*") {
            let closed = rest[2..].windows(2).position(|pair| pair == b"*/");
            at += closed.map_or(rest.len(), |inside| inside + 4);
            if at > beginning {
                return Begins::WithinComment;
            }
        } else {
            at += 1;
        }
    }
    Begins::Plain
}

fn is_end(byte: &u8) -> bool {
    matches!(byte, b'\r' | b'\n')
}

/// What stands at the place of a refusal.
fn standing(view: &View, at: At) -> Option<&'static str> {
    match (at.number, view.text.get(at.place)) {
        (2, Some(b'\r')) => Some("2 at a CR in a string"),
        (2, Some(b'\n')) => Some("2 at an LF in a string"),
        (5, None) if view.text.last().is_some_and(is_end) => {
            Some("5 at the end of the text behind a line end")
        }
        (9, _) => {
            let unit = view.unit(at.place)?;
            let above = &view.text[unit.place..at.place];
            let later = at.place > unit.place && above.iter().any(is_end);
            later.then_some("9 at an element twice, on a later line than its unit begins")
        }
        _ => None,
    }
}
