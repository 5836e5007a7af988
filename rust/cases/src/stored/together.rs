//! Faults that stand together in one unit: every way of writing each part of a
//! unit with every way of writing the others, on a large buffer and on one that
//! has no room for the unit.

use super::sizes::attributes;
use super::{Stored, HEAD, ROOM};
use peer::Answer;

/// One way to write a part of a unit: what must stand before it, and the part.
type Way = (&'static str, &'static str);

const DOMAIN_NAMES: [Way; 2] = [("", "q"), ("DOMAIN A=1..2;", "A")];

const DOMAIN_PROPERTIES: [Way; 3] = [("", ""), ("", "(FINAL,FINAL)"), ("", "(ABSTRACT)")];

const DOMAIN_BASES: [Way; 8] = [
    ("", ""),
    ("DOMAIN T=TEXT*5;", " EXTENDS T"),
    ("DOMAIN N=1..9;", " EXTENDS N"),
    ("DOMAIN E=(a,b:FINAL);", " EXTENDS E"),
    ("", " EXTENDS U"),
    ("CLASS C=END C;", " EXTENDS C"),
    ("DOMAIN F(FINAL)=TEXT*5;", " EXTENDS F"),
    ("DOMAIN W(ABSTRACT)=NUMERIC;", " EXTENDS W"),
];

const DOMAIN_TYPES: [Way; 12] = [
    ("", "TEXT*5"),
    ("", "TEXT*6"),
    ("", "MTEXT*0"),
    ("", "9..1"),
    ("", "1..9"),
    ("", "0..9"),
    ("", "NUMERIC"),
    ("", "(FINAL)"),
    ("", "(a)"),
    ("", "(c)"),
    ("", "(c,c)"),
    ("", "MANDATORY"),
];

const CLASS_NAMES: [Way; 2] = [("", "q"), ("DOMAIN A=1..2;", "A")];

const CLASS_PROPERTIES: [Way; 3] = [
    ("", ""),
    ("", "(ABSTRACT,ABSTRACT)"),
    ("", "(ABSTRACT,FINAL)"),
];

const CLASS_BASES: [Way; 6] = [
    ("", ""),
    ("CLASS C=END C;", " EXTENDS C"),
    ("STRUCTURE S(FINAL)=END S;", " EXTENDS S"),
    ("CLASS F(FINAL)=END F;", " EXTENDS F"),
    ("", " EXTENDS U"),
    ("TOPIC P=END P;", " EXTENDS P"),
];

/// The attribute of the base, and the one that is written over it or beside it.
const ATTRIBUTE_NAMES: [Way; 7] = [
    ("b", "q"),
    ("b", "b"),
    ("b", "b(EXTENDED)"),
    ("b", "q(EXTENDED)"),
    ("b(FINAL)", "b(EXTENDED)"),
    ("b", "b(EXTENDED,EXTENDED)"),
    ("b", "q:TEXT;q"),
];

/// The type of the base's attribute.
const ATTRIBUTE_BASES: [Way; 5] = [
    ("", "TEXT*5"),
    ("", "1..9"),
    ("", "(a,b:FINAL)"),
    ("DOMAIN D=1..9;", "D"),
    ("STRUCTURE S=END S;", "S"),
];

const ATTRIBUTE_TYPES: [Way; 18] = [
    ("", "TEXT*5"),
    ("", "TEXT*6"),
    ("", "TEXT*0"),
    ("", "9..1"),
    ("", "1..9"),
    ("", "NUMERIC"),
    ("", "(FINAL)"),
    ("", "(c)"),
    ("", "(c,c)"),
    ("", "MANDATORY"),
    ("DOMAIN D=1..9;", "D"),
    ("DOMAIN D=1..9;K EXTENDS D=2..3;", "K"),
    ("DOMAIN X=0..9;", "X"),
    ("DOMAIN Y=(a,b:FINAL);", "Y"),
    ("DOMAIN G(ABSTRACT)=1..9;", "G"),
    ("", "U"),
    ("CLASS L=END L;", "L"),
    ("STRUCTURE S=END S;STRUCTURE R EXTENDS S=END R;", "R"),
];

/// What must stand before several parts, each definition once.
fn before(parts: &[Way]) -> String {
    let mut all = String::new();
    for (part, _) in parts {
        // What stands there is a part of what follows, or the other way round.
        if part.starts_with(all.as_str()) {
            all = (*part).to_owned();
        } else if !all.contains(part) {
            all += part;
        }
    }
    all
}

/// How many bytes the book of a text takes, if it is accepted.
pub(super) fn room(text: &str) -> Option<usize> {
    let mut buffer = vec![0; ROOM];
    match peer::check(text.as_bytes(), &mut buffer) {
        Answer::Accepted { book_len, .. } => Some(book_len),
        Answer::Refused { .. } => None,
    }
}

/// A text on a large buffer, and on one of so many bytes, if that is known.
pub(super) fn on_both(text: &str, small: Option<usize>) -> Vec<Stored> {
    let on = |length: usize| Stored::new(format!("{text} on {length}"), text, length);
    [Some(ROOM), small].into_iter().flatten().map(on).collect()
}

/// A unit of the text behind what is known, on both buffers.
pub(super) fn behind(known: &str, unit: &str) -> Vec<Stored> {
    let before = format!("{HEAD}{known}");
    let small = room(&format!("{before}END M."));
    on_both(&format!("{before}{unit}END M."), small)
}

/// Each of some ways with each of others.
pub(super) fn each<A: Clone, B: Clone>(some: &[A], others: &[B]) -> Vec<(A, B)> {
    let pairs = some
        .iter()
        .flat_map(|one| others.iter().map(move |other| (one.clone(), other.clone())));
    pairs.collect()
}

fn domains() -> Vec<Stored> {
    let heads = each(&each(&DOMAIN_NAMES, &DOMAIN_PROPERTIES), &DOMAIN_BASES);
    let one = |(((name, properties), base), written): (((Way, Way), Way), Way)| {
        let before = format!("{HEAD}{}", before(&[name, base]));
        let unit = format!("DOMAIN {}{}{}={};", name.1, properties.1, base.1, written.1);
        on_both(
            &format!("{before}{unit}END M."),
            room(&format!("{before}END M.")),
        )
    };
    let all = each(&heads, &DOMAIN_TYPES).into_iter();
    all.flat_map(one).collect()
}

fn topics() -> Vec<Stored> {
    let one = |name: &Way| {
        let before = format!("{HEAD}{}", name.0);
        let unit = format!("TOPIC {}=END {0};", name.1);
        on_both(
            &format!("{before}{unit}END M."),
            room(&format!("{before}END M.")),
        )
    };
    CLASS_NAMES.iter().flat_map(one).collect()
}

fn classes() -> Vec<Stored> {
    let heads = each(&each(&CLASS_NAMES, &CLASS_PROPERTIES), &CLASS_BASES);
    let one = |(sort, ((name, properties), base)): (&str, ((Way, Way), Way))| {
        let before = format!("{HEAD}{}", before(&[name, base]));
        let unit = format!("{sort} {}{}{}=END {0};", name.1, properties.1, base.1);
        on_both(
            &format!("{before}{unit}END M."),
            room(&format!("{before}END M.")),
        )
    };
    let all = each(&["CLASS", "STRUCTURE"], &heads).into_iter();
    all.flat_map(one).collect()
}

fn attribute_units() -> Vec<Stored> {
    let one = |((name, base), written): ((Way, Way), Way)| {
        let before = format!("{HEAD}{}", before(&[base, written]));
        let open = format!(
            "{before}CLASS B={}:{};END B;CLASS C EXTENDS B=",
            name.0, base.1
        );
        // The small buffer where the name by itself is in order: room for all but the END.
        let small = match name.1 {
            "q" | "b" | "b(EXTENDED)" => room(&format!("{open}END C;END M.")).map(|n| n - 1),
            _ => None,
        };
        on_both(
            &format!("{open}{}:{};END C;END M.", name.1, written.1),
            small,
        )
    };
    let all = each(&each(&ATTRIBUTE_NAMES, &ATTRIBUTE_BASES), &ATTRIBUTE_TYPES).into_iter();
    all.flat_map(one).collect()
}

/// The 257th attribute with each fault that can stand beside it.
fn crowded() -> Vec<Stored> {
    let units = [
        "^q:TEXT;",
        "^q(EXTENDED):TEXT;",
        "^q:U;",
        "^q:C;",
        "^q(FINAL,FINAL):TEXT;",
        "^q:NUMERIC;",
        "^q:9..1;",
        "^q:(FINAL);",
        "^q:(x,x);",
        "^q(EXTENDED):MANDATORY;",
    ];
    let full = attributes('a', 256);
    let mut all: Vec<Stored> = units
        .iter()
        .map(|unit| Stored::body(4, &format!("CLASS C={full}{unit}END C;")))
        .collect();
    all.push(Stored::body(5, &format!("CLASS C={full}q:5^;END C;")));
    all.push(Stored::body(9, &format!("CLASS C={full}^a0:U;END C;")));
    all
}

/// A name after END, right and wrong, with room for the record and without.
fn ends() -> Vec<Stored> {
    let mut all = Vec::new();
    let closings = [
        ("CLASS C=", "END C;", "END D;", "END M.", 17),
        ("STRUCTURE C=a:TEXT;", "END C;", "END D;", "END M.", 33),
        ("TOPIC C=", "END C;", "END D;", "END M.", 12),
        ("", "END M.", "END N.", "", 6),
    ];
    for (open, right, wrong, after, room) in closings {
        for end in [right, wrong] {
            for length in [ROOM, room, room + 1] {
                let text = format!("{HEAD}{open}{end}{after}");
                all.push(Stored::new(format!("{text} on {length}"), text, length));
            }
        }
    }
    all
}

/// Faults of symbols and grammar with a mark, each as a part of a unit.
const SYMBOLS: [(u8, &str); 7] = [
    (2, "^#"),
    (2, "\"^\\x\""),
    (3, "^\"x"),
    (3, "^/* x"),
    (4, "^1234567890123456789"),
    (5, "^)"),
    (6, "^LIST"),
];

/// Units with a fault of judgement, with `~` where a symbol may stand.
const JUDGED: [&str; 14] = [
    "INTERLIS 2.3~;",
    "INTERLIS ~2.3;",
    "DOMAIN A=(x,x)~;",
    "DOMAIN A~=(x,x);",
    "DOMAIN A EXTENDS U=TEXT~;",
    "CLASS C~ EXTENDS U=",
    "TOPIC A=END A;DOMAIN B EXTENDS A=~TEXT;",
    "DOMAIN A(FINAL)=TEXT;B EXTENDS A=TEXT~;",
    "DOMAIN A(FINAL,FINAL)~=TEXT;",
    "DOMAIN A=~5..4;",
    "DOMAIN A=(FINAL)~;",
    "DOMAIN A=TEXT;B EXTENDS A=1..2~;",
    "DOMAIN A=1..2;B EXTENDS A=1..3~;",
    "CLASS C=END ~D;",
];

/// Faults of judgement beside faults of symbols, which come first; and of two
/// faults of symbols the first.
fn symbols_first() -> Vec<Stored> {
    let beside = |(unit, (number, symbol)): (&str, (u8, &str))| {
        let head = if unit.starts_with("INTERLIS") {
            ""
        } else {
            HEAD
        };
        let marked = format!("{head}{}", unit.replace('~', &format!(" {symbol} ")));
        let text = marked.replacen('^', "", 1);
        let small = Stored::new(format!("{text} on 6"), text, 6);
        [Stored::marked(number, &marked), small]
    };
    let twice = |((number, first), (_, second)): ((u8, &str), (u8, &str))| {
        let second = second.replacen('^', "", 1);
        Stored::body(number, &format!("DOMAIN A=TEXT {first} {second} ;"))
    };
    let mut all: Vec<Stored> = each(&JUDGED, &SYMBOLS)
        .into_iter()
        .flat_map(beside)
        .collect();
    // A quote in the second would close the string that the first opens.
    let apart = |((_, first), (_, second)): &((u8, &str), (u8, &str))| {
        *first != "^\"x" || !second.contains('"')
    };
    let pairs = each(&SYMBOLS, &SYMBOLS).into_iter().filter(apart);
    all.extend(pairs.map(twice));
    all
}

pub fn together() -> Vec<Stored> {
    let mut all = domains();
    all.extend(topics());
    all.extend(classes());
    all.extend(attribute_units());
    all.extend(crowded());
    all.extend(ends());
    all.extend(symbols_first());
    all
}
