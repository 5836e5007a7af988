//! Classes over structures, request No. 2: the examples of how it is read, what
//! lies close to them, each head with each base, each type over an attribute of a
//! structure, and the attribute count across the step.

use super::together::{behind, each, on_both, room};
use super::{sizes, Stored, HEAD, ROOM};

/// The examples: on each line a number and a body with a mark.
const EXAMPLES: &str = include_str!("classes.txt");

/// What lies close to them, written in the same way.
const CLOSE: &str = include_str!("over_structures.txt");

/// What stands before a head: C, D and E descend from the structure S; A is taken.
const KNOWN: &str = "UNIT u;DOMAIN A=1..9;STRUCTURE S=a:1..9;END S;STRUCTURE F(FINAL)=END F;\
                     CLASS K=END K;CLASS G(FINAL)=END G;CLASS C EXTENDS S=END C;\
                     CLASS D EXTENDS C=END D;CLASS E(FINAL)EXTENDS C=END E;TOPIC T=END T;";

const SORTS: [&str; 2] = ["CLASS", "STRUCTURE"];

const PROPERTIES: [&str; 3] = ["", "(FINAL)", "(ABSTRACT,FINAL)"];

/// The names that EXTENDS may have behind it; q is the one that is defined.
const BASES: [&str; 14] = [
    "S", "M.S", "F", "K", "G", "C", "M.C", "D", "E", "A", "u", "T", "U", "q",
];

/// A head that is closed at once, on both buffers, and with a name that is taken.
fn heads() -> Vec<Stored> {
    let one = |((sort, properties), base): ((&str, &str), &str)| {
        behind(
            KNOWN,
            &format!("{sort} q{properties} EXTENDS {base}=END q;"),
        )
    };
    let taken = |(sort, base): (&str, &str)| {
        Stored::body(9, &format!("{KNOWN}{sort} ^A EXTENDS {base}=END A;"))
    };
    let all = each(&each(&SORTS, &PROPERTIES), &BASES).into_iter();
    let mut all: Vec<Stored> = all.flat_map(one).collect();
    all.extend(each(&SORTS, &BASES).into_iter().map(taken));
    all
}

/// What an attribute's types name: v descends from u, E from D, R from S; C is a
/// class over S.
const NAMED: &str = "UNIT u;v EXTENDS u;DOMAIN D=1..9;E EXTENDS D=2..8;F=1..9;STRUCTURE S=END S;\
                     STRUCTURE R EXTENDS S=END R;STRUCTURE Q=END Q;CLASS C EXTENDS S=END C;";

/// The type of the structure's attribute.
const OVER: [&str; 6] = ["1..9", "1..9[u]", "TEXT*5", "(a,b:FINAL)", "D", "S"];

const TYPES: [&str; 18] = [
    "2..8",
    "0..9",
    "9..1",
    "2..8[u]",
    "2..8[v]",
    "0..9[v]",
    "TEXT*5",
    "TEXT*6",
    "(a(x))",
    "(c)",
    "MANDATORY",
    "NUMERIC",
    "E",
    "F",
    "R",
    "Q",
    "C",
    "U",
];

/// The structure's attribute, and what the class writes that is at fault by its
/// name or properties: 9, 10, 12, 13.
const NAMES: [(&str, &str); 4] = [
    ("b", "b"),
    ("b", "q(EXTENDED)"),
    ("b(FINAL)", "b(EXTENDED)"),
    ("b", "b(EXTENDED,EXTENDED)"),
];

/// A structure with an attribute, and a class over it that is open.
fn open(attribute: &str, over: &str) -> String {
    format!("{HEAD}{NAMED}STRUCTURE B={attribute}:{over};END B;CLASS K EXTENDS B=")
}

fn attributes() -> Vec<Stored> {
    let extended = |(over, written): (&str, &str)| {
        let open = open("b", over);
        // The small buffer has room up to K's head, so that the attribute is 19.
        let small = room(&format!("{open}END K;END M.")).map(|length| length - 1);
        on_both(&format!("{open}b(EXTENDED):{written};END K;END M."), small)
    };
    let other = |(((attribute, name), over), written): (((&str, &str), &str), &str)| {
        let open = open(attribute, over);
        on_both(&format!("{open}{name}:{written};END K;END M."), None)
    };
    let some = each(&each(&NAMES, &OVER), &["2..8", "MANDATORY", "C"]);
    let all = each(&OVER, &TYPES).into_iter();
    let mut all: Vec<Stored> = all.flat_map(extended).collect();
    all.extend(some.into_iter().flat_map(other));
    all
}

/// A class over a structure on buffers about the ends of its records.
fn buffers() -> Vec<Stored> {
    let body = "STRUCTURE S=a:1..2;END S;CLASS C EXTENDS S=a(EXTENDED):MANDATORY;b:S;END C;";
    let text = format!("{HEAD}{body}END M.");
    let one = |length: usize| Stored::new(format!("{text} on {length}"), text.clone(), length);
    let lengths = [
        5, 6, 16, 17, 45, 46, 47, 57, 58, 86, 87, 102, 103, 104, ROOM,
    ];
    lengths.into_iter().map(one).collect()
}

/// Classes with about 256 attributes, some of them from a structure.
fn attribute_counts() -> Vec<Stored> {
    let structure = |count| format!("STRUCTURE S={}END S;", sizes::attributes('a', count));
    let (full, most, some) = (structure(256), structure(255), structure(200));
    let class = "CLASS C EXTENDS S=";
    let more = sizes::attributes('b', 56);
    let bodies = [
        (0, format!("{}{class}b:TEXT;END C;", structure(254))),
        (0, format!("{most}{class}b:TEXT;END C;")),
        (4, format!("{most}{class}b:TEXT;^c:TEXT;END C;")),
        (0, format!("{full}{class}END C;")),
        (0, format!("{full}{class}aff(EXTENDED):TEXT;END C;")),
        (4, format!("{full}{class}^c:TEXT;END C;")),
        (
            4,
            format!("{full}{class}a0(EXTENDED):TEXT;^c(EXTENDED):U;END C;"),
        ),
        (9, format!("{full}{class}^a0:TEXT;END C;")),
        (0, format!("{some}{class}{more}END C;")),
        (4, format!("{some}{class}{more}^c:TEXT;END C;")),
        (
            0,
            format!("{some}{class}{more}END C;CLASS D EXTENDS C=a0(EXTENDED):TEXT;END D;"),
        ),
        (
            4,
            format!("{some}{class}{more}END C;CLASS D EXTENDS C=^c:TEXT;END D;"),
        ),
        (
            4,
            format!("{full}STRUCTURE R EXTENDS S=END R;CLASS C EXTENDS R=^c:TEXT;END C;"),
        ),
    ];
    let one = |(number, body): &(u8, String)| Stored::body(*number, body);
    bodies.iter().map(one).collect()
}

pub fn over_structures() -> Vec<Stored> {
    let lines = EXAMPLES.lines().chain(CLOSE.lines());
    let mut all: Vec<Stored> = lines.map(Stored::line).collect();
    all.extend(heads());
    all.extend(attributes());
    all.extend(buffers());
    all.extend(attribute_counts());
    all
}
