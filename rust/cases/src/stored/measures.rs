//! Units of numbers, request No. 1: the examples of how it is read, what lies
//! close to them, and each way of writing a unit, a domain and an attribute with
//! each way of writing what it is over.

use super::together::{behind, each, on_both, room};
use super::{Stored, HEAD, ROOM};

/// The examples: on each line a number and a body with a mark.
const EXAMPLES: &str = include_str!("units.txt");

/// Runs, forms and places of units and brackets.
const FORMS: [(u8, &str); 34] = [
    (0, "UNIT "),
    (
        0,
        "UNIT DOMAIN UNIT TOPIC T=UNIT DOMAIN UNIT END T;UNIT CLASS C=END C;UNIT ",
    ),
    (
        0,
        "UNIT a;UNIT b;DOMAIN D=TEXT;E=TEXT;UNIT c;d;DOMAIN F=TEXT;",
    ),
    (5, "UNIT a;TOPIC T=^b;"),
    (5, "TOPIC T=UNIT a;END T;^b;"),
    (5, "DOMAIN D=TEXT;UNIT a;E^=TEXT;"),
    (5, "UNIT a EXTENDS ^;"),
    (5, "UNIT a EXTENDS b^(ABSTRACT);"),
    (5, "UNIT a^,b;"),
    (5, "UNIT a(ABSTRACT,^);"),
    (5, "UNIT a(ABSTRACT,^FINAL);"),
    (6, "UNIT a(^BASE);"),
    (4, "UNIT a(ABSTRACT)EXTENDS ^1234567890123456789;"),
    (
        0,
        "UNIT a;DOMAIN D=1..2 [ a ] ;N(ABSTRACT)=NUMERIC/**/[M.a];",
    ),
    (5, "DOMAIN D=1..2[^];"),
    (5, "DOMAIN D=1..2[a^;"),
    (5, "DOMAIN D=1..2[a^,b];"),
    (5, "DOMAIN D=1..2[a]^[a];"),
    (5, "DOMAIN D=1..2[^[a]];"),
    (5, "DOMAIN D=1..2^];"),
    (5, "DOMAIN D=1^[a]..2;"),
    (5, "DOMAIN D=(a^[b]);"),
    (5, "DOMAIN D=(a)^[b];"),
    (5, "DOMAIN D=TEXT*5^[a];"),
    (5, "DOMAIN D=1..2;E EXTENDS D=MANDATORY ^[a];"),
    (2, "DOMAIN D=1..2[a^{];"),
    (6, "DOMAIN D=1..2[^LNBASE];"),
    (0, "UNIT M;DOMAIN D=1..2[M];E=1..2[M.M];"),
    (0, "UNIT a;CLASS C=a:1..2[a];END C;"),
    (0, "TOPIC T=UNIT a;END T;UNIT a EXTENDS M.T.a;"),
    (10, "TOPIC T=UNIT a;END T;DOMAIN D=1..2[^a];"),
    (10, "UNIT a;TOPIC T=END T;DOMAIN D=1..2[^M.T.a];"),
    (10, "UNIT a EXTENDS ^b;b;"),
    (
        22,
        "UNIT u;DOMAIN A=1..7;B EXTENDS A=0.5..7.0;C EXTENDS B=^0.45..7.00[u];",
    ),
];

/// What stands before: v descends from u, w is another; A is taken.
const KNOWN: &str = "UNIT u;v EXTENDS u;w;A;CLASS C=END C;";

const UNIT_PROPERTIES: [&str; 3] = ["", "(ABSTRACT)", "(ABSTRACT,ABSTRACT)"];

const UNIT_BASES: [&str; 6] = [
    "",
    " EXTENDS v",
    " EXTENDS M.u",
    " EXTENDS U",
    " EXTENDS C",
    " EXTENDS q",
];

const DOMAIN_PROPERTIES: [&str; 2] = ["", "(ABSTRACT)"];

/// The base of a domain: its properties and type; none for no base.
const DOMAIN_BASES: [Option<(&str, &str)>; 7] = [
    None,
    Some(("", "1..9")),
    Some(("", "1..9[u]")),
    Some(("", "1..9[v]")),
    Some(("(ABSTRACT)", "NUMERIC[u]")),
    Some(("(FINAL)", "1..9[u]")),
    Some(("", "TEXT")),
];

const TYPES: [&str; 13] = [
    "1..9",
    "1..9[u]",
    "1..9[v]",
    "2..8[M.w]",
    "0..9[u]",
    "0..9",
    "9..1[w]",
    "NUMERIC[u]",
    "NUMERIC",
    "1..9[U]",
    "1..9[C]",
    "MANDATORY",
    "TEXT",
];

/// The attribute of the base, and the one that is written.
const ATTRIBUTE_NAMES: [(&str, &str); 4] = [
    ("b", "q"),
    ("b", "b(EXTENDED)"),
    ("b", "q(EXTENDED)"),
    ("b(FINAL)", "b(EXTENDED)"),
];

/// Domains in u, in v over it, in u beside it, and without a unit.
const DOMAINS: &str = "DOMAIN D=1..9[u];E EXTENDS D=1..9[v];F=1..9[u];G=1..9;";

const ATTRIBUTE_BASES: [&str; 4] = ["1..9", "1..9[u]", "D", "TEXT"];

const NAMED: [&str; 5] = ["D", "E", "F", "G", "u"];

fn declared() -> Vec<Stored> {
    let heads = each(&["q", "A"], &UNIT_PROPERTIES);
    let one = |((name, properties), base): ((&str, &str), &str)| {
        behind(KNOWN, &format!("UNIT {name}{properties}{base};"))
    };
    let all = each(&heads, &UNIT_BASES).into_iter();
    all.flat_map(one).collect()
}

fn domains() -> Vec<Stored> {
    let heads = each(&each(&["q", "A"], &DOMAIN_PROPERTIES), &DOMAIN_BASES);
    let one = |(((name, properties), base), written): (((&str, &str), _), &str)| {
        let (before, extends) = match base {
            Some((properties, written)) => {
                (format!("DOMAIN B{properties}={written};"), " EXTENDS B")
            }
            None => (String::new(), ""),
        };
        let unit = format!("DOMAIN {name}{properties}{extends}={written};");
        behind(&format!("{KNOWN}{before}"), &unit)
    };
    let all = each(&heads, &TYPES).into_iter();
    all.flat_map(one).collect()
}

fn attributes() -> Vec<Stored> {
    let types = [&TYPES[..], &NAMED[..]].concat();
    let heads = each(&ATTRIBUTE_NAMES, &ATTRIBUTE_BASES);
    let one = |(((over, name), base), written): (((&str, &str), &str), &str)| {
        let class = format!("CLASS B={over}:{base};END B;CLASS K EXTENDS B=");
        let open = format!("{HEAD}{KNOWN}{DOMAINS}{class}");
        // The small buffer has room for all but the END.
        let small = room(&format!("{open}END K;END M.")).map(|length| length - 1);
        on_both(&format!("{open}{name}:{written};END K;END M."), small)
    };
    let all = each(&heads, &types).into_iter();
    all.flat_map(one).collect()
}

/// A text with units on buffers about the ends of its records.
fn buffers() -> Vec<Stored> {
    let body = "UNIT u;v EXTENDS u;DOMAIN D=1..2[v];N(ABSTRACT)=NUMERIC[u];E EXTENDS D=MANDATORY;";
    let text = format!("{HEAD}{body}END M.");
    let one = |length: usize| Stored::new(format!("{text} on {length}"), text.clone(), length);
    let lengths = [
        5, 6, 16, 17, 27, 28, 56, 57, 61, 62, 73, 74, 78, 79, 107, 108, 112, 113,
    ];
    lengths.into_iter().chain([ROOM]).map(one).collect()
}

pub fn measures() -> Vec<Stored> {
    let mut all: Vec<Stored> = EXAMPLES.lines().map(Stored::line).collect();
    all.extend(
        FORMS
            .iter()
            .map(|(number, body)| Stored::body(*number, body)),
    );
    all.extend(buffers());
    all.extend(declared());
    all.extend(domains());
    all.extend(attributes());
    all
}
