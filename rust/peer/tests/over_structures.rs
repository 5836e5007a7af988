//! Classes over structures, request No. 2: the examples of how it is read, and
//! what lies close to them.

mod common;
use common::*;

/// A number and a body with a mark on each line; 0 is acceptance.
const EXAMPLES: &str = include_str!("../../cases/src/stored/classes.txt");

#[test]
fn every_example_of_the_request() {
    examples(EXAMPLES, 7);
}

/// C over the structure S, D over C, E over D, and K over nothing.
const CHAIN: &str = "STRUCTURE S=a:1..9;f(FINAL):TEXT;END S;CLASS C EXTENDS S=END C;\
                     CLASS D EXTENDS C=END D;CLASS E EXTENDS D=END E;CLASS K=END K;";

#[test]
fn a_class_extends_either_sort() {
    for base in ["S", "C", "D", "E", "K", "M.S", "M.E"] {
        passes(&format!("{CHAIN}CLASS X EXTENDS {base}=END X;"));
    }
    passes("TOPIC T=STRUCTURE S=END S;CLASS X EXTENDS S=END X;CLASS Y EXTENDS M.T.S=END Y;END T;");
    refused(10, "CLASS X EXTENDS ^S=END X;STRUCTURE S=END S;");
}

#[test]
fn a_structure_extends_only_structures() {
    passes(&format!("{CHAIN}STRUCTURE X EXTENDS S=END X;"));
    for base in ["C", "D", "E", "K", "M.C", "M.K"] {
        refused(11, &format!("{CHAIN}STRUCTURE X EXTENDS ^{base}=END X;"));
    }
}

#[test]
fn a_class_is_no_type() {
    passes(&format!("{CHAIN}CLASS X=x:S;END X;"));
    for base in ["C", "D", "E", "K", "M.C"] {
        refused(11, &format!("{CHAIN}CLASS X=x:^{base};END X;"));
        refused(
            11,
            &format!("{CHAIN}STRUCTURE X=x:MANDATORY ^{base};END X;"),
        );
    }
}

/// Naming a class is 11, never 18, also one that descends from the base's structure.
#[test]
fn a_class_is_no_type_over_a_structure() {
    let over = |named: &str| {
        format!("{CHAIN}CLASS X=x:S;END X;CLASS Y EXTENDS X=x(EXTENDED):{named};END Y;")
    };
    passes(&over("S"));
    for class in ["C", "D", "E", "K"] {
        refused(11, &over(&format!("^{class}")));
    }
    // An attribute that is typed by the base of the structure it stands in.
    let inside = |named: &str| {
        format!(
            "STRUCTURE R=END R;STRUCTURE S EXTENDS R=x:R;END S;STRUCTURE Q EXTENDS R=END Q;\
             CLASS C EXTENDS S=x(EXTENDED):S;END C;CLASS D EXTENDS C=x(EXTENDED):{named};END D;"
        )
    };
    passes(&inside("S"));
    refused(11, &inside("^C"));
    refused(18, &inside("^R"));
    refused(18, &inside("^Q"));
}

#[test]
fn attributes_of_the_structure() {
    let class = |attribute: &str| format!("{CHAIN}CLASS X EXTENDS E={attribute}END X;");
    passes(&class("a(EXTENDED):2..8;b:TEXT;"));
    passes(&class("a(EXTENDED):MANDATORY;"));
    refused(9, &class("^a:1..9;"));
    refused(9, &class("^f:TEXT;"));
    refused(9, &class("a(EXTENDED):1..9;^a(EXTENDED):1..9;"));
    refused(10, &class("^b(EXTENDED):TEXT;"));
    refused(12, &class("^f(EXTENDED):TEXT;"));
    refused(12, &class("^f(EXTENDED):MANDATORY;"));
    refused(13, &class("^a(EXTENDED):NUMERIC;"));
    refused(16, &class("a(EXTENDED):^TEXT;"));
    refused(17, &class("a(EXTENDED):^0..9;"));
    // What a class wrote over it is the base from there on.
    let narrowed = format!("{CHAIN}CLASS N EXTENDS S=a(EXTENDED,FINAL):2..8;END N;");
    refused(
        12,
        &format!("{narrowed}CLASS X EXTENDS N=^a(EXTENDED):2..8;END X;"),
    );
    passes(&format!(
        "{narrowed}CLASS X EXTENDS S=a(EXTENDED):1..9;END X;"
    ));
}

#[test]
fn buffers_for_a_class_over_a_structure() {
    let text = model("STRUCTURE S=a:TEXT;END S;CLASS C EXTENDS S=a(EXTENDED):MANDATORY;END C;");
    let place = |before: &str| text.find(before).unwrap() + before.len() - 1;
    let ends = [
        (6, place("MODEL M")),
        (17, place("STRUCTURE S")),
        (33, place("=a")),
        (34, place("END S")),
        (45, place("CLASS C")),
        (61, place("S=a(") - 1),
        (62, place("END C")),
    ];
    every_buffer(&text, &ends);
}
