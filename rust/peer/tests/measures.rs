//! Units of numbers, request No. 1: the examples of how it is read, and what
//! lies close to them.

mod common;
use common::*;
use peer::{units, UnitAt};

/// A number and a body with a mark on each line; 0 is acceptance.
const EXAMPLES: &str = include_str!("../../cases/src/stored/units.txt");

#[test]
fn every_example_of_the_request() {
    examples(EXAMPLES, 40);
}

#[test]
fn runs_of_units_and_of_domains() {
    passes("UNIT");
    passes("UNIT DOMAIN UNIT TOPIC T=UNIT DOMAIN UNIT END T;UNIT CLASS C=END C;UNIT");
    passes("UNIT a;UNIT b;DOMAIN D=TEXT;E=TEXT;UNIT c;d;DOMAIN F=TEXT;");
    refused(5, "UNIT a;TOPIC T=^b;");
    refused(5, "TOPIC T=UNIT a;END T;^b;");
    refused(5, "UNIT a;STRUCTURE S=END S;^b;");
    refused(5, "DOMAIN D=TEXT;UNIT a;E^=TEXT;");
    refused(5, "UNIT ^ATTRIBUTE a;");
    refused_text(5, "^UNIT a;");
    refused_text(5, "INTERLIS 2.4;^UNIT a;");
    refused_text(5, &format!("{} ^UNIT", model("")));
}

#[test]
fn forms_of_a_unit() {
    passes("UNIT a(ABSTRACT);b(ABSTRACT)EXTENDS a;c EXTENDS M.b;");
    refused(5, "UNIT a^,b;");
    refused(5, "UNIT a EXTENDS ^;");
    refused(5, "UNIT a EXTENDS b^(ABSTRACT);");
    refused(5, "UNIT a(^EXTENDED);");
    refused(5, "UNIT a(ABSTRACT,^FINAL);");
    refused(5, "UNIT a(ABSTRACT,^);");
    refused(5, "UNIT ^5;");
    refused(5, "UNIT a^:TEXT;");
    refused(6, "UNIT a(^BASE);");
}

#[test]
fn where_brackets_stand() {
    passes("UNIT a;DOMAIN D=1..2 [ a ] ;N(ABSTRACT)=NUMERIC/**/[M.a];");
    passes("UNIT a;CLASS C=x:MANDATORY 1..2[a];END C;");
    refused(5, "DOMAIN D=1..2[^];");
    refused(5, "DOMAIN D=1..2[a^;");
    refused(5, "DOMAIN D=1..2[a^,b];");
    refused(5, "DOMAIN D=1..2[a]^[a];");
    refused(5, "DOMAIN D=1..2[^[a]];");
    refused(5, "DOMAIN D=1..2^];");
    refused(5, "DOMAIN D=1^[a]..2;");
    refused(5, "DOMAIN D=1..2[^1];");
    refused(5, "DOMAIN D=^[a]1..2;");
    refused(5, "DOMAIN D=(a^[b]);");
    refused(5, "DOMAIN D=(a)^[b];");
    refused(5, "DOMAIN D=MTEXT*5^[a];");
    refused(5, "DOMAIN D=TEXT*^[a];");
    refused(5, "DOMAIN D=1..2;E EXTENDS D=MANDATORY ^[a];");
    refused(5, "CLASS C=x:TEXT^[a];");
    refused(5, "CLASS C^[a]=END C;");
    refused(2, "DOMAIN D=1..2[a^#];");
    refused(6, "DOMAIN D=1..2[^LNBASE];");
    refused_text(5, "^[");
    refused_text(5, "^]");
    refused_text(5, &format!("{}^]", model("")));
}

#[test]
fn one_name_space() {
    refused(9, "UNIT a;^a;");
    refused(9, "UNIT a;TOPIC ^a=END a;");
    refused(9, "UNIT a;TOPIC T=UNIT ^a;");
    refused(9, "CLASS a=END a;UNIT ^a;");
    passes("TOPIC T=UNIT a;END T;UNIT a EXTENDS M.T.a;");
    passes("UNIT M;DOMAIN D=1..2[M];E=1..2[M.M];");
    // An attribute's name is in another space.
    passes("UNIT a;CLASS C=a:1..2[a];END C;");
    refused(10, "TOPIC T=UNIT a;END T;DOMAIN D=1..2[^a];");
    refused(10, "TOPIC T=UNIT a;END T;DOMAIN D=1..2[^M.a];");
    refused(10, "UNIT a;DOMAIN D=1..2[^N.a];");
    refused(10, "UNIT a EXTENDS ^b;b;");
    refused(10, "UNIT a;TOPIC T=END T;DOMAIN D=1..2[^M.T.a];");
}

#[test]
fn sorts_of_references() {
    let sorts = [
        "TOPIC x=END x;",
        "CLASS x=END x;",
        "STRUCTURE x=END x;",
        "DOMAIN x=1..2;",
    ];
    for sort in sorts {
        refused(11, &format!("{sort}UNIT u EXTENDS ^x;"));
        refused(11, &format!("{sort}DOMAIN D=1..2[^x];"));
        refused(11, &format!("{sort}CLASS C=y:1..2[^M.x];"));
    }
    refused(11, "UNIT a;STRUCTURE S EXTENDS ^a=END S;");
    refused(11, "UNIT a;DOMAIN D EXTENDS ^M.a=1..2;");
    refused(11, "TOPIC T=UNIT a;CLASS C=x:MANDATORY ^M.T.a;END C;");
}

#[test]
fn order_within_a_unit() {
    refused(9, "UNIT a;^a(ABSTRACT,ABSTRACT)EXTENDS b;");
    refused(10, "UNIT a(ABSTRACT,ABSTRACT)EXTENDS ^b;");
    refused(11, "CLASS C=END C;UNIT a(ABSTRACT,ABSTRACT)EXTENDS ^C;");
    refused(9, "UNIT a;DOMAIN ^a=1..2[b];");
    refused(10, "DOMAIN D(FINAL,FINAL)=5..4[^b];");
    refused(11, "CLASS C=END C;DOMAIN D(FINAL,FINAL)=5..4[^C];");
    refused(12, "UNIT a;DOMAIN D(FINAL)=1..2;E EXTENDS ^D=1..2[a];");
    refused(13, "UNIT a;DOMAIN ^D(FINAL,FINAL)=5..4[a];");
    refused(14, "UNIT a;DOMAIN D=1..2;E EXTENDS D=^5..4[a];");
    refused(
        10,
        "CLASS B=x(FINAL):1..2;END B;CLASS C EXTENDS B=x(EXTENDED):1..2[^q];",
    );
    refused(
        11,
        "CLASS B=x(FINAL):1..2;END B;CLASS C EXTENDS B=x(EXTENDED):1..2[^B];",
    );
    refused(
        4,
        &format!(
            "UNIT a;CLASS C={}^z:1..2[q];",
            (0..256).map(|n| format!("a{n}:TEXT;")).collect::<String>()
        ),
    );
}

/// A unit, its descendants b and c, and d, which is another.
const KNOWN: &str = "UNIT a;b EXTENDS a;c(ABSTRACT)EXTENDS b;d;";

/// A domain and an attribute with this type over one with that.
fn over(base: &str, extension: &str) -> [String; 5] {
    let then = "END C;CLASS E EXTENDS C=x(EXTENDED):";
    [
        format!("{KNOWN}DOMAIN D={base};E EXTENDS D={extension};"),
        format!("{KNOWN}DOMAIN D={base};E EXTENDS D=MANDATORY;F EXTENDS E={extension};"),
        format!("{KNOWN}CLASS C=x:{base};{then}{extension};END E;"),
        format!("{KNOWN}STRUCTURE C=x:{base};{then}{extension};END E;"),
        format!("{KNOWN}DOMAIN D={base};CLASS C=x:D;{then}{extension};END E;"),
    ]
}

#[test]
fn the_bases_unit_or_a_descendant() {
    for (base, extension) in [
        ("1..2", "1..2"),
        ("1..2[a]", "1..2[a]"),
        ("1..2[a]", "1..2[b]"),
        ("1..2[a]", "1..2[M.c]"),
        ("1..2[b]", "MANDATORY 1..2[c]"),
        ("1..2[d]", "1.0..2.0[d]"),
        ("1..2[d]", "MANDATORY"),
    ] {
        over(base, extension)
            .iter()
            .for_each(|body| drop(passes(body)));
    }
    for (number, base, extension) in [
        (22, "1..2", "^1..2[a]"),
        (22, "1..2[a]", "^1..2"),
        (22, "1..2[a]", "MANDATORY ^1..2"),
        (22, "1..2[a]", "^1..2[d]"),
        (22, "1..2[d]", "^1..2[a]"),
        (22, "1..2[b]", "^1..2[a]"),
        (22, "1..2[c]", "^1..2[b]"),
        (17, "1..2[c]", "^1..3[b]"),
        (17, "1..2", "^0..1[b]"),
        (16, "TEXT", "^1..3[b]"),
        (16, "1..2[a]", "^TEXT"),
        (16, "1..2[a]", "^(a)"),
        (14, "1..2[a]", "^2..1[d]"),
    ] {
        over(base, extension)
            .iter()
            .for_each(|body| refused(number, body));
    }
}

#[test]
fn numeric_with_a_unit() {
    let numeric = |rest: &str| format!("{KNOWN}DOMAIN D(ABSTRACT)=NUMERIC[a];{rest}");
    passes(&numeric(
        "E EXTENDS D=1..2[a];F(ABSTRACT)EXTENDS D=NUMERIC[c];G EXTENDS F=1..2[c];",
    ));
    refused(22, &numeric("E EXTENDS D=^1..2;"));
    refused(22, &numeric("E(ABSTRACT)EXTENDS D=^NUMERIC;"));
    refused(22, &numeric("E(ABSTRACT)EXTENDS D=^NUMERIC[d];"));
    refused(
        22,
        &numeric("E(ABSTRACT)EXTENDS D=MANDATORY;F EXTENDS E=^1..2[d];"),
    );
    refused(13, &numeric("^E EXTENDS D=NUMERIC[d];"));
    refused(13, &numeric("^E EXTENDS D=MANDATORY;"));
    refused(
        17,
        &format!("{KNOWN}DOMAIN D=1..2[a];E(ABSTRACT)EXTENDS D=^NUMERIC[d];"),
    );
    refused(
        22,
        "UNIT a;DOMAIN D(ABSTRACT)=NUMERIC;E(ABSTRACT)EXTENDS D=^NUMERIC[a];",
    );
}

#[test]
fn domains_named_over_a_base() {
    let named = |name: &str| {
        format!(
            "{KNOWN}DOMAIN D=1..9[a];E EXTENDS D=2..8[b];F=1..9;G=1..9[a];H=0..9[a];I=TEXT;\
             CLASS C=x:D;y:1..9[a];END C;CLASS K EXTENDS C={name};END K;"
        )
    };
    passes(&named("x(EXTENDED):E"));
    passes(&named("x(EXTENDED):D"));
    for (number, name) in [(18, "F"), (18, "G"), (17, "H"), (16, "I")] {
        refused(number, &named(&format!("x(EXTENDED):^{name}")));
        refused(number, &named(&format!("y(EXTENDED):^{name}")));
    }
    // Over a type in place every domain is another, also one of that unit.
    refused(18, &named("y(EXTENDED):^D"));
}

#[test]
fn nineteen_comes_after_22() {
    let text = model("UNIT a;DOMAIN D=1..2;E EXTENDS D=1..2[a];");
    let place = text.find("1..2[").unwrap();
    let expected = refusal(text.as_bytes(), 22, place);
    for room in 46..90 {
        assert_eq!(answer_in(text.as_bytes(), room).0, expected);
    }
}

#[test]
fn units_of_the_text() {
    let text = model("UNIT aa;TOPIC T=UNIT b EXTENDS aa;END T;");
    let (found, refusal) = units(text.as_bytes());
    assert_eq!(refusal, None);
    let measures: Vec<UnitAt> = found
        .into_iter()
        .filter(|unit| unit.kind == "unit")
        .collect();
    let at = |place| UnitAt {
        kind: "unit",
        place,
    };
    assert_eq!(measures, [at(HEAD.len() + 5), at(HEAD.len() + 21)]);
}
