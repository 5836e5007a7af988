//! The grammar by units: refusal 5, and the units with their places.

mod common;
use common::*;
use peer::{units, Refusal, Spot, UnitAt};

#[test]
fn header() {
    refused_text(5, "INTERLIS^");
    refused_text(5, "INTERLIS 2.4^");
    refused_text(5, "INTERLIS 2.4; /* */ !! ^");
    refused_text(5, "INTERLIS ^x;");
    refused_text(5, "INTERLIS 2.4^.");
    refused_text(5, "^MODEL M");
    refused_text(5, "INTERLIS 2.4;^TOPIC");
}

#[test]
fn model_head() {
    passes_text("INTERLIS 2.4;MODEL M(de)AT\"u\"VERSION\"1\"=END M.");
    refused_text(5, "INTERLIS 2.4;MODEL M(^)AT");
    refused_text(5, "INTERLIS 2.4;MODEL M(de^,fr)AT");
    refused_text(5, "INTERLIS 2.4;MODEL M^=");
    refused_text(5, "INTERLIS 2.4;MODEL M AT ^u");
    refused_text(5, "INTERLIS 2.4;MODEL M AT \"u\"^=");
    refused_text(5, "INTERLIS 2.4;MODEL M AT \"u\" VERSION ^1");
}

#[test]
fn model_end() {
    refused_text(5, &format!("{HEAD}^"));
    refused_text(5, &format!("{HEAD}END^"));
    refused_text(5, &format!("{HEAD}END M^"));
    refused_text(5, &format!("{HEAD}END M^;"));
    refused_text(5, &format!("{}^;", model("")));
    refused_text(5, &format!("{} ^INTERLIS", model("")));
    // What follows is judged after the END itself.
    refused_text(8, &format!("{HEAD}END ^X.;"));
}

#[test]
fn runs_of_domains() {
    passes("DOMAIN");
    passes("DOMAIN DOMAIN DOMAIN A=TEXT;DOMAIN B=TEXT;C=TEXT;DOMAIN");
    passes("DOMAIN TOPIC T=DOMAIN END T;DOMAIN CLASS C=END C;DOMAIN STRUCTURE S=END S;");
    refused(5, "^A=TEXT;");
    refused(5, "DOMAIN A=TEXT;CLASS C=END C;^B=TEXT;");
    refused(5, "DOMAIN A=TEXT;TOPIC T=^B=TEXT;");
    refused(5, "DOMAIN A=TEXT;TOPIC T=END T;^B=TEXT;");
    refused(5, "TOPIC T=^TOPIC U=");
    refused(5, "TOPIC T=DOMAIN ^TOPIC U=");
}

#[test]
fn attributes_of_a_class() {
    passes("CLASS C=ATTRIBUTE END C;STRUCTURE S=ATTRIBUTE a:TEXT;END S;");
    refused(5, "CLASS C=ATTRIBUTE ^ATTRIBUTE END C;");
    refused(5, "CLASS C=a:TEXT;^ATTRIBUTE END C;");
    refused(5, "CLASS C=^DOMAIN");
    refused(5, "CLASS C=^CLASS D=");
    refused(5, "^ATTRIBUTE");
    refused(5, "CLASS C=END C^.");
}

#[test]
fn properties() {
    passes("CLASS C(ABSTRACT)=END C;CLASS D(FINAL)=END D;");
    refused(5, "CLASS C(^)=END C;");
    refused(5, "CLASS C(FINAL,^)=END C;");
    refused(5, "CLASS C(FINAL ^ABSTRACT)=END C;");
    refused(5, "CLASS C(^EXTENDED)=END C;");
    refused(5, "DOMAIN A(FINAL,^EXTENDED)=TEXT;");
    refused(5, "CLASS C=a(^ABSTRACT):TEXT;END C;");
    refused(5, "CLASS C=a(^b):TEXT;END C;");
    refused(5, "CLASS C EXTENDS B^(FINAL)=");
    refused(6, "CLASS C(^TRANSIENT)=");
}

#[test]
fn mandatory() {
    passes("DOMAIN A=MANDATORY TEXT;B EXTENDS A=MANDATORY;CLASS C=a:MANDATORY B;END C;");
    refused(5, "DOMAIN A=MANDATORY^;");
    refused(5, "CLASS C=a:MANDATORY^;END C;");
    refused(5, "CLASS C=a(FINAL):MANDATORY^;END C;");
    refused(5, "DOMAIN A=TEXT;B EXTENDS A=^;");
    refused(5, "CLASS C=a(EXTENDED):^;END C;");
    refused(5, "DOMAIN A=MANDATORY ^MANDATORY TEXT;");
    refused(5, "DOMAIN A=TEXT ^MANDATORY;");
}

#[test]
fn types() {
    refused(5, "DOMAIN A=^B;");
    refused(5, "DOMAIN A=MANDATORY ^B;");
    refused(5, "DOMAIN A=^;");
    refused(5, "DOMAIN A^:TEXT;");
    refused(5, "CLASS C=a^=TEXT;");
    refused(5, "DOMAIN A=TEXT*^;");
    refused(5, "DOMAIN A=TEXT ^5;");
    refused(5, "DOMAIN A=NUMERIC^*5;");
    refused(5, "DOMAIN A=1..2^..3;");
    refused(5, "DOMAIN A=1^;");
}

#[test]
fn a_text_length_is_unsigned_and_whole() {
    for length in ["+5", "-5", "5.0", "5000000000.0", "+5000000000", "0.0"] {
        refused(5, &format!("DOMAIN A=TEXT*^{length};"));
        refused(5, &format!("CLASS C=a:MTEXT*^{length};"));
    }
    refused(4, "DOMAIN A=TEXT*^5000000000;");
    refused(4, "DOMAIN A=TEXT*^+5000000000000000000;");
    refused(4, "DOMAIN A=TEXT*^5000000000000000000.0;");
}

#[test]
fn enumerations() {
    passes("DOMAIN A=(a);B=(a,b:FINAL);C=(a(b(c),d:FINAL),e(FINAL));");
    refused(5, "DOMAIN A=(^);");
    refused(5, "DOMAIN A=(a,^);");
    refused(5, "DOMAIN A=(a ^b);");
    refused(5, "DOMAIN A=(a,^FINAL);");
    refused(5, "DOMAIN A=(a:^b);");
    refused(5, "DOMAIN A=(a:FINAL^,b);");
    refused(5, "DOMAIN A=(^:FINAL);");
    refused(5, "DOMAIN A=(FINAL^:FINAL);");
    refused(5, "DOMAIN A=(FINAL^,a);");
    refused(5, "DOMAIN A=(a(b)^(c));");
    refused(5, "DOMAIN A=(a^.b);");
    refused(5, "DOMAIN A=(^1);");
    refused(5, "DOMAIN A=(a^;");
    refused_text(5, &format!("{HEAD}DOMAIN A=(a,b(^"));
}

#[test]
fn references() {
    let base = "TOPIC T=CLASS B=END B;END T;CLASS A=END A;";
    passes(&format!("{base}CLASS C EXTENDS M . A=END C;"));
    passes(&format!("{base}CLASS C EXTENDS M./**/T.\nB=END C;"));
    refused(5, &format!("{base}CLASS C EXTENDS M.T.B^.X=END C;"));
    refused(5, "CLASS C EXTENDS ^=");
    refused(5, "CLASS C EXTENDS M.^=");
    refused(5, "CLASS C EXTENDS M.T.^=");
    refused(5, "CLASS C EXTENDS M.^5=");
    refused(5, "CLASS C EXTENDS ^.M=");
    refused(5, "CLASS C EXTENDS B ^EXTENDS A=");
}

#[test]
fn units_with_their_places() {
    let text =
        format!("{HEAD}TOPIC T=CLASS C=a:TEXT;END C;STRUCTURE S=END S;DOMAIN D=(a);END T;END M.");
    let (found, refusal) = units(text.as_bytes());
    assert_eq!(refusal, None);
    let kinds: Vec<&str> = found.iter().map(|unit| unit.kind).collect();
    let expected = "header model topic class attribute end-of-class structure end-of-class \
                    domain end-of-topic end-of-model";
    assert_eq!(
        kinds
            .iter()
            .map(|kind| kind.replace(' ', "-"))
            .collect::<Vec<_>>()
            .join(" "),
        expected
    );
    assert_eq!(found[0].place, 9);
    assert_eq!(found[1].place, 19);
    let at = |name: &str| text.find(name).unwrap() + name.len() - 1;
    assert_eq!(found[3].place, at("CLASS C"));
    assert_eq!(found[4].place, at("C=a"));
    assert_eq!(found[9].place, at("END T"));
}

#[test]
fn units_stop_at_the_first_fault_but_judge_nothing() {
    let (found, refusal) = units(b"INTERLIS 9;MODEL #");
    let header = UnitAt {
        kind: "header",
        place: 9,
    };
    assert_eq!(found, [header]);
    let at = |place, line, column| Spot {
        place,
        line,
        column,
    };
    let (number, place) = (2, at(17, 1, 18));
    assert_eq!(refusal, Some(Refusal { number, at: place }));
    let (_, refusal) = units(b"INTERLIS 9;\r\nMODEL #");
    let place = at(19, 2, 7);
    assert_eq!(refusal, Some(Refusal { number, at: place }));
    let (_, refusal) = units(&vec![b'\n'; 65_536]);
    let (number, place) = (1, at(0, 1, 1));
    assert_eq!(refusal, Some(Refusal { number, at: place }));
}
