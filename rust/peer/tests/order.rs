//! The order of refusals: of two faults in one unit the first of 2 to 6 by
//! their place, the attribute count of 4, 7 to 18, 22, 19.

mod common;
use common::*;

/// Definitions that the faulty units build on.
const KNOWN: &str = "TOPIC T=END T;DOMAIN D=TEXT*5;F(FINAL)=TEXT*5;A(ABSTRACT)=TEXT*5;\
                     N(ABSTRACT)=NUMERIC;E=(a,b:FINAL);CLASS X(FINAL)=END X;\
                     STRUCTURE Z(FINAL)=END Z;";

/// What the base of a class holds.
const HELD: &str = "B=t:TEXT*5;f(FINAL):TEXT*5;e:(a,b:FINAL);d:D;END B;";

#[track_caller]
fn domain(number: u8, unit: &str) {
    refused(number, &format!("{KNOWN}DOMAIN {unit}"));
}

/// An attribute of a class over a class, and over a structure.
#[track_caller]
fn attribute(number: u8, unit: &str) {
    for sort in ["CLASS", "STRUCTURE"] {
        let before = format!("{KNOWN}{sort} {HELD}");
        refused(number, &format!("{before}CLASS C EXTENDS B={unit}"));
    }
}

#[track_caller]
fn class(number: u8, unit: &str) {
    refused(number, &format!("{KNOWN}{unit}"));
}

#[test]
fn at_the_first_symbol_at_fault() {
    domain(5, "D=(a,a) ^TEXT #");
    domain(2, "D=(a,a) ^# TEXT");
    domain(6, "D=^LIST #");
    domain(3, "D=^\"x");
    domain(2, "D=\"^\x01");
    domain(4, "D=^1234567890123456789 #");
    class(5, "CLASS X^.");
    domain(5, "D=TEXT*5^,");
}

#[test]
fn grammar_before_judgement() {
    domain(5, "D=5..4^,");
    attribute(5, "t:5..4^.");
    class(5, "CLASS D EXTENDS Q^;");
    refused_text(5, "INTERLIS 2.3^.");
    refused_text(5, &format!("{HEAD}END X^;"));
}

#[test]
fn units_from_left_to_right() {
    refused_text(7, "INTERLIS ^2.3;#");
    domain(9, "^D=TEXT;#");
    domain(14, "Y=^2..1;D=TEXT;");
    attribute(10, "^x(EXTENDED):TEXT;t:TEXT;");
}

#[test]
fn nine_before_ten_to_nineteen() {
    domain(9, "^D EXTENDS Q=TEXT;");
    domain(9, "Q EXTENDS R=(x,^x);");
    domain(9, "^D EXTENDS F=TEXT;");
    domain(9, "^D(FINAL,FINAL)=5..4;");
    domain(9, "Q EXTENDS T=(x,^x);");
    attribute(9, "^t:Q;");
    attribute(9, "q(EXTENDED):(x,^x);");
    attribute(9, "^t(FINAL,FINAL):T;");
    class(9, "CLASS ^D EXTENDS Q=");
    class(9, "CLASS ^D EXTENDS Z=");
    class(9, "STRUCTURE ^D EXTENDS X=");
}

#[test]
fn ten_before_eleven_to_nineteen() {
    attribute(10, "^q(EXTENDED):T;");
    attribute(10, "^q(EXTENDED,EXTENDED):5..4;");
    attribute(10, "^q(EXTENDED):(FINAL);");
    attribute(10, "f(EXTENDED):^Q;");
    domain(10, "q(FINAL,FINAL) EXTENDS ^Q=5..4;");
    class(10, "CLASS q(FINAL,FINAL) EXTENDS ^Q=");
}

#[test]
fn eleven_before_twelve_to_nineteen() {
    domain(11, "q EXTENDS ^X=5..4;");
    class(11, "STRUCTURE q(FINAL,FINAL) EXTENDS ^X=");
    attribute(11, "f(EXTENDED):^X;");
    attribute(11, "q(FINAL,FINAL):^X;");
}

#[test]
fn twelve_before_thirteen_to_nineteen() {
    domain(12, "q(FINAL,ABSTRACT) EXTENDS ^F=5..4;");
    class(12, "CLASS q(FINAL,FINAL) EXTENDS ^X=");
    class(12, "CLASS q(FINAL,ABSTRACT) EXTENDS ^M.Z=");
    attribute(12, "^f(EXTENDED,EXTENDED):5..4;");
    attribute(12, "^f(EXTENDED):NUMERIC;");
    attribute(12, "^f(EXTENDED):A;");
    domain(12, "q EXTENDS ^F=NUMERIC;");
}

#[test]
fn thirteen_before_fourteen_to_nineteen() {
    domain(13, "^q(FINAL,FINAL)=5..4;");
    domain(13, "^q(FINAL,FINAL)=(FINAL);");
    domain(13, "^q EXTENDS D=NUMERIC;");
    domain(13, "^q EXTENDS N=MANDATORY;");
    attribute(13, "^t(EXTENDED):A;");
    attribute(13, "^e(EXTENDED):NUMERIC;");
}

#[test]
fn fourteen_and_fifteen_before_sixteen_to_nineteen() {
    domain(14, "q EXTENDS D=^5..4;");
    domain(14, "q EXTENDS D=TEXT*^0;");
    domain(14, "q EXTENDS D=MTEXT*^0;");
    attribute(14, "e(EXTENDED):^1..1.0;");
    domain(16, "q EXTENDS D=^(FINAL);");
    domain(15, "q=^(FINAL);");
}

#[test]
fn sixteen_to_eighteen() {
    attribute(16, "e(EXTENDED):^D;");
    attribute(16, "e(EXTENDED):MANDATORY ^TEXT;");
    attribute(18, "e(EXTENDED):^E;");
    attribute(18, "t(EXTENDED):^D;");
    attribute(17, "e(EXTENDED):^(a,b,c);");
    attribute(18, "d(EXTENDED):^F;");
}

#[test]
fn nineteen_comes_last() {
    let text = model("DOMAIN D=5..4;");
    let place = text.find("5..4").unwrap();
    for room in 6..40 {
        let (found, _) = answer_in(text.as_bytes(), room);
        assert_eq!(found, refusal(text.as_bytes(), 14, place));
    }
    let (found, _) = answer_in(text.as_bytes(), 5);
    assert_eq!(found, refusal(text.as_bytes(), 19, 19));
}
