//! Names and references: refusals 7 to 12.

mod common;
use common::*;

#[test]
fn version_is_written_2_4() {
    for number in ["2.3", "+2.4", "02.4", "2.40", "24", "2", "-2.4"] {
        refused_text(7, &format!("INTERLIS ^{number};x"));
    }
}

#[test]
fn the_name_after_end() {
    refused(8, "TOPIC T=END ^U;");
    refused(8, "CLASS C=END ^M;");
    refused(8, "TOPIC T=CLASS C=END ^T;");
    refused_text(8, &format!("{HEAD}END ^m."));
}

#[test]
fn names_are_taken_in_one_space() {
    let kinds = [
        "TOPIC x=END x;",
        "CLASS x=END x;",
        "STRUCTURE x=END x;",
        "DOMAIN x=TEXT;",
        "UNIT x;",
    ];
    for first in kinds {
        for second in kinds {
            let marked = second.replacen('x', "^x", 1);
            refused(9, &format!("{first}{marked}"));
            if !second.starts_with("TOPIC") {
                refused(9, &format!("{first}TOPIC T={marked}"));
            }
            if !first.starts_with("TOPIC") && !second.starts_with("TOPIC") {
                refused(9, &format!("TOPIC T={first}{marked}"));
                passes(&format!(
                    "TOPIC T={first}END T;TOPIC U={second}END U;{first}"
                ));
            }
        }
    }
    refused(9, "TOPIC T=CLASS ^T=END T;");
    // A name freed by its topic and taken at the model's level since.
    refused(
        9,
        "TOPIC T=DOMAIN N=TEXT;END T;DOMAIN N=TEXT;TOPIC U=DOMAIN ^N=TEXT;",
    );
}

#[test]
fn the_models_name_is_in_no_name_space() {
    passes("TOPIC M=DOMAIN N=TEXT;END M;CLASS C=M:M.M.N;END C;");
    passes("DOMAIN M=TEXT;N EXTENDS M.M=TEXT;");
    refused(10, "DOMAIN A EXTENDS ^M=TEXT;");
    refused(10, "CLASS C=a:^M;END C;");
}

#[test]
fn elements_twice_in_one_list() {
    refused(9, "DOMAIN A=(a,^a);");
    refused(9, "DOMAIN A=(a(b,c,^b),a);");
    refused(9, "DOMAIN A=(a,^a(b,b));");
    refused(9, "DOMAIN A=(a(x(y,^y),x),a);");
    refused(9, "DOMAIN A=(a(x,^x),b,a);");
    passes("DOMAIN A=(a(a(a),b),b(a,b));");
    // Each written list alone counts.
    passes("DOMAIN A=(a,b);B EXTENDS A=(a,b,c);");
    refused(9, "DOMAIN A=(a,b);B EXTENDS A=(c,^c);");
    // A name between in an inner list does not hide the equal one.
    refused(9, "DOMAIN A=(a(a),^a);");
    // The defined name comes first.
    refused(9, "DOMAIN A=TEXT;^A=(a,a);");
    refused(9, "CLASS C=a:TEXT;^a:(a,a);");
}

#[test]
fn attributes_twice() {
    refused(9, "CLASS C=a:TEXT;^a:TEXT;");
    refused(9, "CLASS C=a:TEXT;^a(EXTENDED):TEXT;");
    refused(9, "CLASS B=a:TEXT;END B;CLASS C EXTENDS B=^a:TEXT;");
    refused(
        9,
        "CLASS B=a:TEXT;END B;CLASS C EXTENDS B=a(EXTENDED):TEXT;^a(EXTENDED):TEXT;",
    );
    refused(
        9,
        "CLASS A=a:TEXT;END A;CLASS B EXTENDS A=END B;CLASS C EXTENDS B=^a:TEXT;",
    );
    passes("CLASS A=a:TEXT;END A;CLASS B EXTENDS A=b:TEXT;END B;CLASS C EXTENDS A=b:TEXT;END C;");
    passes("CLASS A=A:TEXT;M:TEXT;END A;");
}

#[test]
fn extended_with_nothing_inherited() {
    refused(10, "CLASS C=^a(EXTENDED):TEXT;");
    refused(10, "CLASS C=^a(EXTENDED):X;");
    refused(10, "CLASS C=^a(EXTENDED):MANDATORY;");
    refused(
        10,
        "CLASS B=a:TEXT;END B;CLASS C EXTENDS B=^b(EXTENDED):TEXT;",
    );
}

#[test]
fn unknown_references() {
    refused(10, "DOMAIN A EXTENDS ^A=TEXT;");
    refused(10, "CLASS C EXTENDS ^C=END C;");
    refused(10, "STRUCTURE S=a:^S;");
    refused(10, "CLASS C=a:^B;");
    refused(10, "DOMAIN A=TEXT;B EXTENDS ^X.A=TEXT;");
    refused(10, "DOMAIN A=TEXT;B EXTENDS ^A.A=TEXT;");
    refused(10, "DOMAIN A=TEXT;B EXTENDS ^M.A.A=TEXT;");
    refused(10, "TOPIC T=END T;DOMAIN B EXTENDS ^T.A=TEXT;");
    refused(10, "TOPIC T=DOMAIN A=TEXT;B EXTENDS ^M.A=TEXT;");
    refused(10, "DOMAIN A=TEXT;TOPIC T=DOMAIN B EXTENDS ^M.T.A=TEXT;");
    refused(10, "TOPIC T=DOMAIN A=TEXT;END T;DOMAIN B EXTENDS ^A=TEXT;");
    refused(
        10,
        "TOPIC T=DOMAIN A=TEXT;END T;TOPIC U=DOMAIN B EXTENDS ^A=TEXT;",
    );
    refused(10, "TOPIC T=CLASS C=a:^M.T.T;");
    refused(10, "CLASS C=a:^M.U.T;");
}

#[test]
fn known_references() {
    passes("TOPIC T=DOMAIN A=TEXT;B EXTENDS A=TEXT;C EXTENDS M.T.A=TEXT;END T;DOMAIN A EXTENDS M.T.A=TEXT;");
    passes("DOMAIN A=TEXT;TOPIC T=DOMAIN B EXTENDS A=TEXT;C EXTENDS M.A=TEXT;END T;");
    passes("TOPIC T=DOMAIN A=TEXT;END T;TOPIC U=DOMAIN A EXTENDS M.T.A=TEXT;END U;");
    // The topic's own name after it was closed: two things, one name each.
    passes("TOPIC T=DOMAIN A=TEXT;END T;DOMAIN A=1..2;CLASS C=a:A;b:M.T.A;c:M.A;END C;");
}

#[test]
fn wrong_sorts() {
    let known = "TOPIC T=END T;CLASS C=END C;STRUCTURE S=END S;DOMAIN D=TEXT;";
    for sort in ["T", "C", "S", "M.T", "M.C", "M.S"] {
        refused(11, &format!("{known}X EXTENDS ^{sort}=TEXT;"));
    }
    for sort in ["T", "D", "M.D"] {
        refused(11, &format!("{known}CLASS X EXTENDS ^{sort}="));
    }
    for sort in ["T", "D", "C", "M.C"] {
        refused(11, &format!("{known}STRUCTURE X EXTENDS ^{sort}="));
    }
    for sort in ["T", "C", "M.T"] {
        refused(11, &format!("{known}CLASS X=a:^{sort};"));
    }
    refused(11, "TOPIC T=CLASS C=a:^T;");
    refused(11, "TOPIC T=CLASS C=a:^M.T;");
    refused(11, "TOPIC T=CLASS C=a:MANDATORY ^T;");
}

#[test]
fn final_bases() {
    refused(12, "DOMAIN A(FINAL)=TEXT;B EXTENDS ^A=TEXT;");
    refused(12, "CLASS A(FINAL)=END A;CLASS B EXTENDS ^M.A=");
    refused(12, "STRUCTURE A(FINAL)=END A;STRUCTURE B EXTENDS ^A=");
    refused(12, "STRUCTURE A(FINAL)=END A;CLASS B EXTENDS ^A=");
    refused(
        12,
        "CLASS A=a(FINAL):TEXT;END A;CLASS B EXTENDS A=^a(EXTENDED):TEXT;",
    );
    // FINAL is as written, never inherited, and of an attribute its own only.
    passes("CLASS A=a:TEXT;END A;CLASS B EXTENDS A=a(EXTENDED,FINAL):TEXT;END B;");
    passes("DOMAIN D(FINAL)=TEXT;CLASS A=a:D;END A;CLASS B EXTENDS A=a(EXTENDED):TEXT;END B;");
    passes("DOMAIN D(FINAL)=TEXT;CLASS A=a:D;END A;CLASS B EXTENDS A=a(EXTENDED):D;END B;");
}
