//! Types and bases: refusals 13 to 18.

mod common;
use common::*;

#[track_caller]
fn attribute_over(definitions: &str, base: &str, extension: &str) {
    for body in classes(definitions, base, extension) {
        passes(&body);
    }
}

#[track_caller]
fn attribute_never_over(number: u8, definitions: &str, base: &str, extension: &str) {
    for body in classes(definitions, base, &format!("^{extension}")) {
        refused(number, &body);
    }
}

/// K with attribute a of one type, and L over it with another: two classes, two
/// structures, and a class over a structure.
fn classes(definitions: &str, base: &str, extension: &str) -> [String; 3] {
    let sorts = [
        ("CLASS", "CLASS"),
        ("STRUCTURE", "STRUCTURE"),
        ("STRUCTURE", "CLASS"),
    ];
    sorts.map(|(k, l)| {
        format!(
            "{definitions} {k} K=a:{base};END K;\
             {l} L EXTENDS K=a(EXTENDED):{extension};END L;"
        )
    })
}

#[track_caller]
fn domain_over(base: &str, extension: &str) {
    passes(&format!("DOMAIN A={base};B EXTENDS A={extension};"));
    attribute_over("", base, extension);
    attribute_over(&format!("DOMAIN A={base};"), "A", extension);
}

#[track_caller]
fn domain_never_over(number: u8, base: &str, extension: &str) {
    refused(
        number,
        &format!("DOMAIN A={base};B EXTENDS A=^{extension};"),
    );
    attribute_never_over(number, "", base, extension);
    attribute_never_over(number, &format!("DOMAIN A={base};"), "A", extension);
    for body in classes("", base, &format!("MANDATORY ^{extension}")) {
        refused(number, &body);
    }
}

#[test]
fn properties_in_conflict() {
    refused(13, "CLASS ^C(FINAL,FINAL)=");
    refused(13, "CLASS ^C(ABSTRACT,FINAL)=");
    refused(13, "STRUCTURE ^C(FINAL,ABSTRACT)=");
    refused(13, "STRUCTURE S=END S;CLASS ^C(ABSTRACT,FINAL)EXTENDS S=");
    refused(13, "DOMAIN ^A(ABSTRACT,ABSTRACT)=TEXT;");
    refused(13, "DOMAIN ^A(FINAL,ABSTRACT)=NUMERIC;");
    refused(13, "CLASS C=^a(FINAL,FINAL):TEXT;");
    refused(
        13,
        "CLASS B=a:TEXT;END B;CLASS C EXTENDS B=^a(EXTENDED,EXTENDED):TEXT;",
    );
    passes("CLASS B=a:TEXT;END B;CLASS C EXTENDS B=a(FINAL,EXTENDED):TEXT;END C;");
}

#[test]
fn numeric_stands_in_abstract_domains() {
    passes("DOMAIN A(ABSTRACT)=NUMERIC;B(ABSTRACT) EXTENDS A=NUMERIC;C EXTENDS B=1..2;");
    refused(13, "DOMAIN ^A=NUMERIC;");
    refused(13, "DOMAIN ^A(FINAL)=NUMERIC;");
    refused(13, "DOMAIN A(ABSTRACT)=NUMERIC;^B EXTENDS A=NUMERIC;");
    refused(13, "DOMAIN A(ABSTRACT)=NUMERIC;^B EXTENDS A=MANDATORY;");
    passes("DOMAIN A(ABSTRACT)=NUMERIC;B(ABSTRACT) EXTENDS A=MANDATORY;");
    refused(13, "CLASS C=^a:NUMERIC;");
    refused(13, "DOMAIN A(ABSTRACT)=NUMERIC;CLASS C=^a:A;");
    refused(13, "DOMAIN A(ABSTRACT)=TEXT;CLASS C=^a:MANDATORY A;");
    refused(
        13,
        "CLASS B=a:1..2;END B;CLASS C EXTENDS B=^a(EXTENDED):NUMERIC;",
    );
    passes("STRUCTURE S(ABSTRACT)=END S;CLASS C=a:S;END C;");
    refused(17, "DOMAIN A=1..2;B(ABSTRACT) EXTENDS A=^NUMERIC;");
    refused(16, "DOMAIN A=TEXT;B(ABSTRACT) EXTENDS A=^NUMERIC;");
}

#[test]
fn bounds_and_lengths() {
    passes("DOMAIN A=-0..0;B=0..-0;C=-1.50..-1.49;");
    refused(14, "DOMAIN A=^1.0..2;");
    refused(14, "DOMAIN A=^-1..-2;");
    refused(14, "DOMAIN A=^0..-0.0;");
    refused(14, "CLASS C=a:MANDATORY ^2..1;");
    refused(14, "CLASS C=a:TEXT*^0;");
    refused(14, "DOMAIN A=TEXT*9;B EXTENDS A=MTEXT*^0;");
}

#[test]
fn an_empty_enumeration_needs_a_base() {
    refused(15, "DOMAIN A=^(FINAL);");
    refused(15, "DOMAIN A=MANDATORY ^(FINAL);");
    refused(15, "CLASS C=a(FINAL):^(FINAL);");
    domain_over("(a)", "(FINAL)");
    domain_over("(a:FINAL)", "(FINAL)");
    domain_never_over(16, "TEXT", "(FINAL)");
    passes("DOMAIN A=(a(FINAL));");
}

#[test]
fn kinds() {
    let kinds = ["TEXT*5", "MTEXT*5", "1..2", "(a)"];
    for base in kinds {
        for extension in kinds {
            if base == extension {
                domain_over(base, extension);
            } else {
                domain_never_over(16, base, extension);
                attribute_never_over(16, &format!("DOMAIN E={extension};"), base, "E");
            }
        }
        let structure = "STRUCTURE S=END S;";
        attribute_never_over(16, structure, base, "S");
        attribute_never_over(16, structure, "S", base);
        let both = format!("{structure}DOMAIN D={base};");
        attribute_never_over(16, &both, "D", "S");
        attribute_never_over(16, &both, "S", "M.D");
    }
    for body in classes("STRUCTURE S=END S;", "S", "MANDATORY ^(FINAL)") {
        refused(16, &body);
    }
}

#[test]
fn texts() {
    domain_over("TEXT", "TEXT");
    domain_over("TEXT", "TEXT*4294967295");
    domain_over("MTEXT*3", "MTEXT*1");
    domain_never_over(17, "MTEXT*3", "MTEXT");
    domain_never_over(17, "MTEXT*3", "MTEXT*4");
}

#[test]
fn numbers_rounded() {
    domain_over("0..1", "-0.5..1.4");
    domain_never_over(17, "0..1", "-0.6..1.4");
    domain_never_over(17, "0..1", "-0.5..1.5");
    domain_over("-2..-1", "-2.5..-0.6");
    domain_never_over(17, "-2..-1", "-2.5..-0.5");
    domain_never_over(17, "-2..-1", "-2.51..-1.00");
    domain_over("1.0..2.0", "1..2");
}

#[test]
fn numbers_of_many_digits() {
    let most = "9".repeat(18);
    domain_over("0..1", "0.00000000000000000..1.00000000000000000");
    domain_over("0..1", "-0.50000000000000000..1.49999999999999999");
    domain_never_over(17, "0..1", "-0.50000000000000001..1.49999999999999999");
    domain_never_over(17, "0..1", "0.00000000000000000..1.50000000000000000");
    domain_over("0.00000000000000000..9.99999999999999999", "0..9");
    // Scaled up, these wrap around in 64 bits.
    domain_never_over(
        17,
        "0.00000000000000000..9.99999999999999999",
        &format!("0..{most}"),
    );
    domain_never_over(
        17,
        "-1.00000000000000000..1.00000000000000000",
        "0..18446744073709552",
    );
    domain_never_over(
        17,
        "-1.00000000000000000..1.00000000000000000",
        "-184467440737095516..0",
    );
    domain_over(
        &format!("-{most}..{most}"),
        "-9.99999999999999999..9.99999999999999999",
    );
}

#[test]
fn enumerations_merged() {
    domain_over("(a(x:FINAL),b)", "(a(x(y)),c)");
    domain_never_over(17, "(a(x:FINAL),b)", "(a(z))");
    domain_never_over(17, "(a(x(FINAL)),b)", "(a(x(y)))");
    domain_over("(a(x(FINAL)),b)", "(a(x(FINAL),y))");
    domain_over("(a,b:FINAL)", "(b(FINAL))");
    domain_over("(a,b:FINAL)", "(b,a:FINAL)");
    domain_never_over(17, "(a,b:FINAL)", "(a,b,c)");
    // FINAL once set stays, also through a later extension.
    refused(17, "DOMAIN A=(a);B EXTENDS A=(FINAL);C EXTENDS B=^(b);");
    refused(
        17,
        "DOMAIN A=(a);B EXTENDS A=(b:FINAL);C EXTENDS B=(a);D EXTENDS C=^(c);",
    );
    refused(
        17,
        "DOMAIN A=(a);B EXTENDS A=(a(FINAL));C EXTENDS B=MANDATORY;D EXTENDS C=^(a(x));",
    );
    refused(
        17,
        "DOMAIN A=(a);B EXTENDS A=(a(x:FINAL));C EXTENDS B=(a);D EXTENDS C=^(a(y));",
    );
    passes("DOMAIN A=(a(x));B EXTENDS A=(a(FINAL));C EXTENDS B=(a(x(y)));");
    refused(
        17,
        "DOMAIN A=(a(x));B EXTENDS A=(a(FINAL));C EXTENDS B=^(a(y));",
    );
}

#[test]
fn later_extensions_are_judged() {
    refused(17, "DOMAIN A=1..9;B EXTENDS A=2..8;C EXTENDS B=^1..8;");
    refused(
        17,
        "DOMAIN A=TEXT*9;B EXTENDS A=TEXT*8;C EXTENDS B=MANDATORY;D EXTENDS C=^TEXT*9;",
    );
    refused(
        17,
        "CLASS A=a:1..9;END A;CLASS B EXTENDS A=a(EXTENDED):2..8;END B;\
         CLASS C EXTENDS B=END C;CLASS D EXTENDS C=a(EXTENDED):^1..9;",
    );
}

#[test]
fn named_domains_descend() {
    let chain = "DOMAIN A=1..7;B EXTENDS A=0.5..7.0;C EXTENDS B=0.45..7.00;D=2..3;";
    attribute_over(chain, "A", "A");
    attribute_over(chain, "A", "C");
    attribute_over(chain, "B", "MANDATORY M.C");
    attribute_never_over(18, chain, "A", "D");
    attribute_never_over(18, chain, "1..7", "A");
    attribute_never_over(18, chain, "1..7", "D");
    // An ancestor, and a sibling, are no descendants.
    attribute_never_over(18, chain, "B", "A");
    let siblings = "DOMAIN A=1..7;B EXTENDS A=2..6;C EXTENDS A=3..5;";
    attribute_never_over(18, siblings, "B", "C");
    attribute_never_over(17, siblings, "C", "B");
    // One step, straight to the base's type.
    attribute_never_over(17, chain, "2..3", "C");
    attribute_never_over(17, "DOMAIN A=0.45..7.00;", "1..7", "A");
    attribute_never_over(17, "DOMAIN A=TEXT;", "TEXT*5", "A");
    attribute_never_over(18, "DOMAIN A=TEXT*5;", "TEXT*5", "A");
}

#[test]
fn domains_named_further_down() {
    let domains = "DOMAIN A=1..7;B EXTENDS A=2..6;";
    let class = |base: &str, last: &str| {
        format!(
            "{domains}CLASS X=a:A;END X;CLASS Y EXTENDS X=a(EXTENDED):{base};END Y;\
             CLASS Z EXTENDS Y=a(EXTENDED):{last};END Z;"
        )
    };
    // MANDATORY alone keeps the domain, a type written in place does not.
    passes(&class("MANDATORY", "B"));
    refused(18, &class("1..7", "^B"));
    refused(17, &class("3..4", "^B"));
    passes(&class("B", "3..5"));
}

#[test]
fn domains_of_enumerations_named_over_others() {
    let over = |number, base: &str, own: &str| {
        attribute_never_over(number, &format!("DOMAIN E={own};"), base, "E");
        attribute_never_over(number, &format!("DOMAIN E={own};D={base};"), "D", "E");
    };
    over(17, "(a,b:FINAL)", "(a,b)");
    over(18, "(a,b:FINAL)", "(a,b:FINAL)");
    over(18, "(a,b:FINAL)", "(a:FINAL)");
    over(17, "(a,b:FINAL)", "(a,c:FINAL)");
    over(17, "(a(x),b)", "(a,b)");
    over(18, "(a(x),b)", "(b,c(d))");
    over(18, "(a,b)", "(a(x))");
    over(17, "(a(FINAL),b)", "(a(x:FINAL))");
    over(18, "(a(FINAL),b)", "(a)");
    over(18, "(a(FINAL),b)", "(a(FINAL))");
    over(17, "(a(x:FINAL),b)", "(a(x))");
    over(18, "(a(x:FINAL),b)", "(a(x:FINAL))");
    over(18, "(a(x:FINAL),b)", "(a(x(y):FINAL))");
    over(17, "(a(x),b)", "(a(FINAL))");
    over(18, "(a,b:FINAL)", "(a(x),b(FINAL):FINAL)");
}

#[test]
fn domains_named_over_merged_enumerations() {
    let domains = "DOMAIN A=(a);B EXTENDS A=(b(c));";
    attribute_never_over(17, &format!("{domains}E=(b);"), "B", "E");
    attribute_never_over(18, &format!("{domains}E=(b(c));"), "B", "E");
    attribute_never_over(17, &format!("{domains}E=(a(x));"), "(a:FINAL)", "B");
}

#[test]
fn structures() {
    let chain = "STRUCTURE A=END A;STRUCTURE B EXTENDS A=END B;STRUCTURE C EXTENDS B=END C;\
                 STRUCTURE D=END D;";
    attribute_over(chain, "A", "A");
    attribute_over(chain, "A", "C");
    attribute_over(chain, "A", "MANDATORY");
    attribute_never_over(18, chain, "B", "A");
    attribute_never_over(18, chain, "A", "D");
    attribute_never_over(18, chain, "C", "M.B");
}
