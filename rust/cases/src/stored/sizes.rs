//! Both sides of every number under "Sizes".

use super::{Stored, HEAD, ROOM};

fn words_and_numbers() -> Vec<Stored> {
    let (longest, longer) = ("n".repeat(255), "n".repeat(256));
    let (most, more) = ("9".repeat(18), "9".repeat(19));
    let bodies = [
        (0, format!("DOMAIN {longest}=TEXT;")),
        (4, format!("DOMAIN ^{longer}=TEXT;")),
        (4, format!("DOMAIN A=TEXT ^{longer};")),
        (0, format!("DOMAIN A=({longest});")),
        (4, format!("DOMAIN A=(^{longer});")),
        (10, format!("CLASS A=a:^{longest};END A;")),
        (4, format!("CLASS A=a:^{longer};END A;")),
        (0, format!("DOMAIN A=-{most}..{most};")),
        (4, format!("DOMAIN A=^{more}..1;")),
        (4, format!("DOMAIN A=1..^-{more};")),
        (
            0,
            "DOMAIN A=0.00000000000000001..0.00000000000000002;".to_owned(),
        ),
        (4, "DOMAIN A=^0.000000000000000001..1;".to_owned()),
        (
            0,
            "DOMAIN A=+000000000000000001..+000000000000000001;".to_owned(),
        ),
        (4, "DOMAIN A=^0000000000000000001..1;".to_owned()),
        (0, "DOMAIN A=TEXT*1;".to_owned()),
        (14, "DOMAIN A=TEXT*^0;".to_owned()),
        (14, "DOMAIN A=MTEXT*^000;".to_owned()),
        (0, "DOMAIN A=TEXT*4294967295;".to_owned()),
        (4, "DOMAIN A=TEXT*^4294967296;".to_owned()),
        (4, "DOMAIN A=MTEXT*^999999999999999999;".to_owned()),
        (4, "DOMAIN A=TEXT*^0000000000000000001;".to_owned()),
        (0, "DOMAIN A=TEXT*000000000000000001;".to_owned()),
        (5, "DOMAIN A=TEXT*^+5;".to_owned()),
        (5, "DOMAIN A=TEXT*^5000000000.0;".to_owned()),
        (
            17,
            "DOMAIN A=TEXT*4294967294;B EXTENDS A=^TEXT*4294967295;".to_owned(),
        ),
    ];
    let mut all: Vec<Stored> = bodies
        .iter()
        .map(|(number, body)| Stored::body(*number, body))
        .collect();
    let texts = [
        (5, format!("^{longest}")),
        (4, format!("^{longer}")),
        (5, format!("^{most}")),
        (4, format!("^{more}")),
        (4, format!("INTERLIS ^{}2.4;", "0".repeat(17))),
        (7, format!("INTERLIS ^{}2.4;", "0".repeat(16))),
        (4, format!("{HEAD}END M.^{longer}")),
    ];
    all.extend(
        texts
            .iter()
            .map(|(number, text)| Stored::marked(*number, text)),
    );
    all
}

/// An enumeration in so many parentheses.
fn nested(depth: usize, innermost: &str) -> String {
    let outer = "(a".repeat(depth - 1);
    format!("{outer}{innermost}{}", ")".repeat(depth - 1))
}

fn nesting() -> Vec<Stored> {
    let class = |enumeration: String| format!("CLASS C=a:{enumeration};END C;");
    let domain = |enumeration: String| format!("DOMAIN A={enumeration};");
    let over =
        |base: String, extension: String| format!("DOMAIN A={base};B EXTENDS A={extension};");
    let bodies = [
        (0, domain(nested(8, "(a)"))),
        (0, domain(nested(8, "(FINAL)"))),
        (4, domain(nested(9, "^(a)"))),
        (4, domain(nested(9, "^(FINAL)"))),
        (4, domain(nested(9, "^(;"))),
        (5, domain(nested(8, "(^(a)"))),
        (5, domain(nested(8, "(FINAL^(a)"))),
        (0, class(nested(8, "(a)"))),
        (4, class(nested(9, "^(a)"))),
        (0, over(nested(8, "(a)"), nested(8, "(b)"))),
        (0, over(nested(7, "(a)"), nested(8, "(a)"))),
        (
            17,
            over(nested(8, "(FINAL)"), format!("^{}", nested(8, "(b)"))),
        ),
        (9, domain(nested(8, "(b,^b)"))),
    ];
    let one = |(number, body): &(u8, String)| Stored::body(*number, body);
    bodies.iter().map(one).collect()
}

/// Attributes with short names, of one letter and a number.
pub(super) fn attributes(letter: char, count: usize) -> String {
    (0..count).map(|n| format!("{letter}{n:x}:TEXT;")).collect()
}

fn attribute_counts() -> Vec<Stored> {
    let full = attributes('a', 256);
    let base = format!("CLASS B={}END B;CLASS C EXTENDS B=", attributes('a', 200));
    let more = attributes('b', 56);
    let bodies = [
        (0, format!("CLASS C={full}END C;")),
        (4, format!("CLASS C={full}^b:TEXT;END C;")),
        (4, format!("STRUCTURE C={full}^b:TEXT;END C;")),
        (9, format!("CLASS C={full}^a7:TEXT;END C;")),
        (0, format!("{base}{more}END C;")),
        (4, format!("{base}{more}^c:TEXT;END C;")),
        (0, format!("{base}{more}a0(EXTENDED):TEXT;END C;")),
        (0, format!("{base}a0(EXTENDED):TEXT;{more}END C;")),
        (4, format!("{base}a0(EXTENDED):TEXT;{more}^c:TEXT;END C;")),
        (0, format!("CLASS B={full}END B;CLASS D EXTENDS B=END D;CLASS C EXTENDS D=aff(EXTENDED):TEXT;END C;")),
        (4, format!("CLASS B={full}END B;CLASS D EXTENDS B=END D;CLASS C EXTENDS D=^c:TEXT;END C;")),
        (4, format!("CLASS B={full}END B;CLASS C EXTENDS B=^c(EXTENDED):U;END C;")),
    ];
    let one = |(number, body): &(u8, String)| Stored::body(*number, body);
    bodies.iter().map(one).collect()
}

fn elements(count: usize) -> String {
    let names: Vec<String> = (0..count).map(|n| format!("e{n:x}")).collect();
    names.join(",")
}

/// A body whose records, with the model's, take 60,146 bytes.
fn large() -> String {
    let copies: String = (0..9)
        .map(|n| format!("A{n} EXTENDS A=MANDATORY;"))
        .collect();
    format!("DOMAIN A=({});{copies}", elements(1000))
}

/// Books of 65,535 bytes and of one more, on buffers of that length and others.
fn books() -> Vec<Stored> {
    let large = large();
    let of = |behind: String| format!("{HEAD}{large}{behind}END M.");
    let full = of(format!("R=0..1;L=({});", elements(891)));
    // The last domain takes 65,530 bytes in all with 895 elements, 65,536 with 896.
    let over = of(format!("^L=({});", elements(896)));
    let topic = of(format!("R=0..1;L=({});TOPIC T=END ^T;", elements(890)));
    let mut all = vec![
        Stored::new("a book of 65,535 bytes", full.as_str(), ROOM),
        Stored::new("the same on a longer buffer", full.as_str(), 70_000),
        Stored::new("the same on a buffer of 65,534", full.as_str(), ROOM - 1),
        Stored::marked(19, &over),
        Stored::marked(19, &topic),
    ];
    let mut longer = Stored::marked(19, &over);
    longer.case.buffer_len = 100_000;
    all.push(longer);
    all
}

/// Texts of 65,535 and 65,536 bytes.
fn texts() -> Vec<Stored> {
    let short = format!("{HEAD}END M.");
    let longest = format!("{short}{}", " ".repeat(65_535 - short.len()));
    let mut all = vec![Stored::marked(0, &longest)];
    let mut longer = Stored::new("65,536 bytes", format!("{longest} "), 35);
    longer.said = Some((1, 0));
    all.push(longer);
    all
}

pub fn sizes() -> Vec<Stored> {
    let mut all = words_and_numbers();
    all.extend(nesting());
    all.extend(attribute_counts());
    all.extend(books());
    all.extend(texts());
    all
}
