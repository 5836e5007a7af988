//! Both sides of every number under "Sizes".

mod common;
use common::*;
use peer::Answer;

fn name(length: usize) -> String {
    "n".repeat(length)
}

#[test]
fn text_of_65535_bytes() {
    let short = model("");
    let longest = format!("{short}{}", " ".repeat(65_535 - short.len()));
    passes_text(&longest);
    let longer = format!("{longest} ");
    let (found, _) = answer(longer.as_bytes());
    assert_eq!(found, refusal(longer.as_bytes(), 1, 0));
}

#[test]
fn a_text_too_long_is_refused_before_all() {
    for text in [vec![0; 65_536], vec![b'"'; 100_000]] {
        let expected = refusal(&text, 1, 0);
        assert_eq!(answer(&text).0, expected);
        assert_eq!(answer_in(&text, 0).0, expected);
    }
}

#[test]
fn words_of_255_bytes() {
    let (longest, longer) = (name(255), name(256));
    passes(&format!("DOMAIN {longest}=TEXT;"));
    refused(4, &format!("DOMAIN ^{longer}=TEXT;"));
    // Also where no word could stand, and where a word is no name.
    refused(4, &format!("DOMAIN A=TEXT ^{longer}"));
    refused_text(4, &format!("^{longer}"));
    refused_text(5, &format!("^{longest}"));
    refused_text(4, &format!("{}^{longer}", model("")));
}

#[test]
fn numbers_of_18_digits() {
    let most = "9".repeat(18);
    passes(&format!("DOMAIN A=-{most}..{most};"));
    refused(4, &format!("DOMAIN A=^{most}9..1;"));
    refused(4, &format!("DOMAIN A=1..^-{most}9;"));
    passes("DOMAIN A=0.00000000000000001..0.00000000000000002;");
    refused(4, "DOMAIN A=^0.000000000000000001..1;");
    // Leading zeros count; the sign and the dot do not.
    passes("DOMAIN A=+000000000000000001..+000000000000000001;");
    refused(4, "DOMAIN A=^0000000000000000001..1;");
    refused_text(4, "INTERLIS ^0000000000000000002.4;");
    refused_text(4, "^1234567890123456789");
    refused_text(5, "^123456789012345678");
}

#[test]
fn text_lengths() {
    passes("DOMAIN A=TEXT*1;");
    refused(14, "DOMAIN A=TEXT*^0;");
    refused(14, "DOMAIN A=MTEXT*^000;");
    let book = passes("DOMAIN A=TEXT*4294967295;");
    assert_eq!(book[17..], bytes("08 FFFFFFFF"));
    refused(4, "DOMAIN A=TEXT*^4294967296;");
    refused(4, "DOMAIN A=MTEXT*^999999999999999999;");
    refused(4, "DOMAIN A=TEXT*^0000000000000000001;");
    passes("DOMAIN A=TEXT*000000000000000001;");
}

fn nested(depth: usize, innermost: &str) -> String {
    let outer = "(a".repeat(depth - 1);
    format!("{outer}{innermost}{}", ")".repeat(depth - 1))
}

#[test]
fn enumerations_eight_deep() {
    passes(&format!("DOMAIN A={};", nested(8, "(a)")));
    passes(&format!("DOMAIN A={};", nested(8, "(FINAL)")));
    refused(4, &format!("DOMAIN A={};", nested(9, "^(a)")));
    refused(4, &format!("DOMAIN A={};", nested(9, "^(FINAL)")));
    refused(4, &format!("DOMAIN A={};", nested(9, "^(;")));
    // A parenthesis that is not possible anyway is no matter of nesting.
    refused(5, &format!("DOMAIN A={};", nested(8, "(^(a)")));
    refused(5, &format!("DOMAIN A={};", nested(8, "(FINAL^(a)")));
    let class = |enumeration: String| format!("CLASS C=a:{enumeration};END C;");
    passes(&class(nested(8, "(a)")));
    refused(4, &class(nested(9, "^(a)")));
}

fn attributes(prefix: &str, count: usize) -> String {
    (0..count).map(|n| format!("{prefix}{n}:TEXT;")).collect()
}

#[test]
fn own_attributes_256() {
    for word in ["CLASS", "STRUCTURE"] {
        let most = attributes("a", 256);
        passes(&format!("{word} C={most}END C;"));
        refused(4, &format!("{word} C={most}^b:TEXT;END C;"));
        // 4 comes before 7 to 19 and 22 of the unit, and after 5.
        refused(4, &format!("{word} C={most}^b(EXTENDED):X;END C;"));
        refused(4, &format!("{word} C={most}^b:5..4;END C;"));
        refused(5, &format!("{word} C={most}b:5^;END C;"));
        // A name that is there already does not count.
        refused(9, &format!("{word} C={most}^a7:TEXT;END C;"));
    }
}

/// Of a class, from a class or from a structure.
#[test]
fn inherited_attributes_256() {
    inherited_from("CLASS");
    inherited_from("STRUCTURE");
}

fn inherited_from(sort: &str) {
    let base = format!("{sort} B={}END B;", attributes("a", 200));
    let more = attributes("b", 56);
    let head = "CLASS C EXTENDS B=";
    passes(&format!("{base}{head}{more}END C;"));
    refused(4, &format!("{base}{head}{more}^c:TEXT;END C;"));
    passes(&format!("{base}{head}{more}a0(EXTENDED):TEXT;END C;"));
    refused(9, &format!("{base}{head}{more}^a0:TEXT;END C;"));
    // Names extended before count once.
    let extended = "a0(EXTENDED):TEXT;a199(EXTENDED):TEXT;";
    passes(&format!("{base}{head}{extended}{more}END C;"));
    refused(4, &format!("{base}{head}{extended}{more}^c:TEXT;END C;"));
    // A full base passes its attributes on, through an empty class too.
    let full = format!("{sort} B={}END B;", attributes("a", 256));
    let chain = format!("{full}CLASS D EXTENDS B=END D;CLASS C EXTENDS D=");
    passes(&format!("{chain}END C;"));
    refused(4, &format!("{chain}^c:TEXT;END C;"));
}

fn elements(count: usize) -> String {
    let names: Vec<String> = (0..count).map(|n| format!("e{n}")).collect();
    names.join(",")
}

/// A body whose records, with the model's, take 60,146 bytes.
fn large() -> String {
    let copies: String = (0..9)
        .map(|n| format!("A{n} EXTENDS A=MANDATORY;"))
        .collect();
    format!("DOMAIN A=({});{copies}", elements(1000))
}

#[test]
fn books_of_65535_bytes() {
    // A range takes 29 bytes, a list of n elements 14 and 6 for each.
    let most = format!("{}R=0..1;L=({});", large(), elements(891));
    assert_eq!(passes(&most).len(), 65_535);
    let more = format!("{}^L=({});", large(), elements(896));
    refused(19, &more);
    let less = format!("{}L=({});", large(), elements(895));
    assert_eq!(passes(&less).len(), 65_530);
    refused(19, &format!("{most}^X(ABSTRACT)=NUMERIC;"));
    refused(19, &format!("{most}TOPIC ^T=END T;"));
    // 6 bytes for the topic fill the book; its END has no room.
    let nearly = format!("{}R=0..1;L=({});", large(), elements(890));
    assert_eq!(passes(&nearly).len(), 65_529);
    refused(19, &format!("{nearly}TOPIC T=END ^T;"));
    refused(8, &format!("{nearly}TOPIC T=END ^U;"));
}

#[test]
fn longer_buffers_hold_no_longer_books() {
    let most = model(&format!("{}R=0..1;L=({});", large(), elements(891)));
    let more = model(&format!("{}L=({});", large(), elements(896)));
    for room in [65_535, 65_536, 65_600, 200_000] {
        let (found, book) = answer_in(most.as_bytes(), room);
        assert!(matches!(found, Answer::Accepted { .. }));
        assert_eq!(book.len(), 65_535);
        let (found, _) = answer_in(more.as_bytes(), room);
        assert!(matches!(found, Answer::Refused { number: 19, .. }));
    }
    let (found, _) = answer_in(most.as_bytes(), 65_534);
    assert!(matches!(found, Answer::Refused { number: 19, .. }));
}
