//! Symbols: refusals 2, 3, 4, 6 and the readings about them.

mod common;
use common::*;
use peer::{Answer, WORDS};

#[track_caller]
fn header_string(number: u8, string: &str) {
    refused_text(number, &format!("INTERLIS 2.4;MODEL M AT {string}"));
}

#[track_caller]
fn refused_bytes(number: u8, place: usize, text: &[u8]) {
    assert_eq!(answer(text).0, refusal(text, number, place));
}

#[test]
fn bytes_that_begin_no_symbol() {
    for byte in [
        "#", "!", "/", "+", "-", "\\", "'", "{", "}", "_", "\u{7F}", "\0", "\u{B}",
    ] {
        refused_text(2, &format!("^{byte}"));
        refused(2, &format!("DOMAIN A=^{byte}"));
        refused_text(2, &format!("{} ^{byte}", model("")));
    }
    refused_bytes(2, 2, b"  \x80");
    refused_bytes(2, 0, b"\xFF");
    refused(2, "DOMAIN A=^- 5..6;");
    refused(2, "DOMAIN A=1..^+.5;");
    refused(2, "DOMAIN A=^/ *x*/TEXT;");
    refused(2, "DOMAIN A=^! ! TEXT;");
}

#[test]
fn separators_and_comments() {
    passes_text("\r\n\t INTERLIS/**/2.4;!!x\rMODEL M AT\"u\"VERSION\"1\"=!!y\nEND M.!!");
    passes_text(&format!("{}/* * / ** */!! \u{E9} \0", model("")));
    let mut text = model("/* \0\u{1} */").into_bytes();
    text.extend_from_slice(b" /*\xFF\x80*/ !!\xFE\r\n!!");
    assert!(matches!(answer(&text).0, Answer::Accepted { .. }));
    // No nesting; a star of the opening does not close.
    refused(5, "/* /* */ ^*/");
    refused(3, "^/*/");
    refused(3, "DOMAIN A=TEXT;^/* *");
    passes("/*/*/ /***/ /**/");
    // A line comment within a block comment, and the other way round.
    passes("/* !! */ !! /* \n");
    refused_text(5, "INTERLIS !! 2.4;^");
}

#[test]
fn open_comment_belongs_to_the_next_symbol() {
    // Within the unit it comes before 7 to 19 and 22, behind it after them.
    refused_text(3, "INTERLIS 2.3 ^/* ;");
    refused_text(7, "INTERLIS ^2.3; /*");
    refused(14, "DOMAIN A=^5..4; /*");
    refused(3, "DOMAIN A=5..4 ^/* ;");
    refused_text(3, &format!("{}^/*", model("")));
    refused_text(8, &format!("{HEAD}END ^X./*"));
    refused_text(3, "^/*");
}

#[test]
fn strings() {
    let text = |uri: &[u8]| [b"INTERLIS 2.4;MODEL M AT \"", uri, b"\" VERSION\"\"=END M."].concat();
    for uri in [
        &b""[..],
        b"\\\"",
        b"\\\\",
        b"\\u00e9\\uABCD\\uD800",
        b"\x7F \x80\xFF\xC3",
        b"/* !! ",
    ] {
        assert!(matches!(answer(&text(uri)).0, Answer::Accepted { .. }));
    }
    header_string(3, "^\"abc");
    header_string(3, "^\"");
    header_string(3, "^\"abc\\\"");
    header_string(2, "\"abc^\n\"");
    header_string(2, "\"abc^\t");
    header_string(2, "\"^\\n\"");
    header_string(2, "\"^\\");
    header_string(2, "\"^\\u12");
    header_string(2, "\"^\\u12g4\"");
    header_string(2, "\"\\u1234^\\U1234\"");
    header_string(2, "\"a^\\u123\"");
    header_string(2, "\"^\0\n\\x");
}

#[test]
fn strings_are_judged_where_none_could_stand() {
    refused(3, "DOMAIN A=^\"");
    refused(2, "DOMAIN A=\"^\\x\"");
    refused(5, "DOMAIN A=^\"x\"");
    refused_text(2, "\"^\x01");
    refused_text(3, &format!("{}^\"", model("")));
}

#[test]
fn no_separator_is_needed() {
    refused_text(5, "INTERLIS 2.4^MODEL");
    refused(5, "DOMAIN A=1^-5;");
    refused(5, "DOMAIN A=1..40^a;");
    refused(5, "DOMAIN A=1..^.2;");
    passes("DOMAIN A=-1..-1;B=+1..+2;C=1.5..2.5;");
    refused(5, "DOMAIN A=1.5^.2;");
    refused(5, "DOMAIN A=1..^a;");
    refused(5, "DOMAIN A=1^E5..2;");
    refused(5, "DOMAIN A=1..2^E5;");
    refused(5, "DOMAIN A=1^.;");
}

#[test]
fn dots() {
    refused_text(5, &format!("{HEAD}END M^.."));
    refused_text(5, &format!("{HEAD}END M.^5"));
    refused_text(5, &format!("{HEAD}END M. ^."));
    refused(5, "DOMAIN A=1^. .2;");
    refused(5, "CLASS C EXTENDS M^..B=END C;");
}

#[test]
fn reserved_words() {
    for (word, form) in WORDS {
        let number = if form.is_some() { 5 } else { 6 };
        refused(
            number,
            &format!("DOMAIN A=(^{word});").replace("(^FINAL)", "(a,^FINAL)"),
        );
        refused(number, &format!("TOPIC ^{word}=END {word};"));
        refused_text(number, &format!("{}^{word}", model("")));
        let lower = word.to_lowercase();
        passes(&format!("DOMAIN {lower}=({lower}, {word}_, {word}x);"));
    }
    assert_eq!(WORDS.len(), 168);
    passes("DOMAIN SYMBOLOGY=TEXT;GENERICS=TEXT;");
    refused(6, "DOMAIN ^SYMBOLGY=TEXT;");
    refused(6, "DOMAIN A=(^OTHERS);");
    refused(6, "CLASS C=a:^BAG");
    refused(6, "^IMPORTS");
    refused(5, "DOMAIN ^TEXT=TEXT;");
}

#[test]
fn a_reserved_word_of_no_form_comes_before_5() {
    refused_text(6, "^OTHERS");
    refused_text(6, "INTERLIS ^LIST");
    refused_text(5, "INTERLIS ^MODEL");
    refused(6, "DOMAIN A=TEXT*^LIST;");
}

#[test]
fn capitals_count() {
    refused_text(5, "^Interlis 2.4;");
    passes("DOMAIN a=TEXT;A=TEXT;Text=TEXT;");
}
