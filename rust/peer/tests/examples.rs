//! Every example of document 01, "Examples on both sides".

mod common;
use common::*;
use peer::{read_number, Answer};

const THERMOMETER: &str = r#"INTERLIS 2.4;MODEL M AT "u" VERSION "1"=DOMAIN T=-10..40;END M."#;

#[track_caller]
fn over(base: &str, extension: &str) {
    passes(&format!("DOMAIN A={base};B EXTENDS A={extension};"));
}

#[track_caller]
fn never_over(number: u8, base: &str, extension: &str) {
    refused(
        number,
        &format!("DOMAIN A={base};B EXTENDS A=^{extension};"),
    );
}

#[test]
fn the_63_bytes_and_their_book() {
    assert_eq!(THERMOMETER.len(), 63);
    let (answer, book) = answer(THERMOMETER.as_bytes());
    let expected = Answer::Accepted {
        book_len: 35,
        definitions: 1,
    };
    assert_eq!(answer, expected);
    let records = "01 13000000 01  07 2F000000 01 00 FFFFFFFF
                   0A 00 F6FFFFFFFFFFFFFF 2800000000000000";
    assert_eq!(book, bytes(records));
}

#[test]
fn buffers_of_35_and_34() {
    let (enough, _) = answer_in(THERMOMETER.as_bytes(), 35);
    let (short, _) = answer_in(THERMOMETER.as_bytes(), 34);
    let expected = Answer::Accepted {
        book_len: 35,
        definitions: 1,
    };
    assert_eq!(enough, expected);
    assert_eq!(short, refusal(THERMOMETER.as_bytes(), 19, 47));
}

#[test]
fn ranges_over_ranges() {
    over("0.00..7.99", "0.0000..7.9949");
    never_over(17, "0.00..7.99", "0.0000..7.9950");
    over("0.00..7.99", "-0.0050..7.9900");
    never_over(17, "0.00..7.99", "-0.0051..7.9900");
    never_over(17, "-10..40", "-25..40");
    over("0.50..7.00", "1..7");
    never_over(17, "0.50..7.00", "0..7");
}

#[test]
fn step_by_step_and_not_straight() {
    passes("DOMAIN A=1..7;B EXTENDS A=0.5..7.0;C EXTENDS B=0.45..7.00;");
    refused(17, "DOMAIN A=1..7;C EXTENDS A=^0.45..7.00;");
    assert_eq!(read_number(45, 2, 1), Ok(5));
    assert_eq!(read_number(5, 1, 0), Ok(1));
    assert_eq!(read_number(45, 2, 0), Ok(0));
}

#[test]
fn texts_over_texts() {
    over("TEXT*10", "TEXT*10");
    never_over(17, "TEXT*10", "TEXT*11");
    never_over(17, "TEXT*10", "TEXT");
    never_over(16, "TEXT*10", "MTEXT*5");
}

#[test]
fn enumerations_over_enumerations() {
    never_over(17, "(a, b: FINAL)", "(c)");
    over("(a, b: FINAL)", "(a (x, y))");
    over("(a, b)", "(c)");
    never_over(17, "(a (FINAL), b)", "(a (x))");
    over("(a (FINAL), b)", "(a)");
}

#[test]
fn bounds() {
    passes("DOMAIN A=4..4;");
    refused(14, "DOMAIN A=^5..4;");
    refused(14, "DOMAIN A=^1..2.0;");
}

#[test]
fn empty_text() {
    refused_text(5, "^");
}

#[test]
fn reading_a_power_of_ten() {
    let power = 10i64.pow(17);
    assert_eq!(read_number(power, 0, 1), Err(21));
    assert_eq!(read_number(power - 1, 0, 1), Ok((power - 1) * 10));
}
