//! Lines and columns, document 02, No. 6: of symbols, and of refusals at every sort
//! of place. What is expected is written out by hand.

mod common;

use common::*;
use peer::{symbols, Answer, Spot};

/// The text is refused by this number at this place, line and column.
#[track_caller]
fn stands(text: &str, number: u8, place: usize, line: usize, column: usize) {
    let expected = Answer::Refused {
        number,
        place,
        line,
        column,
    };
    assert_eq!(answer(text.as_bytes()).0, expected, "{text:?}");
}

/// A model with this body is refused by this number at this line and column, at the
/// first byte of `symbol` where it stands last.
#[track_caller]
fn stands_at(body: &str, number: u8, symbol: &str, line: usize, column: usize) {
    let text = format!("{HEAD}{body}");
    let place = text.rfind(symbol).expect("it is there");
    stands(&text, number, place, line, column);
}

#[test]
fn each_line_end_between_symbols() {
    stands("#", 2, 0, 1, 1);
    stands(" #", 2, 1, 1, 2);
    stands("\t\t#", 2, 2, 1, 3);
    stands("\n#", 2, 1, 2, 1);
    stands("\r#", 2, 1, 2, 1);
    stands("\r\n#", 2, 2, 2, 1);
    stands("\n\r#", 2, 2, 3, 1);
    stands("\n\n #", 2, 3, 3, 2);
    stands("\r\r #", 2, 3, 3, 2);
    stands("\r\n\r\n#", 2, 4, 3, 1);
    stands("\r\r\n#", 2, 3, 3, 1);
    stands("\r\n\n#", 2, 3, 3, 1);
    stands("\n\r\n\r#", 2, 4, 4, 1);
    stands("INTERLIS\n2.4\r;\r\n MODEL\n\r#", 2, 24, 6, 1);
}

/// Other bytes that some editors take for line ends are none.
#[test]
fn no_other_line_ends() {
    stands("/*\u{B}\u{C}\u{85}\u{2028}*/#", 2, 11, 1, 12);
    stands("\u{B}\n", 2, 0, 1, 1);
}

#[test]
fn columns_count_bytes() {
    stands("/*\u{E9}*/#", 2, 6, 1, 7);
    stands(
        "INTERLIS 2.4;\nMODEL M AT \"\u{E9}\u{1F550}\"#",
        2,
        33,
        2,
        20,
    );
}

#[test]
fn line_comments() {
    stands("!! a\n#", 2, 5, 2, 1);
    stands("!!\r#", 2, 3, 2, 1);
    stands("!! a !!\r\n #", 2, 10, 2, 2);
    stands("!!\n\r#", 2, 4, 3, 1);
    stands("!!\n!!\r!!\r\n#", 2, 10, 4, 1);
    stands("!! /* \n#", 2, 7, 2, 1);
}

#[test]
fn block_comments() {
    stands("/* a */#", 2, 7, 1, 8);
    stands("/*\n*/#", 2, 5, 2, 3);
    stands("/*\r*/#", 2, 5, 2, 3);
    stands("/*\r\n*/#", 2, 6, 2, 3);
    stands("/*\n\r*/#", 2, 6, 3, 3);
    stands("/* a\n b */ #", 2, 11, 2, 7);
    stands("/*\r\n\r\n\r*/\n/**/#", 2, 14, 5, 5);
    stands("/*/\n*/#", 2, 6, 2, 3);
    // A CR before the comment's end and an LF behind it are two line ends.
    stands("/*\r*/\n#", 2, 6, 3, 1);
    // Longer than a look at many bytes at once.
    let long = "a".repeat(100);
    stands(&format!("/*{long}\r\n{long}\n{long}*/#"), 2, 307, 3, 103);
}

#[test]
fn comments_that_are_never_closed() {
    stands("/*", 3, 0, 1, 1);
    stands("\r\n /* \n\n", 3, 3, 2, 2);
    stands("/*\n*/\n/*\n*", 3, 6, 3, 1);
}

#[test]
fn strings() {
    let head = "INTERLIS 2.4;\nMODEL M AT ";
    // A CR or LF in a string is on the line that it ends.
    stands(&format!("{head}\"a\nb\""), 2, 27, 2, 14);
    stands(&format!("{head}\"a\rb\""), 2, 27, 2, 14);
    stands(&format!("{head}\"a\r\nb\""), 2, 27, 2, 14);
    stands(&format!("{head}\"\n\r\""), 2, 26, 2, 13);
    stands(&format!("{head}\r\n\"abc\t\""), 2, 31, 3, 5);
    stands(&format!("{head}\"a\\\n\""), 2, 27, 2, 14);
    // Never closed: at its opening.
    stands(&format!("{head}\"abc"), 3, 25, 2, 12);
    stands(&format!("{head}\r\"abc"), 3, 26, 3, 1);
}

#[test]
fn the_end_of_the_text() {
    stands("", 5, 0, 1, 1);
    stands(" ", 5, 1, 1, 2);
    stands("\n", 5, 1, 2, 1);
    stands("\r", 5, 1, 2, 1);
    stands("\r\n", 5, 2, 2, 1);
    stands("\n\r", 5, 2, 3, 1);
    stands("INTERLIS 2.4;", 5, 13, 1, 14);
    stands("INTERLIS 2.4;\r\n\r", 5, 16, 3, 1);
    stands("!!", 5, 2, 1, 3);
    stands("!! a\n", 5, 5, 2, 1);
    stands("/*\n*/", 5, 5, 2, 3);
    stands(&" ".repeat(65_535), 5, 65_535, 1, 65_536);
    stands(&"\n".repeat(65_535), 5, 65_535, 65_536, 1);
    stands(&"\r\n".repeat(32_767), 5, 65_534, 32_768, 1);
}

#[test]
fn a_text_that_is_too_long() {
    for text in [" ", "\n", "\r", "\r\n"] {
        stands(&text.repeat(65_536), 1, 0, 1, 1);
    }
}

#[test]
fn symbols_that_are_too_large_or_not_possible() {
    let word = "w".repeat(256);
    stands(&format!("\n  {word}"), 4, 3, 2, 3);
    stands("\r\n 1234567890123456789", 4, 3, 2, 2);
    stands("\r -1234567890123456789", 4, 2, 2, 2);
    stands("INTERLIS\n 2.4\n  BAG;", 6, 16, 3, 3);
    stands("INTERLIS\n 2.4\n  MODEL;", 5, 16, 3, 3);
    stands("INTERLIS\r\n2.3\r\n;", 7, 10, 2, 1);
    stands_at("\nDOMAIN D=TEXT*\r4294967296;", 4, "4294967296", 3, 1);
    let deep = format!("\nDOMAIN D={}\r\n ^(a", "(a".repeat(8));
    let (before, behind) = deep.split_once('^').expect("a mark");
    stands_at(&format!("{before}{behind}"), 4, "(a", 3, 2);
}

/// The unit is judged behind its last symbol: the place is on an earlier line.
#[test]
fn units_that_are_judged() {
    stands_at("\nEND\r X\r\n.", 8, "X", 3, 2);
    stands_at("\nDOMAIN A=TEXT;\n  A\n=TEXT\n;", 9, "A\n", 3, 3);
    stands_at("\rDOMAIN A EXTENDS\r B\r.C=TEXT;", 10, "B", 3, 2);
    stands_at("\rCLASS C=\r\n\r\na\n(EXTENDED):TEXT;", 10, "a\n", 4, 1);
    stands_at(
        "CLASS C=END C;\nDOMAIN D EXTENDS\n C=TEXT;",
        11,
        "C=TEXT",
        3,
        2,
    );
    stands_at(
        "DOMAIN D(FINAL)=TEXT;\rE EXTENDS\r\n\tD=TEXT;",
        12,
        "D=",
        3,
        2,
    );
    stands_at("\n\nDOMAIN\r\r  D\n(FINAL,FINAL)=TEXT;", 13, "D\n", 5, 3);
    stands_at("DOMAIN D=\n5\n..\n4\n;", 14, "5", 2, 1);
    stands_at("DOMAIN D=TEXT\n*\n 0;", 14, "0;", 3, 2);
    stands_at("DOMAIN D=\r\n(\nFINAL);", 15, "(\n", 2, 1);
    stands_at(
        "DOMAIN D=TEXT;E EXTENDS D=\r\n MANDATORY\n 1..2;",
        16,
        "1..2",
        3,
        2,
    );
    stands_at("DOMAIN D=1..2;E EXTENDS D=\n\n0\n..2;", 17, "0\n", 3, 1);
    let astray = "DOMAIN D=1..2;E=1..2;CLASS C=a:D;END C;CLASS K EXTENDS C=\na(EXTENDED)\n:\r E\n;";
    stands_at(astray, 18, "E\n", 4, 2);
    stands_at(
        "UNIT u;DOMAIN D=1..2;E EXTENDS D=\r\n 1..2[\nu];",
        22,
        "1..2[",
        2,
        2,
    );
}

#[test]
fn doubled_elements() {
    stands_at("DOMAIN D=(a,a);", 9, "a)", 1, 53);
    stands_at("DOMAIN\n D=(a,\r\n b,\n a\n);", 9, "a\n", 4, 2);
    stands_at("DOMAIN D=(a\r(x\n\r,\r\n  x),\nb);", 9, "x)", 5, 3);
    stands_at("DOMAIN D=(a,/*\r\n*/a);", 9, "a)", 2, 3);
    stands_at("CLASS C=\n\rb:\r(a\n,b,!!\r\na);", 9, "a)", 6, 1);
}

#[test]
fn records_that_do_not_fit() {
    let text = format!("{HEAD}\r\n\rDOMAIN\n  D=TEXT;END M.");
    let (found, _) = answer_in(text.as_bytes(), 21);
    let expected = Answer::Refused {
        number: 19,
        place: 52,
        line: 4,
        column: 3,
    };
    assert_eq!(found, expected);
    let (found, _) = answer_in(text.as_bytes(), 5);
    assert_eq!(found.to_string(), "refused 19 19 1 20");
}

#[test]
fn the_257th_attribute() {
    let attributes: String = (0..256).map(|n| format!("a{n}:TEXT;\n")).collect();
    stands_at(
        &format!("CLASS C=\r\n{attributes}  b:TEXT;"),
        4,
        "b:",
        258,
        3,
    );
}

#[test]
fn behind_the_models_end() {
    stands_at("\nEND M.\r\n x", 5, "x", 3, 2);
    stands_at("END M.\n!!\n\r#", 2, "#", 4, 1);
}

#[test]
fn each_symbol_has_its_line_and_column() {
    let text = "a\n b\r\n/*\r*/c !!\r\"d\"\n\r-5 ..\r\n\r\n()";
    let found: Vec<(u32, u32, u32, usize)> = symbols(text.as_bytes())
        .into_iter()
        .map(|(at, length)| (at.place, at.line, at.column, length))
        .collect();
    let expected = [
        (0, 1, 1, 1),
        (3, 2, 2, 1),
        (11, 4, 3, 1),
        (16, 5, 1, 3),
        (21, 7, 1, 2),
        (24, 7, 4, 2),
        (30, 9, 1, 1),
        (31, 9, 2, 1),
    ];
    assert_eq!(found, expected);
}

/// From the text alone, of every place, within line ends too.
#[test]
fn places_of_a_text() {
    let text = b"ab\nc\r\r\nd\n\r";
    let expected = [
        (1, 1),
        (1, 2),
        (1, 3),
        (2, 1),
        (2, 2),
        (3, 1),
        (3, 2),
        (4, 1),
        (4, 2),
        (5, 1),
        (6, 1),
    ];
    for (place, (line, column)) in expected.into_iter().enumerate() {
        let at = Spot::of(text, place);
        assert_eq!(
            (at.place as usize, at.line, at.column),
            (place, line, column)
        );
    }
}
