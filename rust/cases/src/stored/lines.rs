//! Lines and columns, request No. 6: each sort of line end before each sort of
//! place. The line and the column of each are written out by hand, from the
//! document: both from 1, columns in bytes, CR LF one line end, CR or LF alone one.

use super::{Stored, HEAD, ROOM};

/// A text with `^` before the place of its refusal, with its number, its line and
/// its column.
type Marked = (u8, usize, usize, &'static str);

/// What stands before a symbol: line ends, one or more, and comments.
const BETWEEN: [Marked; 45] = [
    (2, 1, 1, "^#"),
    (2, 1, 4, " \t ^#"),
    (2, 2, 1, "\n^#"),
    (2, 2, 1, "\r^#"),
    (2, 2, 1, "\r\n^#"),
    (2, 3, 1, "\n\r^#"),
    (2, 3, 1, "\n\n^#"),
    (2, 3, 1, "\r\r^#"),
    (2, 3, 1, "\r\n\r\n^#"),
    (2, 3, 1, "\r\r\n^#"),
    (2, 3, 1, "\r\n\n^#"),
    (2, 3, 1, "\r\n\r^#"),
    (2, 3, 1, "\n\r\n^#"),
    (2, 4, 1, "\n\r\n\r^#"),
    (2, 4, 1, "\n\r\r^#"),
    (2, 3, 2, "\r \n ^#"),
    (2, 2, 3, "\n\t ^#"),
    (2, 1, 8, "/*\u{E9}*/ ^#"),
    (2, 2, 1, "!!\n^#"),
    (2, 2, 1, "!! a\r^#"),
    (2, 2, 2, "!! a !! b\r\n ^#"),
    (2, 3, 1, "!!\n\r^#"),
    (2, 3, 1, "!!\r\r^#"),
    (2, 4, 1, "!!\n!!\r!!\r\n^#"),
    (2, 2, 1, "!! /*\n^#"),
    (2, 1, 5, "/**/^#"),
    (2, 2, 3, "/*\n*/^#"),
    (2, 2, 3, "/*\r*/^#"),
    (2, 2, 3, "/*\r\n*/^#"),
    (2, 3, 3, "/*\n\r*/^#"),
    (2, 2, 7, "/* a\n b */ ^#"),
    (2, 2, 7, "/* a\r b */ ^#"),
    (2, 2, 7, "/* a\r\n b */ ^#"),
    (2, 3, 7, "/* a\n\r b */ ^#"),
    (2, 4, 3, "/*\r\n\r\r\n*/^#"),
    (2, 3, 1, "/*\r*/\n^#"),
    (2, 3, 1, "/*\n*/\r^#"),
    (2, 2, 3, "/*/\n*/^#"),
    (2, 2, 9, "/*\n!!*//**/^#"),
    (2, 3, 5, "/*\n\u{B}\u{C}\0\r**/ ^#"),
    (7, 2, 1, "INTERLIS\n^2.3\n;"),
    (7, 2, 1, "INTERLIS\r^2.3\r;"),
    (7, 2, 1, "INTERLIS\r\n^2.3\r\n;"),
    (7, 3, 1, "INTERLIS\n\r^2.3\n\r;"),
    (7, 3, 4, "\nINTERLIS/*\r\n*/ ^2.3;"),
];

/// The end of the text, and what is never closed.
const ENDS: [Marked; 26] = [
    (5, 1, 1, "^"),
    (5, 1, 2, " ^"),
    (5, 2, 1, "\n^"),
    (5, 2, 1, "\r^"),
    (5, 2, 1, "\r\n^"),
    (5, 3, 1, "\n\r^"),
    (5, 3, 1, "\r\n\r\n^"),
    (5, 2, 2, "\n ^"),
    (5, 1, 14, "INTERLIS 2.4;^"),
    (5, 2, 1, "INTERLIS 2.4;\n^"),
    (5, 2, 1, "INTERLIS 2.4;\r^"),
    (5, 2, 1, "INTERLIS 2.4;\r\n^"),
    (5, 3, 1, "INTERLIS 2.4;\n\r^"),
    (5, 2, 4, "INTERLIS\n2.4^"),
    (5, 1, 3, "!!^"),
    (5, 2, 1, "!! a\r\n^"),
    (5, 3, 1, "!!\n\r^"),
    (5, 2, 3, "/*\n*/^"),
    (5, 3, 1, "/*\r*/\n^"),
    (3, 1, 1, "^/*"),
    (3, 1, 1, "^/*\r\n"),
    (3, 2, 2, "\r\n ^/* \n\n*"),
    (3, 3, 1, "/*\n*/\n^/*/\r"),
    (3, 2, 12, "INTERLIS 2.4;\nMODEL M AT ^\"abc"),
    (3, 3, 1, "INTERLIS\r2.4;MODEL M AT\r^\"abc\\\""),
    (3, 3, 16, "INTERLIS\n\r2.4;MODEL M AT ^\"a"),
];

/// In a string: a CR or LF there is on the line that it ends.
const STRINGS: [Marked; 16] = [
    (2, 1, 27, "INTERLIS 2.4;MODEL M AT \"a^\nb\""),
    (2, 1, 27, "INTERLIS 2.4;MODEL M AT \"a^\rb\""),
    (2, 1, 27, "INTERLIS 2.4;MODEL M AT \"a^\r\nb\""),
    (2, 1, 26, "INTERLIS 2.4;MODEL M AT \"^\n\r\""),
    (2, 2, 14, "INTERLIS 2.4;\nMODEL M AT \"a^\nb\""),
    (2, 2, 14, "INTERLIS 2.4;\rMODEL M AT \"a^\rb\""),
    (2, 2, 14, "INTERLIS 2.4;\r\nMODEL M AT \"a^\r\nb\""),
    (2, 3, 14, "INTERLIS 2.4;\n\rMODEL M AT \"a^\n\rb\""),
    (2, 2, 14, "INTERLIS 2.4;\nMODEL M AT \"a^\n"),
    (2, 2, 14, "INTERLIS 2.4;\nMODEL M AT \"a^\r"),
    (2, 2, 14, "INTERLIS 2.4;\nMODEL M AT \"a^\\\n\""),
    (2, 2, 14, "INTERLIS 2.4;\nMODEL M AT \"a^\\u00\n0\""),
    (2, 2, 16, "INTERLIS 2.4;\nMODEL M AT \"\\\\a^\t\n\""),
    (
        2,
        3,
        3,
        "INTERLIS 2.4;MODEL M AT \"u\"\nVERSION\r\n\"1^\n\"=",
    ),
    (2, 2, 16, "INTERLIS 2.4;\nMODEL M AT \"\u{E9}\"^#"),
    (2, 2, 15, "INTERLIS 2.4;/*\r*/MODEL M AT \"^\r\""),
];

/// A model's head on one line, of 40 bytes, and then this, up to the fault and
/// behind it.
const BODIES: [Marked; 49] = [
    (5, 1, 41, "^="),
    (5, 2, 1, "\n^="),
    (5, 2, 1, "\r^="),
    (5, 2, 1, "\r\n^="),
    (5, 3, 1, "\n\r^="),
    (6, 3, 3, "DOMAIN D\r\n=\n  ^BAG;"),
    (4, 3, 2, "DOMAIN D=TEXT\r*\r ^4294967296;"),
    (4, 4, 1, "DOMAIN D=\n0\r..\r\n^1234567890123456789;"),
    (4, 2, 2, "DOMAIN D=(a(a(a(a(a(a(a(a\r\n ^(a"),
    (8, 3, 2, "\nEND\r ^X\r\n."),
    (8, 2, 1, "CLASS C=END\n^D\n;"),
    (9, 3, 3, "\nDOMAIN A=TEXT;\n  ^A\n=TEXT\n;"),
    (9, 2, 1, "UNIT a;\r\n^a;"),
    (9, 3, 1, "TOPIC T=\nUNIT\r^T;"),
    (9, 3, 1, "CLASS C=\na:TEXT;\r\n^a:TEXT;"),
    (10, 3, 2, "\rDOMAIN A EXTENDS\r ^B\r.C=TEXT;"),
    (10, 4, 1, "\rCLASS C=\r\n\r\n^a\n(EXTENDED):TEXT;"),
    (10, 2, 1, "DOMAIN D=1..2[\n^u\n];"),
    (11, 3, 2, "CLASS C=END C;\nDOMAIN D EXTENDS\n ^C=TEXT;"),
    (12, 3, 2, "DOMAIN D(FINAL)=TEXT;\rE EXTENDS\r\n\t^D=TEXT;"),
    (13, 5, 3, "\n\nDOMAIN\r\r  ^D\n(FINAL,FINAL)=TEXT;"),
    (14, 2, 1, "DOMAIN D=\n^5\n..\n4\n;"),
    (14, 3, 2, "DOMAIN D=TEXT\n*\n ^0;"),
    (15, 2, 1, "DOMAIN D=\r\n^(\nFINAL);"),
    (
        16,
        3,
        2,
        "DOMAIN D=TEXT;E EXTENDS D=\r\n MANDATORY\n ^1..2;",
    ),
    (17, 3, 1, "DOMAIN D=1..2;E EXTENDS D=\n\n^0\n..2;"),
    (17, 2, 3, "DOMAIN D=1..2;E EXTENDS D=/*\r*/^0..2;"),
    (
        18,
        4,
        2,
        "DOMAIN D=1..2;E=1..2;CLASS C=a:D;END C;CLASS K EXTENDS C=\na(EXTENDED)\n:\r ^E\n;",
    ),
    (
        22,
        2,
        2,
        "UNIT u;DOMAIN D=1..2;E EXTENDS D=\r\n ^1..2[\nu];",
    ),
    (9, 1, 53, "DOMAIN D=(a,^a);"),
    (9, 2, 1, "DOMAIN D=(a,\n^a);"),
    (9, 2, 1, "DOMAIN D=(a,\r^a);"),
    (9, 2, 1, "DOMAIN D=(a,\r\n^a);"),
    (9, 3, 1, "DOMAIN D=(a,\n\r^a);"),
    (9, 4, 2, "DOMAIN\n D=(a,\r\n b,\n ^a\n);"),
    (9, 5, 3, "DOMAIN D=(a\r(x\n\r,\r\n  ^x),\nb);"),
    (9, 2, 3, "DOMAIN D=(a,/*\r\n*/^a);"),
    (9, 4, 1, "DOMAIN D=(a,/*\n\n*/b,!!\n^a);"),
    (9, 6, 1, "CLASS C=\n\rb:\r(a\n,b,!!\r\n^a);"),
    (9, 3, 1, "CLASS C=\nb:(a(c),\r\n^a);"),
    (5, 3, 2, "\nEND M.\r\n ^x"),
    (2, 4, 1, "END M.\n!!\n\r^#"),
    (3, 2, 1, "END M.\r^/*\n"),
    (5, 2, 1, "END M\n^..\n"),
    (5, 2, 3, "DOMAIN D\n=1^;"),
    (5, 4, 1, "DOMAIN D=\r(a\r,\r^)"),
    (0, 0, 0, "\nEND M.\n"),
    (0, 0, 0, "\rEND\rM\r.\r"),
    (0, 0, 0, "!!\r\nEND/*\n\r*/M\r\n.\n\r!!"),
];

fn marked(&(number, line, column, text): &Marked) -> Stored {
    let mut stored = Stored::marked(number, text);
    stored.stands = Some((line, column));
    stored
}

/// A model with this behind its head.
fn in_model(&(number, line, column, body): &Marked) -> Stored {
    let mut stored = Stored::marked(number, &format!("{HEAD}{body}"));
    stored.stands = Some((line, column));
    stored
}

/// Records that do not fit, each at a name on a line of its own.
fn buffers() -> Vec<Stored> {
    let text = "INTERLIS 2.4;MODEL\nM AT \"u\" VERSION \"1\"=\r\nCLASS\r  C=a\n\r:TEXT;\n/*\r*/END\rC;END M.";
    // The model's record has 6 bytes, the class's 11, the attribute's 11 and 5, the END's 1.
    let names = [
        (5, 19, 2, 1),
        (16, 50, 4, 3),
        (27, 52, 4, 5),
        (32, 52, 4, 5),
        (33, 71, 9, 1),
    ];
    let one = |(length, place, line, column): (usize, usize, usize, usize)| {
        let mut stored = Stored::new(format!("{text} on {length}"), text, length);
        stored.said = Some((19, place));
        stored.stands = Some((line, column));
        stored
    };
    names.into_iter().map(one).collect()
}

/// The longest texts, and those that are too long.
fn lengths() -> Vec<Stored> {
    let one = |(unit, count, number, line, column): (&str, usize, u8, usize, usize)| {
        let text = unit.repeat(count);
        let place = if number == 1 { 0 } else { text.len() };
        let mut stored = Stored::new(format!("{count} times {unit:?}"), text, ROOM);
        stored.said = Some((number, place));
        stored.stands = Some((line, column));
        stored
    };
    let all = [
        (" ", 65_535, 5, 1, 65_536),
        ("\n", 65_535, 5, 65_536, 1),
        ("\r", 65_535, 5, 65_536, 1),
        ("\r\n", 32_767, 5, 32_768, 1),
        // An LF, CR LF again and again, and a CR.
        ("\n\r", 32_767, 5, 32_769, 1),
        ("\n", 65_536, 1, 1, 1),
        ("\r\n", 32_768, 1, 1, 1),
    ];
    all.into_iter().map(one).collect()
}

/// The 257th attribute, on a line of its own.
fn attribute_count() -> Stored {
    let attributes: String = (0..256).map(|n| format!("a{n}:TEXT;\n")).collect();
    let body = format!("CLASS C=\r\n{attributes}  ^b:TEXT;");
    let mut stored = Stored::marked(4, &format!("{HEAD}{body}"));
    stored.stands = Some((258, 3));
    stored
}

pub fn lines() -> Vec<Stored> {
    let texts = BETWEEN.iter().chain(&ENDS).chain(&STRINGS);
    let mut all: Vec<Stored> = texts.map(marked).collect();
    all.extend(BODIES.iter().map(in_model));
    all.extend(buffers());
    all.extend(lengths());
    all.push(attribute_count());
    all
}
