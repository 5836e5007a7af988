//! Document 01's examples, and what lies close to them.

use super::{Stored, HEAD, ROOM};

const THERMOMETER: &str = "INTERLIS 2.4;MODEL M AT \"u\" VERSION \"1\"=DOMAIN T=-10..40;END M.";

/// A domain and its extension: number, base, extension with a mark.
const OVER: [(u8, &str, &str); 39] = [
    (0, "0.00..7.99", "0.0000..7.9949"),
    (17, "0.00..7.99", "^0.0000..7.9950"),
    (0, "0.00..7.99", "-0.0050..7.9900"),
    (17, "0.00..7.99", "^-0.0051..7.9900"),
    (17, "-10..40", "^-25..40"),
    (0, "-10..40", "-10..40"),
    (17, "-10..40", "^-10..41"),
    (0, "0.50..7.00", "1..7"),
    (17, "0.50..7.00", "^0..7"),
    (0, "1..7", "0.5..7.4"),
    (17, "1..7", "^0.5..7.5"),
    (17, "1..7", "^0.45..7.00"),
    (0, "-7..-1", "-7.5..-0.6"),
    (17, "-7..-1", "^-7.6..-0.6"),
    (17, "-7..-1", "^-7.5..-0.5"),
    (0, "0..0", "-0.5..0.4"),
    (17, "0..0", "^-0.5..0.5"),
    (0, "TEXT*10", "TEXT*10"),
    (17, "TEXT*10", "^TEXT*11"),
    (17, "TEXT*10", "^TEXT"),
    (0, "TEXT", "TEXT*11"),
    (0, "MTEXT", "MTEXT"),
    (16, "TEXT*10", "^MTEXT*5"),
    (16, "MTEXT*10", "^TEXT*5"),
    (16, "TEXT*10", "^1..2"),
    (16, "1..2", "^(a)"),
    (16, "(a)", "^TEXT"),
    (17, "(a, b: FINAL)", "^(c)"),
    (0, "(a, b: FINAL)", "(a (x, y))"),
    (0, "(a, b)", "(c)"),
    (17, "(a (FINAL), b)", "^(a (x))"),
    (0, "(a (FINAL), b)", "(a)"),
    (0, "(a (x: FINAL), b)", "(a (x (y)), c)"),
    (17, "(a (x: FINAL), b)", "^(a (y), c)"),
    (0, "(a (x), b)", "(FINAL)"),
    (0, "(a (x), b)", "(b: FINAL)"),
    (0, "(a, b)", "(a (FINAL))"),
    (17, "(a, b: FINAL)", "^(a, b, c: FINAL)"),
    (0, "(a, b: FINAL)", "(b, a: FINAL)"),
];

/// Bounds of 18 digits, with 17 decimals over none and the reverse: comparing by
/// scaling up would wrap.
const WIDE: [(u8, &str, &str); 20] = [
    (0, "0..9", "0.00000000000000000..9.49999999999999999"),
    (17, "0..9", "^0.00000000000000000..9.50000000000000000"),
    (0, "0..9", "-0.50000000000000000..9.00000000000000000"),
    (17, "0..9", "^-0.50000000000000001..9.00000000000000000"),
    (0, "-9..-1", "-9.50000000000000000..-0.50000000000000001"),
    (17, "-9..-1", "^-9.50000000000000000..-0.50000000000000000"),
    (0, "0.00000000000000000..9.99999999999999999", "0..9"),
    (17, "0.00000000000000000..9.99999999999999999", "^0..10"),
    (
        17,
        "0.00000000000000000..9.99999999999999999",
        "^0..999999999999999999",
    ),
    (
        17,
        "0.00000000000000000..9.99999999999999999",
        "^-999999999999999999..9",
    ),
    (17, "0.00000000000000001..9.99999999999999999", "^0..9"),
    (
        0,
        "-999999999999999999..999999999999999999",
        "-9.99999999999999999..9.99999999999999999",
    ),
    (
        17,
        "-9.99999999999999999..9.99999999999999999",
        "^-999999999999999999..999999999999999999",
    ),
    (
        0,
        "-999999999999999999..999999999999999999",
        "-99999999999999999.9..99999999999999999.9",
    ),
    (
        17,
        "-99999999999999999.9..99999999999999999.9",
        "^-999999999999999999..999999999999999999",
    ),
    (
        0,
        "-99999999999999999.9..99999999999999999.9",
        "-99999999999999999..99999999999999999",
    ),
    (
        17,
        "100000000000000000..999999999999999999",
        "^0.10000000000000000..9.99999999999999999",
    ),
    (0, "0.1..0.9", "0.05000000000000000..0.94999999999999999"),
    (17, "0.1..0.9", "^0.04999999999999999..0.94999999999999999"),
    (17, "0.1..0.9", "^0.05000000000000000..0.95000000000000000"),
];

/// Bodies with a mark that stand by themselves.
const BODIES: [(u8, &str); 32] = [
    (0, "DOMAIN A=4..4;"),
    (14, "DOMAIN A=^5..4;"),
    (14, "DOMAIN A=^1..2.0;"),
    (14, "DOMAIN A=^-1..-2;"),
    (0, "DOMAIN A=-0..0;"),
    (14, "DOMAIN A=TEXT*^0;"),
    (0, "DOMAIN A=1..7;B EXTENDS A=0.5..7.0;C EXTENDS B=0.45..7.00;"),
    (17, "DOMAIN A=1..7;B EXTENDS A=0.5..7.0;C EXTENDS B=^0.44..7.00;"),
    (17, "DOMAIN A=1..7;B EXTENDS A=0.5..7.0;C EXTENDS B=0.45..7.00;D EXTENDS A=^0.45..7.00;"),
    (0, "DOMAIN N(ABSTRACT)=NUMERIC;A EXTENDS N=-5..5;"),
    (13, "DOMAIN ^N=NUMERIC;"),
    (17, "DOMAIN A=1..2;N(ABSTRACT) EXTENDS A=^NUMERIC;"),
    (0, "DOMAIN A(ABSTRACT)=NUMERIC;B(ABSTRACT) EXTENDS A=MANDATORY;"),
    (13, "DOMAIN A(ABSTRACT)=NUMERIC;^B EXTENDS A=MANDATORY;"),
    (5, "DOMAIN A=MANDATORY^;"),
    (9, "DOMAIN A=(a,^a);A=TEXT;"),
    (17, "DOMAIN A=(a(x),b);B=(a,b);CLASS C=e:A;END C;CLASS D EXTENDS C=e(EXTENDED):^B;END D;"),
    (17, "DOMAIN A=(a,b:FINAL);B=(a,b);CLASS C=e:A;END C;CLASS D EXTENDS C=e(EXTENDED):^B;END D;"),
    (18, "DOMAIN A=(a,b:FINAL);B=(a,b:FINAL);CLASS C=e:A;END C;CLASS D EXTENDS C=e(EXTENDED):^B;END D;"),
    (0, "DOMAIN A=1..9;B EXTENDS A=2..8;C EXTENDS B=3..7;CLASS K=e:A;END K;CLASS L EXTENDS K=e(EXTENDED):C;END L;"),
    (18, "DOMAIN A=1..9;B EXTENDS A=1..9;CLASS K=e:B;END K;CLASS L EXTENDS K=e(EXTENDED):^A;END L;"),
    (0, "STRUCTURE S=END S;STRUCTURE R EXTENDS S=END R;CLASS K=e:S;END K;CLASS L EXTENDS K=e(EXTENDED):R;END L;"),
    (18, "STRUCTURE S=END S;STRUCTURE R=END R;CLASS K=e:S;END K;CLASS L EXTENDS K=e(EXTENDED):^R;END L;"),
    (16, "STRUCTURE S=END S;CLASS K=e:TEXT;END K;CLASS L EXTENDS K=e(EXTENDED):^S;END L;"),
    (11, "CLASS K=END K;STRUCTURE S EXTENDS ^K=END S;"),
    (0, "CLASS K=END K;CLASS L EXTENDS M.K=END L;"),
    (10, "CLASS K=END K;CLASS L EXTENDS ^N.K=END L;"),
    (15, "DOMAIN A=^(FINAL);"),
    (4, "DOMAIN A=TEXT*^5000000000;"),
    (5, "DOMAIN A=TEXT*^5.0;"),
    (5, "CLASS C EXTENDS a.b.c^.d=END C;"),
    (
        0,
        "TOPIC T=DOMAIN a(ABSTRACT)=NUMERIC;b EXTENDS M.T.a=1..2;c=(r,s(x:FINAL),t(FINAL));STRUCTURE S=END S;\
         CLASS C(FINAL)=ATTRIBUTE p:MANDATORY TEXT*10;u:M.T.c;v:S;END C;END T;",
    ),
];

/// Two places for one number in one unit: the first is named.
const TWICE: [(u8, &str); 16] = [
    (9, "DOMAIN A=TEXT;^A=(x,x);"),
    (9, "DOMAIN A=(x,^x,x);"),
    (9, "DOMAIN A=(x,y(z,^z),x);"),
    (9, "DOMAIN A=(x,^x,y(z,z));"),
    (9, "DOMAIN A=(x(y,^y),x(y,y));"),
    (9, "DOMAIN A=(x(y(z,w,^z),y),x);"),
    (9, "CLASS C=a:TEXT;^a:(x,x);END C;"),
    (9, "CLASS B=a:TEXT;END B;CLASS C EXTENDS B=^a:(x,x);END C;"),
    (10, "CLASS C=^a(EXTENDED):U;END C;"),
    (10, "CLASS C=a:^U;END C;"),
    (11, "TOPIC T=END T;CLASS C=a:^T;END C;"),
    (13, "DOMAIN ^A(FINAL,FINAL,ABSTRACT)=NUMERIC;"),
    (14, "DOMAIN A=^2..1.0;"),
    (2, "DOMAIN A=^# #;"),
    (6, "DOMAIN A=^LIST OF BAG;"),
    (5, "DOMAIN A=^; ;"),
];

/// Whole texts with a mark.
const TEXTS: [(u8, &str); 20] = [
    (5, "^"),
    (5, "  !! nothing^"),
    (5, "INTERLIS^"),
    (7, "INTERLIS ^2.3;"),
    (7, "INTERLIS ^+2.4;"),
    (7, "INTERLIS ^02.4;#"),
    (7, "INTERLIS ^2.40;"),
    (5, "INTERLIS 2.4^"),
    (3, "INTERLIS 2.4;^/* MODEL"),
    (3, "INTERLIS 2.4;^/*/"),
    (2, "INTERLIS 2.4;^!MODEL"),
    (2, "INTERLIS 2.4;MODEL M AT \"^\\n\" VERSION \"1\"="),
    (2, "INTERLIS 2.4;MODEL M AT \"^\\"),
    (2, "INTERLIS 2.4;MODEL M AT \"^\\u12G4\""),
    (3, "INTERLIS 2.4;MODEL M AT ^\"u"),
    (2, "INTERLIS 2.4;MODEL M AT \"u^\n\""),
    (2, "INTERLIS 2.4;MODEL ^\u{7F}"),
    (6, "INTERLIS 2.4;^TYPE MODEL M"),
    (5, "INTERLIS 2.4;MODEL M(de)AT \"u\" VERSION \"1\"=END M^;"),
    (8, "INTERLIS 2.4;MODEL M(de)AT \"u\" VERSION \"1\"=END ^m."),
];

/// The text of 63 bytes on buffers of many lengths.
fn buffers() -> Vec<Stored> {
    let lengths = [
        0, 1, 5, 6, 7, 16, 17, 33, 34, 35, 36, 63, 65_534, 65_535, 65_536, 70_000, 131_072,
    ];
    let one = |length: usize| Stored::new(format!("a buffer of {length}"), THERMOMETER, length);
    lengths.into_iter().map(one).collect()
}

/// What stands behind the model's end, and comments between all symbols.
fn behind() -> Vec<Stored> {
    let model = format!("{HEAD}END M.");
    let spread = THERMOMETER
        .replace(';', "/**/;!! ;\r")
        .replace('=', " = /* = */ ");
    vec![
        Stored::marked(0, &format!("{model}\n!! over")),
        Stored::marked(0, &format!("{model}/* over */")),
        Stored::marked(5, &format!("{model}^x")),
        Stored::marked(5, &format!("{model}^5")),
        Stored::marked(2, &format!("{model}^#")),
        Stored::marked(3, &format!("{model}^/*")),
        Stored::marked(5, &format!("{model} ^UNIT")),
        Stored::marked(5, &format!("{HEAD}END M^..")),
        Stored::marked(8, &format!("{HEAD}END ^N.#")),
        Stored::marked(0, &spread),
    ]
}

pub fn examples() -> Vec<Stored> {
    let over = |table: &[(u8, &str, &str)]| -> Vec<Stored> {
        let one = |(number, base, extension): &(u8, &str, &str)| {
            Stored::body(
                *number,
                &format!("DOMAIN A={base};B EXTENDS A={extension};"),
            )
        };
        table.iter().map(one).collect()
    };
    let body = |(number, body): &(u8, &str)| Stored::body(*number, body);
    let text = |(number, text): &(u8, &str)| Stored::marked(*number, text);
    let mut all = vec![Stored::new("the 63 bytes", THERMOMETER, ROOM)];
    all.extend(buffers());
    all.extend(over(&OVER));
    all.extend(over(&WIDE));
    all.extend(BODIES.iter().map(body));
    all.extend(TWICE.iter().map(body));
    all.extend(TEXTS.iter().map(text));
    all.extend(behind());
    all
}
