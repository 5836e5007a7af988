//! The book's records, the lent buffer, reading a number.

mod common;
use common::*;
use peer::{read_number, Answer};

/// Renders a book, one record after the other, names from the text.
fn rendered(text: &str, book: &[u8]) -> String {
    let mut records = Vec::new();
    let mut at = 0;
    let number = |at: usize| u32::from_le_bytes(book[at..at + 4].try_into().unwrap());
    let long = |at: usize| i64::from_le_bytes(book[at..at + 8].try_into().unwrap());
    while at < book.len() {
        let kind = book[at];
        let name = || {
            let start = number(at + 1) as usize;
            text[start..start + book[at + 5] as usize].to_owned()
        };
        let (record, length) = match kind {
            1 | 2 | 14 => (format!("{kind}:{}", name()), 6),
            3 | 11 | 15 | 16 => (kind.to_string(), 1),
            4..=7 | 18 => {
                let base = number(at + 7) as i32;
                (format!("{kind}:{}/{}/{base}", name(), book[at + 6]), 11)
            }
            8 | 9 | 12 | 17 | 19 => (format!("{kind}:{}", number(at + 1)), 5),
            10 => (
                format!("10:{}/{}/{}", book[at + 1], long(at + 2), long(at + 10)),
                18,
            ),
            13 => (format!("13:{}", book[at + 1]), 2),
            _ => panic!("no kind: {kind}"),
        };
        records.push(record);
        at += length;
    }
    records.join(" ")
}

#[track_caller]
fn holds(body: &str, records: &str) {
    let text = model(body);
    assert_eq!(rendered(&text, &passes_text(&text)), records);
}

#[test]
fn every_kind_of_record() {
    holds("", "1:M");
    holds("TOPIC T=END T;", "1:M 2:T 3");
    holds(
        "CLASS C(FINAL)=END C;STRUCTURE S(ABSTRACT)=END S;",
        "1:M 4:C/2/-1 16 5:S/1/-1 16",
    );
    holds(
        "DOMAIN A=TEXT;B=TEXT*7;C=MTEXT;D=MTEXT*9;",
        "1:M 7:A/0/-1 8:0 7:B/0/-1 8:7 7:C/0/-1 9:0 7:D/0/-1 9:9",
    );
    holds(
        "DOMAIN A=-1.50..+02.25;B(ABSTRACT)=NUMERIC;",
        "1:M 7:A/0/-1 10:2/-150/225 7:B/1/-1 11",
    );
    holds("DOMAIN A=-0..-0;", "1:M 7:A/0/-1 10:0/0/0");
    holds(
        "DOMAIN A=(a(b:FINAL),c(FINAL));",
        "1:M 7:A/0/-1 13:0 14:a 13:1 14:b 15 14:c 13:1 15 15",
    );
    holds(
        "DOMAIN D=TEXT;STRUCTURE S=END S;CLASS C=a:D;b:S;END C;",
        "1:M 7:D/0/-1 8:0 5:S/0/-1 16 4:C/0/-1 6:a/0/-1 17:1 6:b/0/-1 12:3 16",
    );
}

#[test]
fn definitions_are_counted() {
    let text = model("TOPIC T=DOMAIN D=(a,b);CLASS C=a:D;b:TEXT;END C;STRUCTURE S=END S;END T;");
    let (found, _) = answer(text.as_bytes());
    assert!(matches!(found, Answer::Accepted { definitions: 5, .. }));
}

#[test]
fn units_and_what_is_measured_in_them() {
    holds(
        "UNIT a;b(ABSTRACT)EXTENDS a;TOPIC T=UNIT c EXTENDS M.b;END T;",
        "1:M 18:a/0/-1 18:b/1/1 2:T 18:c/0/2 3",
    );
    holds(
        "UNIT a;DOMAIN D=1..2[a];N(ABSTRACT)=NUMERIC[a];CLASS C=x:D;y:1..2[M.a];END C;",
        "1:M 18:a/0/-1 7:D/0/-1 10:0/1/2 19:1 7:N/1/-1 11 19:1 \
         4:C/0/-1 6:x/0/-1 17:2 6:y/0/-1 10:0/1/2 19:1 16",
    );
    holds(
        "UNIT a;b EXTENDS a;DOMAIN D=1..2[a];E EXTENDS D=MANDATORY;F EXTENDS E=1..1[b];",
        "1:M 18:a/0/-1 18:b/0/1 7:D/0/-1 10:0/1/2 19:1 7:E/8/3 10:0/1/2 19:1 7:F/8/6 10:0/1/1 19:2",
    );
    holds(
        "UNIT a;DOMAIN D=1..2[a];CLASS C=x:D;y:1..2[a];END C;\
         CLASS E EXTENDS C=x(EXTENDED):MANDATORY;y(EXTENDED):MANDATORY;END E;",
        "1:M 18:a/0/-1 7:D/0/-1 10:0/1/2 19:1 4:C/0/-1 6:x/0/-1 17:2 6:y/0/-1 10:0/1/2 19:1 16 \
         4:E/0/5 6:x/12/6 17:2 6:y/12/8 10:0/1/2 19:1 16",
    );
    holds(
        "UNIT a;DOMAIN N(ABSTRACT)=NUMERIC[a];O(ABSTRACT)EXTENDS N=MANDATORY;",
        "1:M 18:a/0/-1 7:N/1/-1 11 19:1 7:O/9/2 11 19:1",
    );
}

#[test]
fn units_byte_for_byte() {
    let text = model("UNIT u;v(ABSTRACT)EXTENDS u;DOMAIN T=-1..4[v];");
    let (found, book) = answer(text.as_bytes());
    // Only the domain is a definition.
    let expected = Answer::Accepted {
        book_len: 62,
        definitions: 1,
    };
    assert_eq!(found, expected);
    let records = "01 13000000 01  12 2D000000 01 00 FFFFFFFF  12 2F000000 01 01 01000000
                   07 4B000000 01 00 FFFFFFFF  0A 00 FFFFFFFFFFFFFFFF 0400000000000000
                   13 02000000";
    assert_eq!(book, bytes(records));
    for (record, name) in ["M", "u", "v", "T", "", ""].iter().enumerate() {
        assert_eq!(shown(&text, &book, record), *name);
    }
}

#[test]
fn buffers_for_units() {
    let text = model("UNIT u;DOMAIN T=1..2[u];");
    let place = |before: &str| text.find(before).unwrap() + before.len();
    for room in 0..60 {
        let expected = match room {
            0..6 => Some(place("MODEL ")),
            6..17 => Some(place("UNIT ")),
            17..51 => Some(place("DOMAIN ")),
            _ => None,
        };
        let (found, book) = answer_in(text.as_bytes(), room);
        match expected {
            Some(place) => assert_eq!(found, refusal(text.as_bytes(), 19, place)),
            None => assert_eq!(book.len(), 51),
        }
    }
}

#[test]
fn bases_are_record_numbers() {
    holds(
        "DOMAIN A=(a,b);B EXTENDS A=(c);C EXTENDS B=(FINAL);",
        "1:M 7:A/0/-1 13:0 14:a 14:b 15 7:B/0/1 13:0 14:a 14:b 14:c 15 7:C/0/6 13:1 14:a 14:b 14:c 15",
    );
    holds(
        "CLASS A=a:TEXT;b:TEXT;END A;CLASS B EXTENDS A=b(EXTENDED):TEXT;END B;\
         CLASS C EXTENDS B=a(EXTENDED,FINAL):TEXT;b(EXTENDED):TEXT;END C;",
        "1:M 4:A/0/-1 6:a/0/-1 8:0 6:b/0/-1 8:0 16 4:B/0/1 6:b/4/4 8:0 16 \
         4:C/0/7 6:a/6/2 8:0 6:b/4/8 8:0 16",
    );
}

#[test]
fn classes_over_structures() {
    holds(
        "STRUCTURE S=END S;CLASS C(ABSTRACT)EXTENDS S=END C;",
        "1:M 5:S/0/-1 16 4:C/1/1 16",
    );
    holds(
        "TOPIC T=STRUCTURE S(ABSTRACT)=a:1..9;b:TEXT;END S;END T;\
         CLASS C(FINAL)EXTENDS M.T.S=b(EXTENDED):TEXT*5;c:TEXT;a(EXTENDED,FINAL):1..8;END C;",
        "1:M 2:T 5:S/1/-1 6:a/0/-1 10:0/1/9 6:b/0/-1 8:0 16 3 \
         4:C/2/2 6:b/4/5 8:5 6:c/0/-1 8:0 6:a/6/3 10:0/1/8 16",
    );
    // Through a structure and a class between: the nearest attribute is the base.
    holds(
        "STRUCTURE R=a:1..9;b:1..9;END R;STRUCTURE S EXTENDS R=a(EXTENDED):1..8;END S;\
         CLASS C EXTENDS S=END C;CLASS D EXTENDS C=a(EXTENDED):1..7;b(EXTENDED):1..7;END D;",
        "1:M 5:R/0/-1 6:a/0/-1 10:0/1/9 6:b/0/-1 10:0/1/9 16 5:S/0/1 6:a/4/2 10:0/1/8 16 \
         4:C/0/7 16 4:D/0/11 6:a/4/8 10:0/1/7 6:b/4/4 10:0/1/7 16",
    );
}

#[test]
fn mandatory_over_structures() {
    holds(
        "UNIT u;DOMAIN D=(x);STRUCTURE R=END R;\
         STRUCTURE S=a:D;b:R;c:(y);d:1..2[u];e:MANDATORY TEXT;END S;\
         CLASS C EXTENDS S=a(EXTENDED):MANDATORY;b(EXTENDED):MANDATORY;c(EXTENDED):MANDATORY;\
         d(EXTENDED):MANDATORY;e(EXTENDED):TEXT*5;END C;",
        "1:M 18:u/0/-1 7:D/0/-1 13:0 14:x 15 5:R/0/-1 16 \
         5:S/0/-1 6:a/0/-1 17:2 6:b/0/-1 12:6 6:c/0/-1 13:0 14:y 15 6:d/0/-1 10:0/1/2 19:1 \
         6:e/8/-1 8:0 16 \
         4:C/0/8 6:a/12/9 17:2 6:b/12/11 12:6 6:c/12/13 13:0 14:y 15 6:d/12/17 10:0/1/2 19:1 \
         6:e/12/20 8:5 16",
    );
}

#[test]
fn mandatory_in_effect() {
    holds(
        "DOMAIN A=MANDATORY TEXT;B EXTENDS A=TEXT*5;C=TEXT;D EXTENDS C=MANDATORY;",
        "1:M 7:A/8/-1 8:0 7:B/8/1 8:5 7:C/0/-1 8:0 7:D/8/5 8:0",
    );
    holds(
        "DOMAIN A=TEXT;B EXTENDS A=MANDATORY;CLASS C=a:A;b:B;c:MANDATORY A;END C;\
         CLASS D EXTENDS C=a(EXTENDED):B;b(EXTENDED):TEXT;c(EXTENDED):TEXT*3;END D;",
        "1:M 7:A/0/-1 8:0 7:B/8/1 8:0 4:C/0/-1 6:a/0/-1 17:1 6:b/8/-1 17:3 6:c/8/-1 17:1 16 \
         4:D/0/5 6:a/12/6 17:3 6:b/12/8 8:0 6:c/12/10 8:3 16",
    );
}

#[test]
fn mandatory_alone_means_the_bases_type() {
    holds(
        "DOMAIN A(ABSTRACT)=NUMERIC;B(ABSTRACT)EXTENDS A=MANDATORY;",
        "1:M 7:A/1/-1 11 7:B/9/1 11",
    );
    holds(
        "DOMAIN D=(x);STRUCTURE S=END S;CLASS A=a:D;b:S;c:(y);END A;\
         CLASS B EXTENDS A=a(EXTENDED):MANDATORY;b(EXTENDED):MANDATORY;c(EXTENDED):MANDATORY;END B;",
        "1:M 7:D/0/-1 13:0 14:x 15 5:S/0/-1 16 4:A/0/-1 6:a/0/-1 17:1 6:b/0/-1 12:5 6:c/0/-1 13:0 14:y 15 16 \
         4:B/0/7 6:a/12/8 17:1 6:b/12/10 12:5 6:c/12/12 13:0 14:y 15 16",
    );
}

#[test]
fn merged_enumerations() {
    holds(
        "DOMAIN A=(a,b(c));B EXTENDS A=(z,b(y,c(x:FINAL)),a(w));",
        "1:M 7:A/0/-1 13:0 14:a 14:b 13:0 14:c 15 15 \
         7:B/0/1 13:0 14:a 13:0 14:w 15 14:b 13:0 14:c 13:1 14:x 15 14:y 15 14:z 15",
    );
    holds(
        "DOMAIN A=(a,b(c));B EXTENDS A=(a(FINAL),b(FINAL));C EXTENDS B=(b:FINAL);",
        "1:M 7:A/0/-1 13:0 14:a 14:b 13:0 14:c 15 15 \
         7:B/0/1 13:0 14:a 13:1 15 14:b 13:1 14:c 15 15 \
         7:C/0/9 13:1 14:a 13:1 15 14:b 13:1 14:c 15 15",
    );
    holds(
        "DOMAIN A=(a);CLASS C=x:A;END C;CLASS D EXTENDS C=x(EXTENDED):(b,a);END D;",
        "1:M 7:A/0/-1 13:0 14:a 15 4:C/0/-1 6:x/0/-1 17:1 16 \
         4:D/0/5 6:x/4/6 13:0 14:a 14:b 15 16",
    );
}

#[test]
fn shared_elements_keep_the_bases_place() {
    let text = model("DOMAIN A=(a);B EXTENDS A=(b,a);");
    let book = passes_text(&text);
    let first = text.find("(a)").unwrap() + 1;
    let new = text.find("(b").unwrap() + 1;
    // 0 model, 1 domain, 2 to 4 list, 5 domain, 6 opens, 7 a, 8 b.
    for (record, place) in [(3, first), (7, first), (8, new)] {
        assert_eq!(part(text.as_bytes(), &book, record), (place, 1));
    }
}

#[test]
fn topics_scope_the_records() {
    holds(
        "TOPIC T=DOMAIN A=TEXT;END T;DOMAIN A EXTENDS M.T.A=TEXT;",
        "1:M 2:T 7:A/0/-1 8:0 3 7:A/0/2 8:0",
    );
}

#[test]
fn buffers_of_every_length() {
    let text = model("TOPIC T=CLASS C=a:(x);END C;END T;");
    let place = |name: &str| text.find(name).unwrap() + name.len() - 1;
    let ends = [
        (6, place("MODEL M")),
        (12, place("TOPIC T")),
        (23, place("CLASS C")),
        (43, place("=a")),
        (44, place("END C")),
        (45, place("END T")),
    ];
    every_buffer(&text, &ends);
}

#[test]
fn empty_buffers() {
    // The header and the model's END never give 19, the model does.
    let (found, _) = answer_in(b"INTERLIS 2.4;", 0);
    assert_eq!(found, refusal(b"INTERLIS 2.4;", 5, 13));
    let text = format!("{HEAD}END X.");
    let (found, _) = answer_in(text.as_bytes(), 5);
    assert_eq!(found, refusal(text.as_bytes(), 19, 19));
    let (found, book) = answer_in(model("").as_bytes(), 6);
    assert!(matches!(found, Answer::Accepted { .. }));
    assert_eq!(book, bytes("01 13000000 01"));
}

#[test]
fn numbers_read() {
    let limit = 10i64.pow(18);
    for (value, decimals, base, reading) in [
        (45, 2, 1, 5),
        (44, 2, 1, 4),
        (-45, 2, 1, -4),
        (-46, 2, 1, -5),
        (-5, 1, 0, 0),
        (-6, 1, 0, -1),
        (5, 1, 0, 1),
        (-15, 1, 0, -1),
        (7, 0, 3, 7000),
        (-7, 2, 2, -7),
        (limit - 1, 17, 17, limit - 1),
        (limit - 1, 17, 0, 10),
        (-(limit - 1), 17, 0, -10),
        (limit - 1, 1, 0, limit / 10),
        (9, 0, 17, 9 * (limit / 10)),
        (0, 0, 17, 0),
    ] {
        assert_eq!(read_number(value, decimals, base), Ok(reading));
    }
}

#[test]
fn numbers_refused() {
    let limit = 10i64.pow(18);
    for value in [limit, -limit, i64::MAX, i64::MIN] {
        assert_eq!(read_number(value, 0, 0), Err(20));
        assert_eq!(read_number(value, 0, 17), Err(20));
    }
    for decimals in [18, 1 << 32, u64::MAX] {
        assert_eq!(read_number(0, decimals, 0), Err(20));
        assert_eq!(read_number(0, 0, decimals), Err(20));
        assert_eq!(read_number(limit - 1, 0, decimals), Err(20));
    }
    assert_eq!(read_number(10, 0, 17), Err(21));
    assert_eq!(read_number(-10, 0, 17), Err(21));
    assert_eq!(read_number(limit - 1, 16, 17), Err(21));
    assert_eq!(read_number(limit / 10, 0, 1), Err(21));
    assert_eq!(read_number(1 - limit / 10, 0, 1), Ok(10 - limit));
}
