//! The flavours of classes over structures and of lines, each on a text that has it
//! and, beside it, one that has not.

use cases::{flavours, Case};

const HEAD: &str = "INTERLIS 2.4;MODEL M AT \"u\" VERSION \"1\"=";

/// The flavours of a model with this body.
fn found_in(body: &str, buffer_len: usize) -> Vec<&'static str> {
    let text = format!("{HEAD}{body}END M.").into_bytes();
    flavours(&Case { text, buffer_len })
}

#[track_caller]
fn has(body: &str, expected: &[&str]) {
    assert_eq!(found_in(body, 65_535), expected, "{body:.200}");
}

#[test]
fn of_accepted_texts() {
    has(
        "CLASS C=a:TEXT;END C;CLASS D EXTENDS C=a(EXTENDED):TEXT;END D;",
        &[],
    );
    has(
        "STRUCTURE C=a:TEXT;END C;STRUCTURE D EXTENDS C=a(EXTENDED):TEXT;END D;",
        &[],
    );
    let over = [
        "a class over a class over a structure",
        "a class over a structure",
    ];
    let structure = "STRUCTURE S=a:TEXT;END S;CLASS C EXTENDS S=";
    has(&format!("{structure}END C;"), &over[1..]);
    has(&format!("{structure}END C;CLASS D EXTENDS C=END D;"), &over);
    // Each once.
    has(
        &format!("{structure}END C;CLASS D EXTENDS S=END D;"),
        &over[1..],
    );
    let attribute = "an attribute over a structure's";
    let extended = "a(EXTENDED):TEXT;END C;";
    has(&format!("{structure}{extended}"), &[over[1], attribute]);
    // Over the class's attribute, not the structure's.
    let twice = "CLASS D EXTENDS C=a(EXTENDED):MANDATORY;END D;";
    has(
        &format!("{structure}{extended}{twice}"),
        &[over[0], over[1], attribute],
    );
    let alone = "MANDATORY alone over a structure's attribute";
    let mandatory = "a(EXTENDED):MANDATORY;END C;";
    has(
        &format!("{structure}{mandatory}"),
        &[alone, over[1], attribute],
    );
}

#[test]
fn of_heads() {
    let chain = "STRUCTURE S=END S;CLASS C EXTENDS S=END C;CLASS D EXTENDS C=END D;CLASS K=END K;";
    let structure = |base: &str| format!("{chain}STRUCTURE T EXTENDS {base}=END T;");
    let over = "11 at a structure that extends a class over a structure";
    has(&structure("C"), &[over]);
    has(&structure("M.D"), &[over]);
    has(&structure("K"), &["11 at a structure that extends a class"]);
    has("DOMAIN D=TEXT;STRUCTURE T EXTENDS D=END T;", &[]);
    has(
        "STRUCTURE S(FINAL)=END S;CLASS C EXTENDS S=END C;",
        &["12 at a class that extends a FINAL structure"],
    );
    has("CLASS S(FINAL)=END S;CLASS C EXTENDS S=END C;", &[]);
    has("STRUCTURE S(FINAL)=END S;STRUCTURE C EXTENDS S=END C;", &[]);
    // One name for a class and a structure in two topics: the open one's counts.
    let topics = "TOPIC T=CLASS B=END B;END T;TOPIC U=STRUCTURE B(FINAL)=END B;CLASS C EXTENDS ";
    let last = ["12 at a class that extends a FINAL structure"];
    has(&format!("{topics}B=END C;END U;"), &last);
    has(&format!("{topics}M.U.B=END C;END U;"), &last);
    has(&format!("{topics}M.T.B=END C;END U;"), &[]);
    // Behind a closed topic, and at the model's level.
    let structure = "STRUCTURE S(FINAL)=END S;CLASS C EXTENDS";
    has(&format!("TOPIC T=END T;{structure} S=END C;"), &last);
    let same = "TOPIC T=CLASS S=END S;END T;";
    has(&format!("{same}{structure} M.S=END C;"), &last);
}

#[test]
fn of_attributes() {
    let class = |sort: &str, attribute: &str| {
        format!(
            "UNIT u;DOMAIN D=1..9;{sort} S=a:1..9;f(FINAL):TEXT;END S;\
             CLASS C EXTENDS S=END C;CLASS K EXTENDS C={attribute};END K;"
        )
    };
    for (attribute, flavour) in [
        (
            "a:1..9",
            "9 at an attribute that a class has from a structure",
        ),
        ("f(EXTENDED):TEXT", "12 at an attribute over a structure's"),
        ("a(EXTENDED):TEXT", "16 at an attribute over a structure's"),
        ("a(EXTENDED):0..9", "17 at an attribute over a structure's"),
        ("a(EXTENDED):D", "18 at an attribute over a structure's"),
    ] {
        has(&class("STRUCTURE", attribute), &[flavour]);
        has(&class("CLASS", attribute), &[]);
    }
    let unit = class("STRUCTURE", "a(EXTENDED):1..9[u]");
    let over = "22 at an attribute over a structure's";
    has(&unit, &["22 at an attribute, a unit added", over]);
    // Twice in the class itself, and an element twice.
    has(
        &class("STRUCTURE", "a(EXTENDED):1..9;a(EXTENDED):1..9"),
        &[],
    );
    has(&class("STRUCTURE", "a(EXTENDED):(x,x)"), &[]);
}

#[test]
fn of_attributes_typed_by_classes() {
    let known =
        "STRUCTURE S=END S;STRUCTURE R=END R;CLASS C EXTENDS S=END C;CLASS K=x:S;y:R;END K;";
    let typed = "11 at an attribute typed by a class over a structure";
    let below = "11 at an attribute typed by a class below the base's structure";
    has(&format!("{known}CLASS L=z:C;END L;"), &[typed]);
    has(&format!("{known}CLASS L=z:K;END L;"), &[]);
    let extended = |attribute: &str| format!("{known}CLASS L EXTENDS K={attribute};END L;");
    has(&extended("x(EXTENDED):C"), &[typed, below]);
    has(&extended("y(EXTENDED):C"), &[typed]);
    // Over a TEXT of a length that is the structure's record number.
    let text = "STRUCTURE S=END S;CLASS C EXTENDS S=END C;CLASS K=x:TEXT*1;END K;";
    let over_text = "CLASS L EXTENDS K=x(EXTENDED):C;END L;";
    has(&format!("{text}{over_text}"), &[typed]);
    has(&extended("z:1..2[C]"), &["11 in an attribute's brackets"]);
}

#[test]
fn of_counts_and_buffers() {
    let attributes = |count| -> String { (0..count).map(|n| format!("a{n}:TEXT;")).collect() };
    let class = |sort: &str, own: &str| {
        let held = attributes(255);
        format!("{sort} S={held}END S;CLASS C EXTENDS S={own}END C;")
    };
    let over = "a class over a structure";
    let full = "256 attributes, some from a structure";
    has(&class("STRUCTURE", ""), &[over]);
    has(&class("STRUCTURE", "b:TEXT;"), &[full, over]);
    has(&class("CLASS", "b:TEXT;"), &[]);
    let own = attributes(256);
    has(
        &format!("STRUCTURE S=END S;CLASS C EXTENDS S={own}END C;"),
        &[over],
    );
    let more = "4 at an attribute, others from a structure";
    has(&class("STRUCTURE", "b:TEXT;c:TEXT;"), &[more]);
    has(&class("CLASS", "b:TEXT;c:TEXT;"), &[]);
    // 4 of a number, behind a head and behind an attribute.
    has(&class("STRUCTURE", "b:1234567890123456789..2;"), &[]);
    has(
        "STRUCTURE S=a:TEXT;END S;CLASS C EXTENDS S=b:TEXT;c:1234567890123456789..2;END C;",
        &[],
    );
    let small = "STRUCTURE S=a:TEXT;END S;CLASS C EXTENDS S=a(EXTENDED):TEXT;END C;";
    let on = |length: usize| found_in(small, length);
    assert!(on(33).is_empty());
    assert_eq!(on(44), ["19 at a class over a structure"]);
    assert_eq!(on(60), ["19 at an attribute over a structure's"]);
    assert!(on(61).is_empty());
    let class = small.replacen("STRUCTURE", "CLASS", 1);
    assert!(found_in(&class, 44).is_empty());
}

/// The flavours of a text as it is.
#[track_caller]
fn shows(text: &str, expected: &[&str]) {
    let case = Case {
        text: text.into(),
        buffer_len: 65_535,
    };
    assert_eq!(flavours(&case), expected, "{text:?}");
}

#[test]
fn of_line_ends() {
    let line_feed = "a refusal on a line behind an LF";
    let (carriage, both) = (
        "a refusal on a line behind a CR",
        "a refusal on a line behind a CR LF",
    );
    let turned = "a refusal on a line behind an LF CR";
    let empty = "a refusal on a line behind an empty one";
    shows("#", &[]);
    shows("\n #", &[line_feed]);
    shows("\r #", &[carriage]);
    shows(" \r\n#", &[both]);
    shows(" \n\r#", &[turned, empty]);
    shows("\n\n#", &[line_feed, empty]);
    shows("\r\r#", &[carriage, empty]);
    shows("\r\n\r\n#", &[both, empty]);
    shows("\r \r\n#", &[both]);
    shows(
        "\n",
        &[line_feed, "5 at the end of the text behind a line end"],
    );
    shows("INTERLIS\n2.4", &[line_feed]);
}

#[test]
fn of_lines_and_comments() {
    let line_feed = "a refusal on a line behind an LF";
    let behind = "a refusal on a line behind a `!!` comment";
    let within = "a refusal on a line that begins within a comment";
    let close = "a refusal on a line that begins with a comment's end";
    shows("!! /*\n#", &[line_feed, behind]);
    shows("!!\n #", &[line_feed, behind]);
    shows("/* !!\n */ #", &[line_feed, within]);
    shows("/* \n*/ INTERLIS #", &[line_feed, within, close]);
    shows("/* */\n#", &[line_feed]);
    shows("!!\n \n#", &[line_feed]);
    shows("/*\n*/\n#", &[line_feed]);
    shows("INTERLIS !!\r\n2.4\n#", &[line_feed]);
    let crossed = "a refusal on a line behind a CR LF";
    shows("INTERLIS !! a\r\n#", &[crossed, behind]);
}

#[test]
fn of_places_on_lines() {
    let string = |inside: &str| format!("INTERLIS 2.4;MODEL M AT \"{inside}\"");
    shows(&string("\r\n"), &["2 at a CR in a string"]);
    shows(&string("a\n"), &["2 at an LF in a string"]);
    shows(&string("\t\n"), &[]);
    let line_feed = "a refusal on a line behind an LF";
    let twice = "9 at an element twice, on a later line than its unit begins";
    has("DOMAIN D=(a,\na);", &[line_feed, twice]);
    has("DOMAIN\nD=(a,a);", &[line_feed]);
    has("DOMAIN D=TEXT;\nD=(a,\na);", &[line_feed]);
    has("CLASS C=b\n:(a,a);END C;", &[line_feed, twice]);
}
