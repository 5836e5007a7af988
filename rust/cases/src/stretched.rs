//! Texts as long as is asked: ordinary models, and texts that would show a step
//! which grows faster than the text.

use std::fmt::Write as _;

const HEAD: &str = "INTERLIS 2.4;MODEL M AT \"u\" VERSION \"1\"=";

/// Units one after the other, numbered from 1, until the text is full.
fn filled(limit: usize, start: &str, unit: impl Fn(usize) -> String, end: &str) -> Vec<u8> {
    let mut text = format!("{HEAD}{start}");
    for number in 1.. {
        let next = unit(number);
        if text.len() + next.len() + end.len() > limit {
            break;
        }
        text += &next;
    }
    (text + end).into_bytes()
}

/// A short name for each number: lower case, so that it is never reserved.
fn short(mut number: usize) -> String {
    let mut name = String::new();
    loop {
        name.insert(0, char::from(b'a' + (number % 26) as u8));
        number /= 26;
        if number == 0 {
            return name;
        }
        number -= 1;
    }
}

fn numbered(count: usize, one: impl Fn(usize) -> String) -> String {
    (0..count).map(one).collect()
}

/// A model as an author lays it out: comments, indents, topics, domains and
/// their extensions, classes and theirs.
pub fn ordinary(limit: usize) -> Vec<u8> {
    let topic = |n: usize| {
        format!(
            "\n  TOPIC Part{n} =\n\n    !! what is measured, and how finely\n    DOMAIN\n      \
             Temperature{n} = -50.0 .. 85.0;\n      Housing{n} EXTENDS Temperature{n} = -10.00 .. 40.00;\n      \
             State{n} = (running, disturbed (antenna, oscillator, supply), stopped: FINAL);\n      \
             Label{n} = MANDATORY TEXT*40;\n\n    CLASS Device{n} (ABSTRACT) =\n      ATTRIBUTE\n      \
             serial: MANDATORY TEXT*20;\n      state: State{n};\n      temperature: Temperature{n};\n    \
             END Device{n};\n\n    CLASS Server{n} EXTENDS Device{n} =\n      /* in a housing of its own */\n      \
             temperature (EXTENDED): Housing{n};\n      drift: -0.500 .. 0.500;\n      label: Label{n};\n    \
             END Server{n};\n  END Part{n};\n"
        )
    };
    filled(limit, "\n", topic, "\nEND M.")
}

/// One list, whole, of the numbers from `first` on; so many bytes at most.
fn list(bytes: usize, first: usize) -> String {
    let mut elements = String::new();
    for number in first.. {
        let name = short(number);
        if elements.len() + name.len() + 1 > bytes {
            break;
        }
        write!(elements, "{name},").expect("a string takes all");
    }
    elements.pop();
    elements
}

/// Two lists, the second over the first. A merged list is written whole, so
/// they are no longer than the book has room for.
fn merged(limit: usize, shared: bool) -> Vec<u8> {
    let bytes = limit * if shared { 3 } else { 2 } / 10;
    let first = list(bytes, 0);
    let count = first.split(',').count();
    let second = list(bytes, if shared { 0 } else { count });
    format!("{HEAD}DOMAIN A=({first});B EXTENDS A=({second});END M.").into_bytes()
}

fn enumerations(limit: usize) -> Vec<(&'static str, Vec<u8>)> {
    let deep = |n: usize| {
        let outer = numbered(6, |i| format!("({}", short(i)));
        format!("{}{outer}(x,y){},", short(n + 30), ")".repeat(6))
    };
    let small = |n: usize| format!("{} EXTENDS d=(z{n});", short(n + 700));
    let elements = list(limit - 60, 0);
    let twice = format!("{HEAD}DOMAIN A=({elements},a);END M.").into_bytes();
    let half = list(limit / 4, 0);
    vec![
        (
            "one list (refused 19)",
            format!("{HEAD}DOMAIN A=({elements});END M.").into_bytes(),
        ),
        ("one list, the first element again at its end (refused 9)", twice),
        ("a list merged, all elements shared", merged(limit, true)),
        ("a list merged, all elements new", merged(limit, false)),
        (
            "two lists, one held against the other (refused 18)",
            format!(
                "{HEAD}DOMAIN A=({half});B=({half});CLASS C=a:A;END C;CLASS D EXTENDS C=a(EXTENDED):B;END D;END M."
            )
            .into_bytes(),
        ),
        (
            "many small extensions of one list (refused 19)",
            filled(limit, "DOMAIN d=(a,b,c,e,f,g,h,i,j,k);", small, "END M."),
        ),
        (
            "elements nested 8 deep",
            filled(limit * 2 / 5, "DOMAIN A=(", deep, "x);END M."),
        ),
    ]
}

/// A class over the one before, with this inside; numbered from 1, over `aa`.
fn link(number: usize, inside: &str) -> String {
    let (name, base) = (short(number + 26), short(number + 25));
    format!("CLASS {name} EXTENDS {base}={inside}END {name};")
}

fn class_chains(limit: usize) -> Vec<(&'static str, Vec<u8>)> {
    let some = numbered(200, |n| format!("a{n}:TEXT;"));
    let most = numbered(256, |n| format!("a{n}:1..2;"));
    let chain = |attributes: &str, inside: &dyn Fn(usize) -> String| {
        let start = format!("CLASS aa={attributes}END aa;");
        filled(limit, &start, |n| link(n, &inside(n)), "END M.")
    };
    let bare = |_: usize| String::new();
    let text = |n: usize| format!("a{}(EXTENDED):TEXT;", n % 200);
    let range = |n: usize| format!("a{}(EXTENDED):1..2;", n % 256);
    vec![
        ("a chain of classes", chain("", &bare)),
        (
            "a chain of classes, each overriding an attribute",
            chain(&some, &text),
        ),
        (
            "a chain of classes with 256 attributes",
            chain(&most, &bare),
        ),
        (
            "256 attributes, overridden again and again",
            chain(&most, &range),
        ),
    ]
}

fn other_chains(limit: usize) -> Vec<(&'static str, Vec<u8>)> {
    let length = limit / 100;
    let overrides = numbered(length, |n| link(n + 1, "a(EXTENDED):TEXT;"));
    let last = short(length + 26);
    let start = format!("CLASS aa=a:TEXT;END aa;{overrides}CLASS z EXTENDS {last}=END z;");
    let fan = |n: usize| format!("CLASS {0} EXTENDS z=b{0}:TEXT;END {0};", short(n + 700));
    let domain = |n: usize| format!("{} EXTENDS {}=TEXT;", short(n + 26), short(n + 25));
    let far = numbered(limit / 44, |n| domain(n + 1));
    let end = short(limit / 44 + 26);
    let named = |n: usize| {
        let name = short(n + 2_000);
        format!("CLASS {name} EXTENDS b=x(EXTENDED):{end};END {name};")
    };
    let domains = format!("DOMAIN aa=TEXT;{far}CLASS b=x:aa;END b;");
    vec![
        (
            "a long chain of overrides, and many classes over its end",
            filled(limit, &start, fan, "END M."),
        ),
        (
            "a chain of domains",
            filled(limit, "DOMAIN aa=TEXT;", domain, "END M."),
        ),
        (
            "attributes that name the end of a long chain of domains",
            filled(limit, &domains, named, "END M."),
        ),
    ]
}

/// Names that fall on one key of the proved checker's index (`key_of` in
/// crates/names), so that each lookup passes all of them.
fn of_one_key(count: usize) -> Vec<String> {
    let key = |name: &str| {
        name.bytes()
            .fold(0, |key, byte| (key * 31 + usize::from(byte)) % 1024)
    };
    let names = (500_000..).map(short).filter(|name| key(name) == 0);
    names.take(count).collect()
}

fn names(limit: usize) -> Vec<(&'static str, Vec<u8>)> {
    let collide = of_one_key(limit / 20);
    let class = |name: &str| format!("CLASS {name}=END {name};");
    let long = "w".repeat(250);
    vec![
        (
            "classes with nothing in them",
            filled(limit, "", |n| class(&short(n)), "END M."),
        ),
        (
            "classes whose names share a key",
            filled(limit, "", |n| class(&collide[n]), "END M."),
        ),
        (
            "domains, until the book is full (refused 19)",
            filled(
                limit,
                "DOMAIN ",
                |n| format!("{}=TEXT;", short(n)),
                "END M.",
            ),
        ),
        (
            "names of 255 bytes",
            filled(
                limit,
                "DOMAIN ",
                |n| format!("{long}{n:05}=TEXT;"),
                "END M.",
            ),
        ),
    ]
}

/// A model full of units of numbers, as an author lays it out.
fn measured(limit: usize) -> Vec<u8> {
    let topic = |n: usize| {
        format!(
            "\n  TOPIC Part{n} =\n    UNIT\n      Heat{n} (ABSTRACT);\n      Celsius{n} EXTENDS Heat{n};\n      \
             Kelvin{n} EXTENDS Heat{n};\n      MilliKelvin{n} EXTENDS Kelvin{n};\n\n    DOMAIN\n      \
             Any{n} (ABSTRACT) = NUMERIC [Heat{n}];\n      \
             Housing{n} EXTENDS Any{n} = -10 .. 40 [Celsius{n}];\n      \
             Cold{n} EXTENDS Any{n} = 0 .. 300 [M.Part{n}.Kelvin{n}];\n      \
             Colder{n} EXTENDS Cold{n} = 0.000 .. 4.000 [MilliKelvin{n}];\n      \
             Sure{n} EXTENDS Cold{n} = MANDATORY;\n\n    CLASS Probe{n} =\n      \
             inside: Housing{n};\n      outside: -50 .. 85 [Celsius{n}];\n      \
             drift: 0.00 .. 9.99 [Kelvin{n}];\n    END Probe{n};\n\n    \
             CLASS FineProbe{n} EXTENDS Probe{n} =\n      \
             inside (EXTENDED): -10.0 .. 40.0 [Celsius{n}];\n      \
             drift (EXTENDED): 0.000 .. 0.999 [MilliKelvin{n}];\n    END FineProbe{n};\n  END Part{n};\n"
        )
    };
    filled(limit, "\n", topic, "\nEND M.")
}

/// A chain of units, and numbers over a base in its first that are in its last:
/// each of them walks the chain.
fn measures(limit: usize) -> Vec<(&'static str, Vec<u8>)> {
    let unit = |n: usize| format!("{} EXTENDS {};", short(n + 26), short(n + 25));
    let length = limit / 34;
    let chain = numbered(length, |n| unit(n + 1));
    let last = short(length + 26);
    let start = format!("UNIT aa;{chain}");
    let domain = |n: usize| format!("{} EXTENDS b=00001..00002[{last}];", short(n + 20_000));
    let class = |n: usize| {
        let name = short(n + 20_000);
        format!("CLASS {name} EXTENDS b=x(EXTENDED):1..2[{last}];END {name};")
    };
    vec![
        ("units, and numbers in them", measured(limit)),
        (
            "a chain of units",
            filled(limit, "UNIT aa;", unit, "END M."),
        ),
        (
            "domains in the end of a long chain of units",
            filled(
                limit,
                &format!("{start}DOMAIN b=1..2[aa];"),
                domain,
                "END M.",
            ),
        ),
        (
            "attributes in the end of a long chain of units",
            filled(
                limit,
                &format!("{start}CLASS b=x:1..2[aa];END b;"),
                class,
                "END M.",
            ),
        ),
    ]
}

fn topics(limit: usize) -> Vec<(&'static str, Vec<u8>)> {
    let topic = |n: usize, inside: &str| format!("TOPIC {0}={inside}END {0};", short(n));
    let referring = |n: usize| {
        let attributes = numbered(40, |i| format!("{}:M.T.D{};", short(i), i % 10));
        format!("CLASS {0}={attributes}END {0};", short(n + 26))
    };
    let named = numbered(10, |n| format!("D{n}={n}..100;"));
    let start = format!("TOPIC T=DOMAIN {named}END T;");
    vec![
        (
            "qualified references",
            filled(limit, &start, referring, "END M."),
        ),
        ("topics", filled(limit, "", |n| topic(n, ""), "END M.")),
        (
            "one name in every topic",
            filled(limit, "", |n| topic(n, "CLASS D=END D;"), "END M."),
        ),
    ]
}

fn separators(limit: usize) -> Vec<(&'static str, Vec<u8>)> {
    let comment = "c".repeat(limit - HEAD.len() - 10);
    vec![
        ("blanks", filled(limit, "", |_| " ".to_owned(), "END M.")),
        (
            "line ends",
            filled(limit, "", |_| "\n".to_owned(), "END M."),
        ),
        (
            "line ends of two bytes",
            filled(limit, "", |_| "\r\n".to_owned(), "END M."),
        ),
        (
            "one comment of line ends",
            filled(limit, "/*", |_| "\r\n".to_owned(), "*/END M."),
        ),
        (
            "one comment",
            format!("{HEAD}/*{comment}*/END M.").into_bytes(),
        ),
        (
            "short comments",
            filled(limit, "", |_| "/**/".to_owned(), "END M."),
        ),
        (
            "one word (refused 4)",
            filled(limit, "DOMAIN ", |_| "w".to_owned(), ""),
        ),
        (
            "a string of escapes, never closed (refused 3)",
            filled(limit, "DOMAIN A=\"", |_| "\\\\".to_owned(), ""),
        ),
        (
            "empty runs of domains",
            filled(limit, "", |_| "DOMAIN ".to_owned(), "END M."),
        ),
        (
            "empty runs of units and of domains",
            filled(limit, "", |_| "UNIT DOMAIN ".to_owned(), "END M."),
        ),
    ]
}

/// The texts that would show such a step, each with a word on it.
pub fn stretched(limit: usize) -> Vec<(&'static str, Vec<u8>)> {
    let mut texts = enumerations(limit);
    texts.extend(class_chains(limit));
    texts.extend(other_chains(limit));
    texts.extend(names(limit));
    texts.extend(topics(limit));
    texts.extend(measures(limit));
    texts.extend(separators(limit));
    texts
}
