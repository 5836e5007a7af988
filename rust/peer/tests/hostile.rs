//! Large texts that would show a quadratic step. The time allowed is far
//! above what the checker needs, even unoptimized on a busy machine.

mod common;
use common::*;
use peer::{check, Answer};
use std::time::{Duration, Instant};

const LIMIT: usize = 65_535;

/// Units one after the other until the text is full.
fn filled(start: &str, unit: impl Fn(usize) -> String, end: &str) -> Vec<u8> {
    let mut text = format!("{HEAD}{start}");
    for number in 1.. {
        let next = unit(number);
        if text.len() + next.len() + end.len() > LIMIT {
            break;
        }
        text += &next;
    }
    (text + end).into_bytes()
}

#[track_caller]
fn in_time(text: &[u8], expected: &str) {
    assert!(
        text.len() > LIMIT - 100 && text.len() <= LIMIT,
        "{}",
        text.len()
    );
    let mut buffer = vec![0; LIMIT];
    let before = Instant::now();
    let answer = check(text, &mut buffer);
    assert!(before.elapsed() < Duration::from_secs(2), "slow");
    let found = match answer {
        Answer::Accepted { .. } => "ok".to_owned(),
        Answer::Refused { number, .. } => number.to_string(),
    };
    assert_eq!(found, expected);
}

#[test]
fn long_chains() {
    let domain = |n: usize| format!("d{n} EXTENDS d{}=TEXT;", n - 1);
    in_time(&filled("DOMAIN d0=TEXT;", domain, "END M."), "ok");
    let class = |n: usize| format!("CLASS c{n} EXTENDS c{}=END c{n};", n - 1);
    in_time(&filled("CLASS c0=END c0;", class, "END M."), "ok");
}

#[test]
fn descendants_far_down_a_chain() {
    let chain: String = (1..1500)
        .map(|n| format!("d{n} EXTENDS d{}=TEXT;", n - 1))
        .collect();
    let start = format!("DOMAIN d0=TEXT;{chain}CLASS b=x:d0;END b;");
    let class = |n: usize| format!("CLASS c{n} EXTENDS b=x(EXTENDED):d1499;END c{n};");
    in_time(&filled(&start, class, "END M."), "ok");
}

#[test]
fn units_far_down_a_chain() {
    let chain: String = (1..1200)
        .map(|n| format!("u{n} EXTENDS u{};", n - 1))
        .collect();
    let start = format!("UNIT u0;{chain}DOMAIN d=1..2[u0];");
    let domain = |n: usize| format!("d{n} EXTENDS d=000000000000000001..2[u1199];");
    in_time(&filled(&start, domain, "END M."), "ok");
    let unit = |n: usize| format!("u{n} EXTENDS u{};", n - 1);
    in_time(&filled("UNIT u0;", unit, "END M."), "ok");
}

#[test]
fn many_elements() {
    let element = |n: usize| format!("e{n},");
    in_time(&filled("DOMAIN A=(", element, "x);END M."), "19");
    in_time(&filled("DOMAIN A=(", element, "e1);END M."), "9");
    let nested = |n: usize| format!("e{n}(x,y(x)),");
    in_time(&filled("DOMAIN A=(", nested, "x);END M."), "19");
    let refused = |n: usize| format!("a{n},");
    in_time(&filled("DOMAIN A=(", refused, ");END M."), "5");
}

#[test]
fn merged_lists() {
    let half: Vec<String> = (0..5400).map(|n| format!("e{n}")).collect();
    let start = format!("DOMAIN A=({});B EXTENDS A=(", half.join(","));
    let again = |n: usize| match 5400usize.checked_sub(n) {
        Some(number) => format!("e{number},"),
        None => " ".to_owned(),
    };
    in_time(&filled(&start, again, "x);END M."), "ok");
    let new = |n: usize| format!("f{n},");
    in_time(&filled(&start, new, "x);END M."), "19");
    let closed = start.replace(");B", ":FINAL);B");
    in_time(&filled(&closed, again, "x);END M."), "17");
}

#[test]
fn many_small_enumerations() {
    let domain = |n: usize| format!("d{n}=(a,b(c));");
    in_time(&filled("DOMAIN ", domain, "END M."), "19");
    let extended = |n: usize| format!("d{n} EXTENDS d0=(b);");
    in_time(&filled("DOMAIN d0=(a);", extended, "END M."), "19");
}

#[test]
fn attributes_again_and_again() {
    let all: String = (0..256).map(|n| format!("a{n}:1..2;")).collect();
    let start = format!("CLASS c0={all}END c0;");
    let class = |n: usize| {
        format!(
            "CLASS c{n} EXTENDS c{}=a{}(EXTENDED):1..2;END c{n};",
            n - 1,
            n % 256
        )
    };
    in_time(&filled(&start, class, "END M."), "ok");
    let empty = |n: usize| format!("CLASS c{n} EXTENDS c{}=END c{n};", n - 1);
    in_time(&filled(&start, empty, "END M."), "ok");
}

#[test]
fn blanks_comments_and_strings() {
    in_time(&filled("", |_| "/**/".into(), "END M."), "ok");
    in_time(&filled("", |_| "/* ".into(), "END M."), "3");
    in_time(&filled("", |_| "!!\n".into(), "END M."), "ok");
    in_time(&filled("DOMAIN A=\"", |_| "\\\\".into(), ""), "3");
    in_time(&filled("", |_| "DOMAIN ".into(), "END M."), "ok");
}
