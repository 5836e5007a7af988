//! The program: a text on standard input, one line on standard output.

use std::io::Write;
use std::process::{Command, Stdio};

fn line(text: &[u8]) -> String {
    let mut program = Command::new(env!("CARGO_BIN_EXE_peer-check"))
        .stdin(Stdio::piped())
        .stdout(Stdio::piped())
        .spawn()
        .expect("the program starts");
    let mut input = program.stdin.take().expect("an input");
    input.write_all(text).expect("the text is taken");
    drop(input);
    let output = program.wait_with_output().expect("the program ends");
    assert!(output.status.success());
    String::from_utf8(output.stdout).expect("plain letters")
}

#[test]
fn one_line_for_each_text() {
    let text = br#"INTERLIS 2.4;MODEL M AT "u" VERSION "1"=DOMAIN T=-10..40;END M."#;
    assert_eq!(line(text), "ok 35 1\n");
    assert_eq!(line(b""), "refused 5 0 1 1\n");
    assert_eq!(line(b"INTERLIS 2.3;"), "refused 7 9 1 10\n");
    assert_eq!(line(b"INTERLIS\r\n  2.3;"), "refused 7 12 2 3\n");
    assert_eq!(line(&[b' '; 65_535]), "refused 5 65535 1 65536\n");
    assert_eq!(line(&[b' '; 65_536]), "refused 1 0 1 1\n");
}
