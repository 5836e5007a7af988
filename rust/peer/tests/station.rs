//! The models in `examples/`, held to what `examples/answers.txt` says of them.

use std::fs;
use std::path::{Path, PathBuf};

use peer::check;

fn examples() -> PathBuf {
    Path::new(env!("CARGO_MANIFEST_DIR")).join("../../examples")
}

/// Each model's file and the line that `check` prints for it.
fn listed() -> Vec<(String, String)> {
    let answers = fs::read_to_string(examples().join("answers.txt")).expect("it is there");
    let pair = |line: &str| {
        let (file, printed) = line.split_once(": ").expect("a file and an answer");
        (file.to_owned(), printed.to_owned())
    };
    answers.lines().map(pair).collect()
}

#[test]
fn every_model_is_listed() {
    let entries = fs::read_dir(examples()).expect("the folder is there");
    let names = entries.map(|entry| entry.expect("it is read").file_name());
    let mut models: Vec<String> = names
        .map(|name| name.into_string().expect("plain letters"))
        .filter(|name| name.ends_with(".ili"))
        .collect();
    let mut listed: Vec<String> = listed().into_iter().map(|(file, _)| file).collect();
    models.sort();
    listed.sort();
    assert_eq!(models, listed);
}

#[test]
fn every_model_gets_its_answer() {
    for (file, expected) in listed() {
        let text = fs::read(examples().join(&file)).expect("it is there");
        let mut buffer = vec![0; 65_535];
        let printed = check(&text, &mut buffer).to_string();
        assert_eq!(printed, expected, "{file}");
    }
}

/// The place of a refusal, and its line and column, is the symbol that its model's
/// comment speaks of.
#[test]
fn refusals_stand_where_the_comments_say() {
    let places = [
        ("colder.ili", "-25 .. 40"),
        ("half-too-far.ili", "-10.51 .. 40.49"),
        ("new-state.ili", "(updating)"),
        ("longer-serial.ili", "TEXT*24"),
        ("words.ili", "(cold, mild, hot)"),
        ("unrelated.ili", "OwnTemperature;\n  END"),
        ("kelvin.ili", "0 .. 40 [Kelvin]"),
        ("no-unit.ili", "5 .. 30;"),
        ("colder-class.ili", "-25 .. 40"),
        ("turned-round.ili", "HeatedReading ="),
        ("unknown.ili", "HousingTemperatur ="),
        ("unfinished.ili", "END TimeServers."),
    ];
    for (file, expected) in listed() {
        let text = fs::read_to_string(examples().join(&file)).expect("it is there");
        let symbol = places.iter().find(|(name, _)| *name == file);
        let words: Vec<&str> = expected.split(' ').collect();
        match (&words[..], symbol) {
            (["ok", ..], None) => {}
            (["refused", _, place, line, column], Some((_, symbol))) => {
                let [place, line, column] =
                    [place, line, column].map(|word| word.parse::<usize>().expect("a number"));
                assert_eq!(text.rfind(symbol), Some(place), "{file}");
                let line = text.lines().nth(line - 1).expect("the line is there");
                let first = symbol.lines().next().expect("a symbol");
                assert!(line[column - 1..].starts_with(first), "{file}");
            }
            _ => panic!("{file} is listed with {expected}"),
        }
    }
}
