//! Writes what the independent checker answers as facts about the definitions,
//! for the prover to compute: `facts [--large] FIRST COUNT FOLDER`, or `facts
//! --chosen FOLDER` for the larger cases drawn up by hand, a module each.
//!
//! FOLDER is the crate that takes them; it gets a module of 25 facts for each 25
//! cases, and with every tenth case one of reading a number, one of finding a
//! record and one of showing a name. What refuted facts there are, the prover
//! lists.

use std::fmt::Write as _;
use std::path::Path;
use std::{fs, io};

use cases::{any_beginning, any_book, any_record, book_of, chosen, gen, gen_small, Case, Random};
use peer::Answer;

/// How many cases a module holds.
const MODULE: u64 = 25;

/// Each fact opens these definitions, so that all computes.
const OPENED: [(&str, &str); 8] = [
    ("Symbols", "symbol_of symbol_at"),
    ("Lines", "position_of"),
    (
        "Grammar",
        "properties_from properties reference extends close_final enumeration text_length text_type unit_reference \
         optional_unit range_type numeric_type type_of type_or_reference written",
    ),
    (
        "Units",
        "header_unit model_unit topic_unit class_unit domain_unit unit_unit attribute_unit end_unit word_step body_end \
         body_unit member_unit last_step unit_at",
    ),
    (
        "Judge",
        "new_topic new_class new_domain new_attribute with_attribute extends_rules class_rules domain_to_16 \
         domain_rules attribute_to_16 attribute_rules judge",
    ),
    ("Check", "run"),
    ("Numbers", "read_number"),
    ("Show", "size_of records_from is_named find_record show_name"),
];

/// A text as a literal: one character for each byte.
fn literal(bytes: &[u8]) -> String {
    let mut text = String::from("(ascii \"");
    for byte in bytes {
        match byte {
            b'"' => text.push_str("\\\""),
            b'\\' => text.push_str("\\\\"),
            32..=126 => text.push(*byte as char),
            _ => write!(text, "\\u{{{byte:x}}}").expect("a string takes all"),
        }
    }
    text + "\")"
}

fn list(bytes: &[u8]) -> String {
    let mut text = String::from("(");
    for byte in bytes {
        write!(text, "{byte} ∷ ").expect("a string takes all");
    }
    text + "[])"
}

fn whole(value: i64) -> String {
    if value < 0 {
        format!("(negsuc {})", -(i128::from(value) + 1))
    } else {
        format!("(pos {value})")
    }
}

/// The answer and the whole buffer of one case.
fn check_fact(name: &str, case: &Case) -> String {
    let mut buffer = vec![255; case.buffer_len];
    let (answer, book) = match peer::check(&case.text, &mut buffer) {
        Answer::Accepted {
            book_len,
            definitions,
        } => (format!("accepting {book_len} {definitions}"), book_len),
        Answer::Refused {
            number,
            place,
            line,
            column,
        } => {
            let at = format!("place = {place}; line = {line}; column = {column}");
            (format!("refusal (record {{ number = {number}; {at} }})"), 0)
        }
    };
    assert!(buffer[book..].iter().all(|byte| *byte == 0));
    format!(
        "{name} : check {} (lent {}) ≡ record {{ answer = {answer}; buffer = padded {} {} }}",
        literal(&case.text),
        case.buffer_len,
        list(&buffer[..book]),
        case.buffer_len
    )
}

fn read_fact(name: &str, random: &mut Random) -> String {
    let digits = random.below(20) as u32;
    let size = i64::try_from(10_u64.pow(digits).min(9_000_000_000_000_000_000)).expect("it fits");
    let value = match random.below(8) {
        0 => size,
        1 => -size,
        2 => 1 - size,
        3 => i64::MIN,
        _ => (random.below(usize::MAX) as i64) % size,
    };
    let (from, to) = (random.below(19) as u64, random.below(19) as u64);
    let read = match peer::read_number(value, from, to) {
        Ok(reading) => format!("reads {}", whole(reading)),
        Err(number) => format!("not_read {number}"),
    };
    format!("{name} : read_number {} {from} {to} ≡ {read}", whole(value))
}

/// A case's book, or a broken one.
fn drawn_book(case: &Case, random: &mut Random) -> Vec<u8> {
    any_book(random, &case.text, book_of(&case.text))
}

fn find_fact(name: &str, case: &Case, random: &mut Random) -> String {
    let book = drawn_book(case, random);
    let record = any_record(random, &book);
    let found = match peer::find_record(&book, record) {
        Some(beginning) => format!("some {beginning}"),
        None => String::from("none"),
    };
    format!("{name} : find_record {} {record} ≡ {found}", list(&book))
}

fn show_fact(name: &str, case: &Case, random: &mut Random) -> String {
    let book = drawn_book(case, random);
    let beginning = any_beginning(random, &book);
    let (start, length) = peer::name_part(&case.text, &book, beginning);
    format!(
        "{name} : show_name {} {} {beginning} ≡ record {{ start = {start}; length = {length} }}",
        literal(&case.text),
        list(&book)
    )
}

/// A module of facts, each with its proof: that both sides compute to the same.
fn module(facts: &[String]) -> String {
    let mut text = String::from(
        "use mathlib.Core.Path.{refl}\nuse Rattle.std.specs.Prelude.{◌≡◌, List, [], ◌∷◌, ℕ, ℤ, pos, negsuc}\n\
         use Rattle.std.proofs.Math.Option.{Option, some, none}\n\
         use Rattle.rules.specs.Bytes.{ascii}\nuse Rattle.rules.specs.Book.{padded}\n\
         use Rattle.rules.specs.Numbers.{reads, not_read}\nuse Rattle.rules.specs.Show.{Part}\n\
         use Rattle.rules.specs.Check.{lent, check, Checked, accepting, refusal}\n",
    );
    let mut opened = String::from("unfolding");
    for (module, names) in OPENED {
        let names: Vec<&str> = names.split_whitespace().collect();
        let listed = names.join(", ");
        writeln!(text, "use Rattle.rules.specs.{module}.{{{listed}}}").expect("a string takes all");
        write!(opened, " {}", names.join(" ")).expect("a string takes all");
    }
    for fact in facts {
        let name = fact.split(' ').next().expect("a fact has a name");
        writeln!(text, "\n{fact}\n{opened}\n{name} = refl").expect("a string takes all");
    }
    text
}

/// The facts of one seed: of its case, and of every tenth a reading, a record and
/// a name.
fn seed_facts(seed: u64, large: bool) -> Vec<String> {
    let case = if large { gen(seed) } else { gen_small(seed) };
    let mut random = Random::new(seed ^ 0xFAC7);
    let mut facts = vec![check_fact(&format!("c{seed}"), &case)];
    if seed.is_multiple_of(10) {
        facts.push(read_fact(&format!("r{seed}"), &mut random));
        facts.push(find_fact(&format!("f{seed}"), &case, &mut random));
        facts.push(show_fact(&format!("s{seed}"), &case, &mut random));
    }
    facts
}

/// Writes the crate: a root that names the modules, and the modules.
fn write_crate(folder: &str, modules: &[(String, String)]) -> io::Result<()> {
    let specs = Path::new(folder).join("specs");
    fs::create_dir_all(&specs)?;
    fs::create_dir_all(Path::new(folder).join("src"))?;
    fs::write(Path::new(folder).join("src/lib.rt"), "")?;
    let mut root = String::new();
    for (name, text) in modules {
        writeln!(root, "pub mod {name}").expect("a string takes all");
        fs::write(specs.join(format!("{name}.antt")), text)?;
    }
    fs::write(specs.join("Lib.antt"), root)
}

fn generated(first: u64, count: u64, large: bool) -> Vec<(String, String)> {
    let begins = (first..first + count).step_by(MODULE as usize);
    let one = |begin: u64| {
        let end = (begin + MODULE).min(first + count);
        let facts: Vec<String> = (begin..end)
            .flat_map(|seed| seed_facts(seed, large))
            .collect();
        (format!("Facts{begin}"), module(&facts))
    };
    begins.map(one).collect()
}

/// A module for each, with what the case is in a comment.
fn by_hand() -> Vec<(String, String)> {
    let one = |(i, (word, case)): (usize, (String, Case))| {
        let fact = check_fact(&format!("h{i}"), &case);
        let about = format!("-- {word}, {} bytes\n", case.text.len());
        (format!("Facts{i}"), about + &module(&[fact]))
    };
    chosen().into_iter().enumerate().map(one).collect()
}

fn main() -> io::Result<()> {
    let arguments: Vec<String> = std::env::args().skip(1).collect();
    let words: Vec<&str> = arguments.iter().map(String::as_str).collect();
    let (range, folder, large) = match words[..] {
        ["--chosen", folder] => return write_crate(folder, &by_hand()),
        ["--large", first, count, folder] => ((first, count), folder, true),
        [first, count, folder] => ((first, count), folder, false),
        _ => {
            eprintln!("facts [--large] FIRST COUNT FOLDER, or facts --chosen FOLDER");
            std::process::exit(2);
        }
    };
    let (Ok(first), Ok(count)) = (range.0.parse::<u64>(), range.1.parse::<u64>()) else {
        eprintln!("FIRST and COUNT are numbers");
        std::process::exit(2);
    };
    write_crate(folder, &generated(first, count, large))
}
