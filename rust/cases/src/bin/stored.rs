//! The stored cases of the program `cases`: `stored FOLDER` writes what it reads
//! and what it must write to FOLDER/stdin and FOLDER/stdout; `stored --list`
//! prints a line for each case: its line number, its lengths and a word on it.

use std::path::Path;
use std::{env, fs, io};

use cases::stored::{input, output, stored};

fn list() {
    for (number, stored) in stored().iter().enumerate() {
        let case = &stored.case;
        let word: String = stored.word.chars().take(200).collect();
        let lengths = format!("{} {}", case.text.len(), case.buffer_len);
        println!("{} {lengths} {}", number + 1, word.escape_debug());
    }
}

fn main() -> io::Result<()> {
    let argument = env::args().nth(1);
    match argument.as_deref() {
        Some("--list") => list(),
        Some(folder) => {
            let stored = stored();
            fs::write(Path::new(folder).join("stdin"), input(&stored))?;
            fs::write(Path::new(folder).join("stdout"), output(&stored))?;
        }
        None => {
            eprintln!("stored FOLDER, or stored --list");
            std::process::exit(2);
        }
    }
    Ok(())
}
