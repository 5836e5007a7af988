//! Prints cases for other tools, one a line:
//!
//! `HEX-OF-TEXT BUFFER-LENGTH ok BOOK-LENGTH DEFINITIONS HEX-OF-BOOK` or
//! `HEX-OF-TEXT BUFFER-LENGTH refused NUMBER PLACE LINE COLUMN`
//!
//! with single blanks; an empty text or book is written `-`.
//!
//! `vectors [--small] [--first SEED] [--count COUNT]`, from seed 0 and for
//! 1,000 seeds if not said otherwise.

use std::fmt::Write as _;
use std::io::{self, BufWriter, Write};

use cases::{gen, gen_small, Case};
use peer::Answer;

struct Options {
    small: bool,
    first: u64,
    count: u64,
}

fn options() -> Result<Options, String> {
    let mut options = Options {
        small: false,
        first: 0,
        count: 1000,
    };
    let mut arguments = std::env::args().skip(1);
    while let Some(argument) = arguments.next() {
        let mut number = || {
            let value = arguments.next().and_then(|value| value.parse().ok());
            value.ok_or(format!("{argument} needs a number"))
        };
        match argument.as_str() {
            "--small" => options.small = true,
            "--first" => options.first = number()?,
            "--count" => options.count = number()?,
            _ => return Err(format!("unknown argument {argument}")),
        }
    }
    Ok(options)
}

fn hexadecimal(bytes: &[u8]) -> String {
    if bytes.is_empty() {
        return "-".to_owned();
    }
    let mut digits = String::with_capacity(bytes.len() * 2);
    for byte in bytes {
        write!(digits, "{byte:02x}").expect("a string takes all");
    }
    digits
}

fn line(case: &Case) -> String {
    let mut buffer = vec![0; case.buffer_len];
    let answer = peer::check(&case.text, &mut buffer);
    let book = match answer {
        Answer::Accepted { book_len, .. } => format!(" {}", hexadecimal(&buffer[..book_len])),
        Answer::Refused { .. } => String::new(),
    };
    let text = hexadecimal(&case.text);
    format!("{text} {} {answer}{book}", case.buffer_len)
}

fn main() -> io::Result<()> {
    let options = match options() {
        Ok(options) => options,
        Err(fault) => {
            eprintln!("{fault}");
            std::process::exit(2);
        }
    };
    let mut output = BufWriter::new(io::stdout().lock());
    for seed in options.first..options.first + options.count {
        let case = if options.small {
            gen_small(seed)
        } else {
            gen(seed)
        };
        writeln!(output, "{}", line(&case))?;
    }
    output.flush()
}
