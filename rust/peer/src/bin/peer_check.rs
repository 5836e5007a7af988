//! The program `check` of document 01: a text on standard input, one line on
//! standard output.

use std::io::{self, Read, Write};

fn main() -> io::Result<()> {
    let mut text = Vec::new();
    io::stdin().lock().read_to_end(&mut text)?;
    let mut buffer = vec![0; peer::LONGEST_BOOK];
    let answer = peer::check(&text, &mut buffer);
    writeln!(io::stdout().lock(), "{answer}")
}
