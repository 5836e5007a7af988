//! The files that the program `cases` reads and must write are those of the
//! stored cases, with this checker's answers: `cargo run --bin stored --
//! ../crates/cases` in `rust/` writes them.

use std::fs;
use std::path::{Path, PathBuf};

use cases::stored::{input, output, stored};

fn file(name: &str) -> PathBuf {
    Path::new(env!("CARGO_MANIFEST_DIR"))
        .join("../../crates/cases")
        .join(name)
}

#[test]
fn the_files_are_current() {
    let stored = stored();
    let read = |name| fs::read(file(name)).expect("it is stored");
    assert!(read("stdin") == input(&stored), "what is read has changed");
    assert!(
        read("stdout") == output(&stored).into_bytes(),
        "what must be written has changed"
    );
}
