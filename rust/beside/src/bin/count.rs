//! Counts the instructions of one check of each text of `bench`, by the archive
//! and by the independent checker, with valgrind. Unlike a time, the archive's
//! count is the same in every run, but for the few by which memory lies
//! elsewhere; the other's differs by some percent, as its tables are seeded anew.

use std::hint::black_box;
use std::path::Path;
use std::process::Command;
use std::{env, fs, process};

use beside::{texts, Checker, LONGEST};

/// Before which valgrind writes what it counted since the call before. (Where a
/// function ends it cannot tell on every machine.)
const BETWEEN: &str = "count::between";

#[inline(never)]
fn between() {
    black_box(());
}

/// What valgrind runs: both checks of each text, one after the other.
fn checks() {
    let mut book = vec![0; LONGEST];
    for (word, text) in texts(1) {
        let [ours, peers] = [Checker::Archive, Checker::Peer].map(|checker| {
            between();
            let answer = black_box(checker.check(black_box(&text), &mut book));
            between();
            answer
        });
        assert_eq!(ours, peers, "{word}");
    }
}

/// On x86-64 glibc clears and copies many bytes by one instruction, which valgrind
/// counts once a byte; so it is told to do without.
const PLAINLY: &str = "glibc.cpu.x86_rep_stosb_threshold=1000000000\
                       :glibc.cpu.x86_rep_movsb_threshold=1000000000";

/// Runs this program under valgrind, which writes a file for each check, and one
/// for what comes before it.
fn run(folder: &Path) {
    let program = env::current_exe().expect("this program has a place");
    let status = Command::new("valgrind")
        .args(["--quiet", "--tool=callgrind"])
        .arg(format!("--dump-before={BETWEEN}"))
        .arg(format!("--callgrind-out-file={}/check", folder.display()))
        .arg(program)
        .arg("checks")
        .env("GLIBC_TUNABLES", PLAINLY)
        .status();
    assert!(status.expect("valgrind starts").success());
}

/// The instructions of the check with this number, from 1.
fn instructions(folder: &Path, number: usize) -> u64 {
    let file = folder.join(format!("check.{}", 2 * number));
    let written = fs::read_to_string(file).expect("valgrind wrote it");
    let mut lines = written.lines();
    let total = lines.find_map(|line| line.strip_prefix("totals: "));
    total.expect("a total").parse().expect("a number")
}

fn main() {
    if env::args().nth(1).is_some() {
        return checks();
    }
    let folder = env::temp_dir().join(format!("count-{}", process::id()));
    fs::create_dir_all(&folder).expect("a folder is made");
    run(&folder);
    println!("| text | archive | Rust checker | archive / Rust |");
    println!("|---|---|---|---|");
    for (row, (word, _)) in texts(1).iter().enumerate() {
        let [ours, peers] = [1, 2].map(|check| instructions(&folder, 2 * row + check));
        let ratio = ours as f64 / peers as f64;
        println!("| {word} | {ours} | {peers} | {ratio:.2} |");
    }
    fs::remove_dir_all(folder).expect("the folder is removed");
}
