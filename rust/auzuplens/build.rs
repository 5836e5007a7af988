//! Links the archive of the proved checker, which `rust/archive` makes:
//! `target/staticlib/libauzuplens.a` of the repository, or the one in the folder
//! that the variable AUZUPLENS_ARCHIVE names.

use std::path::{Path, PathBuf};
use std::{env, fs, process};

fn stop(why: &str) -> ! {
    eprintln!("{why}; rust/archive makes it");
    process::exit(1);
}

/// Where the archive is.
fn folder() -> PathBuf {
    println!("cargo:rerun-if-env-changed=AUZUPLENS_ARCHIVE");
    match env::var_os("AUZUPLENS_ARCHIVE") {
        Some(folder) => folder.into(),
        None => Path::new(env!("CARGO_MANIFEST_DIR")).join("../../target/staticlib"),
    }
}

/// The machine that the first object file of an archive is for, as ELF numbers it.
fn machine(archive: &[u8]) -> Option<[u8; 2]> {
    let start = archive.windows(4).position(|four| four == b"\x7fELF")?;
    archive.get(start + 18..start + 20)?.try_into().ok()
}

fn main() {
    let folder = folder();
    let file = folder.join("libauzuplens.a");
    println!("cargo:rerun-if-changed={}", file.display());
    let Ok(archive) = fs::read(&file) else {
        stop(&format!("there is no {}", file.display()));
    };
    let wanted = match env::var("CARGO_CFG_TARGET_ARCH").as_deref() {
        Ok("x86_64") => [62, 0],
        Ok("aarch64") => [183, 0],
        _ => stop("this machine has no archive of the checker"),
    };
    if machine(&archive) != Some(wanted) {
        stop(&format!("{} is for another machine", file.display()));
    }
    println!("cargo:rustc-link-search=native={}", folder.display());
    println!("cargo:rustc-link-lib=static=auzuplens");
}
