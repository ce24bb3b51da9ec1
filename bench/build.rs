//! Links four more copies of the library's object, for sections (c), (f) and (i): their matching
//! functions, mpt_match_0 and so on, lie 0, 16, 32 and 48 bytes after a multiple of 64, and those
//! of a batch, mpt_match_batch_0 and so on, and of a search with them. Sets cfg(search) if the
//! library has a search.

use std::path::{Path, PathBuf};
use std::process::Command;

const SEARCH: &str = "mpt_register_search";

fn run(command: &mut Command) {
    let status = command
        .status()
        .unwrap_or_else(|e| panic!("{command:?}: {e}"));
    assert!(status.success(), "{command:?}");
}

/// A copy whose code is one section: `offset` bytes, the matching function, all other functions.
fn place(object: &Path, offset: usize, out: &Path) -> PathBuf {
    let name = format!("mpt_match_{offset}");
    let script = out.join(format!("{name}.ld"));
    let copy = out.join(format!("{name}.o"));
    let code = format!(". += {offset}; *(.text.mpt_match) *(.text .text.*)");
    let sections = format!("SECTIONS {{ .text.{name} : ALIGN(64) {{ {code} }} }}\n");
    std::fs::write(&script, sections).unwrap();
    run(Command::new("ld")
        .args(["-r", "-T"])
        .args([&script, object])
        .arg("-o")
        .arg(&copy));
    let mut rename = Command::new("objcopy");
    for function in ["mpt_match", "mpt_match_batch", SEARCH] {
        rename
            .arg(format!("--redefine-sym={function}={function}_{offset}"))
            .arg(format!("--keep-global-symbol={function}_{offset}"));
    }
    run(rename.arg(&copy));
    copy
}

/// Whether an object defines a function.
fn has(object: &Path, function: &str) -> bool {
    let mut names = Command::new("nm");
    names.arg("--defined-only").arg(object);
    let listed = names.output().unwrap_or_else(|e| panic!("{names:?}: {e}"));
    assert!(listed.status.success(), "{names:?}");
    String::from_utf8_lossy(&listed.stdout)
        .lines()
        .any(|line| line.ends_with(&format!(" {function}")))
}

fn main() {
    // The one object that the build script of tests/library makes.
    let object = PathBuf::from(std::env::var("DEP_MPT_ALONE_OBJECT").unwrap());
    let out = PathBuf::from(std::env::var("OUT_DIR").unwrap());
    for offset in [0, 16, 32, 48] {
        let copy = place(&object, offset, &out);
        println!("cargo:rustc-link-arg={}", copy.display());
    }
    println!("cargo:rustc-check-cfg=cfg(search)");
    if has(&object, SEARCH) {
        println!("cargo:rustc-cfg=search");
    }
    println!("cargo:rerun-if-changed=build.rs");
    println!("cargo:rerun-if-changed={}", object.display());
}
