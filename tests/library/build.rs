//! Links libmpt.a. Its path is MPT_LIB, absolute or seen from this folder, or the main build's place.
//! The library is first joined into one object with its functions as the only global names,
//! so that a Rust runtime inside it doesn't clash with that of the program.

use std::path::PathBuf;
use std::process::Command;

const FUNCTIONS: [&str; 9] = [
    "mpt_compile",
    "mpt_write_back",
    "mpt_match",
    "mpt_match_batch",
    "mpt_register_init",
    "mpt_register_store",
    "mpt_register_remove",
    "mpt_register_match",
    "mpt_register_search",
];

fn run(command: &mut Command) {
    let status = command
        .status()
        .unwrap_or_else(|e| panic!("{command:?}: {e}"));
    assert!(status.success(), "{command:?}");
}

fn main() {
    let library = std::env::var("MPT_LIB").unwrap_or("../../crates/mpt/out/libmpt.a".to_string());
    let library = PathBuf::from(&library)
        .canonicalize()
        .unwrap_or_else(|e| panic!("{library}: {e}"));
    let out = PathBuf::from(std::env::var("OUT_DIR").unwrap());
    let object = out.join("mpt.o");
    let archive = out.join("libmpt_alone.a");

    let wanted = FUNCTIONS.map(|name| format!("--undefined={name}"));
    let options = ["-r", "--force-group-allocation"];
    run(Command::new("ld")
        .args(options)
        .args(wanted)
        .arg(&library)
        .arg("-o")
        .arg(&object));
    let kept = FUNCTIONS.map(|name| format!("--keep-global-symbol={name}"));
    let bitcode = ["--remove-section=.llvmbc", "--remove-section=.llvmcmd"];
    run(Command::new("objcopy")
        .args(kept)
        .args(bitcode)
        .arg(&object));
    _ = std::fs::remove_file(&archive);
    run(Command::new("ar").arg("rcs").arg(&archive).arg(&object));

    println!("cargo:rerun-if-env-changed=MPT_LIB");
    println!("cargo:rerun-if-changed={}", library.display());
    // For the build script of bench.
    println!("cargo:object={}", object.display());
    println!("cargo:rustc-link-search=native={}", out.display());
    println!("cargo:rustc-link-lib=static:-bundle=mpt_alone");
}
