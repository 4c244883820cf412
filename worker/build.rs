//! Proves the crate `face_c` and links its archive.

use std::path::Path;
use std::process::Command;

fn main() {
    let root = Path::new(env!("CARGO_MANIFEST_DIR")).parent().expect("worker/ has a folder above it");
    // what the archive is made of, without the folders that a check writes
    println!("cargo:rerun-if-changed={}", root.join("crates.txt").display());
    for folder in std::fs::read_dir(root.join("crates")).expect("crates/ lies beside worker/") {
        let folder = folder.expect("crates/ can be read").path();
        for part in ["src", "specs", "proofs"].map(|part| folder.join(part)) {
            if part.exists() {
                println!("cargo:rerun-if-changed={}", part.display());
            }
        }
    }
    let machine = std::env::var("CARGO_CFG_TARGET_ARCH").unwrap_or_default();
    if machine != "x86_64" {
        panic!("the archive of proved code links only into programs for x86-64, and this one is for {machine}");
    }
    let proved = Command::new(root.join(".ci/archive")).status();
    match proved {
        Ok(status) if status.success() => {}
        Ok(status) => panic!(".ci/archive: {status}"),
        Err(why) => panic!(".ci/archive cannot be run: {why}"),
    }
    // a copy, so that the archive outlives a clearing of the folder that it was written to
    let out = std::env::var("OUT_DIR").expect("cargo sets OUT_DIR");
    std::fs::copy(root.join("target/staticlib/libface.a"), Path::new(&out).join("libface.a"))
        .expect("the script wrote the archive");
    println!("cargo:rustc-link-search=native={out}");
    println!("cargo:rustc-link-lib=static=face");
}
