//! Links the proved library. It is made by ../native-lib, which does nothing where it is up to date.
use std::path::Path;
use std::process::Command;

fn main() {
    let root = Path::new(env!("CARGO_MANIFEST_DIR")).join("../..").canonicalize().expect("the repository's root");
    let made = Command::new(root.join("host/native-lib")).status().expect("host/native-lib runs");
    assert!(made.success(), "host/native-lib could not make the library");
    println!("cargo:rustc-link-search=native={}", root.join("target/host").display());
    println!("cargo:rustc-link-lib=static=fetlockice");
    for path in ["crates.txt", "host/native-lib"] {
        println!("cargo:rerun-if-changed={}", root.join(path).display());
    }
    // a crate's out/ has what its checks keep
    for entry in root.join("crates").read_dir().expect("the crates") {
        for part in ["src", "specs", "proofs"] {
            let part = entry.as_ref().expect("a crate").path().join(part);
            if part.exists() {
                println!("cargo:rerun-if-changed={}", part.display());
            }
        }
    }
}
