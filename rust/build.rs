//! Links the static library that `scripts/library.sh` writes, and says what is to be done where it is missing, or is not the one of these
//! crates.
use std::io::ErrorKind;
use std::path::Path;
use std::process::{exit, Command};

fn main() {
    let here = std::env::var("CARGO_MANIFEST_DIR").unwrap_or_default();
    let root = Path::new(&here).join("..");
    // all that the answer below depends on
    for path in ["crates.txt", "scripts/library.sh", "target/staticlib/libcapi.a", "target/staticlib/sum"] {
        println!("cargo:rerun-if-changed={here}/../{path}");
    }
    // the crates, but for what was built in their folders
    for entry in std::fs::read_dir(root.join("crates")).into_iter().flatten().flatten() {
        for part in ["src", "specs", "proofs"] {
            let path = entry.path().join(part);
            if path.is_dir() {
                println!("cargo:rerun-if-changed={}", path.display());
            }
        }
    }
    println!("cargo:rerun-if-changed=build.rs");
    if let Err(sentence) = library_is_there(&root) {
        eprintln!("{}", sentence.trim_end());
        exit(1);
    }
    println!("cargo:rustc-link-search=native={here}/../target/staticlib");
    println!("cargo:rustc-link-lib=static=capi");
}

/// Whether the library is there for these very crates, by `scripts/library.sh --check`; where there is no bash, whether it is there at all.
fn library_is_there(root: &Path) -> Result<(), String> {
    if !root.join("target/staticlib/libcapi.a").exists() {
        return Err("The library target/staticlib/libcapi.a is missing: run 'bash scripts/library.sh' at the root of the repository.".into());
    }
    match Command::new("bash").arg(root.join("scripts/library.sh")).arg("--check").output() {
        Ok(check) if check.status.success() => Ok(()),
        Ok(check) if !check.stderr.is_empty() => Err(String::from_utf8_lossy(&check.stderr).into_owned()),
        Ok(_) => Err("The library target/staticlib/libcapi.a is stale: run 'bash scripts/library.sh' at the root of the repository.".into()),
        Err(error) if error.kind() == ErrorKind::NotFound => Ok(()),
        Err(error) => Err(format!("scripts/library.sh --check cannot be run: {error}")),
    }
}
