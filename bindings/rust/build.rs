//! Finds `libsimplex.a`, which `bindings/build` makes, and links it: the file that `SIMPLEX_ARCHIVE` names, or else the one in the folder
//! above.

use std::env;
use std::path::PathBuf;
use std::process::exit;

fn main() {
    println!("cargo:rerun-if-env-changed=SIMPLEX_ARCHIVE");
    let beside = PathBuf::from(env!("CARGO_MANIFEST_DIR")).join("../libsimplex.a");
    let archive = env::var_os("SIMPLEX_ARCHIVE").map_or(beside, PathBuf::from);
    println!("cargo:rerun-if-changed={}", archive.display());
    let Ok(archive) = archive.canonicalize() else {
        eprintln!(
            "{} is not there: run bindings/build --unproved (three minutes, to try) or bindings/build (the proved library), or name the \
             archive in SIMPLEX_ARCHIVE",
            archive.display()
        );
        exit(1);
    };
    let folder = archive.parent().expect("a file is in a folder");
    let name = archive
        .file_name()
        .and_then(|name| name.to_str())
        .and_then(|name| name.strip_prefix("lib"))
        .and_then(|name| name.strip_suffix(".a"))
        .filter(|name| !name.is_empty());
    let Some(name) = name else {
        eprintln!(
            "{} is not named libNAME.a, as the linker takes it: rename or link it",
            archive.display()
        );
        exit(1);
    };
    println!("cargo:rustc-link-search=native={}", folder.display());
    println!("cargo:rustc-link-lib=static={name}");
}
