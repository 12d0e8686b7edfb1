//! Says where the proved library is, and how it was built. `OXTERIN_LIBRARY` names another folder than the one that host/library fills.
use std::path::PathBuf;
use std::{env, fs};

fn main() {
    println!("cargo:rerun-if-env-changed=OXTERIN_LIBRARY");
    let folder = env::var_os("OXTERIN_LIBRARY").map_or_else(
        || PathBuf::from(env::var_os("CARGO_MANIFEST_DIR").expect("cargo names the folder")).join("../../target/library"),
        PathBuf::from,
    );
    let archive = folder.join("liboxterin.a");
    let built = folder.join("built");
    println!("cargo:rerun-if-changed={}", archive.display());
    println!("cargo:rerun-if-changed={}", built.display());
    let Ok(how) = fs::read_to_string(&built) else {
        eprintln!(
            "{} is missing: run host/library, which proves and compiles the library",
            built.display()
        );
        std::process::exit(1);
    };
    println!("cargo:rustc-env=OXTERIN_BUILT={}", how.trim());
    println!("cargo:rustc-link-search=native={}", folder.display());
    println!("cargo:rustc-link-lib=static=oxterin");
}
