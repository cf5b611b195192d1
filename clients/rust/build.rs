//! Links libordup.a: of the folder ORDUP_LIB_DIR; else of out/ in this repository, where `./ordup --library` leaves it; else of the
//! folder that pkg-config knows. Without it there is a warning, and `cargo check` and `cargo doc` do their work.

use std::env;
use std::path::PathBuf;
use std::process::Command;

const NAME: &str = "libordup.a";

fn main() {
    let folder = env::var_os("ORDUP_LIB_DIR").map_or_else(found, PathBuf::from);
    let library = folder.join(NAME);
    if !library.exists() {
        let ways = "type ./ordup --library (--unproved: in minutes), install the package ordup, or set ORDUP_LIB_DIR to its folder";
        println!("cargo:warning=there is no {}: {ways}", library.display());
    }
    println!("cargo:rustc-link-search=native={}", folder.display());
    println!("cargo:rustc-link-lib=static=ordup");
    println!("cargo:rerun-if-changed={}", library.display());
    println!("cargo:rerun-if-env-changed=ORDUP_LIB_DIR");
    println!("cargo:rerun-if-env-changed=PKG_CONFIG_PATH");
}

/// out/ of this repository, or else the folder that pkg-config knows, if it knows one.
fn found() -> PathBuf {
    let out = PathBuf::from(env::var_os("CARGO_MANIFEST_DIR").unwrap()).join("../../out");
    if out.join(NAME).exists() {
        return out;
    }
    installed().unwrap_or(out)
}

fn installed() -> Option<PathBuf> {
    let said = Command::new("pkg-config").args(["--variable=libdir", "ordup"]).output().ok()?;
    let folder = String::from_utf8(said.stdout).ok()?;
    (said.status.success() && !folder.trim().is_empty()).then(|| PathBuf::from(folder.trim()))
}
