//! Finds the static library: in the folder that LIBTOCMARK_DIR names, where `make -C bindings/c` puts it, or by pkg-config.

use std::env;
use std::path::{Path, PathBuf};
use std::process::Command;

/// The folder of the installed library, as pkg-config knows it.
fn installed() -> Option<PathBuf> {
    let program = env::var_os("PKG_CONFIG").unwrap_or_else(|| "pkg-config".into());
    let wanted = concat!("tocmark = ", env!("CARGO_PKG_VERSION"));
    let done = Command::new(program)
        .args(["--variable=libdir", wanted])
        .output()
        .ok()?;
    let folder = String::from_utf8(done.stdout).ok()?;
    (done.status.success() && !folder.trim().is_empty()).then(|| folder.trim().into())
}

fn main() {
    for name in ["LIBTOCMARK_DIR", "PKG_CONFIG", "PKG_CONFIG_PATH"] {
        println!("cargo:rerun-if-env-changed={name}");
    }
    // Documentation needs no library.
    if env::var_os("DOCS_RS").is_some() {
        return;
    }
    let here = env::var("CARGO_MANIFEST_DIR").expect("cargo names the crate's folder");
    let built = Path::new(&here).join("../c/build");
    let folder = match env::var_os("LIBTOCMARK_DIR") {
        Some(named) => named.into(),
        None if built.join("libtocmark.a").exists() => built,
        None => installed().unwrap_or(built),
    };
    let library = folder.join("libtocmark.a");
    if !library.exists() {
        println!("cargo:warning=there is no {}: install or build the library, or name its folder in LIBTOCMARK_DIR", library.display());
    }
    println!("cargo:rustc-link-search=native={}", folder.display());
    println!("cargo:rustc-link-lib=static=tocmark");
    println!("cargo:rerun-if-changed={}", library.display());
}
