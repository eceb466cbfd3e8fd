//! Links the proved engine, which `rt lib` in crates/bench_library builds, and the kit's C code for a library's memory, which lies
//! beside `rt`. The variables LIBRARY and KIT_C may name other folders.

use std::env;
use std::path::{Path, PathBuf};

fn main() {
    let own = Path::new(env!("CARGO_MANIFEST_DIR")).join("../../crates/bench_library/out");
    link("LIBRARY", own, "bench_library");
    let kit = kit().expect("rt is on the path");
    link("KIT_C", kit.join("c"), "libc_c");
}

/// The kit's folder: `rt` is in its `bin`.
fn kit() -> Option<PathBuf> {
    let path = env::var_os("PATH")?;
    let rt = env::split_paths(&path).map(|folder| folder.join("rt")).find(|rt| rt.exists())?;
    Some(rt.canonicalize().ok()?.parent()?.parent()?.to_path_buf())
}

/// Links a static library in a folder, unless a variable names another folder.
fn link(variable: &str, folder: PathBuf, name: &str) {
    let folder = env::var_os(variable).map_or(folder, PathBuf::from);
    println!("cargo:rustc-link-search=native={}", folder.display());
    println!("cargo:rustc-link-lib=static={name}");
    println!("cargo:rerun-if-env-changed={variable}");
    println!("cargo:rerun-if-changed={}", folder.join(format!("lib{name}.a")).display());
}
