//! Links the proved library, which `rt lib` builds in `crates/cyclic_c`, and the Rattle kit's heap.

use std::path::{Path, PathBuf};
use std::process::exit;

/// The kit's folder of C libraries, beside the `rt` that is in PATH.
fn kit() -> Option<PathBuf> {
    let path = std::env::var_os("PATH")?;
    std::env::split_paths(&path)
        .filter_map(|folder| folder.join("rt").canonicalize().ok())
        .filter_map(|rt| Some(rt.parent()?.parent()?.join("c")))
        .find(|folder| folder.join("liblibc_c.a").exists())
}

fn link(folder: &Path, library: &str) {
    println!("cargo:rustc-link-search=native={}", folder.display());
    println!("cargo:rustc-link-lib=static={library}");
    println!(
        "cargo:rerun-if-changed={}",
        folder.join(format!("lib{library}.a")).display()
    );
}

fn main() {
    let here = PathBuf::from(std::env::var_os("CARGO_MANIFEST_DIR").unwrap());
    let built = here.join("../../crates/cyclic_c/out");
    match kit() {
        Some(kit) if built.join("libcyclic_c.a").exists() => {
            link(&built, "cyclic_c");
            link(&kit, "libc_c");
        }
        _ => {
            eprintln!(
                "run 'rt lib' in crates/cyclic_c first, with the Rattle kit's bin folder in PATH: it builds the proved library"
            );
            exit(1);
        }
    }
}
