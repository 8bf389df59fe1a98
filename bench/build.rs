//! Makes a library of the Rust crate, from the folder that `RANGEMAP_RUST` names, and links it and
//! the proved library.

use std::env;
use std::path::{Path, PathBuf};
use std::process::Command;

fn main() {
    let proved = Path::new("../crates/bench_map/out/libbench_map.a");
    let proved = proved
        .canonicalize()
        .expect("crates/bench_map: `rt lib` makes out/libbench_map.a");
    let heap = PathBuf::from(setting("RATTLE_KIT")).join("c/liblibc_c.a");
    link_static("bench_map", &proved);
    link_static("libc_c", &heap);
    make_rust_crate(Path::new(&setting("RANGEMAP_RUST")));
    // The program that counts bytes has the calls of the C library's allocator led to its own.
    for call in ["malloc", "realloc", "free"] {
        println!("cargo:rustc-link-arg-bin=bytes=-Wl,--wrap={call}");
    }
}

fn setting(name: &str) -> String {
    println!("cargo:rerun-if-env-changed={name}");
    env::var(name).unwrap_or_else(|_| panic!("{name} is not set: start this by run.sh"))
}

fn link_static(name: &str, library: &Path) {
    let folder = library.parent().expect("a library lies in a folder");
    println!("cargo:rerun-if-changed={}", library.display());
    println!("cargo:rustc-link-search=native={}", folder.display());
    println!("cargo:rustc-link-lib=static={name}");
}

// By the compiler alone: Cargo would ask a registry for what the crate only needs with features
// that are off.
fn make_rust_crate(folder: &Path) {
    let root = folder.join("src/lib.rs");
    let out = env::var("OUT_DIR").expect("Cargo sets OUT_DIR");
    println!("cargo:rerun-if-changed={}", folder.join("src").display());
    let status = Command::new(env::var("RUSTC").expect("Cargo sets RUSTC"))
        .args([
            "--crate-name",
            "rangemap",
            "--crate-type",
            "rlib",
            "--edition",
            "2018",
        ])
        .args([
            "-C",
            "opt-level=3",
            "-C",
            "target-cpu=x86-64-v2",
            "-C",
            "embed-bitcode=yes",
            "--cap-lints",
            "allow",
            "--out-dir",
            &out,
        ])
        .arg(&root)
        .status()
        .expect("rustc starts");
    assert!(
        status.success(),
        "RANGEMAP_RUST: {} is not built",
        root.display()
    );
    println!("cargo:rustc-link-search=crate={out}");
}
