//! Finds the proved library, `libcabi.a`.

use std::env;
use std::path::{Path, PathBuf};

fn main() {
    println!("cargo::rerun-if-env-changed=VIBETORCH_LIB");
    let folder = match env::var_os("VIBETORCH_LIB") {
        Some(folder) => PathBuf::from(folder),
        None => Path::new(&variable("CARGO_MANIFEST_DIR")).join("../../crates/cabi/out"),
    };
    let archive = folder.join("libcabi.a");
    println!("cargo::rerun-if-changed={}", archive.display());

    let (processor, system) = (variable("CARGO_CFG_TARGET_ARCH"), variable("CARGO_CFG_TARGET_OS"));
    if processor != "x86_64" || system != "linux" {
        println!("cargo::error=libcabi.a is for x86-64 Linux only, and can't be linked for {processor} {system}");
    } else if !archive.is_file() {
        println!(
            "cargo::error={} is missing: run 'rt lib' in crates/cabi, \
             or let VIBETORCH_LIB name the folder that has it",
            archive.display()
        );
    } else {
        println!("cargo::rustc-link-search=native={}", folder.display());
        println!("cargo::rustc-link-lib=static=cabi");
    }
}

fn variable(name: &str) -> String {
    env::var(name).unwrap_or_else(|_| panic!("cargo sets {name}"))
}
