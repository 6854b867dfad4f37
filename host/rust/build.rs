//! Links librdram.a: from RDRAM_LIB_DIR, or from lib/ of the package that the crate is in, or from target/staticlib of the repository.
//!
//! Where it is in none of them a warning says so. The documentation and `cargo check` do without it; the linker then misses it by name.

use std::env;
use std::path::{Path, PathBuf};

/// The folder of the package's lib/ for a target of Rust.
fn folder_of(target: &str) -> &str {
    match target {
        "x86_64-unknown-linux-gnu" => "x86_64-linux-gnu",
        "aarch64-unknown-linux-gnu" => "aarch64-linux-gnu",
        "armv7-unknown-linux-gnueabihf" => "arm-linux-gnueabihf",
        "riscv64gc-unknown-linux-gnu" => "riscv64-linux-gnu",
        "thumbv7em-none-eabihf" => "cortex-m7",
        "thumbv6m-none-eabi" => "cortex-m0",
        other => other,
    }
}

fn main() {
    println!("cargo:rerun-if-env-changed=RDRAM_LIB_DIR");
    let here = PathBuf::from(env::var_os("CARGO_MANIFEST_DIR").unwrap_or_default());
    let target = env::var("TARGET").unwrap_or_default();
    let mut folders: Vec<PathBuf> = Vec::new();
    if let Some(named) = env::var_os("RDRAM_LIB_DIR") {
        folders.push(named.into());
    } else {
        folders.push(here.join("../lib").join(folder_of(&target)));
        if target == "x86_64-unknown-linux-gnu" {
            folders.push(here.join("../../target/staticlib"));
        }
    }
    let archive = |folder: &Path| folder.join("librdram.a");
    for folder in &folders {
        println!("cargo:rerun-if-changed={}", archive(folder).display());
    }
    match folders.iter().find(|folder| archive(folder).exists()) {
        Some(folder) => println!("cargo:rustc-link-search=native={}", folder.display()),
        None => {
            let tried: Vec<String> = folders.iter().map(|f| f.display().to_string()).collect();
            println!(
                "cargo:warning=librdram.a for {target} is missing (looked in {}): set RDRAM_LIB_DIR to its folder, or run `host/built archive`",
                tried.join(" and in ")
            );
        }
    }
    println!("cargo:rustc-link-lib=static=rdram");
}
