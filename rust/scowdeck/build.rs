//! Hands the archive `libhost.a` to cargo. It lies in the folder that SCOWDECK_LIB_DIR names (a relative one
//! counts from the folder of the workspace), or in target/native of the repository.

use std::env;
use std::path::PathBuf;

fn main() {
    println!("cargo:rerun-if-env-changed=SCOWDECK_LIB_DIR");
    let package = env::var_os("CARGO_MANIFEST_DIR").map(PathBuf::from).unwrap_or_default();
    let workspace = package.join("..");
    let named = env::var_os("SCOWDECK_LIB_DIR").filter(|name| !name.is_empty());
    let folder = match named {
        Some(name) => workspace.join(name),
        None => workspace.join("../target/native"),
    };
    let archive = folder.join("libhost.a");
    println!("cargo:rerun-if-changed={}", archive.display());
    if !archive.is_file() {
        println!(
            "cargo:warning=there is no {}: run ./make-lib, or name its folder in SCOWDECK_LIB_DIR",
            archive.display()
        );
    }
    println!("cargo:rustc-link-search=native={}", folder.display());
    println!("cargo:rustc-link-lib=static=host");
}
