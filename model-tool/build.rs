//! Links the proved static library. It is built beforehand: in `../crates/exports/out`, or in the
//! folder that AFA_LIB_DIR names.

use std::env;
use std::path::PathBuf;

fn main() {
    let folder = match env::var_os("AFA_LIB_DIR") {
        Some(folder) => PathBuf::from(folder),
        None => {
            let package = env::var_os("CARGO_MANIFEST_DIR").expect("cargo names the package");
            PathBuf::from(package).join("../crates/exports/out")
        }
    };
    let archive = folder.join("libexports.a");
    println!("cargo::rerun-if-env-changed=AFA_LIB_DIR");
    println!("cargo::rerun-if-changed={}", archive.display());
    if !archive.is_file() {
        println!(
            "cargo::error={} is missing: run `bash model-tool/afa --help` in the repository's root, or `rt lib` \
             in crates/exports first, or name the archive's folder in AFA_LIB_DIR",
            archive.display()
        );
        return;
    }
    println!("cargo::rustc-link-search=native={}", folder.display());
    println!("cargo::rustc-link-lib=static=exports");
}
