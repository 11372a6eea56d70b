//! Links the static libraries that the tests call. They are built beforehand: in the folder `out/` of
//! their crates, or both in the folder that AFA_LIB_DIR names.

use std::env;
use std::path::PathBuf;

/// The one that users get, and the one that shows the tests what its functions do not tell.
const ARCHIVES: [&str; 2] = ["exports", "probes"];

fn main() {
    println!("cargo::rerun-if-env-changed=AFA_LIB_DIR");
    for name in ARCHIVES {
        let folder = match env::var_os("AFA_LIB_DIR") {
            Some(folder) => PathBuf::from(folder),
            None => {
                let package = env::var_os("CARGO_MANIFEST_DIR").expect("cargo names the package");
                PathBuf::from(package).join(format!("../crates/{name}/out"))
            }
        };
        let archive = folder.join(format!("lib{name}.a"));
        println!("cargo::rerun-if-changed={}", archive.display());
        if !archive.is_file() {
            println!(
                "cargo::error={} is missing: run `bash .ci/run` in the repository's root, or `rt lib` in \
                 crates/exports and in crates/probes first, or name the archives' folder in AFA_LIB_DIR",
                archive.display()
            );
            return;
        }
        println!("cargo::rustc-link-search=native={}", folder.display());
        println!("cargo::rustc-link-lib=static={name}");
    }
}
