//! Links the archives of the proved code.

use std::path::Path;

/// The archives that `make archives` writes.
const ARCHIVES: [&str; 4] = ["probe_cipher", "probe_cmac", "probe_count", "pat"];

/// Says where the archives lie.
fn main() {
    let package = std::env::var("CARGO_MANIFEST_DIR").expect("cargo names the package");
    let directory = Path::new(&package).join("../target/staticlib");
    println!("cargo:rustc-link-search=native={}", directory.display());
    for name in ARCHIVES {
        println!(
            "cargo:rerun-if-changed={}",
            directory.join(format!("lib{name}.a")).display()
        );
        println!("cargo:rustc-link-lib=static={name}");
    }
}
