//! Builds the tree in plain C, which takes its CMAC at run time, so that no other library's header is needed; and links an older
//! archive of the calls beside the present one, if the variable BEFORE names one.

use std::path::{Path, PathBuf};
use std::process::Command;

/// What the object is made of.
const SOURCES: [&str; 2] = ["c/tree.c", "c/tree.h"];

/// The variable with the name of the older archive, as seen from the repository.
const BEFORE: &str = "BEFORE";

/// What the names of the older archive's functions begin with here.
const PREFIX: &str = "before_";

/// The functions that it has to have.
const CALLS: [&str; 5] = [
    "pat_format",
    "pat_read",
    "pat_write",
    "pat_check",
    "pat_wipe",
];

/// Runs a command to its end and gives what it prints.
fn run(command: &mut Command) -> String {
    let output = match command.output() {
        Ok(output) if output.status.success() => output.stdout,
        other => panic!("{command:?}: {other:?}"),
    };
    String::from_utf8_lossy(&output).into_owned()
}

/// Compiles the object and has it linked.
fn link_tree(out: &Path) {
    let object = out.join("tree.o");
    let compiler = std::env::var("CC").unwrap_or_else(|_| "gcc".to_string());
    run(Command::new(compiler)
        .args(["-std=c11", "-O3", "-fPIC", "-c", SOURCES[0], "-o"])
        .arg(&object));
    println!("cargo:rustc-link-arg={}", object.display());
    println!("cargo:rerun-if-env-changed=CC");
    for source in SOURCES {
        println!("cargo:rerun-if-changed={source}");
    }
}

/// The older archive, if one is named.
fn before() -> Option<PathBuf> {
    println!("cargo:rustc-check-cfg=cfg(before)");
    println!("cargo:rerun-if-env-changed={BEFORE}");
    let named = std::env::var(BEFORE).ok()?;
    (!named.is_empty()).then(|| Path::new("..").join(named))
}

/// Has a copy of the archive linked in which each global name that it defines has the prefix, and no other name has.
fn link_before(archive: &Path, out: &Path) {
    println!("cargo:rerun-if-changed={}", archive.display());
    let (copy, names) = (out.join("libbefore.a"), out.join("before.names"));
    if let Err(error) = std::fs::copy(archive, &copy) {
        panic!("{BEFORE}, {}: {error}", archive.display());
    }
    let listed = run(Command::new("nm")
        .args(["--defined-only", "--extern-only", "--format=posix"])
        .arg("libbefore.a")
        .current_dir(out));
    let defined: Vec<&str> = listed
        .lines()
        .filter_map(|line| Some(line.split_once(' ')?.0))
        .collect();
    for call in CALLS {
        let has = defined.contains(&call);
        assert!(has, "{BEFORE}, {}: no {call}", archive.display());
    }
    let renamed = defined
        .iter()
        .map(|name| format!("{name} {PREFIX}{name}\n"));
    std::fs::write(&names, renamed.collect::<String>()).expect("room for the names");
    run(Command::new("objcopy")
        .arg(format!("--redefine-syms={}", names.display()))
        .arg(&copy));
    println!("cargo:rustc-link-search=native={}", out.display());
    println!("cargo:rustc-link-lib=static=before");
    println!("cargo:rustc-cfg=before");
}

/// Makes what is linked.
fn main() {
    let out = PathBuf::from(std::env::var("OUT_DIR").expect("cargo names a directory"));
    link_tree(&out);
    if let Some(archive) = before() {
        link_before(&archive, &out);
    }
}
