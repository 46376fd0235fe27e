//! Links the proved library, which `make lib` writes, and tells the command its version: the header's, and the kit's.
use std::path::Path;
use std::process::Command;

fn main() {
    let repository = Path::new(env!("CARGO_MANIFEST_DIR")).join("..");
    let folder = repository.join("target/staticlib");
    let archive = folder.join("libcanceller.a");
    assert!(
        archive.exists(),
        "{} is missing: run `make lib` first",
        archive.display()
    );
    println!("cargo:rerun-if-changed={}", archive.display());
    println!("cargo:rustc-link-search=native={}", folder.display());
    println!("cargo:rustc-link-lib=static=canceller");

    let header = repository.join("include/canceller.h");
    println!("cargo:rerun-if-changed={}", header.display());
    let version = version_of(&std::fs::read_to_string(&header).expect("the header"));
    let package = env!("CARGO_PKG_VERSION");
    assert_eq!(version, package, "the header's version and Cargo.toml's");
    println!("cargo:rustc-env=CANCELLER_VERSION={version}");
    println!("cargo:rustc-env=CANCELLER_KIT={}", kit());
}

/// What the header defines as CANCELLER_VERSION.
fn version_of(header: &str) -> String {
    let defined = |line: &str| {
        let rest = line.strip_prefix("#define CANCELLER_VERSION \"")?;
        Some(rest.split_once('"')?.0.to_string())
    };
    header
        .lines()
        .find_map(defined)
        .expect("the header defines CANCELLER_VERSION")
}

/// The Rattle kit that the library is made with.
fn kit() -> String {
    let said = Command::new("rt").arg("version").output();
    let said = said.expect("rt, the command of the Rattle kit, is on the path");
    assert!(said.status.success(), "rt version: {}", said.status);
    let line = String::from_utf8(said.stdout).expect("rt version prints text");
    let line = line.trim();
    assert!(!line.is_empty(), "rt version prints nothing");
    line.to_string()
}
