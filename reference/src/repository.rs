//! The repository's own files.

use std::path::{Path, PathBuf};

pub fn repository() -> PathBuf {
    Path::new(env!("CARGO_MANIFEST_DIR")).join("..")
}

/// The text of a file of the repository.
pub fn text(path: &str) -> String {
    String::from_utf8(bytes(path)).unwrap_or_else(|e| panic!("{path}: {e}"))
}

fn bytes(path: &str) -> Vec<u8> {
    let path = repository().join(path);
    std::fs::read(&path).unwrap_or_else(|e| panic!("{}: {e}", path.display()))
}

/// A file of samples/.
pub fn sample(name: &str) -> Vec<u8> {
    bytes(&format!("samples/{name}"))
}
