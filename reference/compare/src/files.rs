//! Real notes: where their texts stand.

use std::fs;
use std::path::{Path, PathBuf};

/// The texts in a folder and those below it, in the order of their names; none where
/// there is no folder.
pub fn texts(folder: &Path) -> Vec<PathBuf> {
    let Ok(entries) = fs::read_dir(folder) else {
        return Vec::new();
    };
    let mut paths: Vec<_> = entries
        .map(|entry| entry.expect("an entry of the notes").path())
        .filter(|path| !path.is_symlink())
        .collect();
    paths.sort();
    let found = |path: PathBuf| match path.extension() {
        _ if path.is_dir() => texts(&path),
        Some(kind) if kind == "txt" || kind == "rst" => vec![path],
        _ => Vec::new(),
    };
    paths.into_iter().flat_map(found).collect()
}
