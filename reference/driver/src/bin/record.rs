//! Writes the recorded answers into crates/vectors/data, or with `--check`
//! makes them again and compares.

use driver::record::{File, documents_file, parsers_file, pieces_file};
use std::path::{Path, PathBuf};
use std::process::ExitCode;

fn main() -> ExitCode {
    let words: Vec<String> = std::env::args().skip(1).collect();
    let data = Path::new(env!("CARGO_MANIFEST_DIR")).join("../../crates/vectors/data");
    let files = [
        (data.join("pieces.bin"), pieces_file()),
        (data.join("parsers.bin"), parsers_file()),
        (data.join("documents.bin"), documents_file()),
    ];
    match words.iter().map(String::as_str).collect::<Vec<_>>()[..] {
        [] => write(&files),
        ["--check"] => check(&files),
        _ => {
            eprintln!("usage: record [--check]");
            ExitCode::FAILURE
        }
    }
}

fn write(files: &[(PathBuf, File)]) -> ExitCode {
    for (path, file) in files {
        if let Err(error) = std::fs::write(path, file.bytes()) {
            eprintln!("record: {}: {error}", path.display());
            return ExitCode::FAILURE;
        }
    }
    ExitCode::SUCCESS
}

/// Counts the answers that stand in the files as they are made now.
fn check(files: &[(PathBuf, File)]) -> ExitCode {
    let (mut passed, mut failed) = (0, 0);
    for (path, file) in files {
        let found = std::fs::read(path).unwrap_or_default();
        let (same, different) = file.compare(&found);
        let name = path.file_name().unwrap_or_default().display();
        println!("{name}: {same} answers as recorded, {different} not");
        passed += same;
        failed += different;
    }
    println!("{passed} passed, {failed} failed");
    if failed == 0 {
        ExitCode::SUCCESS
    } else {
        ExitCode::FAILURE
    }
}
