//! Links the archives that `tools/build` wrote of `pieces` and `rstlinks_c`.

use std::path::Path;

fn main() {
    let archives = Path::new(env!("CARGO_MANIFEST_DIR")).join("../../target/staticlib");
    println!("cargo:rustc-link-search=native={}", archives.display());
    for name in ["pieces", "rstlinks_c"] {
        let archive = archives.join(format!("lib{name}.a"));
        println!("cargo:rerun-if-changed={}", archive.display());
        println!("cargo:rustc-link-lib=static={name}");
    }
}
