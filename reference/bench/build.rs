//! Compiles the plain pass as `rt lib` compiles a library: by the clang of
//! the kit that `rt` belongs to, with its flags. Where there is no kit, by the
//! clang or the gcc at hand.

use std::path::{Path, PathBuf};
use std::process::Command;

/// As `rt lib --cpu x86-64` calls its clang, but for words that say where things
/// are, that the source is IR, and which passes are off.
const FLAGS: [&str; 5] = [
    "-march=x86-64",
    "-ffunction-sections",
    "-fdata-sections",
    "-fPIC",
    "-O3",
];

/// The kit's clang, found from the `rt` of the search path.
fn of_kit() -> Option<PathBuf> {
    let paths = std::env::var_os("PATH")?;
    let rt = std::env::split_paths(&paths).find_map(|at| at.join("rt").canonicalize().ok())?;
    let clang = rt.parent()?.join("../toolchain/bin/clang");
    clang.canonicalize().ok()
}

fn compile(compiler: &Path, object: &Path) -> bool {
    let mut command = Command::new(compiler);
    command.args(FLAGS).args(["-c", "pass.c", "-o"]).arg(object);
    command.status().is_ok_and(|status| status.success())
}

fn main() {
    println!("cargo:rerun-if-changed=pass.c");
    println!("cargo:rerun-if-changed=build.rs");
    let out = PathBuf::from(std::env::var_os("OUT_DIR").expect("cargo says it"));
    let object = out.join("pass.o");
    let at_hand = ["clang".into(), "gcc".into()];
    let mut compilers = of_kit().into_iter().chain(at_hand);
    let compiler = compilers
        .find(|compiler| compile(compiler, &object))
        .expect("a C compiler");
    println!("cargo:rustc-link-arg-bins={}", object.display());
    let version = Command::new(&compiler).arg("--version").output();
    let version = version.expect("it compiled").stdout;
    let version = String::from_utf8_lossy(&version);
    let version = version.lines().next().unwrap_or_default();
    println!(
        "cargo:rustc-env=PASS_COMPILED={version}, {}",
        FLAGS.join(" ")
    );
}
