//! Compiles the plain C version with gcc -O3. PLAIN_LIB_DIR names a folder with a libplain.a that takes its place.
use std::env;
use std::path::{Path, PathBuf};
use std::process::Command;

fn run(program: &str, words: &[&str]) {
    let status = Command::new(program).args(words).status();
    assert!(status.is_ok_and(|s| s.success()), "{program} {words:?} failed");
}

/// Compiles plain.c into the folder's libplain.a.
fn compile(folder: &Path) {
    println!("cargo:rerun-if-changed=plain.c");
    println!("cargo:rerun-if-changed=ten.h");
    let (object, archive) = (folder.join("plain.o"), folder.join("libplain.a"));
    let (object, archive) = (object.to_str().unwrap(), archive.to_str().unwrap());
    run("gcc", &["-O3", "-Wall", "-Wextra", "-Werror", "-c", "plain.c", "-o", object]);
    run("ar", &["crs", archive, object]);
}

fn main() {
    println!("cargo:rerun-if-env-changed=PLAIN_LIB_DIR");
    let folder = env::var_os("PLAIN_LIB_DIR").map(PathBuf::from).unwrap_or_else(|| {
        let own = PathBuf::from(env::var_os("OUT_DIR").expect("cargo sets OUT_DIR"));
        compile(&own);
        own
    });
    println!("cargo:rustc-link-search=native={}", folder.display());
    println!("cargo:rustc-link-lib=static=plain");
}
