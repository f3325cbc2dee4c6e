//! Compiles src/header.c, which calls every function and macro of include/eskihrum.h, and links it with the
//! archive: in the folder that ESKIHRUM_LIB_DIR names, or else where `tools/build.sh archive` puts it. CC is
//! the compiler.

use std::path::{Path, PathBuf};
use std::process::Command;

fn run(command: &mut Command) {
    let status = command.status().unwrap_or_else(|error| panic!("{command:?}: {error}"));
    assert!(status.success(), "{command:?}: {status}");
}

fn main() {
    let package =
        PathBuf::from(std::env::var_os("CARGO_MANIFEST_DIR").expect("cargo names the package's folder"));
    let out = PathBuf::from(std::env::var_os("OUT_DIR").expect("cargo names the folder of what is built"));
    let include = package.join("../../include");
    let source = Path::new("src/header.c");
    let folder = match std::env::var_os("ESKIHRUM_LIB_DIR") {
        Some(named) => PathBuf::from(named),
        None => package.join("../../target/staticlib"),
    };
    let compiler = std::env::var_os("CC").unwrap_or_else(|| "cc".into());
    let object = out.join("header.o");
    run(Command::new(compiler)
        .args(["-std=c11", "-O1", "-Wall", "-Wextra", "-Wconversion", "-pedantic", "-Werror", "-c", "-o"])
        .arg(&object)
        .arg("-I")
        .arg(&include)
        .arg(source));
    let archive = out.join("libheader.a");
    let _ = std::fs::remove_file(&archive);
    run(Command::new("ar").arg("rcs").arg(&archive).arg(&object));
    println!("cargo:rerun-if-env-changed=ESKIHRUM_LIB_DIR");
    println!("cargo:rerun-if-env-changed=CC");
    for path in [include.join("eskihrum.h"), source.into(), folder.join("libeskihrum.a")] {
        println!("cargo:rerun-if-changed={}", path.display());
    }
    for path in [&out, &folder] {
        println!("cargo:rustc-link-search=native={}", path.display());
    }
    println!("cargo:rustc-link-lib=static=header");
    println!("cargo:rustc-link-lib=static=eskihrum");
}
