//! Links the archive: in the folder that ESKIHRUM_LIB_DIR names, or else where `tools/build.sh archive` puts
//! it.

use std::path::PathBuf;

const FOLDER: &str = "ESKIHRUM_LIB_DIR";

fn main() {
    println!("cargo:rerun-if-env-changed={FOLDER}");
    let folder = match std::env::var_os(FOLDER) {
        Some(named) => PathBuf::from(named),
        None => {
            let package = std::env::var_os("CARGO_MANIFEST_DIR").expect("cargo names the package's folder");
            PathBuf::from(package).join("../target/staticlib")
        }
    };
    let archive = folder.join("libeskihrum.a");
    assert!(
        archive.is_file(),
        "{} is not there: run `tools/build.sh archive` at the root of the repository, or let {FOLDER} name \
         the folder that holds libeskihrum.a",
        archive.display()
    );
    println!("cargo:rerun-if-changed={}", archive.display());
    println!("cargo:rustc-link-search=native={}", folder.display());
    println!("cargo:rustc-link-lib=static=eskihrum");
}
