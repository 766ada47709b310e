//! Links `libspatecanter.a`, from SPATECANTER_LIB_DIR or else from `target/staticlib` of the repository, and takes
//! down what it is: its digest, and the toolchain that made it, which stands in a file beside it.

#[path = "build/sha256.rs"]
mod sha256;

use std::path::{Path, PathBuf};
use std::{env, fs};

fn main() {
    println!("cargo:rerun-if-env-changed=SPATECANTER_LIB_DIR");
    let folder = library_folder();
    let library = folder.join("libspatecanter.a");
    println!("cargo:rerun-if-changed={}", library.display());
    let Ok(archive) = fs::read(&library) else {
        eprintln!("there is no {}", library.display());
        eprintln!("build it with the script `library` at the root, or set SPATECANTER_LIB_DIR to its folder");
        std::process::exit(1);
    };
    println!("cargo:rustc-link-search=native={}", folder.display());
    println!("cargo:rustc-link-lib=static=spatecanter");
    println!("cargo:rustc-env=SPATECANTER_LIBRARY={}", library.display());
    println!("cargo:rustc-env=SPATECANTER_DIGEST={}", sha256::hexadecimal(&archive));
    println!("cargo:rustc-env=SPATECANTER_TOOLCHAIN={}", toolchain(&folder));
}

/// A relative folder is taken from this package's.
fn library_folder() -> PathBuf {
    let package = PathBuf::from(env::var_os("CARGO_MANIFEST_DIR").unwrap());
    package.join(env::var_os("SPATECANTER_LIB_DIR").unwrap_or("../target/staticlib".into()))
}

/// The identity of the toolchain, as the script `library` wrote it.
fn toolchain(folder: &Path) -> String {
    let file = folder.join("libspatecanter.toolchain");
    let text = fs::read_to_string(file).unwrap_or_default();
    text.lines().next().unwrap_or("unknown").into()
}
