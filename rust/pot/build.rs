//! Links the library `libhost.a`. It is looked for in `target/staticlib` of the
//! repository, or in the folder that POT_LIB_DIR names.

use std::env;
use std::path::{Path, PathBuf};

fn main() {
    println!("cargo:rerun-if-env-changed=POT_LIB_DIR");
    let folder = library_folder();
    let archive = folder.join("libhost.a");
    println!("cargo:rerun-if-changed={}", archive.display());
    assert!(
        archive.is_file(),
        "no library at {}: run `sh tests/staticlib.sh` in the repository, or set POT_LIB_DIR",
        archive.display()
    );
    println!("cargo:rustc-link-search=native={}", folder.display());
    println!("cargo:rustc-link-lib=static=host");
}

fn library_folder() -> PathBuf {
    match env::var_os("POT_LIB_DIR") {
        Some(folder) => PathBuf::from(folder),
        None => {
            let package = env::var_os("CARGO_MANIFEST_DIR").expect("cargo sets it");
            Path::new(&package).join("../../target/staticlib")
        }
    }
}
