//! Links libcapi.a: from the folder that BANQUET_LIB names, else from the repository's target/staticlib.

use std::env;
use std::path::{Path, PathBuf};

fn main() {
    println!("cargo::rerun-if-env-changed=BANQUET_LIB");
    let folder = match env::var_os("BANQUET_LIB") {
        Some(folder) => PathBuf::from(folder),
        None => {
            let package = env::var_os("CARGO_MANIFEST_DIR").expect("cargo sets CARGO_MANIFEST_DIR");
            let root = Path::new(&package).ancestors().nth(2);
            root.expect("the package stands in rust/banquet")
                .join("target/staticlib")
        }
    };
    let archive = folder.join("libcapi.a");
    println!("cargo::rerun-if-changed={}", archive.display());
    if !archive.is_file() {
        println!(
            "cargo::error=there is no {}: run `make` in the repository's root, \
             or name the folder of libcapi.a in BANQUET_LIB (an absolute path)",
            archive.display()
        );
        return;
    }
    println!("cargo::rustc-link-search=native={}", folder.display());
    println!("cargo::rustc-link-lib=static=capi");
}
