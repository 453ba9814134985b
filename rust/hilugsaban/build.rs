//! Links the proved archive `libcapi.a`: from the folder `HILUGSABAN_LIB`, an absolute path, else from the repository's
//! `target/staticlib`.
use std::{env, path::PathBuf};

fn main() {
    println!("cargo:rerun-if-env-changed=HILUGSABAN_LIB");
    let folder = match env::var_os("HILUGSABAN_LIB").filter(|folder| !folder.is_empty()) {
        Some(folder) => PathBuf::from(folder),
        None => PathBuf::from(env::var_os("CARGO_MANIFEST_DIR").expect("cargo sets it"))
            .join("../../target/staticlib"),
    };
    let archive = folder.join("libcapi.a");
    println!("cargo:rerun-if-changed={}", archive.display());
    if !archive.is_file() {
        let archive = archive.display();
        println!("cargo::error=no {archive}: run `tools/archive.sh` in the repository, or set HILUGSABAN_LIB to the folder of libcapi.a");
        return;
    }
    println!("cargo:rustc-link-search=native={}", folder.display());
    println!("cargo:rustc-link-lib=static=capi");
}
