//! Links the archive libedge_sst_c.a: from the folder that EDGE_SST_LIB_DIR
//! names, or else from the repository's own target/staticlib.

use std::env;
use std::path::{Path, PathBuf};

const ARCHIVE: &str = "libedge_sst_c.a";

fn folder() -> PathBuf {
    match env::var_os("EDGE_SST_LIB_DIR") {
        Some(folder) => PathBuf::from(folder),
        None => Path::new(&env::var_os("CARGO_MANIFEST_DIR").expect("cargo sets it"))
            .join("../../target/staticlib"),
    }
}

fn main() {
    let folder = folder();
    let archive = folder.join(ARCHIVE);
    println!("cargo:rerun-if-env-changed=EDGE_SST_LIB_DIR");
    println!("cargo:rerun-if-changed={}", archive.display());
    if !archive.is_file() {
        panic!(
            "there is no {}: build it with 'tools/staticlib edge_sst_c' in the repository, \
             or set EDGE_SST_LIB_DIR to the folder that has {ARCHIVE} for this machine",
            archive.display()
        );
    }
    println!("cargo:rustc-link-search=native={}", folder.display());
    println!("cargo:rustc-link-lib=static=edge_sst_c");
}
