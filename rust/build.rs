//! Links the proved library, `target/staticlib/libhildrasp.a` beside this package or the one in the folder that
//! `HILDRASP_ARCHIVE` names, and builds again when it changes.

use std::env;
use std::path::PathBuf;

fn main() {
    let package = PathBuf::from(env::var_os("CARGO_MANIFEST_DIR").expect("cargo names the package's folder"));
    println!("cargo:rerun-if-env-changed=HILDRASP_ARCHIVE");
    let folder = package.join(env::var_os("HILDRASP_ARCHIVE").unwrap_or("../target/staticlib".into()));
    let archive = folder.join("libhildrasp.a");
    println!("cargo:rerun-if-changed={}", archive.display());
    assert!(archive.exists(), "{} is missing: build the static library first", archive.display());
    println!("cargo:rustc-link-search=native={}", folder.display());
    println!("cargo:rustc-link-lib=static=hildrasp");
}
