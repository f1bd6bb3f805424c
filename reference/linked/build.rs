//! Links the archive that `sh tools/make.sh archive` writes; FIBEXP_ARCHIVE names another folder for it.

use std::env;
use std::path::PathBuf;

fn main() {
    let here = env::var("CARGO_MANIFEST_DIR").expect("cargo names the package's folder");
    let folder = match env::var("FIBEXP_ARCHIVE") {
        Ok(folder) => PathBuf::from(folder),
        Err(_) => PathBuf::from(here).join("../../target/staticlib"),
    };
    println!("cargo:rustc-link-search=native={}", folder.display());
    println!("cargo:rustc-link-lib=static=capi");
    println!("cargo:rerun-if-env-changed=FIBEXP_ARCHIVE");
    println!(
        "cargo:rerun-if-changed={}",
        folder.join("libcapi.a").display()
    );
}
