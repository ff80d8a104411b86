//! Finds the static library: in the folder that X509CHECK_LIB_DIR names, as `make install` fills it; in lib/ of this crate, where a packaged
//! one has it; or where `make` puts it in the repository.
//!
//! Pages and checks need no library, so one that is missing is a warning here, and an error once the crate is compiled.

use std::env;
use std::path::{Path, PathBuf};

fn link(folder: &Path) {
    let file = folder.join("libx509check.a");
    if !file.is_file() && env::var_os("DOCS_RS").is_none() {
        println!("cargo:warning={} is missing: name its folder in X509CHECK_LIB_DIR, or run `make` in the repository", file.display());
    }
    println!("cargo:rerun-if-changed={}", file.display());
    println!("cargo:rustc-link-search=native={}", folder.display());
    println!("cargo:rustc-link-lib=static=x509check");
}

fn main() {
    println!("cargo:rerun-if-env-changed=X509CHECK_LIB_DIR");
    if let Some(folder) = env::var_os("X509CHECK_LIB_DIR") {
        return link(Path::new(&folder));
    }
    let here = PathBuf::from(
        env::var_os("CARGO_MANIFEST_DIR").expect("cargo names the folder of the crate"),
    );
    let packaged = here.join("lib");
    link(&if packaged.is_dir() {
        packaged
    } else {
        here.join("../out")
    });
}
