//! Links libbayer.a: from the folder that BAYER_LIB_DIR, an absolute path, names, otherwise from where `make lib` writes it.

use std::path::{Path, PathBuf};

fn main() {
    println!("cargo:rerun-if-env-changed=BAYER_LIB_DIR");
    let folder = match std::env::var_os("BAYER_LIB_DIR") {
        Some(named) => PathBuf::from(named),
        None => Path::new(env!("CARGO_MANIFEST_DIR")).join("../../build/lib"),
    };
    println!(
        "cargo:rerun-if-changed={}",
        folder.join("libbayer.a").display()
    );
    println!("cargo:rustc-link-search=native={}", folder.display());
    println!("cargo:rustc-link-lib=static=bayer");
}
