//! Links target/staticlib/libplans.a, or the libplans.a in the folder that PLANS_LIB names; and expat, where the machine has it.

use std::path::PathBuf;

mod link_expat;

fn main() {
    let manifest = PathBuf::from(std::env::var_os("CARGO_MANIFEST_DIR").expect("cargo sets it"));
    let folder = match std::env::var_os("PLANS_LIB") {
        Some(folder) => PathBuf::from(folder),
        None => manifest.join("../../target/staticlib"),
    };
    let library = folder.join("libplans.a");
    assert!(library.is_file(), "{} is missing: `make lib` writes it", library.display());
    println!("cargo:rustc-link-search=native={}", folder.display());
    println!("cargo:rustc-link-lib=static=plans");
    println!("cargo:rerun-if-env-changed=PLANS_LIB");
    println!("cargo:rerun-if-changed={}", library.display());
    link_expat::link_expat();
}
