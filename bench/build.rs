//! Links libplans.a, from the folder that PLANS_LIB names; and expat, where the machine has it.
use std::env;
use std::path::PathBuf;

#[path = "../tests/outside/link_expat.rs"]
mod link_expat;

fn main() {
    println!("cargo:rerun-if-env-changed=PLANS_LIB");
    let here = PathBuf::from(env::var("CARGO_MANIFEST_DIR").expect("cargo sets CARGO_MANIFEST_DIR"));
    let folder = match env::var("PLANS_LIB") {
        Ok(path) => PathBuf::from(path),
        Err(_) => here.join("../target/staticlib"),
    };
    let archive = folder.join("libplans.a");
    assert!(archive.is_file(), "{} is missing: 'make lib' builds it", archive.display());
    println!("cargo:rerun-if-changed={}", archive.display());
    println!("cargo:rustc-link-search=native={}", folder.display());
    println!("cargo:rustc-link-lib=static=plans");
    link_expat::link_expat();
}
