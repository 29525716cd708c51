//! For the build scripts of this crate and of bench: expat is linked, and cfg(expat) set, where the machine has it.
use std::path::Path;
use std::process::Command;

/// The compiler gives the path of a library that it finds, and the bare name of one that it does not.
pub fn link_expat() {
    println!("cargo:rustc-check-cfg=cfg(expat)");
    let Ok(told) = Command::new("gcc").arg("-print-file-name=libexpat.so").output() else {
        return;
    };
    let told = String::from_utf8_lossy(&told.stdout);
    let found = Path::new(told.trim());
    // a bare name is no file, so that expat is looked for again
    println!("cargo:rerun-if-changed={}", found.display());
    if found.is_absolute() {
        println!("cargo:rustc-cfg=expat");
        println!("cargo:rustc-link-lib=dylib=expat");
    }
}
