//! Tells the linker where libmicroscope.a is: in the folder MICROSCOPE_LIB, or where tools/build_library writes it. If it
//! is not there, and if oracle/tree has not made the copies that the tests need, says so in words.

use std::path::{Path, PathBuf};

fn main() {
    let root = Path::new(env!("CARGO_MANIFEST_DIR")).join("../..");
    library(&root);
    published(&root.join("target/oracle/tree/sketches/microscope.rs"));
}

fn library(root: &Path) {
    println!("cargo::rerun-if-env-changed=MICROSCOPE_LIB");
    let folder = std::env::var_os("MICROSCOPE_LIB").map_or(root.join("target"), PathBuf::from);
    let library = folder.join("libmicroscope.a");
    println!("cargo::rerun-if-changed={}", library.display());
    if !library.is_file() {
        println!(
            "cargo::error={} is not there. Run tools/build_library in the repository, which builds it, or set the \
             variable MICROSCOPE_LIB to the folder that has it.",
            library.display()
        );
    }
    println!("cargo::rustc-link-search=native={}", folder.display());
}

/// `unlinked` is set if the published Rust is not where the tests look for it; without cargo it never is. Who only depends
/// on the wrapper has no tests of it to run, and should not wait for a file that never comes.
fn published(link: &Path) {
    println!("cargo::rustc-check-cfg=cfg(unlinked)");
    if option_env!("CARGO_PRIMARY_PACKAGE").is_none() {
        return;
    }
    println!("cargo::rerun-if-changed={}", link.display());
    if !link.is_file() {
        println!("cargo::rustc-cfg=unlinked");
    }
}
