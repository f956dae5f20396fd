//! Says where the archive is: in DOORWHISP_LIB, or where `bindings/archive` puts it.

use std::env;
use std::path::PathBuf;

fn main() {
    let top = PathBuf::from(env::var("CARGO_MANIFEST_DIR").unwrap()).join("../..");
    let folder = match env::var("DOORWHISP_LIB") {
        Ok(folder) => PathBuf::from(folder),
        Err(_) => top.join("target/staticlib"),
    };
    let archive = folder.join("libdoorwhisp.a");
    println!("cargo:rerun-if-env-changed=DOORWHISP_LIB");
    println!("cargo:rerun-if-changed={}", archive.display());
    let arch = env::var("CARGO_CFG_TARGET_ARCH").unwrap();
    assert!(
        arch == "x86_64",
        "doorwhisp is for x86-64, not {arch}: give cargo --target x86_64-unknown-linux-gnu"
    );
    assert!(
        archive.is_file(),
        "there is no {}: run bindings/archive, or name its folder in DOORWHISP_LIB",
        archive.display()
    );
    println!("cargo:rustc-link-search=native={}", folder.display());
    println!("cargo:rustc-link-lib=static=doorwhisp");
}
