//! Links libdevice.a from the folder DITGRUX_LIB (default ../crates/device/out) and OpenSSL's libcrypto.
use std::path::{Path, PathBuf};

fn main() {
    println!("cargo:rerun-if-changed=build.rs");
    println!("cargo:rerun-if-env-changed=DITGRUX_LIB");
    if std::env::var_os("CARGO_FEATURE_DEVICE").is_some() {
        let here = PathBuf::from(std::env::var_os("CARGO_MANIFEST_DIR").expect("set by cargo"));
        let folder = match std::env::var_os("DITGRUX_LIB") {
            Some(folder) => here.join(folder),
            None => here.join("../crates/device/out"),
        };
        let archive = folder.join("libdevice.a");
        println!("cargo:rerun-if-changed={}", archive.display());
        if !Path::new(&archive).is_file() {
            panic!("{} is not there: build it first, or name its folder in DITGRUX_LIB", archive.display());
        }
        println!("cargo:rustc-link-search=native={}", folder.display());
        println!("cargo:rustc-link-lib=static=device");
    }
    println!("cargo:rustc-link-lib=dylib=crypto");
}
