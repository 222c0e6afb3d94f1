//! Links the archive that HOGZELT_LIB names, else that of the checkout.

use std::env;
use std::path::PathBuf;

fn main() {
    println!("cargo:rerun-if-changed=build.rs");
    println!("cargo:rerun-if-env-changed=HOGZELT_LIB");
    let package = PathBuf::from(env::var_os("CARGO_MANIFEST_DIR").expect("cargo sets it"));
    let archive = match env::var_os("HOGZELT_LIB") {
        Some(named) => PathBuf::from(named),
        None => package.join("../../target/staticlib/libhogzelt.a"),
    };
    println!("cargo:rerun-if-changed={}", archive.display());
    let is_named_so = archive.file_name() == Some("libhogzelt.a".as_ref());
    assert!(
        is_named_so && archive.is_file(),
        "{} is no archive libhogzelt.a; tools/build.sh builds it, or HOGZELT_LIB names one",
        archive.display()
    );
    let folder = archive.parent().expect("a file stands in a folder");
    println!("cargo:rustc-link-search=native={}", folder.display());
    println!("cargo:rustc-link-lib=static=hogzelt");
}
