//! Says where the proved archive stands: in the folder that OLV_ARCHIVE_DIR names, or else where
//! `(cd crates/olavinthu && rt lib)` writes it. A relative folder counts from this one.

use std::path::Path;

fn main() {
    println!("cargo:rerun-if-env-changed=OLV_ARCHIVE_DIR");
    let named = std::env::var_os("OLV_ARCHIVE_DIR");
    let named = named.unwrap_or_else(|| "../crates/olavinthu/out".into());
    let folder = Path::new(env!("CARGO_MANIFEST_DIR")).join(named);
    let archive = folder.join("libolavinthu.a");
    println!("cargo:rerun-if-changed={}", archive.display());
    assert!(
        archive.is_file(),
        "{} is not there: make it with `(cd crates/olavinthu && rt lib)`, or set OLV_ARCHIVE_DIR to its folder",
        archive.display()
    );
    println!("cargo:rustc-link-search=native={}", folder.display());
    println!("cargo:rustc-link-lib=static=olavinthu");
}
