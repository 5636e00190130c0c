//! Tells the linker where libelltree.a is: the folder in ELLTREE_LIB, or else this crate's own, as in a released crate, or else lib/ of the prefix
//! that this crate is installed in.
use std::env;
use std::path::PathBuf;

fn main() {
    println!("cargo:rerun-if-env-changed=ELLTREE_LIB");
    let folder = env::var_os("ELLTREE_LIB").map(PathBuf::from).unwrap_or_else(|| {
        let here = PathBuf::from(env::var_os("CARGO_MANIFEST_DIR").expect("cargo sets CARGO_MANIFEST_DIR"));
        if here.join("libelltree.a").exists() { here } else { here.join("../../../lib") }
    });
    println!("cargo:rustc-link-search=native={}", folder.display());
    println!("cargo:rustc-link-lib=static=elltree");
}
