//! Links `libhamutsigra.a`, the proved layer. It is looked for in the folder
//! `HAMUTSIGRA_LIB_DIR`, else where `make lib` puts it.

use std::env;
use std::path::{Path, PathBuf};
use std::process::exit;

fn main() {
    println!("cargo:rerun-if-env-changed=HAMUTSIGRA_LIB_DIR");
    let folder = env::var_os("HAMUTSIGRA_LIB_DIR").map_or_else(put_by_make, PathBuf::from);
    let library = folder.join("libhamutsigra.a");
    println!("cargo:rerun-if-changed={}", library.display());
    if !library.is_file() {
        eprintln!("{}: not there. Make it with `make lib`,", library.display());
        eprintln!("or name the folder that has it (from /) in HAMUTSIGRA_LIB_DIR.");
        exit(1);
    }
    println!("cargo:rustc-link-search=native={}", folder.display());
    println!("cargo:rustc-link-lib=static=hamutsigra");
}

fn put_by_make() -> PathBuf {
    Path::new(env!("CARGO_MANIFEST_DIR")).join("../../target/staticlib")
}
