//! Links libzanthupra.a from the directory in ZANTHUPRA_LIB_DIR.

use std::env;
use std::path::Path;

fn main() {
    println!("cargo:rerun-if-env-changed=ZANTHUPRA_LIB_DIR");
    let directory = env::var("ZANTHUPRA_LIB_DIR")
        .expect("ZANTHUPRA_LIB_DIR must be the absolute path of the directory of libzanthupra.a");
    let archive = Path::new(&directory).join("libzanthupra.a");
    assert!(archive.is_file(), "{} is missing", archive.display());
    println!("cargo:rerun-if-changed={}", archive.display());
    println!("cargo:rustc-link-search=native={directory}");
    println!("cargo:rustc-link-lib=static=zanthupra");
}
