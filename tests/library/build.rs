//! Links the static library: libhost.a in the folder that LDFS_LIB_DIR names.

use std::env;
use std::path::Path;

fn main() {
    println!("cargo:rerun-if-env-changed=LDFS_LIB_DIR");
    let folder = env::var("LDFS_LIB_DIR").expect("set LDFS_LIB_DIR to the folder of libhost.a");
    let folder = Path::new(&folder).canonicalize().expect("LDFS_LIB_DIR names no folder; it is an absolute path");
    println!("cargo:rerun-if-changed={}", folder.join("libhost.a").display());
    println!("cargo:rustc-link-search=native={}", folder.display());
    println!("cargo:rustc-link-lib=static=host");
}
