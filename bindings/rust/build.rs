//! Links libhemmuzhan.a out of the folder that HEMMUZHAN_LIB names; `tools/install DIR` makes DIR/lib.

use std::{env, path::PathBuf};

fn main() {
    println!("cargo:rerun-if-env-changed=HEMMUZHAN_LIB");
    let Some(folder) = env::var_os("HEMMUZHAN_LIB").map(PathBuf::from) else {
        panic!("set HEMMUZHAN_LIB to the folder of libhemmuzhan.a: `tools/install DIR` makes it as DIR/lib");
    };
    let folder = folder.canonicalize().unwrap_or(folder);
    let library = folder.join("libhemmuzhan.a");
    if !library.is_file() {
        panic!("HEMMUZHAN_LIB names a folder without the library: there is no {}", library.display());
    }
    println!("cargo:rerun-if-changed={}", library.display());
    println!("cargo:rustc-link-search=native={}", folder.display());
    println!("cargo:rustc-link-lib=static=hemmuzhan");
}
