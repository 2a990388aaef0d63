//! Says where libhurdlebraid.a is, which `rt lib` in crates/hurdlebraid writes.

use std::env;
use std::path::PathBuf;

fn main() {
    println!("cargo:rerun-if-env-changed=HURDLEBRAID_LIB");
    let here = PathBuf::from(env::var("CARGO_MANIFEST_DIR").unwrap());
    let folder = env::var("HURDLEBRAID_LIB").unwrap_or("../../crates/hurdlebraid/out".to_string());
    let folder = here.join(folder);
    let archive = folder.join("libhurdlebraid.a");
    if !archive.is_file() {
        panic!(
            "no {}: `rt lib` in crates/hurdlebraid writes it; HURDLEBRAID_LIB names another folder",
            archive.display()
        );
    }
    println!("cargo:rerun-if-changed={}", archive.display());
    println!("cargo:rustc-link-search=native={}", folder.display());
    println!("cargo:rustc-link-lib=static=hurdlebraid");
}
