//! Copies the six original sources to OUT_DIR, byte for byte, under the names
//! that rustc looks for, and writes the one line that mounts them.

use std::path::{Path, PathBuf};
use std::{env, fs};

const SOURCES: [&str; 6] = [
    "common",
    "error",
    "value_type",
    "scoper",
    "scoper/label_references",
    "scoper/variable_references",
];

/// A clone of the original beside the checkout, seen from the oracle's folder.
const BESIDE: &str = "../../penne/src/alpha";

fn main() {
    println!("cargo:rerun-if-env-changed=PENNE_SRC");
    println!("cargo:rerun-if-changed=build.rs");
    println!("cargo:rerun-if-changed=src/alpha.rs");
    println!("cargo:rerun-if-changed=src/lexer.rs");
    let here = PathBuf::from(env::var("CARGO_MANIFEST_DIR").unwrap());
    let oracle = here.parent().unwrap();
    let from = match env::var("PENNE_SRC") {
        Ok(path) => oracle.join(path),
        Err(_) => oracle.join(BESIDE),
    };
    let to = PathBuf::from(env::var("OUT_DIR").unwrap()).join("alpha");
    fs::create_dir_all(to.join("scoper")).unwrap();

    for name in SOURCES {
        let source = find(&from, name);
        println!("cargo:rerun-if-changed={}", source.display());
        // Bytes, not text: nothing between the original and rustc may edit it.
        fs::write(to.join(format!("{name}.rs")), fs::read(&source).unwrap()).unwrap();
    }
    fs::copy(here.join("src/alpha.rs"), to.join("mod.rs")).unwrap();
    fs::copy(here.join("src/lexer.rs"), to.join("lexer.rs")).unwrap();

    // `#[path]` takes a literal only, so the literal is written here.
    let mount = format!("#[path = {:?}]\npub mod alpha;\n", to.join("mod.rs"));
    fs::write(to.with_file_name("mount.rs"), mount).unwrap();
}

fn find(from: &Path, name: &str) -> PathBuf {
    ["rs", "rs.txt"]
        .iter()
        .map(|ending| from.join(format!("{name}.{ending}")))
        .find(|path| path.is_file())
        .unwrap_or_else(|| {
            panic!(
                "no {name}.rs or {name}.rs.txt in {}; PENNE_SRC names the folder that holds the original src/alpha",
                from.display()
            )
        })
}
