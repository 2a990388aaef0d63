//! Scopes one small script and prints what the listing program prints.

use hurdlebraid::{analyze, get_container_depth, is_container, Refusal};

/// `main` jumps to the label `l`, declares `x`, which the jump skips, and
/// behind `l` assigns `x` to `x`.
#[rustfmt::skip]
const TREE: [u8; 72] = [
    0x03, 0x04, 0x6D, 0x61, 0x69, 0x6E, 0x01, 0x78, 0x01, 0x6C, 0x01, 0x01, 0x00, 0x00, 0x00, 0x00,
    0x01, 0x00, 0x01, 0x00, 0x00, 0x04, 0x04, 0x02, 0x02, 0x00, 0x00, 0x02, 0x00, 0x03, 0x00, 0x00,
    0x01, 0x03, 0x00, 0x01, 0x05, 0x02, 0x04, 0x00, 0x01, 0x04, 0x01, 0x05, 0x09, 0x00, 0x00, 0x06,
    0x06, 0x00, 0x01, 0x06, 0x00, 0x00, 0x00, 0x00, 0x05, 0x05, 0x00, 0x01, 0x05, 0x00, 0x00, 0x00,
    0x00, 0x00, 0x07, 0x00, 0x00, 0x00, 0x00, 0x00,
];

fn main() -> Result<(), Refusal> {
    let scoped = analyze(&TREE)?;
    println!("tree {} skipped {}", scoped.tree.len(), scoped.skipped.len());
    for (used, declared) in &scoped.skipped {
        println!("skip {used} {declared}");
    }
    // The readers refuse by 13 behind the last declaration.
    for declaration in 0.. {
        match is_container(&scoped.tree, declaration) {
            Err(_) => break,
            Ok(false) => println!("depth {declaration} none"),
            Ok(true) => {
                let depth = get_container_depth(&scoped.tree, declaration, u32::MAX)?;
                println!("depth {declaration} {depth}");
            }
        }
    }
    Ok(())
}
