//! Makes a tree small while something about it stays so.

use crate::generate::form::Bytes;

/// Takes parts away, larger ones first, while the two sides still differ; then
/// makes bytes smaller. Asks at most about twice so many times.
pub fn shrink(mut tree: Bytes, most: usize, differs: &mut dyn FnMut(&[u8]) -> bool) -> Bytes {
    let mut runs = 0;
    let mut part = tree.len().max(1);
    while part > 0 && runs < most {
        let mut at = 0;
        let before = tree.len();
        while at < tree.len() && runs < most {
            let end = (at + part).min(tree.len());
            let less = [&tree[..at], &tree[end..]].concat();
            runs += 1;
            if differs(&less) {
                tree = less;
            } else {
                at += part;
            }
        }
        if part == 1 && tree.len() < before {
            continue;
        }
        part /= 2;
    }
    for at in 0..tree.len() {
        for byte in [0, 1, 2] {
            if byte < tree[at] && runs < 2 * most {
                let old = std::mem::replace(&mut tree[at], byte);
                runs += 1;
                if differs(&tree) {
                    break;
                }
                tree[at] = old;
            }
        }
    }
    tree
}
