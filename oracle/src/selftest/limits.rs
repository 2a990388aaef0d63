//! The table's edges and limits, with what is expected of each by hand.

use crate::generate::limits::{self, Named};
use crate::generate::sheet;
use crate::passes::{scope, List, Room, BENCH};
use crate::read::{read, Depths};
use crate::refusal::Refusal;

/// How many were checked.
pub fn check() -> usize {
    for (bytes, number, place) in sheet::NUMBER_EDGES {
        let found = read(&sheet::hex(bytes), Depths::Incoming).err();
        let wanted = Some(Refusal { number, place }).filter(|refusal| refusal.number > 0);
        assert_eq!(found, wanted, "{bytes}");
    }
    let named = limits::all();
    for Named { name, number, tree } in &named {
        if let Some(number) = number {
            let found = read(tree, Depths::Incoming).err().map_or(0, |refusal| refusal.number);
            assert_eq!(found, *number, "{name}");
        }
    }
    rooms();
    sheet::NUMBER_EDGES.len() + named.len()
}

/// Rows 2, 11 and 12, in their order.
fn rooms() {
    let tree = sheet::hex(sheet::BENCH_SHEET);
    let rooms = [
        ((72, 4, 16_384), 0),
        ((72, 4, 16_383), 2),
        ((71, 4, 16_384), 11),
        ((72, 3, 16_384), 12),
        ((71, 3, 16_384), 11),
        ((0, 0, 0), 2),
        ((100, 100, 20_000), 0),
    ];
    for ((answer, list, work), number) in rooms {
        let found = scope(&tree, Room { answer, list, work }, List::Pruning);
        let found = found.err().map_or((0, 0), |refusal| (refusal.number, refusal.place));
        assert_eq!(found, (number, 0));
    }
    // Row 1 comes before row 2, row 2 before the reading.
    let nothing = Room { answer: 0, list: 0, work: 0 };
    assert_eq!(scope(&[0; 65_536], nothing, List::Pruning).err().unwrap().number, 1);
    assert_eq!(scope(&[0x80], nothing, List::Pruning).err().unwrap().number, 2);
    assert_eq!(scope(&[0x80], BENCH, List::Pruning).err().unwrap().number, 3);
}

/// The trees of FINDINGS.md do what it says.
#[cfg(test)]
pub fn findings() {
    use crate::{passes::analyze, read::read_without_row_9};
    let answered = |bytes: &[u8]| {
        assert_eq!(read(bytes, Depths::Incoming).err().map(|refusal| refusal.number), Some(9));
        let tree = read_without_row_9(bytes).unwrap();
        std::panic::catch_unwind(|| analyze(&tree)).is_ok()
    };
    let constant = "01 01 00 01 00 00 00 00 00 00 00 00 0F 00 00 17 00";
    assert!(!answered(&sheet::hex(constant)));
    let member = "01 01 00 01 03 00 00 00 00 00 00 01 00 01 00 00 17 01 00 00";
    assert!(answered(&sheet::hex(member)));
    // A name refused, a duplicate, a length that no constant has.
    let kinds = ["member-without-name", "duplicate", "member-named-array"];
    for Named { name, number, tree } in limits::nameless() {
        if number == Some(9) {
            assert_eq!(answered(&tree), kinds.iter().any(|kind| name.contains(kind)), "{name}");
        }
    }
}
