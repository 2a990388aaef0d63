//! The bench sheet and the proved set P1 to P8, with what docs/FORM.md says of each.

use super::form::*;
use crate::cat;

pub const BENCH_SHEET: &str = "03046D61696E0178016C 01010000000001000100 00040402020000020003 \
    00000103000105020400 01040105090000060600 01060000000005050001 05000000000007000000 0000";

pub const BENCH_LISTING: &str = "\
tree 72 skipped 2
skip 50 32
skip 59 32
depth 0 none
";

/// Numbers and places at the edges of the table, written out by hand from it:
/// bytes, refusal number (0 for none), place.
pub const NUMBER_EDGES: [(&str, u32, usize); 24] = [
    ("", 3, 0),
    ("80", 3, 0),
    ("FF FF FF FF", 3, 0),
    ("80 00", 4, 0),
    ("81 80 00", 4, 0),
    ("FF FF FF FF 10", 4, 0),
    ("FF FF FF FF 8F", 4, 0),
    ("80 80 80 80 80", 4, 0),
    ("80 80 80 80 00", 4, 0),
    // 2^32 - 1 is well written, but too many names.
    ("FF FF FF FF 0F", 8, 0),
    ("81 08", 8, 0),
    ("80 08", 3, 2),
    ("00", 3, 1),
    ("00 00", 0, 0),
    ("00 00 00", 10, 2),
    ("00 FF FF FF FF 0F", 3, 6),
    ("00 01 05 00 00", 0, 0),
    ("00 01 05 00 01", 5, 4),
    ("00 01 06", 5, 2),
    ("01 00", 6, 1),
    ("01 41", 6, 1),
    ("01 02 61", 3, 2),
    ("02 01 61 01 61", 6, 4),
    ("00 01 05 11 FF FF FF FF 0F 00", 0, 0),
];

pub fn hex(text: &str) -> Bytes {
    let digits: Vec<u32> = text.chars().filter_map(|c| c.to_digit(16)).collect();
    digits.chunks(2).map(|pair| (pair[0] * 16 + pair[1]) as u8).collect()
}

/// P1 to P8, in order.
pub fn proved() -> Vec<Bytes> {
    let named = |all: &[&[u8]], declarations: &[Bytes]| tree(names(all), declarations);
    let int32 = || ok(num(3));
    let struct_of = |name, place| cat!(20, ident(name, place));
    let fun = |statements: &[Bytes]| function(ident(0, 1), &[], body(statements));
    let (x, l, m) = (|p| ident(1, p), |p| ident(2, p), |p| ident(3, p));
    vec![
        cat!(0, 0),
        hex(BENCH_SHEET),
        named(
            &[b"A", b"B"],
            &[
                constant(ident(0, 10), deref(ok(ident(1, 11))), int32()),
                constant(ident(1, 20), deref(ok(ident(0, 21))), int32()),
            ],
        ),
        named(
            &[b"P", b"next", b"S"],
            &[
                structure(ident(0, 10), &[entry(ok(ident(1, 11)), ok(cat!(24, struct_of(0, 12))))]),
                constant(ident(2, 20), cat!(13, 1, 24, struct_of(0, 21)), ok(num(11))),
            ],
        ),
        named(
            &[b"Q", b"a", b"b"],
            &[structure(
                ident(0, 10),
                &[
                    entry(ok(ident(1, 11)), ok(struct_of(0, 12))),
                    entry(ok(ident(2, 13)), ok(struct_of(0, 14))),
                ],
            )],
        ),
        named(
            &[b"Q", b"a"],
            &[structure(
                ident(0, 10),
                &[entry(ok(ident(1, 11)), int32()), entry(ok(ident(1, 12)), ok(struct_of(0, 13)))],
            )],
        ),
        named(
            &[b"f", b"x", b"l", b"m"],
            &[fun(&[
                goto(l(11), 10),
                goto(m(13), 12),
                declare(x(14)),
                label(l(15), 16),
                assign(x(17)),
                label(m(18), 19),
                assign(x(20)),
            ])],
        ),
        named(
            &[b"f", b"x", b"l"],
            &[fun(&[if_else(block(&[label(l(11), 12)]), Some(block(&[label(l(13), 14)])))])],
        ),
    ]
}
