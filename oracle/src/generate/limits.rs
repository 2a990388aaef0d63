//! Trees at every limit of the table and one past it, each under a name.

use super::form::*;
use crate::cat;
use crate::refusal::*;

/// A tree with a name, and the number by which it should be refused, 0 for
/// none; nothing where what stands behind the field decides.
pub struct Named {
    pub name: String,
    pub number: Option<u32>,
    pub tree: Bytes,
}

fn named(name: impl ToString, number: u32, tree: Bytes) -> Named {
    Named { name: name.to_string(), number: Some(number), tree }
}

/// One name, `a`.
fn one_name() -> Bytes {
    names(&[b"a"])
}

fn with(declarations: &[Bytes]) -> Bytes {
    tree(one_name(), declarations)
}

fn a() -> Bytes {
    ident(0, 1)
}

fn fun(statements: &[Bytes]) -> Bytes {
    function(a(), &[], body(statements))
}

fn small_constant() -> Bytes {
    constant(a(), cat!(15, 0), poisoned())
}

fn small_structure() -> Bytes {
    cat!(3, 0, 1, a(), 0, poisoned())
}

fn small_function() -> Bytes {
    cat!(1, 0, 1, 1, a(), 0, poisoned(), poisoned())
}

fn small_head() -> Bytes {
    cat!(2, 0, 1, 1, a(), 0, poisoned())
}

fn small_entry() -> Bytes {
    entry(poisoned(), poisoned())
}

fn times(count: usize, part: Bytes) -> Vec<Bytes> {
    vec![part; count]
}

/// Alternately the one and the other.
fn mixed(count: usize, one: Bytes, other: Bytes) -> Vec<Bytes> {
    (0..count).map(|k| if k % 2 == 0 { one.clone() } else { other.clone() }).collect()
}

fn and(mut parts: Vec<Bytes>, last: Bytes) -> Vec<Bytes> {
    parts.push(last);
    parts
}

/// So many names, all different, of one or two bytes.
pub fn name_table(count: usize) -> Bytes {
    let spelled: Vec<Bytes> = (0..count)
        .map(|k| if k < 256 { vec![k as u8] } else { (k as u16).to_be_bytes().to_vec() })
        .map(|name| sized(&name))
        .collect();
    list(&spelled)
}

/// Row 8.
pub fn counts() -> Vec<Named> {
    let mut all = Vec::new();

    all.push(named("names-at", 0, cat!(name_table(NAMES), 0)));
    all.push(named("names-past", 8, cat!(name_table(NAMES + 1), 0)));
    all.push(named("names-last-used", 0, {
        let last = NAMES as u32 - 1;
        tree(name_table(NAMES), &[cat!(3, 0, 1, ident(last, 1), 0, poisoned())])
    }));

    let full = || mixed(CONTAINERS, small_constant(), small_structure());
    all.push(named("containers-at", 0, with(&full())));
    all.push(named("containers-past-constant", 8, with(&and(full(), small_constant()))));
    all.push(named("containers-past-structure", 8, with(&and(full(), small_structure()))));

    let full = || mixed(FUNCTIONS, small_function(), small_head());
    all.push(named("functions-at", 0, with(&full())));
    all.push(named("functions-past-function", 8, with(&and(full(), small_function()))));
    all.push(named("functions-past-head", 8, with(&and(full(), small_head()))));

    // A quarter of each kind of entry, then one more of one kind.
    let quarter = ENTRIES / 4;
    let mostly = || {
        vec![
            function(a(), &times(quarter / 2, small_entry()), poisoned()),
            head(a(), &times(quarter / 2, small_entry())),
            structure(a(), &times(quarter, small_entry())),
            fun(&mixed(quarter * 2, declare(a()), label(a(), 1))),
        ]
    };
    all.push(named("entries-at", 0, with(&mostly())));
    let past = [
        ("parameter", function(a(), &[small_entry()], poisoned())),
        ("head-parameter", head(a(), &[small_entry()])),
        ("member", structure(a(), &[small_entry()])),
        ("declaration", fun(&[declare(a())])),
        ("label", fun(&[label(a(), 1)])),
        ("branch", fun(&[if_else(declare(a()), None)])),
    ];
    for (which, last) in past {
        all.push(named(format!("entries-past-{which}"), 8, with(&and(mostly(), last))));
    }
    for (which, one) in [
        ("parameters", function(a(), &times(ENTRIES, small_entry()), poisoned())),
        ("head-parameters", head(a(), &times(ENTRIES, small_entry()))),
        ("members", structure(a(), &times(ENTRIES, small_entry()))),
        ("declarations", fun(&times(ENTRIES, declare(a())))),
        ("labels", fun(&times(ENTRIES, label(a(), 1)))),
    ] {
        all.push(named(format!("entries-all-{which}"), 0, with(&[one])));
    }
    for (which, one) in [
        ("parameters", function(a(), &times(ENTRIES + 1, small_entry()), poisoned())),
        ("members", structure(a(), &times(ENTRIES + 1, small_entry()))),
        ("declarations", fun(&times(ENTRIES + 1, declare(a())))),
        ("labels", fun(&times(ENTRIES + 1, label(a(), 1)))),
    ] {
        all.push(named(format!("entries-too-many-{which}"), 8, with(&[one])));
    }

    let loops_but = |less: usize| times(STATEMENTS - less, loops());
    all.push(named("statements-at", 0, with(&[fun(&loops_but(0))])));
    all.push(named("statements-past", 8, with(&[fun(&and(loops_but(0), loops()))])));
    // A block or an If is one statement, what it holds another.
    all.push(named("statements-at-block", 0, with(&[fun(&and(loops_but(2), block(&[loops()])))])));
    all.push(named(
        "statements-past-block",
        8,
        with(&[fun(&and(loops_but(1), block(&[loops()])))]),
    ));
    let both = || if_else(loops(), Some(loops()));
    all.push(named("statements-at-else", 0, with(&[fun(&and(loops_but(3), both()))])));
    all.push(named("statements-past-else", 8, with(&[fun(&and(loops_but(2), both()))])));
    all.push(named("statements-past-then", 8, with(&[fun(&and(loops_but(1), both()))])));
    all.push(named(
        "statements-in-two-functions",
        8,
        with(&[fun(&loops_but(1)), fun(&[loops(), loops()])]),
    ));
    all
}

/// Every kind of declaration and of poison once, and each poison cut short.
/// The other kinds stand in `nestings`.
pub fn kinds() -> Vec<Named> {
    let declarations = [
        small_constant(),
        small_function(),
        small_head(),
        small_structure(),
        cat!(4, sized(b"a"), 1),
        cat!(5, 0),
    ];
    let mut all = Vec::new();
    for (kind, declaration) in declarations.into_iter().enumerate() {
        all.push(named(format!("declaration-{kind}"), 0, with(&[declaration])));
    }
    for kind in 0..18 {
        // As many numbers as the kind has names and places; 17 has one of its own.
        let numbers = match kind {
            0 => 0,
            17 => 1,
            2 | 9 | 10 | 11 | 14 => 2,
            13 => 6,
            16 => 5,
            _ => 3,
        };
        let whole = cat!(one_name(), 1, 5, kind, vec![0u8; numbers]);
        all.push(named(format!("poison-{kind}-cut"), 3, whole.clone()));
        all.push(named(format!("poison-{kind}"), 0, cat!(whole, 0)));
    }
    all
}

/// Every kind of node, the smallest of its kind, and the nesting of the
/// deepest node in it above its own.
struct Node {
    name: String,
    bytes: Bytes,
    below: usize,
}

fn node(what: &str, kind: usize, bytes: Bytes, below: usize) -> Node {
    Node { name: format!("{what}-{kind}"), bytes, below }
}

fn type_nodes() -> Vec<Node> {
    let bytes = |kind: u32| match kind {
        14 => cat!(14, 0, 1),
        15 => cat!(15, 0, a()),
        20 | 22 => cat!(kind, a()),
        21 => cat!(21, a(), 1),
        16..=19 | 24 | 25 => cat!(kind, 0),
        plain => cat!(plain),
    };
    let below = |kind| matches!(kind, 14..=19 | 24 | 25) as usize;
    (0..26).map(|kind| node("type", kind as usize, bytes(kind), below(kind))).collect()
}

fn expression_nodes() -> Vec<Node> {
    let leaf = || cat!(15, 0);
    let kinds = [
        (cat!(0, 1, 1, 1, leaf(), leaf()), 1),
        (cat!(1, 1, 1, 1, leaf()), 1),
        (boolean(), 0),
        (cat!(3, [1; 16].to_vec(), 1, 0), 0),
        (cat!(4, [1; 16].to_vec(), 1, 1, 0, 0), 1),
        (cat!(5, 1, 7, 1), 0),
        (cat!(6, 1, 0, 1, leaf(), 1), 1),
        (cat!(7, 1, 1, ok(a()), 0, leaf(), ok(num(0))), 1),
        (cat!(8, 1, leaf()), 1),
        (deref(poisoned()), 1),
        (cat!(10, 1, 1, 0, leaf()), 1),
        (cat!(11, 1, 1, 0, leaf()), 1),
        (cat!(12, 1, reference(ok(a()))), 1),
        (cat!(13, 1, 0), 1),
        (cat!(14, a(), 1, 0, 1, leaf()), 1),
        (leaf(), 0),
    ];
    let all = kinds.into_iter().enumerate();
    all.map(|(kind, (bytes, below))| node("expression", kind, bytes, below)).collect()
}

fn step_nodes() -> Vec<Node> {
    vec![node("step", 0, cat!(0, 2, cat!(15, 0)), 1), node("step", 1, cat!(1, a(), 1), 0)]
}

fn statement_nodes() -> Vec<Node> {
    let leaf = || cat!(8, 0);
    let value = || cat!(15, 0);
    let kinds = [
        (cat!(0, 1, 1, value(), 1, 1, 0, a()), 1),
        (cat!(1, 1, value(), reference(poisoned())), 1),
        (cat!(2, a(), 0, 1, value()), 1),
        (loops(), 0),
        (goto(a(), 1), 0),
        (label(a(), 1), 0),
        (cat!(6, 1, 0, 1, 1, value(), value(), leaf(), 1, 1, leaf()), 1),
        (block(&[leaf()]), 1),
        (leaf(), 0),
    ];
    let all = kinds.into_iter().enumerate();
    all.map(|(kind, (bytes, below))| node("statement", kind, bytes, below)).collect()
}

/// A type at this nesting, in a parameter (where any type may stand).
fn type_at(nesting: usize, bytes: &[u8]) -> Bytes {
    let own = cat!([24].repeat(nesting - 2), bytes);
    with(&[head(a(), &[entry(poisoned(), ok(own))])])
}

fn expression_at(nesting: usize, bytes: &[u8]) -> Bytes {
    with(&[constant(a(), parens(nesting - 2, bytes.to_vec()), poisoned())])
}

/// A reference's only step at this nesting.
fn step_at(nesting: usize, bytes: &[u8]) -> Bytes {
    expression_at(nesting - 2, &cat!(9, 0, 0, 1, 1, poisoned(), 1, bytes))
}

/// Mostly through blocks, also through branches of either side.
fn statement_at(nesting: usize, bytes: &[u8]) -> Bytes {
    let mut statement = bytes.to_vec();
    for level in 0..nesting - 2 {
        statement = match level % 20 {
            7 => if_else(statement, None),
            14 => if_else(loops(), Some(statement)),
            _ => block(&[statement]),
        };
    }
    with(&[fun(&[statement])])
}

/// Row 7: each kind of node so that it, or the deepest in it, stands at 64
/// and at 65.
pub fn nestings() -> Vec<Named> {
    let mut all = Vec::new();
    let groups: [(Vec<Node>, fn(usize, &[u8]) -> Bytes); 4] = [
        (type_nodes(), type_at),
        (expression_nodes(), expression_at),
        (step_nodes(), step_at),
        (statement_nodes(), statement_at),
    ];
    for (nodes, at) in groups {
        for node in nodes {
            for nesting in NESTING - node.below..=NESTING + 1 {
                let name = format!("nesting-{nesting}-{}", node.name);
                let number = if nesting + node.below > NESTING { 7 } else { 0 };
                all.push(named(name, number, at(nesting, &node.bytes)));
            }
        }
    }
    for (nesting, number) in [(NESTING, 0), (NESTING + 1, 7)] {
        let bare = expression_at(nesting - 1, &deref(ok(a())));
        all.push(named(format!("nesting-{nesting}-reference"), number, bare));
        // 65 and not a node at all: the lower number.
        let unknown = expression_at(nesting, &num(16));
        all.push(named(format!("nesting-{nesting}-unknown"), 5, unknown));
        let address = expression_at(nesting - 1, &cat!(9, 0, 256, 1, 1, poisoned(), 0));
        all.push(named(format!("nesting-{nesting}-address"), 5, address));
        let carried = expression_at(nesting - 1, &cat!(9, 1, 0, 0, reference(poisoned())));
        all.push(named(format!("nesting-{nesting}-carried"), number, carried));
        let own = |kind: u32| {
            let own = cat!([16].repeat(nesting - 2), kind);
            with(&[constant(a(), cat!(15, 0), ok(own))])
        };
        all.push(named(format!("nesting-{nesting}-own-type"), number, own(3)));
        let nameless = if number == 0 { 9 } else { number };
        all.push(named(format!("nesting-{nesting}-own-nameless"), nameless, own(23)));
    }
    all
}

fn value(bytes: Bytes) -> Bytes {
    with(&[constant(a(), bytes, poisoned())])
}

fn said(statement: Bytes) -> Bytes {
    with(&[fun(&[statement])])
}

fn typed(bytes: Bytes) -> Bytes {
    with(&[head(a(), &[entry(poisoned(), ok(bytes))])])
}

/// Fields with a range: their largest value, and the tree with a value there.
fn ranged() -> [(&'static str, u32, fn(u32) -> Bytes); 21] {
    [
        ("declaration-kind", 5, |n| cat!(one_name(), 1, n, 0, 0)),
        ("statement-kind", 8, |n| said(cat!(n, 0))),
        ("expression-kind", 15, |n| value(cat!(n, 0))),
        ("type-kind", 25, |n| typed(cat!(n, 0))),
        ("step-kind", 1, |n| value(cat!(9, 0, 0, 1, 1, poisoned(), 1, n, a(), 0))),
        ("poison-kind", 17, |n| value(cat!(15, n, 0))),
        ("flags", 31, |n| with(&[cat!(3, n, 1, a(), 0, poisoned())])),
        ("name", 0, |n| with(&[cat!(3, 0, 1, ident(n, 1), 0, poisoned())])),
        ("poison-name", 0, |n| value(cat!(15, 9, n, 1))),
        ("poison-second-name", 0, |n| value(cat!(15, 13, 0, n, 1, 1, 1, 1))),
        ("authority", 1, |n| with(&[cat!(3, 0, 1, 0, 1, 1, n, 0, poisoned())])),
        ("boolean", 1, |n| value(cat!(2, n, 1))),
        ("address", 255, |n| value(cat!(9, 0, n, 1, 1, poisoned(), 0))),
        ("endless", 2, |n| value(cat!(9, 0, 0, 1, 1, poisoned(), 1, 0, n, cat!(15, 0)))),
        ("maybe-name", 1, |n| with(&[head(a(), &[cat!(1, n, 0, poisoned())])])),
        ("maybe-type", 1, |n| with(&[head(a(), &[cat!(1, poisoned(), n, 0)])])),
        ("maybe-body", 1, |n| with(&[cat!(1, 0, 1, 1, a(), 0, n, 0, poisoned())])),
        ("option-value", 1, |n| said(cat!(0, 1, n, cat!(15, 0), 0, a()))),
        ("option-carried", 1, |n| value(cat!(9, n, poisoned(), reference(poisoned())))),
        ("option-else", 1, |n| {
            said(cat!(6, 1, 0, 1, 1, boolean(), boolean(), loops(), n, 1, loops()))
        }),
        ("depth", 0, |n| cat!(one_name(), 1, small_structure(), n)),
    ]
}

/// Rows 3 and 4: the same fields badly written, with the rest behind them and
/// as the last of the bytes.
pub fn badly_written() -> Vec<Named> {
    let mut all = Vec::new();
    for (which, last, make) in &ranged() {
        let good = make(*last);
        let at = first_difference(&good, &make(last + 1));
        let behind = &good[at + num(*last).len()..];
        for (how, number, bad) in BAD_NUMBERS {
            let cut = [&good[..at], bad].concat();
            // A number that is still open goes on with what stands behind it.
            let name = format!("range-{which}-{how}");
            let tree = [&cut, behind].concat();
            all.push(Named { name, number: Some(number).filter(|n| *n != 3), tree });
            all.push(named(format!("range-{which}-{how}-end"), number, cut));
        }
    }
    all
}

/// Rows 3 to 6 and 10, by field.
pub fn ranges() -> Vec<Named> {
    let mut all = Vec::new();
    for (which, last, make) in &ranged() {
        all.push(named(format!("range-{which}-at"), 0, make(*last)));
        all.push(named(format!("range-{which}-past"), 5, make(last + 1)));
        all.push(named(format!("range-{which}-greatest"), 5, make(u32::MAX)));
    }

    // Opaque fields take any number.
    for n in [0, 127, 128, 16_383, 16_384, 2_097_151, 2_097_152, 268_435_455, 268_435_456, u32::MAX]
    {
        let bytes = with(&[
            constant(
                cat!(0, n, n, 1),
                cat!(0, n, n, n, cat!(1, n, n, n, deref(poisoned())), cat!(6, n, 0, 0, n)),
                ok(cat!(14, 3, n)),
            ),
            function(
                cat!(0, n, n, 0),
                &[entry(ok(cat!(0, n, n, 0)), ok(cat!(21, a(), n)))],
                body(&[
                    cat!(2, a(), n, 1, cat!(14, a(), n, 0, 0)),
                    cat!(
                        1,
                        n,
                        cat!(7, n, 1, poisoned(), n, boolean(), poisoned()),
                        cat!(255, n, n, poisoned(), 1, 1, a(), n)
                    ),
                    cat!(6, n, n, n, n, boolean(), boolean(), cat!(8, 17, n), 1, n, loops()),
                ]),
            ),
        ]);
        all.push(named(format!("opaque-{n}"), 0, bytes));
    }

    // Names.
    for length in [1, 2, 63, 64, 65, 127, 128] {
        let bytes = cat!(1, length, vec![b'n'; length as usize], 0);
        let number = if length > NAME_BYTES { 6 } else { 0 };
        all.push(named(format!("name-of-{length}"), number, bytes));
    }
    all.push(named("name-of-0", 6, cat!(1, 0, 0)));
    all.push(named("name-cut", 3, cat!(1, 4, vec![b'n'; 3])));
    all.push(named("name-cut-64", 3, cat!(1, 64, vec![b'n'; 63])));
    all.push(named("name-length-at-end", 3, cat!(1, 1)));
    all.push(named("names-equal", 6, cat!(names(&[b"a", b"b", b"a"]), 0)));
    all.push(named("names-equal-64", 6, cat!(names(&[&[7; 64], &[7; 64]]), 0)));
    all.push(named("names-prefix", 0, cat!(names(&[b"a", b"aa", b"aaa", b"aab"]), 0)));
    all.push(named("names-no-text", 0, cat!(names(&[&[0xFF], &[0xFE], &[0xC3, 0x28], &[0]]), 0)));
    all.push(named("names-equal-cut", 3, cat!(2, sized(b"ab"), 2, b"a"[..].to_vec())));

    // Counts that promise what is not there.
    for count in [1, 127, 128, u32::MAX] {
        all.push(named(format!("count-declarations-{count}"), 3, cat!(0, count)));
        let number = if count as usize > NAMES { 8 } else { 3 };
        all.push(named(format!("count-names-{count}"), number, cat!(count)));
        all.push(named(
            format!("count-parameters-{count}"),
            3,
            cat!(one_name(), 1, 1, 0, 1, 1, a(), count),
        ));
        all.push(named(
            format!("count-statements-{count}"),
            3,
            cat!(one_name(), 1, 1, 0, 1, 1, a(), 0, 0, count),
        ));
        all.push(named(
            format!("count-elements-{count}"),
            3,
            cat!(one_name(), 1, 0, 0, 1, 1, a(), 6, 1, 0, count),
        ));
        all.push(named(
            format!("length-string-{count}"),
            3,
            cat!(one_name(), 1, 0, 0, 1, 1, a(), 5, count),
        ));
        all.push(named(format!("length-import-{count}"), 3, cat!(0, 1, 4, count)));
    }
    all.push(named("integer-cut", 3, cat!(one_name(), 1, 0, 0, 1, 1, a(), 3, vec![1u8; 15])));
    all.push(named("integer-none", 3, cat!(one_name(), 1, 0, 0, 1, 1, a(), 4)));
    all.push(named("string-empty", 0, value(cat!(5, 0, 1))));
    all.push(named("import-empty", 0, with(&[cat!(4, 0, 1)])));
    all.push(named(
        "depths-missing",
        3,
        cat!(one_name(), 2, small_structure(), small_structure(), 0),
    ));
    all.push(named("left-over", 10, cat!(with(&[small_structure()]), 0)));
    all.push(named("left-over-80", 10, cat!(with(&[small_structure()]), vec![0x80u8])));
    all
}

/// How, the refusal where the bytes end there, the bytes.
const BAD_NUMBERS: [(&str, u32, &[u8]); 6] = [
    ("padded", 4, &[0x80, 0x00]),
    ("open", 3, &[0x80]),
    ("open-four", 3, &[0xFF, 0xFF, 0xFF, 0xFF]),
    ("open-five", 4, &[0x80, 0x80, 0x80, 0x80, 0x80]),
    ("too-big", 4, &[0xFF, 0xFF, 0xFF, 0xFF, 0x10]),
    ("padded-five", 4, &[0x81, 0x80, 0x80, 0x80, 0x00]),
];

fn first_difference(one: &[u8], other: &[u8]) -> usize {
    one.iter().zip(other).position(|(one, other)| one != other).unwrap()
}

/// Row 9: kind 23 where it is refused and where it is not.
pub fn nameless() -> Vec<Named> {
    let mut all = Vec::new();
    let wraps: [(&str, &[u8], Bytes); 10] = [
        ("top", &[], cat!()),
        ("array", &[14], cat!(1)),
        ("named-array", &[15], a()),
        ("slice", &[16], cat!()),
        ("slice-pointer", &[17], cat!()),
        ("endless", &[18], cat!()),
        ("arraylike", &[19], cat!()),
        ("pointer", &[24], cat!()),
        ("view", &[25], cat!()),
        ("slice-pointer-slice", &[16, 24, 16], cat!()),
    ];
    for (which, before, behind) in wraps {
        let through = before.iter().all(|kind| (14..20).contains(kind));
        let own = ok(cat!(before, 23, behind));
        let all_of = [
            ("constant", constant(a(), cat!(15, 0), own.clone())),
            ("member", structure(a(), &[entry(ok(a()), own.clone())])),
            ("member-without-name", structure(a(), &[entry(poisoned(), own.clone())])),
            ("parameter", head(a(), &[entry(ok(a()), own.clone())])),
            ("structure", cat!(3, 0, 1, a(), 0, own.clone())),
            ("return", cat!(2, 0, 1, 1, a(), 0, own.clone())),
            ("variable", fun(&[cat!(0, 1, 0, 1, own.clone(), a())])),
            ("size", constant(a(), cat!(13, 1, own[1..].to_vec()), poisoned())),
            ("carried", constant(a(), cat!(9, 1, own, reference(poisoned())), poisoned())),
        ];
        for (place, declaration) in all_of {
            let own = ["constant", "member", "member-without-name"].contains(&place);
            let number = if own && through { 9 } else { 0 };
            all.push(named(format!("nameless-{place}-{which}"), number, with(&[declaration])));
        }
    }
    let twice = constant(a(), cat!(15, 0), ok(num(23)));
    all.push(named("nameless-duplicate", 9, with(&[small_constant(), twice])));
    let deep = ok(cat!(14, 15, 16, 17, 18, 19, 23, a(), 1));
    all.push(named("nameless-through-all", 9, with(&[constant(a(), cat!(15, 0), deep)])));
    all
}

/// Row 1: an import as long as it takes.
pub fn longest() -> Vec<Named> {
    let of = |length: usize| {
        let without = with(&[cat!(4, 60_000, 1)]).len();
        let missing = length - without;
        with(&[cat!(4, missing as u32, vec![b'i'; missing], 1)])
    };
    vec![named("bytes-at", 0, of(TREE_BYTES)), named("bytes-past", 1, of(TREE_BYTES + 1))]
}

pub fn all() -> Vec<Named> {
    let small = [kinds(), ranges(), badly_written(), nameless(), nestings()];
    let groups = small.into_iter().chain([counts(), longest()]);
    groups.flatten().collect()
}
