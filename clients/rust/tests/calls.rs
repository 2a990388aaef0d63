//! The calls, on trees small enough to be written out.

use hurdlebraid::*;

/// Structure P with a pointer to P, and a constant S, the size of that pointer.
const STRUCTURE: &[u8] = b"\x03\x01P\x04next\x01S\x02\
    \x03\0\x01\0\x0A\0\0\x01\x01\0\x01\x0B\0\0\0\x18\x14\0\x0C\0\0\0\x17\
    \0\0\x01\x01\x02\x14\0\0\x0D\x01\x18\x14\0\x15\0\0\0\x0B\0\0";

fn refused<T>(by: Result<T, Refusal>) -> Option<(u32, usize)> {
    by.err().map(|refusal| (refusal.number, refusal.place))
}

#[test]
fn the_empty_script() {
    assert_eq!(analyze(&[0, 0]), Ok(Scoped { tree: vec![0, 0], skipped: vec![] }));
}

#[test]
fn bytes_that_are_no_script() {
    assert_eq!(refused(analyze(&[])), Some((3, 0)));
    assert_eq!(refused(analyze(&[0x80, 0])), Some((4, 0)));
    assert_eq!(refused(analyze(&[0, 0, 0])), Some((10, 2)));
    assert_eq!(refused(analyze(&[0; 65_536])), Some((1, 0)));
    let said = analyze(&[0, 0, 0]).unwrap_err().to_string();
    assert_eq!(said, "refused 10 at 2");
}

#[test]
fn memory_that_is_too_small_or_too_large() {
    let (mut answer, mut list) = ([7; 10], [7; 10]);
    let mut work = vec![7; WORK_WORDS + 1];
    let short = analyze_into(&[0, 0], &mut answer, &mut list, &mut work[2..]);
    assert_eq!(refused(short), Some((2, 0)));
    let short = analyze_into(&[0, 0], &mut answer[..1], &mut list, &mut work);
    assert_eq!(refused(short), Some((11, 0)));
    answer.fill(7);
    assert_eq!(analyze_into(&[0, 0], &mut answer, &mut [], &mut work), Ok((2, 0)));
    assert_eq!(answer, [0; 10]);
    assert!(work.iter().all(|word| *word == 0));
}

#[test]
fn readers() {
    let scoped = analyze(STRUCTURE).unwrap();
    assert_eq!(get_container_depth(&scoped.tree, 0, 9), Ok(0));
    assert_eq!(get_container_depth(&scoped.tree, 1, 9), Ok(1));
    assert_eq!(is_container(&scoped.tree, 1), Ok(true));
    assert_eq!(get_structure_name(&scoped.tree, 0), Ok(&b"P"[..]));
    assert_eq!(get_structure_name(&scoped.tree, 1), Ok(&b""[..]));
    assert_eq!(refused(get_structure_name(&scoped.tree, 2)), Some((13, 0)));
    assert_eq!(refused(is_container(&[], 0)), Some((3, 0)));
}
