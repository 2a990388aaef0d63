//! Names and import names are bytes in the tree and text in the original.
//! Bytes that are text stand for that text, so `main` stays `main`; all others
//! stand for a text of their own, and no two byte strings for the same one.

/// Opens the text of bytes that are none. Text that itself begins so is
/// treated like bytes, which keeps the two apart.
const MARK: char = '\u{10FFFF}';
/// Byte `b` of a marked text is the character `BASE + b`.
const BASE: u32 = 0x10_F000;

pub fn from_bytes(bytes: &[u8]) -> String {
    match std::str::from_utf8(bytes) {
        Ok(text) if !text.starts_with(MARK) => text.to_string(),
        _ => {
            let spelled = bytes.iter().map(|b| char::from_u32(BASE + *b as u32).unwrap());
            std::iter::once(MARK).chain(spelled).collect()
        }
    }
}

pub fn to_bytes(text: &str) -> Vec<u8> {
    match text.strip_prefix(MARK) {
        None => text.as_bytes().to_vec(),
        Some(spelled) => spelled.chars().map(|c| (c as u32 - BASE) as u8).collect(),
    }
}

#[cfg(test)]
mod tests {
    use super::*;

    #[test]
    fn every_byte_string_keeps_its_own_text() {
        let mut seen = std::collections::HashSet::new();
        let marked = MARK.to_string().into_bytes();
        let longer = from_bytes(&[0xFF]).into_bytes();
        let short = (0..=255u8).flat_map(|a| (0..=255u8).map(move |b| vec![a, b]));
        for bytes in short.chain([vec![], b"main".to_vec(), marked, longer]) {
            let text = from_bytes(&bytes);
            assert_eq!(to_bytes(&text), bytes);
            assert!(seen.insert(text));
        }
        assert_eq!(from_bytes(b"main"), "main");
    }
}
