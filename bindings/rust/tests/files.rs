//! Files in encodings, compared with std's UTF-8 and UTF-16.
use ropey::files::{Encoding, FileError};
use ropey::Rope;

mod common;

use common::Random;

const ENCODINGS: [(Encoding, &[u8]); 7] = [
    (Encoding::Utf8, b""),
    (Encoding::Utf8Bom, b"\xEF\xBB\xBF"),
    (Encoding::Utf16Le, b""),
    (Encoding::Utf16LeBom, b"\xFF\xFE"),
    (Encoding::Utf16Be, b""),
    (Encoding::Utf16BeBom, b"\xFE\xFF"),
    (Encoding::Latin1, b""),
];

/// Returns the bytes of a text without a mark, or `None` if Latin-1 lacks a character.
fn bytes_of(text: &str, encoding: Encoding) -> Option<Vec<u8>> {
    match encoding {
        Encoding::Utf8 | Encoding::Utf8Bom => Some(text.as_bytes().to_vec()),
        Encoding::Utf16Le | Encoding::Utf16LeBom => Some(text.encode_utf16().flat_map(u16::to_le_bytes).collect()),
        Encoding::Utf16Be | Encoding::Utf16BeBom => Some(text.encode_utf16().flat_map(u16::to_be_bytes).collect()),
        Encoding::Latin1 => text.chars().map(|c| u8::try_from(u32::from(c)).ok()).collect(),
    }
}

#[test]
fn files_keep_their_texts() {
    let mut random = Random::new(17);
    for round in 0..300 {
        let len = if round % 50 == 0 { 5000 } else { 20 };
        let text: String = match round % 2 {
            0 => random.text(len),
            _ => random.text(len).chars().filter(|&c| c <= '\u{ff}').collect(),
        };
        let rope = Rope::from_str(&text);
        for (encoding, mark) in ENCODINGS {
            let Some(body) = bytes_of(&text, encoding) else {
                let first = text.chars().position(|c| c > '\u{ff}').unwrap();
                assert_eq!(rope.to_bytes_as(encoding), Err(FileError::Unencodable(first)));
                continue;
            };
            let file = [mark, body.as_slice()].concat();
            assert_eq!(rope.to_bytes_as(encoding).as_ref(), Ok(&file));
            let (read, found) = Rope::from_bytes_as(&file, Some(encoding)).unwrap();
            assert_eq!((read, found), (rope.clone(), encoding));
            if !mark.is_empty() {
                assert_eq!(Rope::from_bytes_as(&file, None).unwrap(), (rope.clone(), encoding));
            }
        }
    }
}

#[test]
fn errors_have_their_offsets() {
    let refused = |bytes, declared| Rope::from_bytes_as(bytes, declared).unwrap_err();
    let big = Some(Encoding::Utf16Be);
    assert_eq!(refused(b"\xEF\xBB", Some(Encoding::Utf8Bom)), FileError::NoMark);
    assert_eq!(refused(b"\xEF\xBB\xBFab\xC3", None), FileError::InvalidUtf8(5));
    assert_eq!(refused(b"\xFF\xFEa\0b", None), FileError::HalfCodeUnit(4));
    assert_eq!(refused(b"\xFE\xFF\0a\xD8\x3D", None), FileError::UnpairedSurrogate(4));
    assert_eq!(refused(b"\0a\xD8\x3D\xDE", big), FileError::UnpairedSurrogate(2));
    assert_eq!(refused(b"\xDE\0\0b", big), FileError::UnpairedSurrogate(0));
    let mut long = b"\0a".repeat(9000);
    long.extend(b"\xD8\x3D\0b\0c");
    assert_eq!(refused(&long, big), FileError::UnpairedSurrogate(18000));
}
