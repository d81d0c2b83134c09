//! Files of the library for C.
use super::{must, Handle, Held, Root, NONE};
use crate::files::{FileError, FileResult};
use crate::LineBreaks;

const INVALID_UTF8: u32 = 3;
const BUFFER_TOO_SMALL: u32 = 17;
const NO_MARK: u32 = 25;
const UNPAIRED_SURROGATE: u32 = 26;
const HALF_CODE_UNIT: u32 = 27;
const UNENCODABLE: u32 = 28;

/// The number that selects the encoding of a file's mark.
pub(crate) const BY_MARK: u32 = 7;

extern "C" {
    fn ropey_from_bytes_as(
        bytes: *const u8,
        len: usize,
        encoding: u32,
        break_set: u32,
        rope: *mut Handle,
        found: *mut u32,
        offset: *mut usize,
    ) -> u32;
    fn ropey_write_as(
        rope: Held,
        encoding: u32,
        buffer: *mut u8,
        room: usize,
        len: *mut usize,
        char_idx: *mut usize,
    ) -> u32;
}

impl Root {
    /// Returns a rope of a file and the number of its encoding.
    pub(crate) fn of_file(bytes: &[u8], encoding: u32, breaks: LineBreaks) -> FileResult<(Root, u32)> {
        let (mut root, mut found, mut at) = (Root(NONE, breaks), 0, 0);
        let (text, len) = (bytes.as_ptr(), bytes.len());
        match unsafe { ropey_from_bytes_as(text, len, encoding, breaks as u32, &mut root.0, &mut found, &mut at) } {
            NO_MARK => return Err(FileError::NoMark),
            INVALID_UTF8 => return Err(FileError::InvalidUtf8(at)),
            UNPAIRED_SURROGATE => return Err(FileError::UnpairedSurrogate(at)),
            HALF_CODE_UNIT => return Err(FileError::HalfCodeUnit(at)),
            status => must(status),
        }
        Ok((root, found))
    }

    /// Returns the bytes of a file, or the index of the first character that the encoding has no
    /// bytes for.
    pub(crate) fn file(&self, encoding: u32) -> Result<Vec<u8>, usize> {
        let (mut bytes, mut len, mut char_idx) = (Vec::new(), 0, 0);
        loop {
            let (buffer, room) = (bytes.as_mut_ptr(), bytes.capacity());
            match unsafe { ropey_write_as(&self.0, encoding, buffer, room, &mut len, &mut char_idx) } {
                BUFFER_TOO_SMALL => bytes.reserve_exact(len),
                UNENCODABLE => return Err(char_idx),
                status => {
                    must(status);
                    // Safety: the library wrote that many bytes.
                    unsafe { bytes.set_len(len) };
                    return Ok(bytes);
                }
            }
        }
    }
}
