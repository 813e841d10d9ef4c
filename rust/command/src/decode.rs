//! The bytes of a text file as UTF-8. Anything else is refused: a guess at another encoding could change names and numbers.
use crate::failure::{refused, Failure};
use crate::streams::Input;

/// Lines end with LF or CRLF; any other line end would join two lines, and hide the second one behind a comment.
pub const LINE_ENDS: &str = "a line end here is neither LF nor CRLF; save the file with one of them";

/// The content without a byte order mark.
pub fn utf8(input: &Input) -> Result<String, Failure> {
    let name = &input.name;
    if is_utf16(&input.bytes) {
        return Err(refused(format!("{name}:1: this is UTF-16, not UTF-8; save the file as UTF-8")));
    }
    match std::str::from_utf8(&input.bytes) {
        Ok(text) => Ok(text.strip_prefix('\u{feff}').unwrap_or(text).to_string()),
        Err(error) => {
            let (good, rest) = input.bytes.split_at(error.valid_up_to());
            let line = 1 + good.iter().filter(|byte| **byte == b'\n').count();
            Err(refused(format!(
                "{name}:{line}: not UTF-8 (byte 0x{:02X}); save the file as UTF-8",
                rest[0]
            )))
        }
    }
}

/// Byte order marks, or a start where every second byte is zero and the others are text. Plan files, which begin with byte 1, are none.
fn is_utf16(bytes: &[u8]) -> bool {
    let is_text = |byte: u8| matches!(byte, b'\t' | b'\n' | b'\r' | b' '..=b'~' | 0xA0..);
    let start: Vec<&[u8]> = bytes.chunks_exact(2).take(8).collect();
    let zeros = |zero: usize| start.iter().all(|pair| pair[zero] == 0 && is_text(pair[1 - zero]));
    bytes.starts_with(&[0xFF, 0xFE]) || bytes.starts_with(&[0xFE, 0xFF]) || (!start.is_empty() && (zeros(0) || zeros(1)))
}

#[cfg(test)]
mod tests {
    use super::*;

    fn decoded(bytes: &[u8]) -> Result<String, String> {
        let (name, bytes) = ("x".to_string(), bytes.to_vec());
        utf8(&Input { name, bytes }).map_err(|failure| failure.message)
    }

    #[test]
    fn utf8_with_and_without_mark() {
        assert_eq!(decoded(b""), Ok(String::new()));
        assert_eq!(decoded("\u{feff}a\u{e9}\u{1f980}".as_bytes()), Ok("a\u{e9}\u{1f980}".to_string()));
        // A mark in the middle, and a replacement character that was written as such, are content.
        assert_eq!(decoded("a\u{feff}\u{fffd}".as_bytes()), Ok("a\u{feff}\u{fffd}".to_string()));
    }

    #[test]
    fn other_encodings() {
        let utf16 = "x:1: this is UTF-16, not UTF-8; save the file as UTF-8";
        for bytes in [&b"\xFF\xFE3\0"[..], b"\xFE\xFF\x003", b"\xFF\xFE", b"3\0", b"\x003\0\n", b"a\0,\0b\0\n\0"] {
            assert_eq!(decoded(bytes).expect_err("UTF-16"), utf16, "{bytes:?}");
        }
        for (bytes, line, byte) in [
            (&b"\xE9"[..], 1, "E9"),
            (b"a\nb\r\nc\xE9\nd", 3, "E9"),
            (b"a\n\xC3", 2, "C3"),
            (b"\x81\0\x08\0", 1, "81"),
        ] {
            let message = format!("x:{line}: not UTF-8 (byte 0x{byte}); save the file as UTF-8");
            assert_eq!(decoded(bytes).expect_err("not UTF-8"), message);
        }
    }
}
