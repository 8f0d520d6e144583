//! Words and file names as they may be shown: a terminal gets no control
//! character from them, nor a character that does not print.

use std::ffi::OsStr;
use std::os::unix::ffi::OsStrExt;

/// The word with what does not print as `\n`, `\x1b` and so on, byte for byte,
/// and a backslash as two.
pub fn shown(word: impl AsRef<OsStr>) -> String {
    let mut text = String::new();
    for chunk in word.as_ref().as_bytes().utf8_chunks() {
        for c in chunk.valid().chars() {
            character(c, &mut text);
        }
        bytes(chunk.invalid(), &mut text);
    }
    text
}

fn character(c: char, text: &mut String) {
    match c {
        '\n' => text.push_str("\\n"),
        '\r' => text.push_str("\\r"),
        '\t' => text.push_str("\\t"),
        '\\' => text.push_str("\\\\"),
        '\'' | '"' => text.push(c),
        // the standard library knows which characters print: one that does is left as it is
        _ if c.escape_debug().len() == 1 => text.push(c),
        _ => bytes(c.encode_utf8(&mut [0; 4]).as_bytes(), text),
    }
}

fn bytes(bytes: &[u8], text: &mut String) {
    for byte in bytes {
        text.push_str(&format!("\\x{byte:02x}"));
    }
}

#[cfg(test)]
mod tests {
    use super::*;

    #[test]
    fn what_prints_stays() {
        for word in ["left/key", "it's", "Schlüssel", "鍵", "a b", ""] {
            assert_eq!(shown(word), word);
        }
    }

    #[test]
    fn what_does_not_is_escaped() {
        assert_eq!(
            shown("\u{1b}[2Jx\n\r\t\u{7f}\0"),
            "\\x1b[2Jx\\n\\r\\t\\x7f\\x00"
        );
        assert_eq!(shown("a\\n"), "a\\\\n");
        // C1's CSI, the turning of the text's direction, a space without width
        assert_eq!(shown("\u{9b}"), "\\xc2\\x9b");
        assert_eq!(shown("\u{202e}\u{200b}"), "\\xe2\\x80\\xae\\xe2\\x80\\x8b");
        assert_eq!(shown(OsStr::from_bytes(b"k\xff\xc3")), "k\\xff\\xc3");
    }
}
