//! Bytes as people see and give them: as text where that is safe to show, else in hex.

use std::path::Path;

/// What stands before bytes that are shown in hex because they are no plain text.
const MARK: &str = "hex:";

/// How much of what somebody gave a message repeats.
const BRIEF: usize = 40;

/// Whether a character shows as itself: it is no control character, and neither turns nor hides the text around it.
pub fn is_plain(c: char) -> bool {
    let hidden = matches!(c,
        '\u{ad}' | '\u{61c}' | '\u{180e}' | '\u{200b}'..='\u{200f}' | '\u{2028}'..='\u{202e}' | '\u{2060}'..='\u{206f}'
        | '\u{feff}' | '\u{fff9}'..='\u{fffb}' | '\u{e0000}'..='\u{e007f}');
    !c.is_control() && !hidden
}

/// Bytes for a reader: themselves if they are plain text, else the mark and hex. (Text that begins with the mark is
/// shown in hex too, so that what is shown tells the bytes.)
pub fn shown(bytes: &[u8]) -> String {
    match std::str::from_utf8(bytes) {
        Ok(text) if text.chars().all(is_plain) && !text.starts_with(MARK) => text.to_string(),
        _ => format!("{MARK}{}", hex(bytes)),
    }
}

/// Bytes for a message: in quotes, and not at any length.
pub fn brief(bytes: &[u8]) -> String {
    let text = shown(bytes);
    match text.char_indices().nth(BRIEF) {
        Some((end, _)) => format!("'{}..'", text.get(..end).unwrap_or_default()),
        None => format!("'{text}'"),
    }
}

/// A path for a message.
pub fn path(path: &Path) -> String {
    match path.to_str() {
        Some(text) if !text.is_empty() && text.chars().all(is_plain) => text.to_string(),
        _ => format!("{path:?}"),
    }
}

/// A value as text: without the spaces at its end, with which it was filled.
pub fn unfilled(value: &[u8]) -> &[u8] {
    let end = value.iter().rposition(|&byte| byte != b' ').map_or(0, |last| last + 1);
    value.get(..end).unwrap_or_default()
}

/// Bytes in lower-case hex.
pub fn hex(bytes: &[u8]) -> String {
    bytes.iter().map(|byte| format!("{byte:02x}")).collect()
}

/// The bytes that hex digits, in either case, stand for.
pub fn unhex(digits: &[u8]) -> Result<Vec<u8>, String> {
    let number = |digit: u8| char::from(digit).to_digit(16).map(|number| number as u8);
    let wrong = |why: &str| Err(format!("{} is no hex: {why}", brief(digits)));
    let mut bytes = Vec::with_capacity(digits.len() / 2);
    for pair in digits.chunks(2) {
        match *pair {
            [high, low] => match (number(high), number(low)) {
                (Some(high), Some(low)) => bytes.push(high * 16 + low),
                _ => return wrong("only 0 to 9 and a to f are hex digits"),
            },
            _ => return wrong("its digits must come in pairs"),
        }
    }
    Ok(bytes)
}

/// A number with commas between its thousands.
pub fn thousands(number: usize) -> String {
    let digits = number.to_string();
    let mut out = String::new();
    for (place, digit) in digits.chars().enumerate() {
        if place > 0 && (digits.len() - place).is_multiple_of(3) {
            out.push(',');
        }
        out.push(digit);
    }
    out
}

/// A number of things in words: `1 loan`, `2 loans`.
pub fn counted(number: usize, thing: &str) -> String {
    format!("{} {thing}{}", thousands(number), if number == 1 { "" } else { "s" })
}

#[cfg(test)]
mod tests {
    use super::*;

    #[test]
    fn plain_text_is_shown_as_it_is_and_all_else_in_hex() {
        assert_eq!(shown(b"0042"), "0042");
        assert_eq!(shown("Café".as_bytes()), "Café");
        assert_eq!(shown(b""), "");
        assert_eq!(shown(b"\x1b[2J"), "hex:1b5b324a");
        assert_eq!(shown(b"a\tb"), "hex:610962");
        assert_eq!(shown(b"\xc3\x28"), "hex:c328");
        assert_eq!(shown("a\u{202e}b".as_bytes()), "hex:61e280ae62");
        assert_eq!(shown(b"hex:00"), "hex:6865783a3030");
    }

    #[test]
    fn a_message_repeats_little() {
        assert_eq!(brief(b"42"), "'42'");
        assert_eq!(brief("é".repeat(41).as_bytes()), format!("'{}..'", "é".repeat(40)));
        assert_eq!(brief(&[b'x'; 40]), format!("'{}'", "x".repeat(40)));
    }

    #[test]
    fn spaces_go_from_the_end_only() {
        assert_eq!(unfilled(b" a b  "), b" a b");
        assert_eq!(unfilled(b"   "), b"");
        assert_eq!(unfilled(b"a\t"), b"a\t");
    }

    #[test]
    fn hex_goes_both_ways() {
        assert_eq!(unhex(b"00fFA0"), Ok(vec![0, 255, 160]));
        assert_eq!(unhex(b""), Ok(vec![]));
        assert!(unhex(b"0").is_err());
        assert!(unhex(b"0g").is_err());
        assert!(unhex(b"+1").is_err());
        assert!(unhex("é".as_bytes()).is_err());
        assert_eq!(hex(&[0, 255, 160]), "00ffa0");
    }

    #[test]
    fn numbers_have_commas() {
        assert_eq!(thousands(0), "0");
        assert_eq!(thousands(999), "999");
        assert_eq!(thousands(33_488_944), "33,488,944");
        assert_eq!(counted(1, "loan"), "1 loan");
        assert_eq!(counted(2000, "loan"), "2,000 loans");
    }
}
