//! Reading and writing numbers and bytes as text.

/// Splits a line at single blanks. Two blanks in a row give an empty field,
/// which no number accepts.
pub fn fields(line: &[u8]) -> Vec<&[u8]> {
    line.split(|&b| b == b' ').collect()
}

fn hex_digit(byte: u8) -> Option<u32> {
    match byte {
        b'0'..=b'9' => Some((byte - b'0') as u32),
        b'A'..=b'F' => Some((byte - b'A') as u32 + 10),
        _ => None,
    }
}

/// A hexadecimal number of exactly so many capital digits.
pub fn hex(field: &[u8], digits: usize) -> Option<u32> {
    if field.len() != digits {
        return None;
    }
    field.iter().try_fold(0, |value, &b| Some(value * 16 + hex_digit(b)?))
}

/// A hexadecimal number of 1 to 7 capital digits.
pub fn hex_free(field: &[u8]) -> Option<u32> {
    if (1..=7).contains(&field.len()) {
        hex(field, field.len())
    } else {
        None
    }
}

/// Bytes as pairs of capital digits; a lone dash stands for none.
pub fn hex_bytes(field: &[u8]) -> Option<Vec<u8>> {
    if field == b"-" {
        return Some(Vec::new());
    }
    if field.is_empty() || field.len() % 2 == 1 {
        return None;
    }
    field.chunks(2).map(|pair| hex(pair, 2).map(|value| value as u8)).collect()
}

/// A decimal number without leading zeros.
pub fn decimal(field: &[u8]) -> Option<u32> {
    if field.is_empty() || field.len() > 9 || (field.len() > 1 && field[0] == b'0') {
        return None;
    }
    field.iter().try_fold(0, |value, &b| if b.is_ascii_digit() { Some(value * 10 + (b - b'0') as u32) } else { None })
}

pub fn bit(field: &[u8]) -> Option<bool> {
    match field {
        b"0" => Some(false),
        b"1" => Some(true),
        _ => None,
    }
}

pub fn show_bytes(bytes: impl IntoIterator<Item = u8>) -> String {
    const DIGITS: &[u8; 16] = b"0123456789ABCDEF";
    let mut text = String::new();
    for byte in bytes {
        text.push(DIGITS[(byte / 16) as usize] as char);
        text.push(DIGITS[(byte % 16) as usize] as char);
    }
    text
}

pub fn show_bytes_or_dash(bytes: impl IntoIterator<Item = u8>) -> String {
    let text = show_bytes(bytes);
    if text.is_empty() {
        "-".to_string()
    } else {
        text
    }
}

/// The lines of a text: a newline at the very end begins no further line.
pub fn lines(text: &[u8]) -> Vec<&[u8]> {
    let mut lines: Vec<&[u8]> = text.split(|&b| b == b'\n').collect();
    if lines.last().is_some_and(|last| last.is_empty()) {
        lines.pop();
    }
    lines
}

#[cfg(test)]
mod tests {
    use super::*;

    #[test]
    fn numbers_are_strict() {
        assert_eq!(hex(b"0F", 2), Some(15));
        assert_eq!(hex(b"0f", 2), None);
        assert_eq!(hex(b"F", 2), None);
        assert_eq!(decimal(b"0"), Some(0));
        assert_eq!(decimal(b"00"), None);
        assert_eq!(decimal(b"+1"), None);
        assert_eq!(decimal(b"65535"), Some(65535));
        assert_eq!(hex_bytes(b"-"), Some(vec![]));
        assert_eq!(hex_bytes(b"ABC"), None);
        assert_eq!(lines(b"a\n\n"), [&b"a"[..], &b""[..]]);
        assert!(lines(b"").is_empty());
    }
}
