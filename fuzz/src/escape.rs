//! Bytes in the text of a case.

/// As cases are written: printable bytes as they are, the others as \xNN.
pub fn escape(bytes: &[u8]) -> String {
    let last = bytes.len().saturating_sub(1);
    let shown = |(place, &byte): (usize, &u8)| match byte {
        b'!'..=b'~' if byte != b'\\' => (byte as char).to_string(),
        b' ' if place != last => " ".to_string(),
        _ => format!("\\x{byte:02x}"),
    };
    bytes.iter().enumerate().map(shown).collect()
}
