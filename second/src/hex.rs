//! Bytes as lower case hexadecimal, and no bytes as a hyphen.

/// The digits of the bytes, two each.
pub fn hex(bytes: &[u8]) -> String {
    if bytes.is_empty() {
        return "-".to_string();
    }
    bytes.iter().map(|b| format!("{b:02x}")).collect()
}
