//! The hash that stands for the content of a buffer, or for many lines.

/// The 64-bit FNV-1a hash of the bytes, in 16 hexadecimal digits.
pub fn hash(bytes: impl IntoIterator<Item = u8>) -> String {
    let mut hash = 0xcbf2_9ce4_8422_2325_u64;
    for byte in bytes {
        hash = (hash ^ u64::from(byte)).wrapping_mul(0x0000_0100_0000_01b3);
    }
    format!("{hash:016x}")
}

#[cfg(test)]
mod tests {
    use super::*;

    /// The values that the authors of the hash publish.
    #[test]
    fn published_values() {
        for (text, expected) in [
            ("", "cbf29ce484222325"),
            ("a", "af63dc4c8601ec8c"),
            ("foobar", "85944171f73967e8"),
        ] {
            assert_eq!(hash(text.bytes()), expected, "{text}");
        }
    }
}
