//! Words in bytes: 4 bytes each, least significant first.

pub fn to_bytes(words: &[u32]) -> Vec<u8> {
    words.iter().flat_map(|word| word.to_le_bytes()).collect()
}

/// The words of `bytes`; a rest of fewer than 4 bytes is left out, callers have refused it before.
pub fn from_bytes(bytes: &[u8]) -> Vec<u32> {
    bytes.chunks_exact(4).map(|b| u32::from_le_bytes(b.try_into().unwrap())).collect()
}

#[cfg(test)]
mod tests {
    use super::*;

    #[test]
    fn least_significant_byte_first() {
        assert_eq!(to_bytes(&[1, 0x0403_0201]), [1, 0, 0, 0, 1, 2, 3, 4]);
        assert_eq!(from_bytes(&[1, 0, 0, 0, 1, 2, 3, 4, 9]), [1, 0x0403_0201]);
    }
}
