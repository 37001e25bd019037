//! Words of 64 bits, stored high byte first, and the fields in them, counted from the top.

/// The words of `bytes`, or nothing if they are not whole.
pub fn words(bytes: &[u8]) -> Option<Vec<u64>> {
    let (whole, rest) = bytes.as_chunks::<8>();
    rest.is_empty().then(|| whole.iter().map(|word| u64::from_be_bytes(*word)).collect())
}

/// The `width` bits that begin `from` bits below the top.
pub fn field(word: u64, from: u32, width: u32) -> u64 {
    (word << from) >> (64 - width)
}

/// `value` as the `width` bits that begin `from` bits below the top.
pub fn put(value: u64, from: u32, width: u32) -> u64 {
    value << (64 - width - from)
}

/// Appends a word to `bytes`.
pub fn push(bytes: &mut Vec<u8>, word: u64) {
    bytes.extend_from_slice(&word.to_be_bytes());
}
