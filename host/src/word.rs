//! Packed words: fields of a 64-bit word, from the top, and words in bytes, high byte first.

use crate::value::Value;

/// The widths of a predicate node's fields: kind, operator, column, flips, literal-first, count; the rest is zero.
pub(crate) const NODE: [u32; 6] = [4, 4, 8, 8, 1, 15];
/// The widths of a literal's or a cell's fields: type, length, zero, offset.
pub(crate) const LITERAL: [u32; 4] = [2, 14, 24, 24];
/// The widths of a statistic's fields: column, type.
pub(crate) const STATISTIC: [u32; 2] = [8, 2];
/// The widths of a guarantee's fields: column, not-in, place.
pub(crate) const GUARANTEE: [u32; 3] = [8, 1, 16];

/// The greatest length that a literal's length field holds.
pub(crate) const MAX_LENGTH: usize = (1 << 14) - 1;
/// The greatest offset that a literal's offset field holds.
pub(crate) const MAX_OFFSET: usize = (1 << 24) - 1;
/// The greatest count that a list's node word holds.
pub(crate) const MAX_COUNT: usize = (1 << 15) - 1;

/// Packs fields from the top. Each must fit its width.
pub(crate) fn pack<const N: usize>(widths: [u32; N], fields: [u64; N]) -> u64 {
    let mut left = 64;
    let mut word = 0;
    for (width, field) in widths.into_iter().zip(fields) {
        debug_assert!(field < 1 << width);
        left -= width;
        word |= field << left;
    }
    word
}

/// Takes a word apart: its fields, and whether all bits that no field names are zero.
pub(crate) fn unpack<const N: usize>(widths: [u32; N], word: u64) -> ([u64; N], bool) {
    let mut left = 64;
    let fields = widths.map(|width| {
        left -= width;
        word >> left & ((1 << width) - 1)
    });
    (fields, left == 0 || word & ((1 << left) - 1) == 0)
}

/// The words of a byte string; what is left over of it is cut off.
pub(crate) fn words(bytes: &[u8]) -> impl Iterator<Item = u64> {
    bytes.chunks_exact(8).map(|eight| u64::from_be_bytes(eight.try_into().expect("eight bytes")))
}

/// A literal's or a cell's word for a value, its bytes put at the pool's end. None where a field can't hold it.
pub(crate) fn put_value(value: &Value, pool: &mut Vec<u8>) -> Option<u64> {
    match value {
        Value::Null => Some(0),
        Value::Integer(i) => put_bytes(1, &i.to_be_bytes(), pool),
        Value::Text(t) => put_bytes(2, t, pool),
        Value::Truth(t) => Some(pack(LITERAL, [3, 0, 0, u64::from(*t)])),
    }
}

/// The word of a range, its bytes put at the pool's end. None where a field can't hold it.
pub(crate) fn put_bytes(kind: u64, bytes: &[u8], pool: &mut Vec<u8>) -> Option<u64> {
    if bytes.len() > MAX_LENGTH || pool.len() > MAX_OFFSET {
        return None;
    }
    let word = pack(LITERAL, [kind, bytes.len() as u64, 0, pool.len() as u64]);
    pool.extend_from_slice(bytes);
    Some(word)
}

/// The value that a literal word names in a pool. None where the word is malformed or its range is not in the pool.
pub(crate) fn get_value(word: u64, pool: &[u8]) -> Option<Value> {
    let ([kind, length, zero, offset], _) = unpack(LITERAL, word);
    if zero != 0 {
        return None;
    }
    let range = || pool.get(offset as usize..(offset + length) as usize);
    match (kind, length, offset) {
        (0, 0, 0) => Some(Value::Null),
        (1, 8, _) => Some(Value::Integer(i64::from_be_bytes(range()?.try_into().ok()?))),
        (2, _, _) => Some(Value::Text(range()?.to_vec())),
        (3, 0, 0 | 1) => Some(Value::Truth(offset == 1)),
        _ => None,
    }
}
