//! Decimal numbers as files and scripts have them: digits alone, any zeros in front, a value of at most 64 bits.

/// None where the word is no such number. The standard library's reading would let a plus sign through.
pub fn number(word: &[u8]) -> Option<u64> {
    if word.is_empty() {
        return None;
    }
    word.iter().try_fold(0u64, |value, byte| {
        let digit = byte.is_ascii_digit().then(|| u64::from(byte - b'0'))?;
        value.checked_mul(10)?.checked_add(digit)
    })
}
