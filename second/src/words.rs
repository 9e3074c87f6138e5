//! The words of a script line. None: the word is not of that kind.

/// The most bytes that a word can stand for, and the longest buffer.
pub const MOST_BYTES: u64 = 140_000;

/// A decimal number of 64 bits.
pub fn number(word: &[u8]) -> Option<u64> {
    if word.is_empty() {
        return None;
    }
    word.iter().try_fold(0u64, |value, digit| {
        let digit = digit.is_ascii_digit().then(|| u64::from(digit - b'0'))?;
        value.checked_mul(10)?.checked_add(digit)
    })
}

/// A decimal number of a smaller type.
pub fn small<T: TryFrom<u64>>(word: &[u8]) -> Option<T> {
    T::try_from(number(word)?).ok()
}

/// A length that a buffer can have.
pub fn length(word: &[u8]) -> Option<usize> {
    let length = number(word).filter(|&length| length <= MOST_BYTES)?;
    Some(length as usize)
}

/// Two hex digits.
pub fn byte(word: &[u8]) -> Option<u8> {
    let &[high, low] = word else { return None };
    let digit = |letter: u8| char::from(letter).to_digit(16);
    Some((digit(high)? * 16 + digit(low)?) as u8)
}

/// `-`, pairs of hex digits, or `BBxCOUNT`.
pub fn bytes(word: &[u8]) -> Option<Vec<u8>> {
    if word == b"-" {
        return Some(Vec::new());
    }
    if word.get(2) == Some(&b'x') {
        return Some(vec![byte(&word[..2])?; length(&word[3..])?]);
    }
    if word.is_empty() || word.len() as u64 > 2 * MOST_BYTES {
        return None;
    }
    word.chunks(2).map(byte).collect()
}

/// Upper-case hex, `-` for none.
pub fn hex(bytes: &[u8]) -> String {
    use std::fmt::Write;
    if bytes.is_empty() {
        return "-".to_string();
    }
    bytes.iter().fold(String::with_capacity(2 * bytes.len()), |mut text, byte| {
        let _ = write!(text, "{byte:02X}");
        text
    })
}
