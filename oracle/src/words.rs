//! Words and numbers of the two texts.

pub const SPACE: u8 = b' ';
pub const LINE_FEED: u8 = b'\n';

/// A word with the offset of its first byte.
#[derive(Clone, Copy)]
pub struct Word<'a> {
    pub at: usize,
    pub bytes: &'a [u8],
}

/// The word that begins at `at`; it is empty if none begins there.
pub fn word_at(text: &[u8], at: usize) -> Word<'_> {
    let rest = &text[at..];
    let length = rest.iter().position(|&byte| byte == SPACE || byte == LINE_FEED).unwrap_or(rest.len());
    Word { at, bytes: &rest[..length] }
}

/// The value of a word of 1 to 9 digits without a needless leading zero.
pub fn number(word: &[u8]) -> Option<u32> {
    let needless_zero = word.len() > 1 && word[0] == b'0';
    if word.is_empty() || word.len() > 9 || needless_zero {
        return None;
    }
    word.iter().try_fold(0, |value, &byte| byte.is_ascii_digit().then(|| value * 10 + u32::from(byte - b'0')))
}
