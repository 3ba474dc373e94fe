//! Big-endian words, and longs of two words.

pub fn word_at(bytes: &[u8], offset: usize) -> u16 {
    u16::from_be_bytes([bytes[offset], bytes[offset + 1]])
}

pub fn long_at(bytes: &[u8], offset: usize) -> u32 {
    u32::from(word_at(bytes, offset)) << 16 | u32::from(word_at(bytes, offset + 2))
}

pub fn put_word(bytes: &mut Vec<u8>, word: u16) {
    bytes.extend_from_slice(&word.to_be_bytes());
}

pub fn put_words(bytes: &mut Vec<u8>, words: &[u16]) {
    for word in words {
        put_word(bytes, *word);
    }
}

/// `N` words one after another, from `offset` on.
pub fn words_at<const N: usize>(bytes: &[u8], offset: usize) -> [u16; N] {
    std::array::from_fn(|index| word_at(bytes, offset + 2 * index))
}
