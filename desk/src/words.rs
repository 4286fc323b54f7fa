//! Words as the files have them: 32 bits, little endian.

#[cfg(target_endian = "big")]
compile_error!("the desk lends its words to files as they lie in memory, so that it wants a little-endian machine");

pub fn bytes_of(words: &[u32]) -> &[u8] {
    // SAFETY: a u32 has four bytes and no padding, and every byte is a value.
    unsafe { std::slice::from_raw_parts(words.as_ptr().cast(), words.len() * 4) }
}

pub fn bytes_of_mut(words: &mut [u32]) -> &mut [u8] {
    // SAFETY: as above, and any four bytes are a u32.
    unsafe { std::slice::from_raw_parts_mut(words.as_mut_ptr().cast(), words.len() * 4) }
}

/// The words that these bytes are; bytes left over at the end are dropped.
pub fn words_of(bytes: &[u8]) -> impl Iterator<Item = u32> + '_ {
    bytes.as_chunks::<4>().0.iter().map(|four| u32::from_le_bytes(*four))
}

pub fn u32_at(bytes: &[u8], at: usize) -> u32 {
    u32::from_le_bytes(bytes[at..at + 4].try_into().expect("four bytes"))
}

pub fn u64_at(bytes: &[u8], at: usize) -> u64 {
    u64::from_le_bytes(bytes[at..at + 8].try_into().expect("eight bytes"))
}
