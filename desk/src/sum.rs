//! CRC-32C: the sum that heads, records, snapshots and the mark carry.

const fn table() -> [u32; 256] {
    let mut table = [0; 256];
    let mut byte = 0;
    while byte < 256 {
        let mut value = byte as u32;
        let mut bit = 0;
        while bit < 8 {
            value = if value & 1 == 1 { (value >> 1) ^ 0x82f6_3b78 } else { value >> 1 };
            bit += 1;
        }
        table[byte] = value;
        byte += 1;
    }
    table
}

static TABLE: [u32; 256] = table();

#[cfg(target_arch = "x86_64")]
#[target_feature(enable = "sse4.2")]
fn by_processor(state: u32, bytes: &[u8]) -> u32 {
    use std::arch::x86_64::{_mm_crc32_u64, _mm_crc32_u8};
    let (eights, rest) = bytes.as_chunks::<8>();
    let wide = eights.iter().fold(u64::from(state), |wide, eight| _mm_crc32_u64(wide, u64::from_le_bytes(*eight)));
    rest.iter().fold(wide as u32, |state, byte| _mm_crc32_u8(state, *byte))
}

fn by_table(state: u32, bytes: &[u8]) -> u32 {
    bytes.iter().fold(state, |state, byte| (state >> 8) ^ TABLE[usize::from(state as u8 ^ byte)])
}

/// The sum of bytes that come in pieces.
pub struct Sum(u32);

impl Sum {
    pub fn of(bytes: &[u8]) -> Sum {
        Sum(!0).and(bytes)
    }

    pub fn and(self, bytes: &[u8]) -> Sum {
        #[cfg(target_arch = "x86_64")]
        if std::arch::is_x86_feature_detected!("sse4.2") {
            // SAFETY: the processor has the instructions.
            return Sum(unsafe { by_processor(self.0, bytes) });
        }
        Sum(by_table(self.0, bytes))
    }

    pub fn value(self) -> u32 {
        !self.0
    }
}

pub fn sum(bytes: &[u8]) -> u32 {
    Sum::of(bytes).value()
}

#[cfg(test)]
mod tests {
    use super::*;

    #[test]
    fn the_standard_example() {
        assert_eq!(sum(b"123456789"), 0xe306_9283);
        assert_eq!(!by_table(!0, b"123456789"), 0xe306_9283);
    }

    #[test]
    fn pieces_make_the_whole() {
        let bytes: Vec<u8> = (0..=255).collect();
        for cut in 0..bytes.len() {
            assert_eq!(Sum::of(&bytes[..cut]).and(&bytes[cut..]).value(), !by_table(!0, &bytes));
        }
    }
}
