//! Blocks of 512 bytes and their check.

/// The length of a block.
pub const BLOCK: usize = 512;
/// Where the check stands.
const CHECK_AT: usize = 508;
/// "1 format (1)".
const FORMAT: u8 = 1;

/// "Byte 0 kind".
#[derive(Clone, Copy, PartialEq, Eq, Debug)]
#[repr(u8)]
pub enum Kind {
    /// Image head.
    Head = 1,
    /// Dots.
    Dots = 2,
    /// Stored point.
    Stored = 3,
    /// Outgoing message of a write or deletion.
    Outgoing = 4,
    /// Ask.
    Ask = 5,
    /// Reply head.
    ReplyHead = 6,
    /// Reading.
    Reading = 7,
}

/// "Check: over the 254 two-byte words of bytes 0-507, s1 is the sum modulo 65535, s2 the sum of the running s1 values
/// modulo 65535". The remainders are taken once at the end: 254 words of at most 65535 sum to less than 2^24, and the
/// 254 running sums to less than 2^31.2, so nothing overflows.
pub fn check_of(block: &[u8]) -> (u16, u16) {
    let (mut s1, mut s2) = (0u32, 0u32);
    for word in block[..CHECK_AT].chunks_exact(2) {
        s1 += u32::from(u16::from_le_bytes([word[0], word[1]]));
        s2 += s1;
    }
    ((s1 % 65535) as u16, (s2 % 65535) as u16)
}

/// Whether the block's check is right. A stored 65535 is never right, since a remainder is at most 65534.
pub fn check_is_right(block: &[u8]) -> bool {
    check_of(block) == (u16_at(block, CHECK_AT), u16_at(block, CHECK_AT + 2))
}

/// Puts the right check into a block.
pub fn mend(block: &mut [u8]) {
    let (s1, s2) = check_of(block);
    block[CHECK_AT..CHECK_AT + 2].copy_from_slice(&s1.to_le_bytes());
    block[CHECK_AT + 2..BLOCK].copy_from_slice(&s2.to_le_bytes());
}

/// Two bytes, little-endian.
pub fn u16_at(block: &[u8], at: usize) -> u16 {
    u16::from_le_bytes([block[at], block[at + 1]])
}

/// Four bytes, little-endian.
pub fn u32_at(block: &[u8], at: usize) -> u32 {
    u32::from_le_bytes(block[at..at + 4].try_into().expect("four bytes"))
}

/// Eight bytes, little-endian.
pub fn u64_at(block: &[u8], at: usize) -> u64 {
    u64::from_le_bytes(block[at..at + 8].try_into().expect("eight bytes"))
}

/// Whether all bytes are zero.
pub fn is_zero(bytes: &[u8]) -> bool {
    bytes.iter().all(|byte| *byte == 0)
}

/// A block being written: zeros, kind, format and position, then fields, then the check.
pub struct Writer {
    bytes: [u8; BLOCK],
}

impl Writer {
    /// A new block, with "Byte 0 kind, 1 format (1), 2-3 position in the sequence" and all else zero.
    pub fn new(kind: Kind, position: usize) -> Writer {
        let mut writer = Writer { bytes: [0; BLOCK] };
        writer.put(0, &[kind as u8, FORMAT]);
        writer.put(2, &(position as u16).to_le_bytes());
        writer
    }

    /// Puts bytes at a place.
    pub fn put(&mut self, at: usize, bytes: &[u8]) {
        self.bytes[at..at + bytes.len()].copy_from_slice(bytes);
    }

    /// Puts the check and hands the block out.
    pub fn seal(mut self) -> [u8; BLOCK] {
        mend(&mut self.bytes);
        self.bytes
    }
}

#[cfg(test)]
mod tests {
    use super::*;

    /// The check word by word, with the remainder taken at each step as the sentence has it.
    fn check_by_the_sentence(block: &[u8; BLOCK]) -> (u16, u16) {
        let (mut s1, mut s2) = (0u32, 0u32);
        for word in 0..254 {
            s1 = (s1 + u32::from(u16_at(block, 2 * word))) % 65535;
            s2 = (s2 + s1) % 65535;
        }
        (s1 as u16, s2 as u16)
    }

    #[test]
    fn taking_the_remainder_at_the_end_is_the_same() {
        let mut random = crate::random::Random::new(5);
        for round in 0..300 {
            let mut block = [0u8; BLOCK];
            for byte in block.iter_mut() {
                *byte = if round % 3 == 0 { 255 } else { random.below(256) as u8 };
            }
            if round % 3 == 1 {
                block[random.below(508)..508].fill(255);
            }
            assert_eq!(check_of(&block), check_by_the_sentence(&block));
        }
    }

    #[test]
    fn zeros_have_a_right_check_and_65535_is_never_one() {
        let mut block = [0u8; BLOCK];
        assert!(check_is_right(&block));
        block[508..].fill(255);
        assert!(!check_is_right(&block));
        block[508..].fill(0);
        block[..2].fill(255);
        assert_eq!(check_of(&block), (0, 0));
        assert!(check_is_right(&block));
    }
}
