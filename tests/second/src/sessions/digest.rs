//! FNV-1a of 64 bits.

const START: u64 = 0xCBF2_9CE4_8422_2325;
const PRIME: u64 = 0x0000_0100_0000_01B3;

fn of_iterator(bytes: impl Iterator<Item = u8>) -> u64 {
    bytes.fold(START, |digest, byte| (digest ^ byte as u64).wrapping_mul(PRIME))
}

pub fn of_bytes(bytes: &[u8]) -> u64 {
    of_iterator(bytes.iter().copied())
}

/// Each number as eight bytes, the least first.
pub fn of_numbers(numbers: &[u64]) -> u64 {
    of_iterator(numbers.iter().flat_map(|number| number.to_le_bytes()))
}

#[cfg(test)]
mod tests {
    use super::*;

    #[test]
    fn known_digests() {
        assert_eq!(of_bytes(b""), 0xCBF2_9CE4_8422_2325);
        assert_eq!(of_bytes(b"a"), 0xAF63_DC4C_8601_EC8C);
        assert_eq!(of_bytes(b"foobar"), 0x8594_4171_F739_67E8);
        assert_eq!(of_numbers(&[0x6F6F_66]), of_bytes(b"foo\0\0\0\0\0"));
    }
}
