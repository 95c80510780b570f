//! The Internet checksum of texts of one length.

use crate::job::Job;
use crate::random::Random;

/// The checksum of texts of so many bytes.
pub struct Checksums<const LEN: usize>;

impl<const LEN: usize> Job for Checksums<LEN> {
    fn packet(random: &mut Random) -> Vec<u8> {
        let mut packet = Vec::new();
        random.append(LEN, &mut packet);
        packet
    }

    fn sum(packet: &[u8]) -> u64 {
        u64::from(!folded(total(packet)))
    }
}

/// The sum of the words, an odd last byte followed by a zero byte (RFC 1071, section 1).
pub fn total(bytes: &[u8]) -> u64 {
    let (words, rest) = bytes.as_chunks::<4>();
    let mut sum = 0u64;
    for word in words {
        sum += u64::from(u32::from_be_bytes(*word));
    }
    let (words, rest) = rest.as_chunks::<2>();
    for word in words {
        sum += u64::from(u16::from_be_bytes(*word));
    }
    if let [last] = rest {
        sum += u64::from(*last) << 8;
    }
    sum
}

/// The sum with its carries added back.
pub fn folded(total: u64) -> u16 {
    let mut sum = total;
    while sum > 0xffff {
        sum = (sum >> 16) + (sum & 0xffff);
    }
    sum as u16
}
