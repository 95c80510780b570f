//! Every field of IPv4 headers of 20 to 60 bytes.

use crate::fault::{Fault, need};
use crate::job::Job;
use crate::random::Random;

/// Headers of 20 to 60 bytes, with other bytes after them.
pub struct Ipv4Headers;

impl Job for Ipv4Headers {
    fn packet(random: &mut Random) -> Vec<u8> {
        let mut packet = vec![0x45 + random.below(11)];
        random.append(59, &mut packet);
        packet
    }

    fn sum(packet: &[u8]) -> u64 {
        match whole_header(packet) {
            Ok(header) => sum_of_header(header),
            Err(_) => 1,
        }
    }
}

pub const SHORTEST: usize = 20;

/// The header at the start, tested as RFC 791 requires (section 3.1).
pub fn whole_header(bytes: &[u8]) -> Result<&[u8], Fault> {
    need(SHORTEST, bytes, 0)?;
    let (version, words) = (bytes[0] >> 4, bytes[0] & 0xf);
    if version != 4 {
        return Err(Fault::Version(version));
    }
    let header_len = 4 * usize::from(words);
    if header_len < SHORTEST {
        return Err(Fault::HeaderWords(words));
    }
    need(header_len, bytes, 0)?;
    Ok(&bytes[..header_len])
}

pub fn sum_of_header(header: &[u8]) -> u64 {
    let (fixed, options) = header.split_at(SHORTEST);
    let word = |at: usize| u16::from_be_bytes([fixed[at], fixed[at + 1]]);
    let address = |at| u32::from_be_bytes([fixed[at], fixed[at + 1], fixed[at + 2], fixed[at + 3]]);
    let (version, ihl) = (fixed[0] >> 4, fixed[0] & 0xf);
    let (dscp, ecn) = (fixed[1] >> 2, fixed[1] & 3);
    let total_len = word(2);
    let payload_len = total_len.checked_sub(header.len() as u16).unwrap_or(0);
    let dont_fragment = fixed[6] & 0x40 != 0;
    let more_fragments = fixed[6] & 0x20 != 0;
    let offset = word(6) & 0x1fff;
    let is_fragment = more_fragments || offset != 0;
    u64::from(version)
        + u64::from(ihl)
        + u64::from(dscp)
        + u64::from(ecn)
        + u64::from(total_len)
        + u64::from(payload_len)
        + u64::from(word(4))
        + u64::from(dont_fragment)
        + u64::from(more_fragments)
        + u64::from(offset)
        + u64::from(is_fragment)
        + u64::from(fixed[8])
        + u64::from(fixed[9])
        + u64::from(word(10))
        + u64::from(address(12))
        + u64::from(address(16))
        + options.len() as u64
}
