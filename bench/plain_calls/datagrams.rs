//! UDP datagrams, with every field.

use crate::fault::{Fault, need};
use crate::job::Job;
use crate::random::Random;

/// UDP datagrams of 8 to 71 bytes, with padding.
pub struct UdpDatagrams;

impl Job for UdpDatagrams {
    fn packet(random: &mut Random) -> Vec<u8> {
        let payload_len = random.below(64);
        let mut packet = Vec::new();
        random.append(4, &mut packet);
        packet.extend_from_slice(&[0, 8 + payload_len]);
        random.append(2 + usize::from(payload_len), &mut packet);
        let padding = random.below(16);
        random.append(usize::from(padding), &mut packet);
        packet
    }

    fn sum(packet: &[u8]) -> u64 {
        match Datagram::parse(packet) {
            Ok(datagram) => sum_of_fields(&datagram),
            Err(_) => 1,
        }
    }
}

pub struct Datagram<'a> {
    pub header: &'a [u8; HEADER],
    pub payload: &'a [u8],
    pub len_source: u8,
}

pub const HEADER: usize = 8;

impl<'a> Datagram<'a> {
    /// As RFC 768 has it; a length of 0 stands for all bytes (RFC 2675, section 4).
    pub fn parse(bytes: &'a [u8]) -> Result<Datagram<'a>, Fault> {
        let Some((header, rest)) = bytes.split_first_chunk() else {
            return Err(Fault::Short {
                needed: HEADER,
                found: bytes.len(),
                at: 0,
            });
        };
        let length = usize::from(u16::from_be_bytes([header[4], header[5]]));
        need(length, bytes, 0)?;
        if length == 0 {
            return Ok(Datagram {
                header,
                payload: rest,
                len_source: 0,
            });
        }
        if length < HEADER {
            return Err(Fault::Short {
                needed: HEADER,
                found: length,
                at: 0,
            });
        }
        Ok(Datagram {
            header,
            payload: &rest[..length - HEADER],
            len_source: 4,
        })
    }
}

fn sum_of_fields(datagram: &Datagram) -> u64 {
    let word = |at: usize| {
        u64::from(u16::from_be_bytes([
            datagram.header[at],
            datagram.header[at + 1],
        ]))
    };
    let payload_len = datagram.payload.len() as u64;
    let header_len = HEADER as u64;
    word(0)
        + word(2)
        + word(4)
        + word(6)
        + u64::from(datagram.len_source)
        + header_len
        + header_len
        + (header_len + payload_len)
        + payload_len
}
