//! Ethernet II frames, VLAN tags and ARP packets, with every field.

use crate::fault::{Fault, need};
use crate::job::Job;
use crate::random::Random;

/// Frames of 14 to 77 bytes.
pub struct EthernetFrames;

/// VLAN tags with 0 to 63 bytes after them.
pub struct VlanTags;

/// ARP packets of Ethernet and IPv4, with padding.
pub struct ArpPackets;

impl Job for EthernetFrames {
    fn packet(random: &mut Random) -> Vec<u8> {
        let mut packet = Vec::new();
        let payload_len = random.below(64);
        random.append(14 + usize::from(payload_len), &mut packet);
        packet
    }

    fn sum(packet: &[u8]) -> u64 {
        match Frame::parse(packet) {
            Ok(frame) => sum_of_frame(&frame),
            Err(_) => 1,
        }
    }
}

impl Job for VlanTags {
    fn packet(random: &mut Random) -> Vec<u8> {
        let mut packet = Vec::new();
        let payload_len = random.below(64);
        random.append(4 + usize::from(payload_len), &mut packet);
        packet
    }

    fn sum(packet: &[u8]) -> u64 {
        match Tag::parse(packet) {
            Ok(tag) => sum_of_tag(&tag),
            Err(_) => 1,
        }
    }
}

impl Job for ArpPackets {
    fn packet(random: &mut Random) -> Vec<u8> {
        let mut packet = vec![0, 1, 8, 0, 6, 4, 0, 1 + random.below(2)];
        let padding = random.below(19);
        random.append(20 + usize::from(padding), &mut packet);
        packet
    }

    fn sum(packet: &[u8]) -> u64 {
        match Arp::parse(packet) {
            Ok(packet) => sum_of_arp(&packet),
            Err(_) => 1,
        }
    }
}

pub struct Frame<'a> {
    pub header: &'a [u8; 14],
    pub payload: &'a [u8],
}

pub struct Tag<'a> {
    pub header: &'a [u8; 4],
    pub payload: &'a [u8],
}

pub struct Arp<'a> {
    pub fixed: &'a [u8; 8],
    pub sender_hardware: &'a [u8],
    pub sender_protocol: &'a [u8],
    pub target_hardware: &'a [u8],
    pub target_protocol: &'a [u8],
}

impl<'a> Frame<'a> {
    pub fn parse(bytes: &'a [u8]) -> Result<Frame<'a>, Fault> {
        let (header, payload) = header_in(bytes)?;
        Ok(Frame { header, payload })
    }
}

impl<'a> Tag<'a> {
    pub fn parse(bytes: &'a [u8]) -> Result<Tag<'a>, Fault> {
        let (header, payload) = header_in(bytes)?;
        Ok(Tag { header, payload })
    }
}

impl<'a> Arp<'a> {
    /// As RFC 826 has it ("Packet format").
    pub fn parse(bytes: &'a [u8]) -> Result<Arp<'a>, Fault> {
        let (fixed, rest) = header_in::<8>(bytes)?;
        let (hardware, protocol) = (usize::from(fixed[4]), usize::from(fixed[5]));
        need(8 + 2 * hardware + 2 * protocol, bytes, 0)?;
        let (sender_hardware, rest) = rest.split_at(hardware);
        let (sender_protocol, rest) = rest.split_at(protocol);
        let (target_hardware, rest) = rest.split_at(hardware);
        Ok(Arp {
            fixed,
            sender_hardware,
            sender_protocol,
            target_hardware,
            target_protocol: &rest[..protocol],
        })
    }
}

fn header_in<const LEN: usize>(bytes: &[u8]) -> Result<(&[u8; LEN], &[u8]), Fault> {
    bytes.split_first_chunk().ok_or(Fault::Short {
        needed: LEN,
        found: bytes.len(),
        at: 0,
    })
}

pub fn word(high: u8, low: u8) -> u64 {
    u64::from(u16::from_be_bytes([high, low]))
}

fn sum_of_frame(frame: &Frame) -> u64 {
    let [a, b, c, d, e, f, g, h, i, j, k, l, m, n] = *frame.header;
    let ether_type = word(m, n);
    let (header_len, payload_len) = (14, frame.payload.len() as u64);
    sum_of_address([a, b, c, d, e, f])
        + sum_of_address([g, h, i, j, k, l])
        + 2 * ether_type
        + 2 * header_len
        + 2 * payload_len
        + (header_len + payload_len)
}

pub fn sum_of_address([a, b, c, d, e, f]: [u8; 6]) -> u64 {
    u64::from(u32::from_be_bytes([a, b, c, d])) + word(e, f)
}

fn sum_of_tag(tag: &Tag) -> u64 {
    let [a, b, c, d] = *tag.header;
    let (header_len, payload_len) = (4, tag.payload.len() as u64);
    u64::from(a >> 5)
        + u64::from(a >> 4 & 1)
        + (word(a, b) & 0xfff)
        + 2 * word(c, d)
        + 2 * header_len
        + 2 * payload_len
        + (header_len + payload_len)
}

fn sum_of_arp(packet: &Arp) -> u64 {
    let [a, b, c, d, hardware, protocol, e, f] = *packet.fixed;
    let len = 8 + 2 * u64::from(hardware) + 2 * u64::from(protocol);
    word(a, b)
        + word(c, d)
        + u64::from(hardware)
        + u64::from(protocol)
        + word(e, f)
        + len
        + sum_of_bytes(packet.sender_hardware)
        + sum_of_bytes(packet.sender_protocol)
        + sum_of_bytes(packet.target_hardware)
        + sum_of_bytes(packet.target_protocol)
}

/// The length, the first and the last byte.
pub fn sum_of_bytes(bytes: &[u8]) -> u64 {
    match bytes {
        [first, .., last] => bytes.len() as u64 + u64::from(*first) + u64::from(*last),
        _ => 1,
    }
}
