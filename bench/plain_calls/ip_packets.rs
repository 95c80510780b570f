//! IP packets, with every field of packet, header, extension headers and payload.

use crate::fault::{Fault, need};
use crate::ipv4_headers::{sum_of_header, whole_header};
use crate::job::Job;
use crate::random::Random;
use std::net::{IpAddr, Ipv4Addr, Ipv6Addr};

/// IPv4 packets of 20 to 83 bytes, with padding.
pub struct Ipv4Packets;

/// IPv6 packets of 40 to 103 bytes, with padding.
pub struct Ipv6Packets;

/// IPv6 packets with destination options, a fragment header and a payload of up to 63 bytes.
pub struct Ipv6PacketsTwoExtensions;

impl Job for Ipv4Packets {
    fn packet(random: &mut Random) -> Vec<u8> {
        let payload_len = random.below(64);
        let mut packet = vec![0x45, random.byte(), 0, 20 + payload_len];
        random.append(5, &mut packet);
        packet.push(17);
        random.append(10 + usize::from(payload_len), &mut packet);
        let padding = random.below(16);
        random.append(usize::from(padding), &mut packet);
        packet
    }

    fn sum(packet: &[u8]) -> u64 {
        sum_of_slice(packet)
    }
}

impl Job for Ipv6Packets {
    fn packet(random: &mut Random) -> Vec<u8> {
        let payload_len = random.below(63) + 1;
        let mut packet = ipv6_header(random, 17, payload_len);
        random.append(usize::from(payload_len), &mut packet);
        let padding = random.below(16);
        random.append(usize::from(padding), &mut packet);
        packet
    }

    fn sum(packet: &[u8]) -> u64 {
        sum_of_slice(packet)
    }
}

impl Job for Ipv6PacketsTwoExtensions {
    fn packet(random: &mut Random) -> Vec<u8> {
        let payload_len = random.below(64);
        let words = random.below(3);
        let mut packet = ipv6_header(random, 60, 16 + 8 * words + payload_len);
        packet.extend_from_slice(&[44, words]);
        random.append(6 + 8 * usize::from(words), &mut packet);
        packet.push(17);
        random.append(7 + usize::from(payload_len), &mut packet);
        let padding = random.below(16);
        random.append(usize::from(padding), &mut packet);
        packet
    }

    fn sum(packet: &[u8]) -> u64 {
        sum_of_slice(packet)
    }
}

fn ipv6_header(random: &mut Random, next_header: u8, payload_length: u8) -> Vec<u8> {
    let mut packet = vec![0x60 + random.below(16)];
    random.append(3, &mut packet);
    packet.extend_from_slice(&[0, payload_length, next_header]);
    random.append(33, &mut packet);
    packet
}

enum Packet<'a> {
    V4(Ipv4<'a>),
    V6(Ipv6<'a>),
}

pub struct Ipv4<'a> {
    pub header: &'a [u8],
    pub authentication: Option<&'a [u8]>,
    pub payload: Payload<'a>,
}

pub struct Ipv6<'a> {
    pub header: &'a [u8; IPV6_HEADER],
    pub extensions: Extensions<'a>,
    pub payload: Payload<'a>,
}

pub struct Extensions<'a> {
    pub first: Option<u8>,
    pub is_fragment: bool,
    pub bytes: &'a [u8],
}

#[derive(Clone, Copy)]
pub struct Payload<'a> {
    pub number: u8,
    pub is_fragment: bool,
    pub source: LenSource,
    pub bytes: &'a [u8],
}

/// What the length of the payload came from, by the numbers that the library gives them.
#[derive(Clone, Copy)]
pub enum LenSource {
    Slice = 0,
    TotalLen = 2,
    PayloadLength = 3,
}

pub const IPV6_HEADER: usize = 40;
pub const HOP_BY_HOP: u8 = 0;
pub const ROUTING: u8 = 43;
pub const FRAGMENT: u8 = 44;
pub const AUTHENTICATION: u8 = 51;
pub const DESTINATION_OPTIONS: u8 = 60;

impl<'a> Packet<'a> {
    fn parse(bytes: &'a [u8]) -> Result<Packet<'a>, Fault> {
        need(1, bytes, 0)?;
        match bytes[0] >> 4 {
            4 => Ok(Packet::V4(Ipv4::parse(bytes)?)),
            6 => Ok(Packet::V6(Ipv6::parse(bytes)?)),
            version => Err(Fault::Version(version)),
        }
    }

    fn source(&self) -> IpAddr {
        match self {
            Packet::V4(packet) => IpAddr::V4(packet.address(12)),
            Packet::V6(packet) => IpAddr::V6(packet.address(8)),
        }
    }

    fn destination(&self) -> IpAddr {
        match self {
            Packet::V4(packet) => IpAddr::V4(packet.address(16)),
            Packet::V6(packet) => IpAddr::V6(packet.address(24)),
        }
    }

    fn payload(&self) -> &Payload<'a> {
        match self {
            Packet::V4(packet) => &packet.payload,
            Packet::V6(packet) => &packet.payload,
        }
    }
}

impl<'a> Ipv4<'a> {
    pub fn parse(bytes: &'a [u8]) -> Result<Ipv4<'a>, Fault> {
        let header = whole_header(bytes)?;
        let total_len = usize::from(u16::from_be_bytes([header[2], header[3]]));
        if total_len < header.len() {
            return Err(Fault::Short {
                needed: header.len(),
                found: total_len,
                at: 0,
            });
        }
        need(total_len, bytes, 0)?;
        let body = &bytes[header.len()..total_len];
        let is_fragment = u16::from_be_bytes([header[6], header[7]]) & 0x3fff != 0;
        let (authentication, number, payload) = match header[9] {
            AUTHENTICATION => {
                let (extension, payload) = body.split_at(authentication_len(body, header.len())?);
                (Some(extension), extension[0], payload)
            }
            number => (None, number, body),
        };
        Ok(Ipv4 {
            header,
            authentication,
            payload: Payload {
                number,
                is_fragment,
                source: LenSource::TotalLen,
                bytes: payload,
            },
        })
    }

    pub fn address(&self, at: usize) -> Ipv4Addr {
        Ipv4Addr::new(
            self.header[at],
            self.header[at + 1],
            self.header[at + 2],
            self.header[at + 3],
        )
    }
}

impl<'a> Ipv6<'a> {
    pub fn parse(bytes: &'a [u8]) -> Result<Ipv6<'a>, Fault> {
        let (header, rest) = Ipv6::header(bytes)?;
        let payload_length = usize::from(u16::from_be_bytes([header[4], header[5]]));
        let (source, body) = if payload_length == 0 && !rest.is_empty() {
            (LenSource::Slice, rest)
        } else {
            need(payload_length, rest, IPV6_HEADER)?;
            (LenSource::PayloadLength, &rest[..payload_length])
        };
        let (extensions, number, payload) = Extensions::parse(header[6], body)?;
        let is_fragment = extensions.is_fragment;
        Ok(Ipv6 {
            header,
            extensions,
            payload: Payload {
                number,
                is_fragment,
                source,
                bytes: payload,
            },
        })
    }

    /// The header at the start, and what follows it.
    pub fn header(bytes: &'a [u8]) -> Result<(&'a [u8; IPV6_HEADER], &'a [u8]), Fault> {
        let Some((header, rest)) = bytes.split_first_chunk() else {
            return Err(Fault::Short {
                needed: IPV6_HEADER,
                found: bytes.len(),
                at: 0,
            });
        };
        if header[0] >> 4 != 6 {
            return Err(Fault::Version(header[0] >> 4));
        }
        Ok((header, rest))
    }

    pub fn address(&self, at: usize) -> Ipv6Addr {
        let mut octets = [0; 16];
        octets.copy_from_slice(&self.header[at..at + 16]);
        Ipv6Addr::from(octets)
    }
}

impl<'a> Extensions<'a> {
    /// The extension headers at the start of the bytes, and the number and the bytes after them.
    fn parse(first: u8, bytes: &'a [u8]) -> Result<(Extensions<'a>, u8, &'a [u8]), Fault> {
        let (mut number, mut rest, mut is_fragment) = (first, bytes, false);
        loop {
            let at = IPV6_HEADER + bytes.len() - rest.len();
            let len = match number {
                HOP_BY_HOP if rest.len() < bytes.len() => return Err(Fault::HopByHopNotAtStart),
                HOP_BY_HOP | ROUTING | DESTINATION_OPTIONS => options_len(rest, at)?,
                AUTHENTICATION => authentication_len(rest, at)?,
                FRAGMENT => {
                    need(8, rest, at)?;
                    is_fragment |= is_part(rest);
                    8
                }
                _ => break,
            };
            number = rest[0];
            rest = &rest[len..];
        }
        let len = bytes.len() - rest.len();
        let extensions = Extensions {
            first: if len > 0 { Some(first) } else { None },
            is_fragment,
            bytes: &bytes[..len],
        };
        Ok((extensions, number, rest))
    }
}

/// The length of hop-by-hop options, a routing header or destination options (RFC 8200, section 4).
pub fn options_len(bytes: &[u8], at: usize) -> Result<usize, Fault> {
    need(8, bytes, at)?;
    let len = 8 * (usize::from(bytes[1]) + 1);
    need(len, bytes, at)?;
    Ok(len)
}

/// The length of an authentication header (RFC 4302, section 2.2).
pub fn authentication_len(bytes: &[u8], at: usize) -> Result<usize, Fault> {
    need(12, bytes, at)?;
    if bytes[1] == 0 {
        return Err(Fault::EmptyAuthentication);
    }
    let len = 4 * (usize::from(bytes[1]) + 2);
    need(len, bytes, at)?;
    Ok(len)
}

/// Whether a fragment header is that of a part of a message (RFC 8200, section 4.5).
pub fn is_part(header: &[u8]) -> bool {
    u16::from_be_bytes([header[2], header[3]]) & 0xfff9 != 0
}

fn sum_of_slice(packet: &[u8]) -> u64 {
    match Packet::parse(packet) {
        Ok(packet) => sum_of_packet(&packet),
        Err(_) => 1,
    }
}

fn sum_of_packet(packet: &Packet) -> u64 {
    let addresses =
        sum_of_address(packet.source()).wrapping_add(sum_of_address(packet.destination()));
    let payload = packet.payload();
    let fields = 2 * u64::from(payload.number)
        + 2 * u64::from(payload.is_fragment)
        + payload.source as u64
        + payload.bytes.len() as u64;
    let version = match packet {
        Packet::V4(packet) => sum_of_ipv4(packet),
        Packet::V6(packet) => sum_of_ipv6(packet),
    };
    addresses.wrapping_add(fields).wrapping_add(version)
}

fn sum_of_address(address: IpAddr) -> u64 {
    match address {
        IpAddr::V4(address) => u64::from(address.to_bits()),
        IpAddr::V6(address) => sum_of_octets(&address.octets()),
    }
}

fn sum_of_octets(octets: &[u8; 16]) -> u64 {
    let number = u128::from_be_bytes(*octets);
    ((number >> 64) as u64).wrapping_add(number as u64)
}

fn sum_of_ipv4(packet: &Ipv4) -> u64 {
    sum_of_header(packet.header)
        + u64::from(packet.payload.number)
        + u64::from(packet.payload.is_fragment)
        + u64::from(packet.authentication.is_none())
        + packet.payload.bytes.len() as u64
}

fn sum_of_ipv6(packet: &Ipv6) -> u64 {
    let header = packet.header;
    let word = u32::from_be_bytes([header[0], header[1], header[2], header[3]]);
    let traffic_class = (word >> 20) as u8;
    let fields = u64::from(header[0] >> 4)
        + u64::from(traffic_class)
        + u64::from(traffic_class >> 2)
        + u64::from(traffic_class & 3)
        + u64::from(word & 0xf_ffff)
        + u64::from(u16::from_be_bytes([header[4], header[5]]))
        + u64::from(header[6])
        + u64::from(header[7])
        + u64::from(packet.payload.number)
        + u64::from(packet.payload.is_fragment)
        + packet.payload.bytes.len() as u64;
    fields
        .wrapping_add(sum_of_octets(&packet.address(8).octets()))
        .wrapping_add(sum_of_octets(&packet.address(24).octets()))
        .wrapping_add(sum_of_extensions(&packet.extensions))
}

fn sum_of_extensions(extensions: &Extensions) -> u64 {
    let mut sum = extensions.first.map_or(256, u64::from)
        + u64::from(extensions.is_fragment)
        + u64::from(extensions.bytes.is_empty())
        + extensions.bytes.len() as u64;
    let mut number = extensions.first.unwrap_or(0);
    let mut rest = extensions.bytes;
    while !rest.is_empty() {
        let len = match number {
            FRAGMENT => 8,
            AUTHENTICATION => 4 * (usize::from(rest[1]) + 2),
            _ => 8 * (usize::from(rest[1]) + 1),
        };
        let (header, following) = rest.split_at(len);
        sum = sum.wrapping_add(sum_of_extension(number, header));
        (number, rest) = (header[0], following);
    }
    sum
}

fn sum_of_extension(number: u8, header: &[u8]) -> u64 {
    let next = u64::from(header[0]);
    match number {
        FRAGMENT => sum_of_fragment(header),
        AUTHENTICATION => {
            let word = |at: usize| {
                u64::from(u32::from_be_bytes([
                    header[at],
                    header[at + 1],
                    header[at + 2],
                    header[at + 3],
                ]))
            };
            next + word(4) + word(8) + header[12..].len() as u64
        }
        _ => next + header[2..].len() as u64,
    }
}

fn sum_of_fragment(header: &[u8]) -> u64 {
    let offset_and_more = u16::from_be_bytes([header[2], header[3]]);
    let identification = u32::from_be_bytes([header[4], header[5], header[6], header[7]]);
    u64::from(header[0])
        + u64::from(offset_and_more >> 3)
        + u64::from(offset_and_more & 1)
        + u64::from(is_part(header))
        + u64::from(identification)
}
