//! ICMP echo messages, with every field and their checksum.

use crate::checksums::{folded, total};
use crate::fault::Fault;
use crate::job::Job;
use crate::random::Random;

const SOURCE: [u8; 16] = [0x20, 1, 0x0d, 0xb8, 0, 0, 0, 0, 0, 0, 0, 0, 0, 0, 0, 1];
const DESTINATION: [u8; 16] = [0x20, 1, 0x0d, 0xb8, 0, 0, 0, 0, 0, 0, 0, 0, 0, 0, 0, 2];

/// ICMPv4 echo requests and replies of 8 to 71 bytes.
pub struct Icmpv4Echoes;

/// ICMPv6 echo requests and replies of 8 to 71 bytes.
pub struct Icmpv6Echoes;

impl Job for Icmpv4Echoes {
    fn packet(random: &mut Random) -> Vec<u8> {
        let type_u8 = 8 * random.below(2);
        echo(random, type_u8)
    }

    fn sum(packet: &[u8]) -> u64 {
        match Message::parse_icmpv4(packet) {
            Ok(message) => sum_of_icmpv4(&message),
            Err(_) => 1,
        }
    }
}

impl Job for Icmpv6Echoes {
    fn packet(random: &mut Random) -> Vec<u8> {
        let type_u8 = 128 + random.below(2);
        echo(random, type_u8)
    }

    fn sum(packet: &[u8]) -> u64 {
        match Message::parse(packet) {
            Ok(message) => sum_of_icmpv6(&message),
            Err(_) => 1,
        }
    }
}

fn echo(random: &mut Random, type_u8: u8) -> Vec<u8> {
    let mut packet = vec![type_u8, 0];
    let payload_len = random.below(64);
    random.append(6 + usize::from(payload_len), &mut packet);
    packet
}

pub struct Message<'a> {
    pub header: &'a [u8; HEADER],
    pub payload: &'a [u8],
}

const HEADER: usize = 8;

/// The kinds of RFC 792, by type and code.
#[allow(dead_code)]
enum Icmpv4Kind {
    EchoReply(Echo),
    Unreachable {
        code: u8,
        next_hop_mtu: u16,
    },
    Redirect {
        code: u8,
        gateway: [u8; 4],
    },
    EchoRequest(Echo),
    TimeExceeded {
        code: u8,
    },
    ParameterProblem {
        code: u8,
        pointer: u8,
    },
    TimestampRequest([u8; 16]),
    TimestampReply([u8; 16]),
    Unknown {
        type_u8: u8,
        code: u8,
        bytes: [u8; 4],
    },
}

/// The kinds of RFC 4443, by type and code.
#[allow(dead_code)]
enum Icmpv6Kind {
    Unreachable {
        code: u8,
    },
    PacketTooBig {
        mtu: u32,
    },
    TimeExceeded {
        code: u8,
    },
    ParameterProblem {
        code: u8,
        pointer: u32,
    },
    EchoRequest(Echo),
    EchoReply(Echo),
    Unknown {
        type_u8: u8,
        code: u8,
        bytes: [u8; 4],
    },
}

struct Echo {
    id: u16,
    sequence: u16,
}

impl Echo {
    fn of([a, b, c, d]: [u8; 4]) -> Echo {
        Echo {
            id: u16::from_be_bytes([a, b]),
            sequence: u16::from_be_bytes([c, d]),
        }
    }

    fn sum(&self) -> u64 {
        u64::from(self.id) + u64::from(self.sequence)
    }
}

impl<'a> Message<'a> {
    pub fn parse(bytes: &'a [u8]) -> Result<Message<'a>, Fault> {
        let (header, payload) = bytes.split_first_chunk().ok_or(Fault::Short {
            needed: HEADER,
            found: bytes.len(),
            at: 0,
        })?;
        Ok(Message { header, payload })
    }

    /// The same, and timestamp messages have 20 bytes (RFC 792).
    pub fn parse_icmpv4(bytes: &'a [u8]) -> Result<Message<'a>, Fault> {
        let message = Message::parse(bytes)?;
        if matches!(message.header, [13 | 14, 0, ..]) && bytes.len() != 20 {
            return Err(Fault::Length(bytes.len()));
        }
        Ok(message)
    }

    fn icmpv4_kind(&self) -> Icmpv4Kind {
        let [type_u8, code, _, _, a, b, c, d] = *self.header;
        let bytes = [a, b, c, d];
        match (type_u8, code) {
            (0, 0) => Icmpv4Kind::EchoReply(Echo::of(bytes)),
            (3, 0..=15) => Icmpv4Kind::Unreachable {
                code,
                next_hop_mtu: u16::from_be_bytes([c, d]),
            },
            (5, 0..=3) => Icmpv4Kind::Redirect {
                code,
                gateway: bytes,
            },
            (8, 0) => Icmpv4Kind::EchoRequest(Echo::of(bytes)),
            (11, 0 | 1) => Icmpv4Kind::TimeExceeded { code },
            (12, 0..=2) => Icmpv4Kind::ParameterProblem { code, pointer: a },
            (13, 0) => Icmpv4Kind::TimestampRequest(self.timestamp()),
            (14, 0) => Icmpv4Kind::TimestampReply(self.timestamp()),
            _ => Icmpv4Kind::Unknown {
                type_u8,
                code,
                bytes,
            },
        }
    }

    fn timestamp(&self) -> [u8; 16] {
        let mut bytes = [0; 16];
        bytes[..4].copy_from_slice(&self.header[4..]);
        bytes[4..].copy_from_slice(&self.payload[..12]);
        bytes
    }

    fn icmpv6_kind(&self) -> Icmpv6Kind {
        let [type_u8, code, _, _, a, b, c, d] = *self.header;
        let bytes = [a, b, c, d];
        match (type_u8, code) {
            (1, 0..=6) => Icmpv6Kind::Unreachable { code },
            (2, 0) => Icmpv6Kind::PacketTooBig {
                mtu: u32::from_be_bytes(bytes),
            },
            (3, 0 | 1) => Icmpv6Kind::TimeExceeded { code },
            (4, 0..=10) => Icmpv6Kind::ParameterProblem {
                code,
                pointer: u32::from_be_bytes(bytes),
            },
            (128, 0) => Icmpv6Kind::EchoRequest(Echo::of(bytes)),
            (129, 0) => Icmpv6Kind::EchoReply(Echo::of(bytes)),
            _ => Icmpv6Kind::Unknown {
                type_u8,
                code,
                bytes,
            },
        }
    }

    /// The length of an ICMPv4 header, 20 in a timestamp message.
    fn icmpv4_header_len(&self) -> usize {
        match self.header {
            [13 | 14, 0, ..] => 20,
            _ => HEADER,
        }
    }

    /// The sum of all words but the checksum's.
    fn sum_without_checksum(&self) -> u64 {
        let [type_u8, code, _, _, a, b, c, d] = *self.header;
        total(&[type_u8, code, a, b, c, d]) + total(self.payload)
    }

    fn checksum(&self) -> u16 {
        u16::from_be_bytes([self.header[2], self.header[3]])
    }
}

/// The sum of the pseudo header of RFC 8200, section 8.1.
fn pseudo_total(len: u32) -> u64 {
    total(&SOURCE) + total(&DESTINATION) + u64::from(len >> 16) + u64::from(len & 0xffff) + 58
}

fn sum_of_icmpv4(message: &Message) -> u64 {
    let kind = match message.icmpv4_kind() {
        Icmpv4Kind::EchoRequest(echo) => echo.sum(),
        Icmpv4Kind::EchoReply(echo) => 2 * echo.sum(),
        _ => 1,
    };
    sum_of_fields(message, message.icmpv4_header_len())
        + kind
        + u64::from(!folded(message.sum_without_checksum()))
}

fn sum_of_icmpv6(message: &Message) -> u64 {
    let kind = match message.icmpv6_kind() {
        Icmpv6Kind::EchoRequest(echo) => echo.sum(),
        Icmpv6Kind::EchoReply(echo) => 2 * echo.sum(),
        _ => 1,
    };
    let len = HEADER + message.payload.len();
    let right = pseudo_total(len as u32) + message.sum_without_checksum();
    let found = pseudo_total(len as u32) + total(message.header) + total(message.payload);
    sum_of_fields(message, HEADER)
        + kind
        + u64::from(!folded(right))
        + u64::from(folded(found) == 0xffff)
}

fn sum_of_fields(message: &Message, header_len: usize) -> u64 {
    let [type_u8, code, _, _, a, b, c, d] = *message.header;
    let len = (HEADER + message.payload.len()) as u64;
    let header_len = header_len as u64;
    u64::from(type_u8)
        + u64::from(code)
        + u64::from(message.checksum())
        + u64::from(u32::from_be_bytes([a, b, c, d]))
        + header_len
        + (len - header_len)
        + len
}
