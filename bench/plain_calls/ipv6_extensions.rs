//! Rows of IPv6 extension headers: skipped, and read with copies of their bytes.

use crate::fault::{Fault, need};
use crate::ip_packets::{
    AUTHENTICATION, DESTINATION_OPTIONS, FRAGMENT, HOP_BY_HOP, ROUTING, authentication_len,
    options_len,
};
use crate::job::Job;
use crate::random::Random;

/// Skips so many extension headers: none, one or four.
pub struct SkippedExtensions<const HEADERS: u8>;

/// Reads so many extension headers: none, one or four.
pub struct ReadExtensions<const HEADERS: u8>;

impl<const HEADERS: u8> Job for SkippedExtensions<HEADERS> {
    fn packet(random: &mut Random) -> Vec<u8> {
        row(random, HEADERS)
    }

    fn sum(packet: &[u8]) -> u64 {
        let Some((first, row)) = packet.split_first() else {
            return 0;
        };
        match skip(*first, row) {
            Ok((number, rest)) => u64::from(number) + rest.len() as u64,
            Err(_) => 1,
        }
    }
}

impl<const HEADERS: u8> Job for ReadExtensions<HEADERS> {
    fn packet(random: &mut Random) -> Vec<u8> {
        row(random, HEADERS)
    }

    fn sum(packet: &[u8]) -> u64 {
        let Some((first, row)) = packet.split_first() else {
            return 0;
        };
        match Extensions::read(*first, row) {
            Ok((extensions, number, rest)) => {
                u64::from(number) + rest.len() as u64 + sum_of_extensions(&extensions)
            }
            Err(_) => 1,
        }
    }
}

fn row(random: &mut Random, headers: u8) -> Vec<u8> {
    let mut row = Vec::new();
    match headers {
        0 => row.push(17),
        1 => {
            row.push(HOP_BY_HOP);
            append_options(random, 17, &mut row);
        }
        _ => {
            row.push(HOP_BY_HOP);
            append_options(random, ROUTING, &mut row);
            append_options(random, FRAGMENT, &mut row);
            row.push(DESTINATION_OPTIONS);
            random.append(7, &mut row);
            append_options(random, 17, &mut row);
        }
    }
    let payload_len = random.below(64);
    random.append(usize::from(payload_len), &mut row);
    row
}

fn append_options(random: &mut Random, next: u8, row: &mut Vec<u8>) {
    let words = random.below(3);
    row.extend_from_slice(&[next, words]);
    random.append(6 + 8 * usize::from(words), row);
}

const MOBILITY: u8 = 135;
const HIP: u8 = 139;
const SHIM6: u8 = 140;

/// The number and the bytes after the extension headers at the start of the bytes.
fn skip(first: u8, bytes: &[u8]) -> Result<(u8, &[u8]), Fault> {
    let (mut number, mut rest) = (first, bytes);
    loop {
        let at = bytes.len() - rest.len();
        let len = match number {
            HOP_BY_HOP | ROUTING | DESTINATION_OPTIONS | MOBILITY | HIP | SHIM6 => {
                options_len(rest, at)?
            }
            FRAGMENT => {
                need(8, rest, at)?;
                8
            }
            AUTHENTICATION => {
                need(8, rest, at)?;
                let len = 4 * (usize::from(rest[1]) + 2);
                need(len, rest, at)?;
                len
            }
            _ => return Ok((number, rest)),
        };
        (number, rest) = (rest[0], &rest[len..]);
    }
}

/// Extension headers that own their bytes, each in its slot (RFC 8200, section 4.1).
#[derive(Default)]
struct Extensions {
    hop_by_hop: Option<Options>,
    destination: Option<Options>,
    routing: Option<Options>,
    final_destination: Option<Options>,
    fragment: Option<Fragment>,
    authentication: Option<Authentication>,
}

struct Options {
    next: u8,
    len: usize,
    bytes: [u8; 2046],
}

struct Fragment {
    next: u8,
    offset: u16,
    more: bool,
    identification: u32,
}

struct Authentication {
    next: u8,
    index: u32,
    sequence: u32,
    len: usize,
    check: [u8; 1016],
}

impl Extensions {
    /// The extension headers at the start of the bytes, and the number and the bytes after them.
    fn read(first: u8, bytes: &[u8]) -> Result<(Extensions, u8, &[u8]), Fault> {
        let mut extensions = Extensions::default();
        let (mut number, mut rest) = (first, bytes);
        loop {
            let at = bytes.len() - rest.len();
            let slot = match number {
                HOP_BY_HOP if at > 0 => return Err(Fault::HopByHopNotAtStart),
                HOP_BY_HOP => &mut extensions.hop_by_hop,
                ROUTING => &mut extensions.routing,
                DESTINATION_OPTIONS if extensions.routing.is_some() => {
                    &mut extensions.final_destination
                }
                DESTINATION_OPTIONS => &mut extensions.destination,
                FRAGMENT if extensions.fragment.is_none() => {
                    need(8, rest, at)?;
                    let fragment = Fragment::of(rest);
                    number = fragment.next;
                    rest = &rest[8..];
                    extensions.fragment = Some(fragment);
                    continue;
                }
                AUTHENTICATION if extensions.authentication.is_none() => {
                    let (header, following) = rest.split_at(authentication_len(rest, at)?);
                    let authentication = Authentication::of(header);
                    number = authentication.next;
                    rest = following;
                    extensions.authentication = Some(authentication);
                    continue;
                }
                _ => return Ok((extensions, number, rest)),
            };
            if slot.is_some() {
                return Ok((extensions, number, rest));
            }
            let (header, following) = rest.split_at(options_len(rest, at)?);
            *slot = Some(Options::of(header));
            number = header[0];
            rest = following;
        }
    }
}

impl Options {
    fn of(header: &[u8]) -> Options {
        let payload = &header[2..];
        let mut bytes = [0; 2046];
        bytes[..payload.len()].copy_from_slice(payload);
        Options {
            next: header[0],
            len: payload.len(),
            bytes,
        }
    }

    fn payload(&self) -> &[u8] {
        &self.bytes[..self.len]
    }
}

impl Fragment {
    fn of(header: &[u8]) -> Fragment {
        let offset_and_more = u16::from_be_bytes([header[2], header[3]]);
        Fragment {
            next: header[0],
            offset: offset_and_more >> 3,
            more: offset_and_more & 1 != 0,
            identification: u32::from_be_bytes([header[4], header[5], header[6], header[7]]),
        }
    }
}

impl Authentication {
    fn of(header: &[u8]) -> Authentication {
        let word = |at: usize| {
            u32::from_be_bytes([header[at], header[at + 1], header[at + 2], header[at + 3]])
        };
        let value = &header[12..];
        let mut check = [0; 1016];
        check[..value.len()].copy_from_slice(value);
        Authentication {
            next: header[0],
            index: word(4),
            sequence: word(8),
            len: value.len(),
            check,
        }
    }
}

fn sum_of_extensions(extensions: &Extensions) -> u64 {
    let routing = match &extensions.routing {
        Some(routing) => sum_of_options(routing) + sum_of_slot(&extensions.final_destination),
        None => 2,
    };
    let fragment = match &extensions.fragment {
        Some(header) => {
            u64::from(header.next)
                + u64::from(header.offset)
                + u64::from(header.more)
                + u64::from(header.identification)
        }
        None => 3,
    };
    let authentication = match &extensions.authentication {
        Some(header) => {
            u64::from(header.next)
                + u64::from(header.index)
                + u64::from(header.sequence)
                + sum_of_bytes(&header.check[..header.len])
        }
        None => 4,
    };
    sum_of_slot(&extensions.hop_by_hop)
        + sum_of_slot(&extensions.destination)
        + routing
        + fragment
        + authentication
}

fn sum_of_slot(slot: &Option<Options>) -> u64 {
    slot.as_ref().map_or(1, sum_of_options)
}

fn sum_of_options(options: &Options) -> u64 {
    u64::from(options.next) + sum_of_bytes(options.payload())
}

fn sum_of_bytes(bytes: &[u8]) -> u64 {
    bytes.len() as u64 + bytes.iter().map(|&byte| u64::from(byte)).sum::<u64>()
}
