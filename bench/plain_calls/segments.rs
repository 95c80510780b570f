//! TCP segments, with every field and their options.

use crate::fault::{Fault, need};
use crate::job::Job;
use crate::random::Random;

/// TCP segments without options, with those of a data segment, of an acknowledgement of two blocks and
/// of a first segment, and up to 63 bytes of payload.
pub struct TcpSegments;

impl Job for TcpSegments {
    fn packet(random: &mut Random) -> Vec<u8> {
        let kind = random.below(4);
        let data_offset = match kind {
            0 => 5,
            1 => 8,
            _ => 10,
        };
        let mut packet = Vec::new();
        random.append(12, &mut packet);
        packet.push(data_offset << 4);
        random.append(7, &mut packet);
        append_options(kind, random, &mut packet);
        let payload_len = random.below(64);
        random.append(usize::from(payload_len), &mut packet);
        packet
    }

    fn sum(packet: &[u8]) -> u64 {
        match Segment::parse(packet) {
            Ok(segment) => sum_of_fields(&segment).wrapping_add(sum_of_options(&segment)),
            Err(_) => 1,
        }
    }
}

fn append_options(kind: u8, random: &mut Random, packet: &mut Vec<u8>) {
    match kind {
        0 => {}
        1 => {
            packet.extend_from_slice(&[1, 1, 8, 10]);
            random.append(8, packet);
        }
        2 => {
            packet.extend_from_slice(&[1, 1, 5, 18]);
            random.append(16, packet);
        }
        _ => {
            packet.extend_from_slice(&[2, 4, 5, 180, 4, 2, 8, 10]);
            random.append(8, packet);
            packet.extend_from_slice(&[1, 3, 3, 7]);
        }
    }
}

pub struct Segment<'a> {
    pub fixed: &'a [u8; FIXED],
    pub options: &'a [u8],
    pub payload: &'a [u8],
}

const FIXED: usize = 20;

impl<'a> Segment<'a> {
    /// As RFC 9293 has it (section 3.1).
    pub fn parse(bytes: &'a [u8]) -> Result<Segment<'a>, Fault> {
        let Some((fixed, rest)) = bytes.split_first_chunk::<FIXED>() else {
            return Err(Fault::Short {
                needed: FIXED,
                found: bytes.len(),
                at: 0,
            });
        };
        let words = fixed[12] >> 4;
        if words < 5 {
            return Err(Fault::HeaderWords(words));
        }
        let header_len = 4 * usize::from(words);
        need(header_len, bytes, 0)?;
        let (options, payload) = rest.split_at(header_len - FIXED);
        Ok(Segment {
            fixed,
            options,
            payload,
        })
    }
}

fn sum_of_fields(segment: &Segment) -> u64 {
    let fixed = segment.fixed;
    let word = |at: usize| u64::from(u16::from_be_bytes([fixed[at], fixed[at + 1]]));
    let long = |at: usize| {
        u64::from(u32::from_be_bytes([
            fixed[at],
            fixed[at + 1],
            fixed[at + 2],
            fixed[at + 3],
        ]))
    };
    let flag = |at: u32| u64::from(fixed[13] >> at & 1);
    let data_offset = fixed[12] >> 4;
    let options_len = segment.options.len() as u64;
    let header_len = FIXED as u64 + options_len;
    let payload_len = segment.payload.len() as u64;
    let lengths = 2 * header_len + options_len + (header_len + payload_len) + payload_len;
    let flags = u64::from(fixed[12] & 1)
        + flag(0)
        + flag(1)
        + flag(2)
        + flag(3)
        + flag(4)
        + flag(5)
        + flag(6)
        + flag(7);
    lengths
        + flags
        + word(0)
        + word(2)
        + long(4)
        + long(8)
        + u64::from(data_offset)
        + word(14)
        + word(16)
        + word(18)
}

enum TcpOption {
    Noop,
    MaximumSegmentSize(u16),
    WindowScale(u8),
    SelectivePermitted,
    Selective([Option<(u32, u32)>; 4]),
    Timestamp(u32, u32),
}

#[allow(dead_code)]
enum OptionFault {
    Short {
        kind: u8,
        needed: usize,
        found: usize,
    },
    Size {
        kind: u8,
        size: u8,
    },
    Unknown(u8),
}

struct TcpOptions<'a> {
    rest: &'a [u8],
}

impl Iterator for TcpOptions<'_> {
    type Item = Result<TcpOption, OptionFault>;

    fn next(&mut self) -> Option<Self::Item> {
        let read = match self.rest {
            [] | [0, ..] => None,
            [1, rest @ ..] => Some(Ok((TcpOption::Noop, rest))),
            options => Some(sized_option(options)),
        };
        match read {
            Some(Ok((option, rest))) => {
                self.rest = rest;
                Some(Ok(option))
            }
            Some(Err(fault)) => {
                self.rest = &[];
                Some(Err(fault))
            }
            None => {
                self.rest = &[];
                None
            }
        }
    }
}

/// The option at the start, which has a length byte, and what follows it (RFC 9293, section 3.2; RFC
/// 7323, sections 2.2 and 3.2; RFC 2018, sections 2 and 3).
fn sized_option(options: &[u8]) -> Result<(TcpOption, &[u8]), OptionFault> {
    match *options {
        [2, 4, a, b, ref rest @ ..] => Ok((
            TcpOption::MaximumSegmentSize(u16::from_be_bytes([a, b])),
            rest,
        )),
        [3, 3, shift, ref rest @ ..] => Ok((TcpOption::WindowScale(shift), rest)),
        [4, 2, ref rest @ ..] => Ok((TcpOption::SelectivePermitted, rest)),
        [5, size @ (10 | 18 | 26 | 34), ..] if options.len() >= usize::from(size) => {
            let (option, rest) = options.split_at(usize::from(size));
            let mut blocks = [None; 4];
            for (place, bytes) in blocks.iter_mut().zip(option[2..].chunks_exact(8)) {
                *place = Some(block(bytes));
            }
            Ok((TcpOption::Selective(blocks), rest))
        }
        [8, 10, ref bytes @ ..] if bytes.len() >= 8 => {
            let (value, reply) = block(bytes);
            Ok((TcpOption::Timestamp(value, reply), &bytes[8..]))
        }
        _ => Err(fault(options)),
    }
}

fn fault(options: &[u8]) -> OptionFault {
    let kind = options[0];
    let needed = match kind {
        2 => 4,
        3 => 3,
        4 | 5 => 2,
        8 => 10,
        _ => return OptionFault::Unknown(kind),
    };
    let found = options.len();
    if found < needed {
        return OptionFault::Short {
            kind,
            needed,
            found,
        };
    }
    let size = options[1];
    if kind == 5 && matches!(size, 10 | 18 | 26 | 34) {
        return OptionFault::Short {
            kind,
            needed: usize::from(size),
            found,
        };
    }
    OptionFault::Size { kind, size }
}

fn block(bytes: &[u8]) -> (u32, u32) {
    (
        u32::from_be_bytes([bytes[0], bytes[1], bytes[2], bytes[3]]),
        u32::from_be_bytes([bytes[4], bytes[5], bytes[6], bytes[7]]),
    )
}

fn sum_of_options(segment: &Segment) -> u64 {
    let options = TcpOptions {
        rest: segment.options,
    };
    options
        .map(|option| option.map_or(1, sum_of_option))
        .sum::<u64>()
}

fn sum_of_option(option: TcpOption) -> u64 {
    match option {
        TcpOption::Noop => 2,
        TcpOption::MaximumSegmentSize(size) => u64::from(size),
        TcpOption::WindowScale(shift) => u64::from(shift),
        TcpOption::SelectivePermitted => 3,
        TcpOption::Selective(blocks) => blocks
            .iter()
            .map(|block| block.map_or(4, |(left, right)| u64::from(left) + u64::from(right)))
            .sum(),
        TcpOption::Timestamp(value, reply) => u64::from(value) + u64::from(reply),
    }
}
