//! Writes lines `frame 0 HEX`, each a frame of Ethernet, IP and UDP, all checksums good. The same
//! arguments give the same bytes.
//!
//! `whole COUNT SIZE`: COUNT datagrams over IPv4, each in a frame of SIZE bytes.
//!
//! `cut VERSION COUNT SIZE TOGETHER`: COUNT datagrams over IPv4 (4) or IPv6 (6), each cut in four
//! fragments of SIZE bytes. So many datagrams are incomplete at once: the first fragments of all
//! of them, then the second ones, and so on.
//!
//! `ordered ORDER COUNT`: COUNT datagrams of 65,504 bytes over IPv4, one after another, each in
//! 8,188 fragments of 8 bytes, in ORDER 0 as they follow, 1 the last one first, 2 every second one
//! and then the others, 3 as if shuffled.

use std::io::{self, BufWriter, Write};
use std::ops::{Range, RangeInclusive};
use std::process::ExitCode;

const ETHER_TYPE: Range<usize> = 12..14;
const IPV4: Range<usize> = 14..34;
const IPV6: Range<usize> = 14..54;
const FRAGMENT_HEADER: Range<usize> = 54..62;
const UDP_LEN: usize = 8;
const UDP: u8 = 17;
const FRAGMENT: u8 = 44;
const SEED: u64 = 0x9e37_79b9_7f4a_7c15;

const SIZES: RangeInclusive<usize> = 42..=65535;
const FRAGMENTS: usize = 4;
const LARGEST_FRAGMENT: usize = 16376;
const UNIT: usize = 8;
const UNITS: usize = 8188;

/// Vigna's generator xorshift64*.
struct Random(u64);

impl Random {
    fn next(&mut self) -> u64 {
        self.0 ^= self.0 >> 12;
        self.0 ^= self.0 << 25;
        self.0 ^= self.0 >> 27;
        self.0.wrapping_mul(0x2545_f491_4f6c_dd1d)
    }

    fn fill(&mut self, bytes: &mut [u8]) {
        for part in bytes.chunks_mut(8) {
            part.copy_from_slice(&self.next().to_be_bytes()[..part.len()]);
        }
    }
}

/// The Internet checksum of the parts joined, each of even length but the last (RFC 1071).
fn checksum(parts: &[&[u8]]) -> u16 {
    let words = parts.iter().flat_map(|part| part.chunks(2));
    let total: u64 = words
        .map(|w| u64::from(w[0]) << 8 | u64::from(*w.get(1).unwrap_or(&0)))
        .sum();
    let mut folded = total;
    while folded > 0xffff {
        folded = (folded >> 16) + (folded & 0xffff);
    }
    !(folded as u16)
}

/// Sets all but identification and addresses of an IPv4 header.
fn set_ipv4(header: &mut [u8], payload_len: usize, flags_and_offset: u16) {
    let total_len = header.len() + payload_len;
    header[0] = 0x45;
    header[1] = 0;
    header[2..4].copy_from_slice(&(total_len as u16).to_be_bytes());
    header[6..8].copy_from_slice(&flags_and_offset.to_be_bytes());
    header[8..12].copy_from_slice(&[64, UDP, 0, 0]);
    let sum = checksum(&[header]);
    header[10..12].copy_from_slice(&sum.to_be_bytes());
}

/// Sets all but the addresses of an IPv6 header before a fragment header.
fn set_ipv6(header: &mut [u8], payload_len: usize) {
    header[..4].copy_from_slice(&[0x60, 0, 0, 0]);
    let body_len = FRAGMENT_HEADER.len() + payload_len;
    header[4..6].copy_from_slice(&(body_len as u16).to_be_bytes());
    header[6..8].copy_from_slice(&[FRAGMENT, 64]);
}

/// Sets all but the identification of a fragment header.
fn set_fragment_header(header: &mut [u8], offset_and_more: u16) {
    header[..2].copy_from_slice(&[UDP, 0]);
    header[2..4].copy_from_slice(&offset_and_more.to_be_bytes());
}

/// Sets length and checksum of a datagram. (In the pseudo header of IPv6 the same words stand at
/// other places.)
fn seal_udp(datagram: &mut [u8], addresses: &[u8]) {
    let udp_len = (datagram.len() as u16).to_be_bytes();
    datagram[4..6].copy_from_slice(&udp_len);
    datagram[6..UDP_LEN].fill(0);
    let pseudo_tail = [0, UDP, udp_len[0], udp_len[1]];
    let sum = match checksum(&[addresses, &pseudo_tail, datagram]) {
        0 => 0xffff,
        sum => sum,
    };
    datagram[6..UDP_LEN].copy_from_slice(&sum.to_be_bytes());
}

fn whole_frame(random: &mut Random, size: usize) -> Vec<u8> {
    let mut frame = vec![0; size];
    random.fill(&mut frame);
    frame[ETHER_TYPE].copy_from_slice(&[0x08, 0x00]);
    let (ethernet_and_ip, udp) = frame.split_at_mut(IPV4.end);
    let ip = &mut ethernet_and_ip[IPV4];
    set_ipv4(ip, udp.len(), 0x4000);
    seal_udp(udp, &ip[12..]);
    frame
}

#[derive(Clone, Copy)]
enum Version {
    V4,
    V6,
}

/// A datagram that is cut.
struct Cut {
    version: Version,
    /// The headers of each frame. Lengths, the place and the IPv4 checksum are not yet set.
    headers: Vec<u8>,
    datagram: Vec<u8>,
}

impl Cut {
    fn new(random: &mut Random, version: Version, len: usize) -> Cut {
        let (ether_type, addresses, headers_len) = match version {
            Version::V4 => ([0x08, 0x00], 26..34, IPV4.end),
            Version::V6 => ([0x86, 0xdd], 22..54, FRAGMENT_HEADER.end),
        };
        let mut headers = vec![0; headers_len];
        random.fill(&mut headers);
        headers[ETHER_TYPE].copy_from_slice(&ether_type);
        let mut datagram = vec![0; len];
        random.fill(&mut datagram);
        seal_udp(&mut datagram, &headers[addresses]);
        Cut {
            version,
            headers,
            datagram,
        }
    }

    fn frame(&self, start: usize, size: usize) -> Vec<u8> {
        let end = start + size;
        let units = (start / 8) as u16;
        let more = u16::from(end < self.datagram.len());
        let mut frame = self.headers.clone();
        match self.version {
            Version::V4 => set_ipv4(&mut frame[IPV4], size, more << 13 | units),
            Version::V6 => {
                set_ipv6(&mut frame[IPV6], size);
                set_fragment_header(&mut frame[FRAGMENT_HEADER], units << 3 | more);
            }
        }
        frame.extend_from_slice(&self.datagram[start..end]);
        frame
    }
}

fn write_line(out: &mut impl Write, frame: &[u8]) -> io::Result<()> {
    write!(out, "frame 0 ")?;
    for byte in frame {
        write!(out, "{byte:02x}")?;
    }
    writeln!(out)
}

fn write_whole(out: &mut impl Write, count: usize, size: usize) -> io::Result<()> {
    let mut random = Random(SEED);
    for _ in 0..count {
        write_line(out, &whole_frame(&mut random, size))?;
    }
    Ok(())
}

fn write_cut(
    out: &mut impl Write,
    version: Version,
    count: usize,
    size: usize,
    together: usize,
) -> io::Result<()> {
    let mut random = Random(SEED);
    let mut missing = count;
    while missing > 0 {
        let some: Vec<Cut> = (0..together.min(missing))
            .map(|_| Cut::new(&mut random, version, FRAGMENTS * size))
            .collect();
        for place in 0..FRAGMENTS {
            for cut in &some {
                write_line(out, &cut.frame(place * size, size))?;
            }
        }
        missing -= some.len();
    }
    Ok(())
}

/// The fragments of a datagram in the order of this number.
fn order(random: &mut Random, number: usize) -> Option<Vec<usize>> {
    let mut indices: Vec<usize> = (0..UNITS).collect();
    match number {
        0 => {}
        1 => indices.reverse(),
        2 => indices.sort_by_key(|index| index % 2),
        3 => {
            for last in (1..UNITS).rev() {
                indices.swap(last, random.next() as usize % (last + 1));
            }
        }
        _ => return None,
    }
    Some(indices)
}

fn write_ordered(out: &mut impl Write, number: usize, count: usize) -> Option<io::Result<()>> {
    let mut random = Random(SEED);
    for _ in 0..count {
        let cut = Cut::new(&mut random, Version::V4, UNITS * UNIT);
        for place in order(&mut random, number)? {
            if let Err(error) = write_line(out, &cut.frame(place * UNIT, UNIT)) {
                return Some(Err(error));
            }
        }
    }
    Some(Ok(()))
}

/// Writes the lines that the arguments request, if they request any.
fn write_lines(out: &mut impl Write, words: &[&str]) -> Option<io::Result<()>> {
    let (kind, numbers) = words.split_first()?;
    let numbers: Option<Vec<usize>> = numbers.iter().map(|word| word.parse().ok()).collect();
    match (*kind, numbers?.as_slice()) {
        ("whole", &[count, size]) if SIZES.contains(&size) => Some(write_whole(out, count, size)),
        ("cut", &[version, count, size, together])
            if together > 0 && size > 0 && size % 8 == 0 && size <= LARGEST_FRAGMENT =>
        {
            let version = match version {
                4 => Version::V4,
                6 => Version::V6,
                _ => return None,
            };
            Some(write_cut(out, version, count, size, together))
        }
        ("ordered", &[number, count]) => write_ordered(out, number, count),
        _ => None,
    }
}

fn main() -> ExitCode {
    let words: Vec<String> = std::env::args().skip(1).collect();
    let words: Vec<&str> = words.iter().map(String::as_str).collect();
    let mut out = BufWriter::new(io::stdout().lock());
    let Some(written) = write_lines(&mut out, &words) else {
        eprintln!("usage: make_lines whole COUNT SIZE, with a size of 42 to 65535 bytes, or");
        eprintln!(
            "       make_lines cut VERSION COUNT SIZE TOGETHER, with a size of 8 to 16376 bytes, or"
        );
        eprintln!("       make_lines ordered ORDER COUNT, with an order of 0 to 3");
        return ExitCode::FAILURE;
    };
    match written.and_then(|()| out.flush()) {
        Ok(()) => ExitCode::SUCCESS,
        Err(error) => {
            eprintln!("make_lines: {error}");
            ExitCode::FAILURE
        }
    }
}
