//! Writes a capture of so many packets of so many bytes on standard output: random bytes from a fixed seed.
//! Usage: make_captures PACKETS BYTES KIND, KIND being pcap (Ethernet), pcapng (Ethernet), sll (pcap, Linux
//! cooked captures, of whose header only the ether type isn't random), udp (pcap, Ethernet frames of UDP
//! datagrams over IPv4 in 256 conversations, with right checksums) or conversations (the same between 256
//! hosts, each datagram with other ports)

use std::env;
use std::io::{self, BufWriter, Write};

/// Xorshift, 64 bits.
struct Random(u64);

impl Random {
    fn next(&mut self) -> u64 {
        self.0 ^= self.0 << 13;
        self.0 ^= self.0 >> 7;
        self.0 ^= self.0 << 17;
        self.0
    }
}

/// The ones' complement sum of big endian words of 16 bits, folded.
fn sum(bytes: &[u8], start: u32) -> u32 {
    let words = bytes.chunks(2).map(|word| {
        u32::from(word[0]) << 8 | u32::from(word.get(1).copied().unwrap_or(0))
    });
    let total = words.fold(u64::from(start), |total, word| total + u64::from(word));
    let mut folded = total;
    while folded > 0xffff {
        folded = (folded & 0xffff) + (folded >> 16);
    }
    folded as u32
}

/// An Ethernet frame of a UDP datagram over IPv4 with these ports, of so many bytes, from 42.
fn udp_frame(random: &mut Random, len: usize, ports: [u8; 4]) -> Vec<u8> {
    let mut frame: Vec<u8> = (0..len).map(|_| random.next() as u8).collect();
    let (ip_len, udp_len) = ((len - 14) as u16, (len - 34) as u16);
    let (from, to) = (frame[29] % 16, frame[33] % 16);
    frame[12..14].copy_from_slice(&[0x08, 0x00]);
    frame[14..24].copy_from_slice(&[0x45, 0, 0, 0, 0, 1, 0, 0, 64, 17]);
    frame[16..18].copy_from_slice(&ip_len.to_be_bytes());
    frame[24..26].fill(0);
    frame[26..34].copy_from_slice(&[10, 0, 0, from, 10, 0, 1, to]);
    let header_sum = !sum(&frame[14..34], 0) as u16;
    frame[24..26].copy_from_slice(&header_sum.to_be_bytes());
    frame[34..38].copy_from_slice(&ports);
    frame[38..40].copy_from_slice(&udp_len.to_be_bytes());
    frame[40..42].fill(0);
    let pseudo = sum(&frame[26..34], 17 + u32::from(udp_len));
    let checksum = match !sum(&frame[34..], pseudo) as u16 {
        0 => 0xffff,
        sum => sum,
    };
    frame[40..42].copy_from_slice(&checksum.to_be_bytes());
    frame
}

fn number(place: usize) -> u32 {
    env::args()
        .nth(place)
        .and_then(|word| word.parse().ok())
        .expect("make_captures PACKETS BYTES KIND")
}

fn put_words(output: &mut impl Write, words: &[u32]) -> io::Result<()> {
    for word in words {
        output.write_all(&word.to_le_bytes())?;
    }
    Ok(())
}

fn main() -> io::Result<()> {
    let (packets, len) = (number(1), number(2));
    let mut random = Random(0x2545_f491_4f6c_dd1d);
    let mut output = BufWriter::new(io::stdout().lock());
    let kind = env::args().nth(3).expect("make_captures PACKETS BYTES KIND");
    let padding = len.next_multiple_of(4) - len;
    let block_len = len + padding + 32;
    match kind.as_str() {
        "pcap" | "udp" | "conversations" => put_words(&mut output, &[0xa1b2_c3d4, 0x0004_0002, 0, 0, 262_144, 1])?,
        "sll" => put_words(&mut output, &[0xa1b2_c3d4, 0x0004_0002, 0, 0, 262_144, 113])?,
        "pcapng" => {
            put_words(&mut output, &[0x0a0d_0d0a, 28, 0x1a2b_3c4d, 1, !0, !0, 28])?;
            put_words(&mut output, &[1, 20, 1, 262_144, 20])?;
        }
        _ => panic!("no kind {kind}"),
    }
    for packet in 0..packets {
        let (seconds, microseconds) = (packet / 1_000_000, packet % 1_000_000);
        if kind == "pcapng" {
            put_words(&mut output, &[6, block_len, 0, 0, packet, len, len])?;
        } else {
            put_words(&mut output, &[seconds, microseconds, len, len])?;
        }
        let ports = match kind.as_str() {
            "udp" => Some([0x27, 0x10, 0, 53]),
            "conversations" => Some(packet.to_be_bytes()),
            _ => None,
        };
        if let Some(ports) = ports {
            output.write_all(&udp_frame(&mut random, len as usize, ports))?;
            continue;
        }
        for at in 0..len {
            let byte = match at {
                14 if kind == "sll" => 0x08,
                15 if kind == "sll" => 0x00,
                2 | 3 if kind == "sll" => 0x01,
                _ => random.next() as u8,
            };
            output.write_all(&[byte])?;
        }
        if kind == "pcapng" {
            output.write_all(&[0; 3][..padding as usize])?;
            put_words(&mut output, &[block_len])?;
        }
    }
    output.flush()
}
