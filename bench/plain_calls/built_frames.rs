//! Frames that are built, one after another in the same memory.

use crate::checksums::{folded, total};
use crate::job::{Measured, PACKETS, Repeats};
use crate::random::Random;
use std::time::{Duration, Instant};

const ROOM: usize = 192;

const DESTINATION: [u8; 6] = [2, 0, 0, 0, 0, 2];
const SOURCE: [u8; 6] = [2, 0, 0, 0, 0, 1];
const IPV4_SOURCE: [u8; 4] = [10, 0, 0, 1];
const IPV4_DESTINATION: [u8; 4] = [10, 0, 0, 2];
const IPV6_SOURCE: [u8; 16] = [0x20, 1, 0x0d, 0xb8, 0, 0, 0, 0, 0, 0, 0, 0, 0, 0, 0, 1];
const IPV6_DESTINATION: [u8; 16] = [0x20, 1, 0x0d, 0xb8, 0, 0, 0, 0, 0, 0, 0, 0, 0, 0, 0, 2];

/// A frame that brings a payload.
pub trait Frame {
    /// Appends it. Payloads have 64 bytes at most.
    fn append(payload: &[u8], frame: &mut Vec<u8>);
}

/// UDP over IPv4 in an Ethernet II frame.
pub struct UdpIpv4;

/// TCP over IPv6 in an Ethernet II frame.
pub struct TcpIpv6;

impl Frame for UdpIpv4 {
    fn append(payload: &[u8], frame: &mut Vec<u8>) {
        let udp_len = (8 + payload.len()) as u16;
        let mut ip = [0; 20];
        ip[0] = 0x45;
        ip[2..4].copy_from_slice(&(20 + udp_len).to_be_bytes());
        ip[6] = 0x40;
        ip[8] = 64;
        ip[9] = 17;
        ip[12..16].copy_from_slice(&IPV4_SOURCE);
        ip[16..].copy_from_slice(&IPV4_DESTINATION);
        let checksum = !folded(total(&ip));
        ip[10..12].copy_from_slice(&checksum.to_be_bytes());
        let mut udp = [0, 1, 0, 2, 0, 0, 0, 0];
        udp[4..6].copy_from_slice(&udp_len.to_be_bytes());
        let pseudo = total(&IPV4_SOURCE) + total(&IPV4_DESTINATION) + 17 + u64::from(udp_len);
        let checksum = match !folded(pseudo + total(&udp) + total(payload)) {
            0 => 0xffff,
            checksum => checksum,
        };
        udp[6..].copy_from_slice(&checksum.to_be_bytes());
        append_ethernet(0x0800, frame);
        frame.extend_from_slice(&ip);
        frame.extend_from_slice(&udp);
        frame.extend_from_slice(payload);
    }
}

impl Frame for TcpIpv6 {
    fn append(payload: &[u8], frame: &mut Vec<u8>) {
        let tcp_len = (20 + payload.len()) as u16;
        let mut ip = [0; 40];
        ip[0] = 0x60;
        ip[4..6].copy_from_slice(&tcp_len.to_be_bytes());
        ip[6] = 6;
        ip[7] = 64;
        ip[8..24].copy_from_slice(&IPV6_SOURCE);
        ip[24..].copy_from_slice(&IPV6_DESTINATION);
        let mut tcp = [0; 20];
        tcp[1] = 1;
        tcp[3] = 2;
        tcp[7] = 3;
        tcp[11] = 4;
        tcp[12] = 5 << 4;
        tcp[13] = 0x18;
        tcp[14] = 4;
        let pseudo = total(&IPV6_SOURCE) + total(&IPV6_DESTINATION) + 6 + u64::from(tcp_len);
        let checksum = !folded(pseudo + total(&tcp) + total(payload));
        tcp[16..18].copy_from_slice(&checksum.to_be_bytes());
        append_ethernet(0x86dd, frame);
        frame.extend_from_slice(&ip);
        frame.extend_from_slice(&tcp);
        frame.extend_from_slice(payload);
    }
}

fn append_ethernet(ether_type: u16, frame: &mut Vec<u8>) {
    frame.extend_from_slice(&DESTINATION);
    frame.extend_from_slice(&SOURCE);
    frame.extend_from_slice(&ether_type.to_be_bytes());
}

/// Builds the frames of 1000 payloads of 1 to 64 bytes, again and again. The sum begins with all their
/// bytes, and goes on from turn to turn with the last eight of each.
pub fn measure<F: Frame>(repeats: Repeats) -> Measured {
    let mut random = Random::new();
    let payloads: Vec<Vec<u8>> = (0..PACKETS).map(|_| payload(&mut random)).collect();
    let mut frame = Vec::with_capacity(ROOM);
    let mut sum = 0;
    for payload in &payloads {
        build::<F>(payload, &mut frame);
        sum = sum_with(sum, &frame);
    }
    let mut fastest = Duration::MAX;
    for _ in 0..repeats.blocks {
        let start = Instant::now();
        for _ in 0..repeats.turns {
            sum = turn::<F>(sum, &payloads, &mut frame);
        }
        fastest = fastest.min(start.elapsed());
    }
    Measured { sum, fastest }
}

fn payload(random: &mut Random) -> Vec<u8> {
    let len = 1 + random.below(64);
    let mut payload = Vec::new();
    random.append(usize::from(len), &mut payload);
    payload
}

fn build<F: Frame>(payload: &[u8], frame: &mut Vec<u8>) {
    frame.clear();
    F::append(payload, frame);
}

fn turn<F: Frame>(start: u64, payloads: &[Vec<u8>], frame: &mut Vec<u8>) -> u64 {
    let mut sum = start;
    for payload in payloads {
        build::<F>(payload, frame);
        sum = sum
            .wrapping_mul(31)
            .wrapping_add(frame.last_chunk().map_or(0, |last| u64::from_be_bytes(*last)));
    }
    sum
}

fn sum_with(start: u64, frame: &[u8]) -> u64 {
    frame.iter().fold(start, |sum, byte| {
        sum.wrapping_mul(31).wrapping_add(u64::from(*byte))
    })
}
