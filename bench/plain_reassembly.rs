//! The benchmarks of reassembly of the program `benchmarks` in plain Rust, with the same arguments and the same lines.

// Lines are read with the rest of it.
#[allow(dead_code)]
mod frames;
mod pool;
mod reassembly;

use crate::frames::{Addresses, Packet, Part, VlanIds};
use crate::pool::{Pool, add_part};
use crate::reassembly::Reassembly;
use std::collections::HashMap;
use std::hash::{BuildHasher, RandomState};
use std::process::ExitCode;
use std::time::{Duration, Instant};

const MESSAGE_LEN: usize = 65535;
const FRAGMENTS: u16 = 8192;

#[derive(Clone, Copy)]
enum Order {
    Ascending,
    Descending,
    EvenFirst,
    Shuffled,
}

impl Order {
    fn of_name(name: &str) -> Option<Order> {
        match name {
            "ascending" => Some(Order::Ascending),
            "descending" => Some(Order::Descending),
            "even_first" => Some(Order::EvenFirst),
            "shuffled" => Some(Order::Shuffled),
            _ => None,
        }
    }

    fn units(self, place: u16) -> u16 {
        match self {
            Order::Ascending => place,
            Order::Descending => FRAGMENTS - 1 - place,
            Order::EvenFirst if place < FRAGMENTS / 2 => 2 * place,
            Order::EvenFirst => 2 * (place - FRAGMENTS / 2) + 1,
            Order::Shuffled => shuffled(shuffled(place)),
        }
    }
}

/// A permutation of the places.
fn shuffled(place: u16) -> u16 {
    let product = place.wrapping_mul(0x1d35) % FRAGMENTS;
    (product ^ (product >> 6)) % FRAGMENTS
}

/// Offset, in units of 8 bytes, and flag of the two fragments of a message, of 64 bytes each.
const TWO_FRAGMENTS: [(u16, bool); 2] = [(0, true), (8, false)];

const UDP: u8 = 17;

/// A fragment of UDP without VLAN tags.
fn udp_fragment(
    addresses: Addresses,
    identification: u32,
    units: u16,
    more: bool,
    payload: &[u8],
) -> (Packet<'_>, Part) {
    let part = Part {
        identification,
        units,
        more,
    };
    let packet = Packet {
        vlan_ids: VlanIds::default(),
        addresses,
        part: Some(part),
        is_fragment: true,
        protocol: UDP,
        payload,
    };
    (packet, part)
}

/// The sum with the message that a fragment completes.
fn sum_with<S: BuildHasher>(
    sum: u64,
    pool: &mut Pool<(), (), S>,
    (packet, part): (Packet, Part),
) -> u64 {
    let Ok(Some(bytes)) = add_part(pool, &packet, part, (), ()) else {
        return sum;
    };
    let ends = bytes.first().zip(bytes.last());
    let (first, last) = ends.map_or((0, 0), |(first, last)| (*first, *last));
    sum.wrapping_mul(31)
        .wrapping_add(bytes.len() as u64)
        .wrapping_add(u64::from(first))
        .wrapping_add(u64::from(last))
}

/// 100,000 messages of two fragments, all of whose first fragments come before the second ones.
fn put_interleaved<S: BuildHasher>(pool: &mut Pool<(), (), S>) -> u64 {
    let mut bytes = [0; 64];
    let mut sum = 0u64;
    for (units, more) in TWO_FRAGMENTS {
        for source in 0..2 {
            for identification in 0..50_000u16 {
                let [_, low] = identification.to_be_bytes();
                bytes[0] = low;
                let addresses = Addresses::V4([10, 0, 0, source, 10, 0, 0, 2]);
                let fragment =
                    udp_fragment(addresses, u32::from(identification), units, more, &bytes);
                sum = sum_with(sum, pool, fragment);
            }
        }
    }
    sum
}

/// 8000 messages of two fragments, so many at once, under names that collide by the hasher of the proved program, and by none here.
fn put_colliding<S: BuildHasher>(pool: &mut Pool<(), (), S>, names: u32) -> u64 {
    let mut addresses = [0; 32];
    addresses[8..16].copy_from_slice(&0x9e37_79b9_7f4a_7c15_u64.to_le_bytes());
    addresses[16] = 0xfd;
    addresses[31] = 2;
    let mut bytes = [0; 64];
    let mut sum = 0u64;
    for _ in 0..8000 / names {
        for (units, more) in TWO_FRAGMENTS {
            for name in 0..names {
                addresses[..4].copy_from_slice(&name.to_be_bytes());
                bytes[0] = (name % 251) as u8;
                let fragment = udp_fragment(Addresses::V6(addresses), 7, units, more, &bytes);
                sum = sum_with(sum, pool, fragment);
            }
        }
    }
    sum
}

/// The benchmark of this name, in one pool: none where no benchmark has it.
fn measure_pool<S: BuildHasher>(
    mut pool: Pool<(), (), S>,
    name: &str,
    turns: u32,
) -> Option<(u64, Duration)> {
    let names = match name.strip_prefix("colliding_") {
        Some(names) => Some(names.parse().ok()?),
        None if name == "interleaved" => None,
        None => return None,
    };
    let mut sum = 0;
    let mut fastest = Duration::MAX;
    for _ in 0..turns {
        let start = Instant::now();
        sum = match names {
            Some(names) => put_colliding(&mut pool, names),
            None => put_interleaved(&mut pool),
        };
        fastest = fastest.min(start.elapsed());
    }
    Some((sum, fastest))
}

fn main() -> ExitCode {
    let words: Vec<String> = std::env::args().skip(1).collect();
    let is_timed = words.first().is_some_and(|word| word == "--timed");
    let mut last = 7u8;
    let message: Vec<u8> = (0..MESSAGE_LEN)
        .map(|_| {
            last = last.wrapping_mul(5).wrapping_add(3);
            last
        })
        .collect();
    for name in words.iter().skip(usize::from(is_timed)) {
        let turns = if is_timed { 20 } else { 1 };
        let measured = if let Some(order) = Order::of_name(name) {
            Some(measure(order, &message, turns))
        } else if let Some(name) = name.strip_suffix("_random") {
            measure_pool(HashMap::with_hasher(RandomState::new()), name, turns)
        } else {
            measure_pool(<Pool<(), ()>>::default(), name, turns)
        };
        let Some((sum, fastest)) = measured else {
            eprintln!("plain_reassembly: no benchmark has the name {name}");
            return ExitCode::FAILURE;
        };
        if is_timed {
            println!("{name} {sum} {}", fastest.as_nanos());
        } else {
            println!("{name} {sum}");
        }
    }
    ExitCode::SUCCESS
}

fn measure(order: Order, message: &[u8], turns: u32) -> (u64, Duration) {
    let mut data = Vec::new();
    let mut sections = Vec::new();
    let mut sum = 0;
    let mut fastest = Duration::MAX;
    for _ in 0..turns {
        let mut buf = Reassembly::new(data, sections);
        let start = Instant::now();
        let accepted = add_all(&mut buf, order, message);
        fastest = fastest.min(start.elapsed());
        sum = sum_of(&buf, accepted);
        (data, sections) = (buf.data, buf.sections);
    }
    (sum, fastest)
}

fn add_all(buf: &mut Reassembly, order: Order, message: &[u8]) -> u64 {
    let mut accepted = 0;
    for place in 0..FRAGMENTS {
        let units = order.units(place);
        let start = 8 * usize::from(units);
        let end = message.len().min(start + 8);
        let Some(bytes) = message.get(start..end) else {
            break;
        };
        if buf.add(units, end < message.len(), bytes).is_ok() {
            accepted += 1;
        }
    }
    accepted
}

fn sum_of(buf: &Reassembly, accepted: u64) -> u64 {
    let start = accepted + u64::from(buf.is_complete());
    buf.data.iter().fold(start, |sum, byte| {
        sum.wrapping_mul(31).wrapping_add(u64::from(*byte))
    })
}
