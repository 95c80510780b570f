//! What a benchmark is, and how its time is taken.

use crate::random::Random;
use std::time::{Duration, Instant};

/// How many packets a job is done with.
pub const PACKETS: usize = 1000;

/// Something that is done with packets.
pub trait Job {
    /// The bytes of a packet that the job is done with.
    fn packet(random: &mut Random) -> Vec<u8>;

    /// Does the job with a packet, and gives the sum of all that it computed.
    fn sum(packet: &[u8]) -> u64;
}

/// How often a job is done with all packets: in so many blocks of so many turns.
#[derive(Clone, Copy)]
pub struct Repeats {
    pub blocks: u32,
    pub turns: u32,
}

/// What a benchmark gives.
pub struct Measured {
    /// The mixed sums of all packets.
    pub sum: u64,
    /// The time of the fastest block, without that of making the packets.
    pub fastest: Duration,
}

/// Does a job with each of 1000 packets, again and again.
pub fn measure<J: Job>(repeats: Repeats) -> Measured {
    let mut random = Random::new();
    let packets: Vec<Vec<u8>> = (0..PACKETS).map(|_| J::packet(&mut random)).collect();
    let mut sum = 0;
    let mut fastest = Duration::MAX;
    for _ in 0..repeats.blocks {
        let start = Instant::now();
        for _ in 0..repeats.turns {
            sum = mixed::<J>(sum, &packets);
        }
        fastest = fastest.min(start.elapsed());
    }
    Measured { sum, fastest }
}

/// Each turn goes on from the sum of the last one, so that none can be left out.
fn mixed<J: Job>(start: u64, packets: &[Vec<u8>]) -> u64 {
    let mut sum = start;
    for packet in packets {
        sum = sum.wrapping_mul(31).wrapping_add(J::sum(packet));
    }
    sum
}
