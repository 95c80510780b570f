//! The benchmarks of TCP streams of the program `benchmarks` in plain Rust, with the same arguments and the same lines.

// Fragments are put together with the rest of it.
#[allow(dead_code)]
mod reassembly;

use crate::reassembly::FoldHasher;
use std::collections::{BTreeMap, HashMap};
use std::hash::BuildHasherDefault;
use std::process::ExitCode;
use std::time::{Duration, Instant};

const CONNECTIONS: u32 = 1000;
const SEGMENTS: u32 = 64;
const SEGMENT_LEN: usize = 1024;
const WINDOW: u64 = 65_535;

#[derive(Clone, Copy)]
enum Arrival {
    Ordered,
    Swapped,
    Late,
    Repeated,
}

impl Arrival {
    fn of_name(name: &str) -> Option<Arrival> {
        match name {
            "streams_ordered" => Some(Arrival::Ordered),
            "streams_swapped" => Some(Arrival::Swapped),
            "streams_late" => Some(Arrival::Late),
            "streams_repeated" => Some(Arrival::Repeated),
            _ => None,
        }
    }

    fn count(self) -> u32 {
        match self {
            Arrival::Repeated => 2 * SEGMENTS,
            _ => SEGMENTS,
        }
    }

    fn segment(self, index: u32) -> u32 {
        match self {
            Arrival::Ordered => index,
            Arrival::Swapped => index ^ 1,
            Arrival::Late => index / 8 * 8 + (index + 1) % 8,
            Arrival::Repeated => index / 2,
        }
    }
}

#[derive(Clone, Copy, Default)]
struct Flags {
    syn: bool,
    ack: bool,
    fin: bool,
    rst: bool,
}

/// Which endpoints sent SYN, and which FIN; whether the connection was reset.
#[derive(Clone, Copy, Default)]
struct State {
    syn: [bool; 2],
    fin: [bool; 2],
    reset: bool,
}

impl State {
    /// Whether one endpoint alone sent FIN.
    fn is_closing(self) -> bool {
        !self.reset && self.fin[0] != self.fin[1]
    }

    fn after(mut self, direction: usize, flags: Flags) -> State {
        if flags.rst {
            self.reset = true;
        } else if flags.syn {
            self.syn[direction] = true;
        } else if flags.fin && flags.ack {
            self.fin[direction] = true;
        }
        self
    }
}

/// The bytes of one direction.
#[derive(Default)]
struct Stream {
    start: Option<u32>,
    /// How many bytes were consumed.
    taken: u64,
    available: Vec<u8>,
    /// Segments after missing bytes, by their positions.
    pending: BTreeMap<u64, Vec<u8>>,
    fin: Option<u64>,
    conflicts: u64,
}

impl Stream {
    fn add(&mut self, number: u32, flags: Flags, payload: &[u8]) -> Option<u64> {
        let first = number.wrapping_add(u32::from(flags.syn));
        let start = *self.start.get_or_insert(first);
        let next = self.taken + self.available.len() as u64;
        let distance = first.wrapping_sub(start.wrapping_add(next as u32)) as i32;
        let position = next.checked_add_signed(i64::from(distance))?;
        let end = position + payload.len() as u64;
        if self.taken + WINDOW < end || self.fin.is_some_and(|fin| fin < end) {
            return None;
        }
        if flags.fin {
            self.fin = Some(end);
        }
        if next < position {
            self.keep(position, payload);
        } else if next < end {
            self.compare(position, payload, next);
            self.available.extend_from_slice(&payload[(next - position) as usize..]);
            self.join();
        } else {
            self.compare(position, payload, end);
        }
        Some(position.max(self.taken))
    }

    /// Compares the bytes up to a position with those that are held.
    fn compare(&mut self, position: u64, payload: &[u8], end: u64) {
        let from = position.max(self.taken);
        if from < end {
            let held = &self.available[(from - self.taken) as usize..(end - self.taken) as usize];
            let bytes = &payload[(from - position) as usize..(end - position) as usize];
            self.conflicts += held.iter().zip(bytes).filter(|(a, b)| a != b).count() as u64;
        }
    }

    fn keep(&mut self, position: u64, payload: &[u8]) {
        match self.pending.get(&position) {
            Some(held) if payload.len() <= held.len() => {
                self.conflicts += held.iter().zip(payload).filter(|(a, b)| a != b).count() as u64;
            }
            _ if payload.is_empty() => {}
            _ => {
                self.pending.insert(position, payload.to_vec());
            }
        }
    }

    /// Makes available what follows without a gap.
    fn join(&mut self) {
        while let Some(entry) = self.pending.first_entry() {
            let next = self.taken + self.available.len() as u64;
            if next < *entry.key() {
                break;
            }
            let (position, bytes) = entry.remove_entry();
            let end = position + bytes.len() as u64;
            self.compare(position, &bytes, next.min(end));
            if next < end {
                self.available.extend_from_slice(&bytes[(next - position) as usize..]);
            }
        }
    }

    fn consume(&mut self) {
        self.taken += self.available.len() as u64;
        self.available.clear();
    }

    fn is_finished(&self) -> bool {
        self.fin == Some(self.taken + self.available.len() as u64)
    }
}

/// The greatest number of connections that are held.
const MOST: usize = 4096;

#[derive(Clone, Copy, PartialEq, Eq, PartialOrd, Ord, Hash)]
#[allow(dead_code)]
enum Endpoint {
    V4 { address: [u8; 4], port: u16 },
    V6 { address: [u8; 16], port: u16 },
}

/// Both endpoints, the lower one first, and the identifiers of VLAN tags.
#[derive(Clone, PartialEq, Eq, Hash)]
struct Key {
    vlan_count: u8,
    vlan_ids: [u16; 3],
    lower: Endpoint,
    higher: Endpoint,
}

#[derive(Default)]
struct Connection {
    packets: [u64; 2],
    bytes: [u64; 2],
    first: u64,
    last: u64,
    state: State,
    stream: Stream,
}

/// A connection in the order of use: the indexes of those that were used before and after it.
struct Entry {
    key: Key,
    connection: Connection,
    older: usize,
    newer: usize,
}

/// No entry.
const NONE: usize = usize::MAX;

/// As many connections as there may be: one more takes the place of the one that wasn't used for longest.
struct Connections {
    indexes: HashMap<Key, usize, BuildHasherDefault<FoldHasher>>,
    entries: Vec<Entry>,
    oldest: usize,
    newest: usize,
}

impl Connections {
    fn new() -> Connections {
        Connections { indexes: HashMap::default(), entries: Vec::new(), oldest: NONE, newest: NONE }
    }

    fn unlink(&mut self, index: usize) {
        let (older, newer) = (self.entries[index].older, self.entries[index].newer);
        match self.entries.get_mut(older) {
            Some(entry) => entry.newer = newer,
            None => self.oldest = newer,
        }
        match self.entries.get_mut(newer) {
            Some(entry) => entry.older = older,
            None => self.newest = older,
        }
    }

    fn link_newest(&mut self, index: usize) {
        (self.entries[index].older, self.entries[index].newer) = (self.newest, NONE);
        match self.entries.get_mut(self.newest) {
            Some(entry) => entry.newer = index,
            None => self.oldest = index,
        }
        self.newest = index;
    }

    /// The connection of this key, which becomes the newest one.
    fn of(&mut self, key: Key, time: u64) -> &mut Connection {
        if let Some(&index) = self.indexes.get(&key) {
            if index != self.newest {
                self.unlink(index);
                self.link_newest(index);
            }
            return &mut self.entries[index].connection;
        }
        let connection = Connection { first: time, ..Connection::default() };
        let entry = Entry { key: key.clone(), connection, older: NONE, newer: NONE };
        let index = if self.entries.len() < MOST {
            self.entries.push(entry);
            self.entries.len() - 1
        } else {
            let oldest = self.oldest;
            self.unlink(oldest);
            self.indexes.remove(&self.entries[oldest].key);
            self.entries[oldest] = entry;
            oldest
        };
        self.indexes.insert(key, index);
        self.link_newest(index);
        &mut self.entries[index].connection
    }
}

/// A sum with what becomes available with a segment.
fn sum_with(
    sum: u64,
    connections: &mut Connections,
    time: u64,
    client: u32,
    flags: Flags,
    number: u32,
    payload: &[u8],
) -> u64 {
    let [_, high, low, _] = client.to_be_bytes();
    let source = Endpoint::V4 { address: [10, 0, high, low], port: (1024 + client % 50_000) as u16 };
    let destination = Endpoint::V4 { address: [10, 1, 0, 1], port: 80 };
    let (lower, higher, direction) = if source <= destination {
        (source, destination, 0)
    } else {
        (destination, source, 1)
    };
    let key = Key { vlan_count: 0, vlan_ids: [0; 3], lower, higher };
    let connection = connections.of(key, time);
    connection.packets[direction] += 1;
    connection.bytes[direction] += payload.len() as u64;
    connection.last = connection.last.max(time);
    connection.state = connection.state.after(direction, flags);
    let stream = &mut connection.stream;
    let Some(position) = stream.add(number, flags, payload) else {
        return sum;
    };
    let bytes = stream.available.as_slice();
    let ends = bytes.first().zip(bytes.last());
    let (first, last) = ends.map_or((0, 0), |(first, last)| (*first, *last));
    let sum = sum
        .wrapping_mul(31)
        .wrapping_add(position)
        .wrapping_add(bytes.len() as u64)
        .wrapping_add(u64::from(first))
        .wrapping_add(u64::from(last))
        .wrapping_add(u64::from(stream.is_finished()));
    stream.consume();
    sum
}

fn initial_number(client: u32) -> u32 {
    client.wrapping_mul(0x9e37_79b9)
}

/// All connections side by side: the SYN of each, then a segment of each, and so on.
fn put_together(arrival: Arrival) -> u64 {
    let mut connections = Connections::new();
    let mut payload = [0; SEGMENT_LEN];
    let mut sum = 0;
    let mut time = 0;
    let syn = Flags { syn: true, ..Flags::default() };
    let ack = Flags { ack: true, ..Flags::default() };
    let fin = Flags { ack: true, fin: true, ..Flags::default() };
    for client in 0..CONNECTIONS {
        sum = sum_with(sum, &mut connections, time, client, syn, initial_number(client), &[]);
        time += 1;
    }
    for index in 0..arrival.count() {
        let segment = arrival.segment(index);
        for client in 0..CONNECTIONS {
            payload[0] = segment as u8;
            payload[SEGMENT_LEN - 1] = client as u8;
            let offset = segment.wrapping_mul(SEGMENT_LEN as u32);
            let number = initial_number(client).wrapping_add(1).wrapping_add(offset);
            sum = sum_with(sum, &mut connections, time, client, ack, number, &payload);
            time += 1;
        }
    }
    for client in 0..CONNECTIONS {
        let offset = SEGMENTS.wrapping_mul(SEGMENT_LEN as u32);
        let number = initial_number(client).wrapping_add(1).wrapping_add(offset);
        sum = sum_with(sum, &mut connections, time, client, fin, number, &[]);
        time += 1;
    }
    for Entry { connection, .. } in &connections.entries {
        let counted = connection.packets[0] + connection.packets[1] + connection.bytes[0] + connection.bytes[1];
        sum = sum
            .wrapping_add(counted)
            .wrapping_add(connection.last - connection.first)
            .wrapping_add(connection.stream.conflicts)
            .wrapping_add(u64::from(connection.state.is_closing()));
    }
    sum
}

fn main() -> ExitCode {
    let words: Vec<String> = std::env::args().skip(1).collect();
    let is_timed = words.first().is_some_and(|word| word == "--timed");
    let turns = if is_timed { 20 } else { 1 };
    for name in words.iter().skip(usize::from(is_timed)) {
        let Some(arrival) = Arrival::of_name(name) else {
            eprintln!("plain_streams: no benchmark has the name {name}");
            return ExitCode::FAILURE;
        };
        let mut sum = 0;
        let mut fastest = Duration::MAX;
        for _ in 0..turns {
            let start = Instant::now();
            sum = put_together(arrival);
            fastest = fastest.min(start.elapsed());
        }
        if is_timed {
            println!("{name} {sum} {}", fastest.as_nanos());
        } else {
            println!("{name} {sum}");
        }
    }
    ExitCode::SUCCESS
}
