//! TCP streams, keys and states of connections, and tables of them.

use etherparse_proved::{
    slice_ethernet, AddedSegment, Conflicts, ConnectionState, Direction, Flow, FlowKey, FlowPacket, Flows, Gap, SegmentError,
    SegmentFlags, Stream, StreamProgress, Traffic, Transport,
};
use std::collections::{BTreeSet, HashSet};
use std::fs;
use std::io::Read;
use std::net::{IpAddr, Ipv4Addr, Ipv6Addr, SocketAddr};
use std::num::NonZeroUsize;
use std::thread;

const TABLE: &str = concat!(env!("CARGO_MANIFEST_DIR"), "/../c/tests/streams.txt");

fn bytes(hex: &str) -> Vec<u8> {
    let hex = hex.trim_matches('-');
    (0..hex.len() / 2).map(|i| u8::from_str_radix(&hex[2 * i..2 * i + 2], 16).unwrap()).collect()
}

fn flags(letters: &str) -> SegmentFlags {
    let [syn, ack, fin, rst] = ['S', 'A', 'F', 'R'].map(|letter| letters.contains(letter));
    SegmentFlags { syn, ack, fin, rst }
}

fn conflicts(text: &str) -> Conflicts {
    match text.split_once('@') {
        Some((count, first)) => Conflicts { count: count.parse().unwrap(), first: Some(first.parse().unwrap()) },
        None => Conflicts::default(),
    }
}

fn endpoint(address: &str, port: &str) -> SocketAddr {
    let address = match <[u8; 4]>::try_from(bytes(address)) {
        Ok(address) => IpAddr::from(Ipv4Addr::from(address)),
        Err(address) => IpAddr::from(Ipv6Addr::from(<[u8; 16]>::try_from(address).unwrap())),
    };
    SocketAddr::new(address, port.parse().unwrap())
}

fn direction(number: &str) -> Direction {
    match number {
        "1" => Direction::FromLower,
        "2" => Direction::FromHigher,
        _ => panic!("{number}"),
    }
}

fn state(number: &str, of: &str) -> ConnectionState {
    match number {
        "0" => ConnectionState::Unseen,
        "1" => ConnectionState::SynSent { opener: direction(of) },
        "2" => ConnectionState::SynReceived { opener: direction(of) },
        "3" => ConnectionState::Established,
        "4" => ConnectionState::Closing { closer: direction(of) },
        "5" => ConnectionState::Closed,
        "6" => ConnectionState::Reset,
        _ => panic!("{number}"),
    }
}

fn added(answer: &[&str]) -> Result<AddedSegment, SegmentError> {
    match *answer {
        ["at", position, text] => Ok(AddedSegment { position: position.parse().unwrap(), conflicts: conflicts(text) }),
        ["refused", "1", at] => Err(SegmentError::OutsideWindow { window_end: at.parse().unwrap() }),
        ["refused", "2", at] => Err(SegmentError::AfterFin { fin: at.parse().unwrap() }),
        ["refused", "3", "0"] => Err(SegmentError::AfterReset),
        _ => panic!("{answer:?}"),
    }
}

fn key_by(call: &str, packet: &[u8], channel: u32) -> Option<(FlowKey, Direction)> {
    match call {
        "ethernet" => FlowKey::of_ethernet(packet, channel),
        "linux_sll" => FlowKey::of_linux_sll(packet, channel),
        "ip" => FlowKey::of_ip(packet, channel),
        _ => panic!("{call}"),
    }
}

#[test]
fn table() {
    let mut stream = Stream::new(0).unwrap();
    let mut connection = ConnectionState::default();
    for line in fs::read_to_string(TABLE).unwrap().lines() {
        match line.split(' ').collect::<Vec<_>>()[..] {
            ["#", ..] => {}
            ["stream", window] => stream = Stream::new(window.parse().unwrap()).unwrap(),
            ["add", number, letters, payload, ref answer @ ..] => {
                let found = stream.add(number.parse().unwrap(), flags(letters), &bytes(payload));
                assert_eq!(found, added(answer), "{line}");
            }
            ["read", size, wanted] => {
                let mut output = vec![7; size.parse().unwrap()];
                let count = stream.read(&mut output).unwrap();
                assert_eq!(output[..count], bytes(wanted), "{line}");
                assert!(output[count..].iter().all(|byte| *byte == 7));
            }
            ["progress", available, consumed, gap, text, said] => {
                let gap = gap.split_once('-').filter(|(start, _)| !start.is_empty());
                let wanted = StreamProgress {
                    available: available.parse().unwrap(),
                    consumed: consumed.parse().unwrap(),
                    gap: gap.map(|(start, end)| Gap { start: start.parse().unwrap(), end: end.parse().unwrap() }),
                    conflicts: conflicts(text),
                    is_finished: said.contains('f'),
                    is_reset: said.contains('r'),
                    joined_late: said.contains('l'),
                };
                assert_eq!(stream.progress(), wanted, "{line}");
                assert_eq!((stream.gap(), stream.conflicts()), (wanted.gap, wanted.conflicts));
                assert_eq!(stream.is_finished(), wanted.is_finished);
            }
            ["key", call, channel, frame, "none" | "refused"] => {
                assert_eq!(key_by(call, &bytes(frame), channel.parse().unwrap()), None, "{line}");
            }
            ["key", call, channel, frame, way, lower, lower_port, higher, higher_port, own_channel, vlan_ids] => {
                let (key, found) = key_by(call, &bytes(frame), channel.parse().unwrap()).unwrap();
                assert_eq!(found, direction(way), "{line}");
                let (lower, higher) = (endpoint(lower, lower_port), endpoint(higher, higher_port));
                assert_eq!(key.endpoints(Direction::FromLower), (lower, higher), "{line}");
                assert_eq!(key.endpoints(Direction::FromHigher), (higher, lower), "{line}");
                let ids: Vec<u16> = vlan_ids.trim_matches('-').split_terminator(',').map(|id| id.parse().unwrap()).collect();
                assert_eq!((key.channel(), key.vlan_ids()), (own_channel.parse().unwrap(), &ids[..]), "{line}");
                if ids.is_empty() {
                    let (source, destination) = key.endpoints(found);
                    assert_eq!(FlowKey::between(source, destination, key.channel()), (key, found), "{line}");
                }
            }
            ["connection"] => connection = ConnectionState::default(),
            ["segment", way, letters, number, of] => {
                connection = connection.after(direction(way), flags(letters));
                assert_eq!(connection, state(number, of), "{line}");
            }
            _ => panic!("{line}"),
        }
    }
}

#[test]
fn errors() {
    let text = |error: SegmentError| Box::<dyn std::error::Error>::from(error).to_string();
    let outside = "a segment that ends after the window, which ends at byte 9";
    assert_eq!(text(SegmentError::OutsideWindow { window_end: 9 }), outside);
    assert_eq!(text(SegmentError::AfterFin { fin: 3 }), "FIN at byte 3, and a byte or FIN after it");
    assert_eq!(text(SegmentError::AfterReset), "a segment after the connection was reset");
    assert_eq!(text(SegmentError::OutOfMemory), "out of memory");
}

#[test]
fn a_stream_is_moved_and_read() {
    let mut stream = Stream::new(100).unwrap();
    stream.add(5, flags("A"), b"ab").unwrap();
    let moved = thread::spawn(move || {
        stream.add(9, flags("A"), b"e").unwrap();
        stream
    });
    let mut stream = moved.join().unwrap();
    assert_eq!(stream.take_available(), b"ab");
    assert_eq!(stream.take_available(), b"");
    stream.add(7, flags("A"), b"cd").unwrap();
    let mut text = Vec::new();
    assert_eq!(stream.read_to_end(&mut text).unwrap(), 3);
    assert_eq!(text, b"cde");
}

#[test]
fn chunks_end_where_a_byte_is_missing() {
    let text: Vec<u8> = (0..150_000u32).map(|i| (i % 251) as u8).collect();
    let mut stream = Stream::new(200_000).unwrap();
    for start in [0, 50_000, 110_000] {
        stream.add(start, flags("A"), &text[start as usize..start as usize + 40_000]).unwrap();
    }
    assert_eq!(stream.chunks().collect::<Vec<_>>(), [&text[..40_000]]);
    assert!(stream.chunks().next().is_none());
    stream.add(40_000, flags("A"), &text[40_000..110_000]).unwrap();
    assert_eq!(stream.chunks().collect::<Vec<_>>(), [&text[40_000..105_536], &text[105_536..]]);
}

/// A TCP segment over IPv4, from 10.0.0.1 port 1 to 10.0.0.2 port 2, or back, with these flags.
fn frame(back: bool, flags: u8) -> Vec<u8> {
    let mut frame = vec![2, 0, 0, 0, 0, 2, 2, 0, 0, 0, 0, 1, 8, 0, 0x45, 0, 0, 42, 0, 1, 0, 0, 64, 6, 0, 0];
    frame.extend(if back { [10, 0, 0, 2, 10, 0, 0, 1] } else { [10, 0, 0, 1, 10, 0, 0, 2] });
    frame.extend(if back { [0, 2, 0, 1] } else { [0, 1, 0, 2] });
    frame.extend([0, 0, 0, 9, 0, 0, 0, 0, 0x50, flags, 32, 0, 0, 0, 0, 0, b'h', b'i']);
    frame
}

#[test]
fn frames_to_flows_and_streams() {
    let mut flows = Flows::new(NonZeroUsize::new(2).unwrap());
    for (number, (back, flags)) in [(false, 0x02), (true, 0x12), (false, 0x10), (false, 0x11)].into_iter().enumerate() {
        let frame = frame(back, flags);
        let (key, direction) = FlowKey::of_ethernet(&frame, 0).unwrap();
        let packet = slice_ethernet(&frame).unwrap();
        let header = match packet.transport() {
            Some(Transport::Tcp(header)) => header,
            _ => panic!("no segment"),
        };
        let flags = SegmentFlags::from(header);
        let counted = FlowPacket { time: 10 - number as u64, bytes: frame.len() as u64, direction, flags };
        assert!(flows.add(key, counted, || Stream::new(100).unwrap()).is_none());
        if direction == Direction::FromLower {
            let added = flows.value_mut(&key).unwrap().add(header.sequence_number, flags, packet.payload());
            assert!(added.is_ok());
        }
    }
    let (key, flow) = flows.pop_oldest().unwrap();
    assert_eq!(key.endpoints(Direction::FromLower).0, "10.0.0.1:1".parse().unwrap());
    assert_eq!((flow.from_lower, flow.from_higher), (Traffic { packets: 3, bytes: 168 }, Traffic { packets: 1, bytes: 56 }));
    assert_eq!((flow.first, flow.last), (7, 10));
    assert_eq!(flow.state, ConnectionState::Closing { closer: Direction::FromLower });
    let mut stream: Stream = flow.value;
    assert_eq!(stream.take_available(), b"hi");
    assert!(flows.is_empty());
}

fn key(port: u16) -> FlowKey {
    FlowKey::between(SocketAddr::from(([10, 0, 0, 1], port)), SocketAddr::from(([10, 0, 0, 2], 80)), 0).0
}

fn packet(time: u64) -> FlowPacket {
    FlowPacket { time, bytes: 1, direction: Direction::FromLower, flags: flags("A") }
}

#[test]
fn the_flow_that_is_silent_for_the_longest_time_is_dropped() {
    let mut flows = Flows::new(NonZeroUsize::new(2).unwrap());
    assert_eq!(flows.add(key(1), packet(1), || "one"), None);
    assert_eq!(flows.add(key(2), packet(2), || "two"), None);
    assert_eq!(flows.add(key(1), packet(0), || "other"), None);
    assert_eq!(flows.oldest().map(|(key, flow)| (*key, flow.value)), Some((key(2), "two")));
    let (dropped, flow) = flows.add(key(3), packet(3), || "three").unwrap();
    assert_eq!((dropped, flow.value, flows.len()), (key(2), "two", 2));
    assert_eq!(flows.get(&key(1)).map(|flow| (flow.first, flow.last, flow.value)), Some((0, 1, "one")));
    assert_eq!(flows.get(&key(2)), None);
    *flows.value_mut(&key(1)).unwrap() = "changed";
    let values: Vec<_> = flows.iter().map(|(_, flow)| flow.value).collect();
    assert_eq!(values, ["changed", "three"]);
    assert_eq!(flows.remove(&key(1)).map(|flow| flow.value), Some("changed"));
    assert_eq!(flows.remove(&key(1)), None);
    assert_eq!(flows.pop_oldest().map(|(key, _)| key), Some(key(3)));
    assert!(flows.pop_oldest().is_none() && flows.is_empty());
}

#[test]
fn flows_are_kept_in_their_order() {
    let mut flows = Flows::new(NonZeroUsize::new(3).unwrap());
    for (port, value) in [(1, "one"), (2, "two"), (3, "three"), (1, "other")] {
        assert_eq!(flows.add(key(port), packet(port.into()), || value), None);
    }
    let mut tested = Vec::new();
    flows.retain(|key, flow| {
        tested.push((*key, flow.value));
        flow.value != "three"
    });
    assert_eq!(tested, [(key(2), "two"), (key(3), "three"), (key(1), "one")]);
    assert_eq!((flows.len(), flows.get(&key(3))), (2, None));
    assert_eq!(flows.pop_oldest().map(|(key, _)| key), Some(key(2)));
    assert_eq!(flows.add(key(4), packet(4), || "four"), None);
    flows.retain(|_, _| false);
    assert!(flows.is_empty() && flows.oldest().is_none());
}

#[test]
fn counts_stop_at_the_greatest_number() {
    let mut flow = Flow::new(());
    assert_eq!((flow.first, flow.last, flow.state), (u64::MAX, 0, ConnectionState::Unseen));
    for _ in 0..2 {
        flow.count(FlowPacket { bytes: u64::MAX, direction: Direction::FromHigher, ..packet(5) });
    }
    assert_eq!(flow.from_higher, Traffic { packets: 2, bytes: u64::MAX });
    assert_eq!(flow.from_lower, Traffic::default());
}

#[test]
fn keys_are_ordered_and_hashed() {
    let four: SocketAddr = "255.0.0.1:9".parse().unwrap();
    let six: SocketAddr = "[::1]:1".parse().unwrap();
    let (key, direction) = FlowKey::between(six, four, 3);
    assert_eq!((key.endpoints(Direction::FromLower), direction), ((four, six), Direction::FromHigher));
    assert_eq!(FlowKey::between(four, six, 3), (key, direction.other()));
    assert_eq!(FlowKey::between(six, six, 3).1, Direction::FromLower);
    let others = [FlowKey::between(four, six, 4).0, FlowKey::between(four, four, 3).0, key];
    assert_eq!(others.iter().collect::<HashSet<_>>().len(), 3);
    assert_eq!(others.iter().collect::<BTreeSet<_>>().len(), 3);
}
