//! What the wrapper returns for the first bytes of packets: c/tests/cut_packets.txt says how its lines read.

use etherparse_proved::{
    slice_ethernet, slice_ethernet_lax, slice_ip_lax, slice_linux_sll_lax, Fault, LaxPacket, Layer, LenSource, Net, Refusal, Stop,
    Transport,
};
use std::fs;

const TABLE: &str = concat!(env!("CARGO_MANIFEST_DIR"), "/../c/tests/cut_packets.txt");

fn bytes(hex: &str) -> Vec<u8> {
    (0..hex.len() / 2).map(|i| u8::from_str_radix(&hex[2 * i..2 * i + 2], 16).unwrap()).collect()
}

/// A number of the table for the first n bytes.
fn number(value: &str, n: usize) -> usize {
    match value.strip_prefix('n') {
        Some("") => n,
        Some(less) => n - less[1..].parse::<usize>().unwrap(),
        None => value.parse().unwrap(),
    }
}

fn lax<'a>(call: &str, bytes: &'a [u8]) -> Result<LaxPacket<'a>, Refusal> {
    match call {
        "ethernet" => slice_ethernet_lax(bytes),
        "linux_sll" => slice_linux_sll_lax(bytes),
        "ip" => slice_ip_lax(bytes),
        _ => panic!("{call}"),
    }
}

/// The number of a source of a length in the table.
fn source_number(source: LenSource) -> usize {
    let sources = [
        LenSource::Slice,
        LenSource::MacsecShortLength,
        LenSource::Ipv4HeaderTotalLen,
        LenSource::Ipv6HeaderPayloadLen,
        LenSource::UdpHeaderLen,
        LenSource::TcpHeaderLen,
        LenSource::ArpAddrLengths,
    ];
    1 + sources.iter().position(|found| *found == source).unwrap()
}

/// The fields of a refusal by the names of the table, without those of the other kind, which are 0 there.
fn refusal_field(refusal: Refusal, name: &str) -> Option<usize> {
    match (refusal, name) {
        (Refusal::TooFewBytes { layer, .. } | Refusal::Header { layer, .. }, "layer") => Some(layer.0 as usize),
        (Refusal::TooFewBytes { needed, .. }, "needed") => Some(needed),
        (Refusal::TooFewBytes { there, .. }, "there") => Some(there),
        (Refusal::TooFewBytes { place, .. }, "place") => Some(place),
        (Refusal::TooFewBytes { source, .. }, "source") => Some(source_number(source)),
        (Refusal::Header { value, .. }, "value") => Some(value as usize),
        _ => None,
    }
}

/// The name of a refusal's kind, without the underscores of the table.
fn kind(refusal: Option<Refusal>) -> String {
    match refusal {
        None => "NONE".to_string(),
        Some(Refusal::TooFewBytes { .. }) => "TOOFEWBYTES".to_string(),
        Some(Refusal::Header { fault, .. }) => format!("{fault:?}").to_uppercase(),
    }
}

/// How many of the table's fields are there for the first n bytes, which have the table's values; of the layers those that a
/// packet's calls have.
fn compared(call: &str, bytes: &[u8], n: usize, fields: &[(&str, &str)]) -> usize {
    let found = lax(call, &bytes[..n]);
    let refusal = found.as_ref().err().copied();
    let stop = found.as_ref().ok().and_then(LaxPacket::stop);
    let mut count = 0;
    for &(path, value) in fields {
        let of = |refusal: Option<Refusal>, name: &str| match name {
            "kind" => {
                assert_eq!(kind(refusal), value.replace('_', ""), "{call}, {n} bytes");
                true
            }
            _ => {
                let field = refusal.and_then(|refusal| refusal_field(refusal, name));
                assert_eq!(field.unwrap_or(0), number(value, n), "{call}, {n} bytes: {path}");
                field.is_some()
            }
        };
        let is_there = match (path, &found) {
            ("stop_layer", _) => {
                assert_eq!(stop.map_or(0, |stop| stop.layer.0 as usize), number(value, n), "{call}, {n} bytes");
                stop.is_some()
            }
            ("incomplete", _) => {
                assert_eq!(found.as_ref().map_or(false, LaxPacket::is_incomplete), value == "1", "{call}, {n} bytes");
                found.is_ok()
            }
            ("transport", Ok(packet)) => {
                let wanted = match packet.packet().transport() {
                    None => "0",
                    Some(Transport::Icmpv4(_)) => "1",
                    Some(Transport::Tcp(_)) => "6",
                    Some(Transport::Udp(_)) => "17",
                    Some(Transport::Icmpv6(_)) => "58",
                };
                assert_eq!(wanted, value, "{call}, {n} bytes");
                true
            }
            ("udp.payload" | "tcp.payload", Ok(packet)) => {
                let (offset, len) = value.split_once('+').unwrap();
                let (offset, len) = (number(offset, n), number(len, n));
                assert_eq!(packet.packet().payload(), &bytes[offset..][..len], "{call}, {n} bytes");
                true
            }
            _ => match path.split_once('.') {
                Some(("refusal", name)) => of(refusal, name),
                Some(("stop", name)) => of(stop.map(|stop| stop.refusal), name),
                _ => false,
            },
        };
        count += usize::from(is_there);
    }
    count
}

#[test]
fn table() {
    let table = fs::read_to_string(TABLE).unwrap();
    let (mut call, mut frame, mut count) = ("", Vec::new(), 0);
    for line in table.lines().filter(|line| !line.starts_with('#')) {
        let mut words = line.split(' ');
        let first = words.next().unwrap();
        if !first.starts_with(|digit: char| digit.is_ascii_digit()) {
            call = first;
            frame = bytes(words.next().unwrap());
            continue;
        }
        let (from, to) = first.split_once('-').unwrap_or((first, first));
        let fields: Vec<_> = words.map(|word| word.split_once('=').unwrap()).collect();
        for n in number(from, 0)..=number(to, 0) {
            count += compared(call, &frame, n, &fields);
        }
    }
    assert!(count > 4500, "{count}");
}

#[test]
fn layers_that_are_there() {
    // UDP over IPv4, of which the last three bytes are missing, and then the last nine.
    let frame = bytes("02000000000202000000000108004500002400070000401166c00a0000010a000002000100020010dbb40102030405");
    assert_eq!(frame.len(), 47);
    assert!(slice_ethernet(&frame).is_err());
    let cut = slice_ethernet_lax(&frame).unwrap();
    assert_eq!((cut.stop(), cut.is_incomplete()), (None, true));
    assert_eq!(cut.packet().payload(), [1, 2, 3, 4, 5]);
    let cut = slice_ethernet_lax(&frame[..41]).unwrap();
    assert!(matches!(cut.packet().net(), Some(Net::Ipv4(packet)) if packet.total_len == 36));
    assert_eq!(cut.packet().payload().len(), 7);
    let stop = cut.stop().unwrap();
    assert_eq!((stop.layer.to_string(), stop.refusal.to_string()), ("udp header".into(), "udp header at byte 34 needs 8 bytes, and 7 are there".into()));
}

#[test]
fn lengths_that_only_the_strict_call_refuses() {
    // Total lengths of 0 and 19, and UDP lengths of 7 and 17, of which one byte isn't there.
    for (total_len, udp_len) in [("0000", "0010"), ("0013", "0010"), ("0024", "0007"), ("0024", "0011")] {
        let frame = bytes(&format!(
            "0200000000020200000000010800\
             4500{total_len}00070000401166c00a0000010a000002\
             00010002{udp_len}dbb40102030405060708"
        ));
        assert!(slice_ethernet(&frame).is_err(), "{total_len} {udp_len}");
        let found = slice_ethernet_lax(&frame).unwrap();
        assert_eq!((found.stop(), found.is_incomplete()), (None, false));
        assert_eq!(found.packet().payload(), [1, 2, 3, 4, 5, 6, 7, 8]);
    }
}

#[test]
fn a_header_that_breaks_its_format_stops() {
    // A TCP data offset of 4.
    let frame = bytes("02000000000202000000000108004500002800070000400666c70a0000010a0000020000000000000000000000004000000000000000");
    let found = slice_ethernet_lax(&frame).unwrap();
    let layer = Layer(20);
    let refusal = Refusal::Header { layer, fault: Fault::TcpDataOffset, value: 4 };
    assert_eq!(found.stop(), Some(Stop { refusal, layer }));
    assert!(!found.is_incomplete());
}
