//! What the wrapper returns for packets, and the answers to the worked rows.

use etherparse_proved::{
    answers, checksum, checksum_is_right, raw, slice_ethernet, slice_ip, slice_linux_sll, verdict_ethernet, verdict_ip,
    verdict_linux_sll, Fault, Layer, LenSource, Link, Net, Refusal, Session, Transport, Verdict,
};
use std::fs;
use std::path::Path;

const TABLES: &str = concat!(env!("CARGO_MANIFEST_DIR"), "/../c/tests");
const ROWS: &str = concat!(env!("CARGO_MANIFEST_DIR"), "/../crates/netlines_rows/data");

fn bytes(hex: &str) -> Vec<u8> {
    if hex == "-" {
        return Vec::new();
    }
    (0..hex.len() / 2).map(|i| u8::from_str_radix(&hex[2 * i..2 * i + 2], 16).unwrap()).collect()
}

/// The rows of the table: the call, the bytes, and the expected fields.
fn rows() -> Vec<(String, Vec<u8>, Vec<(String, String)>)> {
    let table = fs::read_to_string(Path::new(TABLES).join("packets.txt")).unwrap();
    let rows = table.lines().filter(|line| !line.starts_with('#'));
    rows.map(|line| {
        let mut words = line.split(' ');
        let call = words.next().unwrap().to_string();
        let frame = bytes(words.next().unwrap());
        let fields = words.map(|word| word.split_once('=').unwrap());
        (call, frame, fields.map(|(name, value)| (name.to_string(), value.to_string())).collect())
    })
    .collect()
}

fn number(fields: &[(String, String)], name: &str) -> Option<usize> {
    fields.iter().find(|field| field.0 == name).map(|field| field.1.parse().unwrap())
}

#[test]
fn table() {
    let mut refused = 0;
    for (call, frame, fields) in rows() {
        let (found, verdict) = match call.as_str() {
            "ethernet" => (slice_ethernet(&frame), verdict_ethernet(&frame)),
            "linux_sll" => (slice_linux_sll(&frame), verdict_linux_sll(&frame)),
            "ip" => (slice_ip(&frame), verdict_ip(&frame)),
            _ => panic!("{call}"),
        };
        let wanted = [Some(Verdict::None), Some(Verdict::Good), Some(Verdict::Bad), None];
        assert_eq!(verdict, wanted[number(&fields, "verdict").unwrap_or(3)]);
        let kind = fields.iter().find(|field| field.0 == "refusal.kind").map_or("NONE", |field| field.1.as_str());
        let refusal = match found {
            Err(refusal) => refusal,
            Ok(_) => {
                assert_eq!(kind, "NONE");
                continue;
            }
        };
        refused += 1;
        let layer = Layer(number(&fields, "refusal.layer").unwrap() as u32);
        match refusal {
            Refusal::TooFewBytes { needed, there, place, source, layer: found } => {
                assert_eq!((kind, layer), ("TOO_FEW_BYTES", found));
                assert_eq!(Some(needed), number(&fields, "refusal.needed"));
                assert_eq!(Some(there), number(&fields, "refusal.there"));
                assert_eq!(Some(place), number(&fields, "refusal.place"));
                let sources = [LenSource::Slice, LenSource::Ipv4HeaderTotalLen, LenSource::Ipv6HeaderPayloadLen];
                let others = [LenSource::UdpHeaderLen, LenSource::ArpAddrLengths];
                let index = number(&fields, "refusal.source").unwrap();
                assert_eq!(source, [sources[0], sources[0], sources[0], sources[1], sources[2], others[0], others[0], others[1]][index]);
            }
            Refusal::Header { layer: found, fault, value } => {
                assert_eq!((kind.replace('_', ""), layer), (format!("{fault:?}").to_uppercase(), found));
                assert_eq!(Some(value as usize), number(&fields, "refusal.value"));
            }
        }
    }
    assert!(refused > 30);
}

#[test]
fn layers_borrow_the_frame() {
    let frame = bytes("02000000000202000000000108004500002400070000401166c00a0000010a000002000100020010dbb40102030405060708");
    let packet = slice_ethernet(&frame).unwrap();
    let ip = match packet.net() {
        Some(Net::Ipv4(ip)) => ip,
        other => panic!("{other:?}"),
    };
    assert_eq!(ip.source_addr().to_string(), "10.0.0.1");
    assert_eq!(ip.destination_addr().to_string(), "10.0.0.2");
    assert_eq!(packet.bytes_of(ip.header), &frame[14..34]);
    let datagram = match packet.transport() {
        Some(Transport::Udp(datagram)) => datagram,
        other => panic!("{other:?}"),
    };
    assert_eq!(datagram.length(), 16);
    assert_eq!((datagram.source_port, datagram.destination_port), (1, 2));
    assert!(matches!(packet.link(), Some(Link::Ethernet2(link)) if link.ether_type() == 0x0800));
    assert!(packet.tags().is_empty());
    let payload = packet.payload();
    drop(packet);
    assert_eq!(payload, [1, 2, 3, 4, 5, 6, 7, 8]);
}

#[test]
fn faults_have_texts() {
    let refusal = slice_ip(&[0x50; 41]).unwrap_err();
    assert_eq!(refusal, Refusal::Header { layer: Layer(raw::LAYER_IP_HEADER), fault: Fault::IpVersion, value: 5 });
    assert_eq!(refusal.to_string(), "IP version: 5");
    assert_eq!(Layer(raw::LAYER_ARP).to_string(), "arp");
    assert_eq!(LenSource::Slice.to_string(), "bytes that were passed");
    // Destination options, and after them hop-by-hop options (RFC 8200, section 4.1).
    let headers = bytes("6000000000103c40").into_iter().chain([0; 40]).chain([59]).chain([0; 7]);
    let refusal = slice_ip(&headers.collect::<Vec<_>>()).unwrap_err();
    assert_eq!(refusal.to_string(), "hop-by-hop options not at the start");
    assert_eq!(Verdict::Good.to_string(), "good");
    let error: Box<dyn std::error::Error> = slice_ethernet(&[0; 13]).unwrap_err().into();
    assert_eq!(error.to_string(), "ethernet2 header at byte 0 needs 14 bytes, and 13 are there");
}

#[test]
fn sums() {
    // RFC 1071, section 3
    let words = bytes("0001f203f4f5f6f7");
    assert_eq!(checksum(&words), 0x220d);
    assert!(!checksum_is_right(&words));
    assert!(checksum_is_right(&bytes("0001f203f4f5f6f7220d")));
    assert_eq!(checksum(&[]), 0xffff);
}

#[test]
fn rows_are_answered() {
    let mut count = 0;
    for entry in fs::read_dir(ROWS).unwrap() {
        let path = entry.unwrap().path();
        let shown_to_differ = path.file_stem().map_or(false, |name| name == "wrong_on_purpose");
        if path.extension().map_or(false, |extension| extension == "in") && !shown_to_differ {
            let wanted = fs::read(path.with_extension("out")).unwrap();
            let text = fs::read(&path).unwrap();
            assert!(answers(&text).unwrap() == wanted, "{}", path.display());
            for size in [1, 7, 65536] {
                let mut session = Session::open().unwrap();
                let mut found = Vec::new();
                for piece in text.chunks(size) {
                    found.extend(session.feed(piece).unwrap());
                }
                found.extend(session.finish().unwrap());
                assert!(found == wanted, "{} in pieces of {size}", path.display());
                let found = Session::open().unwrap().answers(text.chunks(size)).collect::<Result<Vec<_>, _>>().unwrap();
                assert!(found.concat() == wanted, "{} as an iterator, in pieces of {size}", path.display());
            }
            count += 1;
        }
    }
    assert!(count > 50);
    assert_eq!(answers(&[]), Ok(Vec::new()));
    assert_eq!(Session::open().unwrap().finish(), Ok(Vec::new()));
}
