//! Messages that come in parts.

use etherparse_proved::{slice_ethernet, slice_ip, slice_linux_sll, AddError, Message, PartRefusal, Pool, Refusal};
use std::fs;
use std::net::{IpAddr, Ipv4Addr, Ipv6Addr};

const TABLE: &str = concat!(env!("CARGO_MANIFEST_DIR"), "/../c/tests/pools.txt");

fn bytes(hex: &str) -> Vec<u8> {
    let hex = hex.trim_matches('-');
    (0..hex.len() / 2).map(|i| u8::from_str_radix(&hex[2 * i..2 * i + 2], 16).unwrap()).collect()
}

fn address(hex: &str) -> IpAddr {
    match <[u8; 4]>::try_from(bytes(hex)) {
        Ok(address) => Ipv4Addr::from(address).into(),
        Err(address) => Ipv6Addr::from(<[u8; 16]>::try_from(address).unwrap()).into(),
    }
}

/// Why a frame that a call of the table takes is refused.
fn refusal(call: &str, frame: &[u8]) -> Refusal {
    let sliced = match call {
        "add" => slice_ethernet(frame),
        "add_linux_sll" => slice_linux_sll(frame),
        "add_ip" => slice_ip(frame),
        _ => panic!("{call}"),
    };
    sliced.unwrap_err()
}

/// What the words of an answer in the table expect.
fn wanted(call: &str, frame: &[u8], answer: &[&str]) -> Result<Option<Message>, AddError> {
    match *answer {
        ["none"] => Ok(None),
        ["message", version, number, source, destination, message] => {
            let (source, destination) = (address(source), address(destination));
            assert_eq!(source.is_ipv4(), version == "4");
            Ok(Some(Message { source, destination, number: number.parse().unwrap(), bytes: bytes(message) }))
        }
        ["frame", _] => Err(AddError::Frame(refusal(call, frame))),
        ["part", kind, offset, previous_end, end, len] => {
            let (offset, len) = (offset.parse().unwrap(), len.parse().unwrap());
            Err(AddError::Part(match kind {
                "1" => PartRefusal::Unaligned { offset, len },
                "2" => PartRefusal::TooLong { offset, len },
                "4" => PartRefusal::Overlapping { offset, len },
                _ => {
                    let (previous_end, end) = (previous_end.parse().unwrap(), end.parse().unwrap());
                    PartRefusal::ConflictingEnd { previous_end, end }
                }
            }))
        }
        _ => panic!("{answer:?}"),
    }
}

#[test]
fn table() {
    let mut pool = Pool::new().unwrap();
    for line in fs::read_to_string(TABLE).unwrap().lines() {
        match line.split(' ').collect::<Vec<_>>()[..] {
            ["#", ..] => {}
            ["pool"] => pool = Pool::new().unwrap(),
            [call @ ("add" | "add_linux_sll" | "add_ip"), time, channel, frame, ref answer @ ..] => {
                let frame = bytes(frame);
                let (time, channel) = (time.parse().unwrap(), channel.parse().unwrap());
                let found = match call {
                    "add" => pool.add(&frame, time, channel),
                    "add_linux_sll" => pool.add_linux_sll(&frame, time, channel),
                    _ => pool.add_ip(&frame, time, channel),
                };
                assert_eq!(found, wanted(call, &frame, answer), "{line}");
            }
            ["forget", time] => pool.forget_before(time.parse().unwrap()),
            ["open", count] => assert_eq!(pool.open_len(), count.parse().unwrap(), "{line}"),
            _ => panic!("{line}"),
        }
    }
}

#[test]
fn errors() {
    let text = |error: AddError| Box::<dyn std::error::Error>::from(error).to_string();
    let part = |refusal| text(AddError::Part(refusal));
    assert_eq!(part(PartRefusal::Unaligned { offset: 5, len: 9 }), "a part of 9 bytes at offset 5, and no multiple of 8");
    let long = PartRefusal::TooLong { offset: 8191, len: 8 };
    assert_eq!(part(long), "a part of 8 bytes at offset 8191, which ends beyond byte 65535");
    let end = PartRefusal::ConflictingEnd { previous_end: 16, end: 24 };
    assert_eq!(part(end), "a part that ends at 24, of a message that ends at 16");
    let overlap = PartRefusal::Overlapping { offset: 1, len: 8 };
    assert_eq!(part(overlap), "a part of 8 bytes at offset 1, which overlaps another");
    let frame = slice_ethernet(&[]).unwrap_err();
    assert_eq!(text(AddError::Frame(frame)), frame.to_string());
    assert_eq!(text(AddError::OutOfMemory), "out of memory");
}
