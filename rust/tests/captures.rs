//! Packets of captures, and captures that are written.

use etherparse_proved::{Capture, CaptureError, CaptureFault, CaptureLink, CaptureWriter, CapturedPacket};
use std::fs;
use std::io::{self, Cursor, ErrorKind, Read};

const TABLE: &str = concat!(env!("CARGO_MANIFEST_DIR"), "/../c/tests/captures.txt");

fn bytes(hex: &str) -> Vec<u8> {
    (0..hex.len() / 2).map(|i| u8::from_str_radix(&hex[2 * i..2 * i + 2], 16).unwrap()).collect()
}

/// A reader that gives a few bytes at a time, and is interrupted before each.
struct Chunks {
    bytes: Cursor<Vec<u8>>,
    size: usize,
    interrupts: bool,
}

impl Read for Chunks {
    fn read(&mut self, output: &mut [u8]) -> io::Result<usize> {
        self.interrupts = !self.interrupts;
        if self.interrupts {
            return Err(ErrorKind::Interrupted.into());
        }
        let size = self.size.min(output.len());
        self.bytes.read(&mut output[..size])
    }
}

fn opened(skips: &str, file: &str, size: usize) -> Capture<Chunks> {
    let reader = Chunks { bytes: Cursor::new(bytes(file)), size, interrupts: false };
    if skips == "1" { Capture::skipping(reader) } else { Capture::new(reader) }.unwrap()
}

fn link(number: &str) -> CaptureLink {
    let links = [
        CaptureLink::Ethernet,
        CaptureLink::Ip,
        CaptureLink::BsdLoopback,
        CaptureLink::OpenBsdLoopback,
        CaptureLink::LinuxSll,
        CaptureLink::LinuxSll2,
    ];
    links[number.parse::<usize>().unwrap() - 1]
}

fn fault(kind: &str, value: &str, minor: &str) -> CaptureFault {
    match kind {
        "1" => CaptureFault::NotCapture,
        "2" => CaptureFault::LinkType(value.parse().unwrap()),
        "3" => CaptureFault::InterfaceLimit(value.parse().unwrap()),
        "4" => CaptureFault::FrameTooLong(value.parse().unwrap()),
        "5" => CaptureFault::NoFrame,
        "6" => CaptureFault::CutOff,
        "7" => CaptureFault::BlockTooLong(value.parse().unwrap()),
        "8" => CaptureFault::Version(value.parse().unwrap(), minor.parse().unwrap()),
        "9" => CaptureFault::BadBlock,
        _ => panic!("{kind}"),
    }
}

#[test]
fn table() {
    for size in [1, 7, 1 << 16] {
        let mut capture = opened("0", "", size);
        for line in fs::read_to_string(TABLE).unwrap().lines().filter(|line| !line.starts_with('#')) {
            let words: Vec<&str> = line.split_whitespace().collect();
            match words[..] {
                ["capture", skips, file] => capture = opened(skips, file, size),
                ["packet", number, time, wire_len, kind, interface, frame] => {
                    let wanted = CapturedPacket {
                        number: number.parse().unwrap(),
                        time: time.parse().unwrap(),
                        wire_len: wire_len.parse().unwrap(),
                        link: link(kind),
                        interface: interface.parse().unwrap(),
                        bytes: bytes(frame),
                    };
                    assert_eq!(capture.next().unwrap().unwrap(), wanted, "{line}");
                }
                ["whole"] => assert!(capture.next().is_none(), "{line}"),
                ["refused", kind, value, minor, packet, offset, block_type] => {
                    let (found, p, o, b) = match capture.next().unwrap().unwrap_err() {
                        CaptureError::Refused { fault, packet, offset, block_type } => (fault, packet, offset, block_type),
                        CaptureError::Read(error) => panic!("{line}: {error}"),
                    };
                    assert_eq!(found, fault(kind, value, minor), "{line}");
                    assert_eq!((p, o), (packet.parse().unwrap(), offset.parse().unwrap()), "{line}");
                    assert_eq!(b.unwrap_or(0), block_type.parse().unwrap(), "{line}");
                    assert!(capture.next().is_none(), "{line}");
                }
                ["header", nanoseconds, wanted] => {
                    let writer = match nanoseconds {
                        "1" => CaptureWriter::with_nanoseconds(Vec::new()),
                        _ => CaptureWriter::new(Vec::new()),
                    };
                    assert_eq!(writer.unwrap().into_inner(), bytes(wanted), "{line}");
                }
                ["record", ..] => {} // which a writer's tests have below
                _ => panic!("{line}"),
            }
        }
    }
}

// By hand: 2 seconds, 3004 nanoseconds; 2 bytes of 9.
#[test]
fn written() {
    for (nanoseconds, fraction) in [(false, "03000000"), (true, "bc0b0000")] {
        let writer = if nanoseconds { CaptureWriter::with_nanoseconds(Vec::new()) } else { CaptureWriter::new(Vec::new()) };
        let mut writer = writer.unwrap();
        writer.write(2_000_003_004, b"\xab\xcd", 9).unwrap();
        let record = format!("02000000{fraction}0200000009000000abcd");
        assert_eq!(writer.into_inner()[24..], bytes(&record)[..]);
    }
}

// The greatest seconds, and one more.
#[test]
fn times_that_fit() {
    let mut writer = CaptureWriter::new(Vec::new()).unwrap();
    writer.write(4_294_967_295_999_999_999, b"", 0).unwrap();
    let error = writer.write(4_294_967_296_000_000_000, b"", 0).unwrap_err();
    assert_eq!(error.kind(), ErrorKind::InvalidInput);
    assert_eq!(writer.into_inner().len(), 24 + 16);
}

#[test]
fn what_is_written_is_read() {
    let frames = [vec![1], vec![0; 1514], vec![0; 99_991]];
    let mut writer = CaptureWriter::with_nanoseconds(Vec::new()).unwrap();
    for (number, frame) in frames.iter().enumerate() {
        writer.write(1_700_000_000_000_000_000 + number as u64, frame, 9).unwrap();
    }
    let error = writer.write(0, &[0; 99_992], 0).unwrap_err();
    assert_eq!(error.kind(), ErrorKind::InvalidInput);
    let file = writer.into_inner();
    let packets: Vec<_> = Capture::new(&file[..]).unwrap().map(Result::unwrap).collect();
    assert_eq!(packets.iter().map(|packet| &packet.bytes).collect::<Vec<_>>(), frames.iter().collect::<Vec<_>>());
    assert_eq!(packets.iter().map(|packet| packet.wire_len).collect::<Vec<_>>(), [9, 1514, 99_991]);
    assert_eq!(packets[2].time, 1_700_000_000_000_000_002);
}

// A file of no byte, one that is compressed, a packet and a header that are cut off, the greatest length.
#[test]
fn files_that_are_no_captures() {
    const HEADER: &str = "d4c3b2a10200040000000000000000000000040001000000";
    const RECORD: &str = "00000000000000000100000001000000ff";
    for (file, text) in [
        (String::new(), "packet 1, byte 0: no capture file"),
        ("1f8b".to_string() + &"00".repeat(60), "packet 1, byte 0: no capture file"),
        (HEADER[..46].to_string(), "packet 1, byte 0: no capture file"),
        (HEADER.to_string() + RECORD + &RECORD[..18], "packet 2, byte 41: the capture ends within a packet"),
        (HEADER.to_string() + RECORD + &RECORD[..32], "packet 2, byte 41: the capture ends within a packet"),
        (HEADER.to_string() + &"00".repeat(8) + &"ff".repeat(8), "packet 1, byte 24: a packet of 4294967295 bytes is too long"),
    ] {
        let error = Capture::new(&bytes(&file)[..]).unwrap().find_map(Result::err).unwrap();
        assert_eq!(error.to_string(), text);
    }
}

struct Fails;

impl Read for Fails {
    fn read(&mut self, _: &mut [u8]) -> io::Result<usize> {
        Err(ErrorKind::PermissionDenied.into())
    }
}

#[test]
fn reads_that_fail() {
    let mut capture = Capture::new(Fails).unwrap();
    let error = capture.next().unwrap().unwrap_err();
    assert!(matches!(&error, CaptureError::Read(error) if error.kind() == ErrorKind::PermissionDenied));
    assert!(capture.next().is_none());
}

#[test]
fn texts() {
    let mut capture = Capture::new(&[0; 24][..]).unwrap();
    let error = capture.next().unwrap().unwrap_err();
    assert_eq!(error.to_string(), "packet 1, byte 0: no capture file");
}
