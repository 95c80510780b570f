//! The job of `captures_cli lines` in plain Rust, as a measure for its speed: reads a classic capture of
//! Ethernet frames or a Linux cooked one, or a pcapng file of one Ethernet interface, from standard input and
//! writes a line for each packet on standard output. Digits come from a table of 256 pairs. It reads numbers
//! in either byte order, and stops at what it doesn't expect.

use std::fs::File;
use std::io::{self, Read, Write};
use std::os::fd::AsFd;

const INPUT_LEN: usize = 1 << 18;
const FILE_HEADER_LEN: usize = 24;
const RECORD_HEAD_LEN: usize = 16;
const BLOCK_MIN_LEN: usize = 12;
const SECTION_HEADER: u32 = 0x0a0d_0d0a;
const ETHERNET: u32 = 1;
const LINUX_SLL: u32 = 113;
const LONGEST_FRAME: usize = 99_991;

/// The two digits of each byte.
const PAIRS: [[u8; 2]; 256] = {
    let mut pairs = [[0; 2]; 256];
    let mut byte = 0;
    while byte < 256 {
        let digits = b"0123456789abcdef";
        pairs[byte] = [digits[byte >> 4], digits[byte & 15]];
        byte += 1;
    }
    pairs
};

fn word(big: bool, bytes: &[u8], at: usize) -> u32 {
    let encoded = bytes[at..at + 4].try_into().unwrap();
    if big {
        u32::from_be_bytes(encoded)
    } else {
        u32::from_le_bytes(encoded)
    }
}

fn is_magic(number: u32) -> bool {
    number == 0xa1b2_c3d4 || number == 0xa1b2_3c4d
}

/// A frame's digits after those of a header that was made for it, if one was.
fn push_line(lines: &mut Vec<u8>, header: &[u8], frame: &[u8]) {
    lines.extend_from_slice(b"frame 0 ");
    for bytes in [header, frame] {
        let start = lines.len();
        lines.resize(start + 2 * bytes.len(), 0);
        for (digits, byte) in lines[start..].chunks_exact_mut(2).zip(bytes) {
            digits.copy_from_slice(&PAIRS[usize::from(*byte)]);
        }
    }
    lines.push(b'\n');
}

fn push_packet(lines: &mut Vec<u8>, link: u32, packet: &[u8]) {
    if packet.is_empty() {
        return;
    }
    if link != LINUX_SLL {
        return push_line(lines, &[], packet);
    }
    let mut header = [0; 14];
    if packet[4..6] == [0, 6] {
        header[6..12].copy_from_slice(&packet[6..12]);
    }
    header[12..].copy_from_slice(&packet[14..16]);
    push_line(lines, &header, &packet[16..]);
}

/// Reads packet records, after a file header.
struct Records {
    big: bool,
    link: u32,
}

/// Reads the blocks of a section.
struct Blocks {
    big: bool,
}

/// Pushes the lines of all whole units, and returns where they end.
trait Units {
    fn push_lines(&self, bytes: &[u8], lines: &mut Vec<u8>) -> usize;
}

impl Units for Records {
    fn push_lines(&self, bytes: &[u8], lines: &mut Vec<u8>) -> usize {
        let mut at = 0;
        while bytes.len() - at >= RECORD_HEAD_LEN {
            let len = word(self.big, bytes, at + 8) as usize;
            assert!(len <= LONGEST_FRAME, "too long");
            let start = at + RECORD_HEAD_LEN;
            if bytes.len() - start < len {
                break;
            }
            push_packet(lines, self.link, &bytes[start..start + len]);
            at = start + len;
        }
        at
    }
}

impl Units for Blocks {
    fn push_lines(&self, bytes: &[u8], lines: &mut Vec<u8>) -> usize {
        let mut at = 0;
        while bytes.len() - at >= BLOCK_MIN_LEN {
            let len = word(self.big, bytes, at + 4) as usize;
            assert!(len >= BLOCK_MIN_LEN && len % 4 == 0, "bad block");
            if bytes.len() - at < len {
                break;
            }
            let block = &bytes[at..at + len];
            assert_eq!(word(self.big, block, len - 4) as usize, len, "bad block");
            match word(self.big, block, 0) {
                1 => assert_eq!(word(self.big, block, 8) % 65_536, ETHERNET, "not Ethernet"),
                6 => {
                    let captured = word(self.big, block, 20) as usize;
                    assert!(captured <= LONGEST_FRAME, "too long");
                    assert_eq!(word(self.big, block, 8), 0, "another interface");
                    push_packet(lines, ETHERNET, &block[28..28 + captured]);
                }
                kind => assert_ne!(kind, SECTION_HEADER, "another section"),
            }
            at += len;
        }
        at
    }
}

/// What the header of a capture says, with its length.
fn units(input: &mut File) -> io::Result<Box<dyn Units>> {
    let mut header = [0; FILE_HEADER_LEN];
    input.read_exact(&mut header)?;
    if word(true, &header, 0) == SECTION_HEADER {
        let big = word(true, &header, 8) == 0x1a2b_3c4d;
        let left = word(big, &header, 4) as usize - FILE_HEADER_LEN;
        input.read_exact(&mut vec![0; left])?;
        return Ok(Box::new(Blocks { big }));
    }
    let big = is_magic(word(true, &header, 0));
    assert!(big || is_magic(word(false, &header, 0)), "no capture");
    let link = word(big, &header, 20) % 65_536;
    assert!(link == ETHERNET || link == LINUX_SLL, "another link");
    Ok(Box::new(Records { big, link }))
}

fn main() -> io::Result<()> {
    let mut input = File::from(io::stdin().as_fd().try_clone_to_owned()?);
    let mut output = File::from(io::stdout().as_fd().try_clone_to_owned()?);
    let units = units(&mut input)?;
    let mut bytes = vec![0; INPUT_LEN];
    let mut lines = Vec::with_capacity(4 * INPUT_LEN);
    let mut left = 0;
    loop {
        let given = input.read(&mut bytes[left..])?;
        if given == 0 {
            assert_eq!(left, 0, "cut off");
            return Ok(());
        }
        let held = left + given;
        let at = units.push_lines(&bytes[..held], &mut lines);
        output.write_all(&lines)?;
        lines.clear();
        bytes.copy_within(at..held, 0);
        left = held - at;
    }
}
