//! The job of the program `netlines` in plain Rust, as a measure for its speed: reads lines
//! `frame CHANNEL HEX` and `forget LINE` from standard input and writes the answer to each on
//! standard output.

mod frames;
mod pool;
mod reassembly;

use crate::frames::{Addresses, Packet, Part, Unread, read_frame};
use crate::pool::{Pool, add_part};
use crate::reassembly::Refusal;
use std::borrow::Cow;
use std::fs::File;
use std::io::{self, BufRead, Read, Write};
use std::os::fd::AsFd;

const READ_LEN: usize = 1 << 16;
const ANSWERS_LEN: usize = 1 << 16;
const LONGEST_LINE: usize = 200_000;
const CHANNEL_DIGITS: usize = 10;
const LINE_DIGITS: usize = 20;

const TCP_MIN_LEN: usize = 20;
const UDP_LEN: usize = 8;
const ICMP_MIN_LEN: usize = 8;
const ICMPV4_TIMESTAMP_LEN: usize = 20;

const ICMPV4: u8 = 1;
const TCP: u8 = 6;
const UDP: u8 = 17;
const ICMPV6: u8 = 58;

const TIMESTAMP: u8 = 13;
const TIMESTAMP_REPLY: u8 = 14;

const NO_DIGIT: u8 = 0x10;

/// The value of each hex digit, of either case.
const VALUES: [u8; 256] = {
    let mut values = [NO_DIGIT; 256];
    let mut value = 0;
    while value < NO_DIGIT {
        values[b"0123456789abcdef"[value as usize] as usize] = value;
        values[b"0123456789ABCDEF"[value as usize] as usize] = value;
        value += 1;
    }
    values
};

fn main() -> io::Result<()> {
    // The standard library's own handle of standard output would write at each line's end.
    let mut output = File::from(io::stdout().as_fd().try_clone_to_owned()?);
    run(&mut io::stdin().lock(), &mut output)
}

fn run(input: &mut impl Read, output: &mut impl Write) -> io::Result<()> {
    let mut chunk = vec![0; READ_LEN];
    let mut partial = Vec::with_capacity(LONGEST_LINE + 1);
    let mut answerer = Answerer::new();
    let mut answers = Vec::with_capacity(ANSWERS_LEN + LONGEST_LINE);
    loop {
        write_out(&mut answers, output)?;
        let count = input.read(&mut chunk)?;
        if count == 0 {
            break;
        }
        let mut rest = &chunk[..count];
        while let Some(end) = line_end(rest) {
            let line = if partial.is_empty() {
                &rest[..end]
            } else {
                store(&mut partial, &rest[..end]);
                &partial
            };
            append_answer(&mut answers, &answerer.answer(line));
            partial.clear();
            rest = &rest[end + 1..];
            if answers.len() >= ANSWERS_LEN {
                write_out(&mut answers, output)?;
            }
        }
        store(&mut partial, rest);
    }
    if !partial.is_empty() {
        append_answer(&mut answers, &answerer.answer(&partial));
    }
    write_out(&mut answers, output)
}

fn write_out(answers: &mut Vec<u8>, output: &mut impl Write) -> io::Result<()> {
    output.write_all(answers)?;
    answers.clear();
    Ok(())
}

/// The place of the first line feed.
fn line_end(bytes: &[u8]) -> Option<usize> {
    // By this call the standard library's fast search for a byte is reached.
    let skipped = (&mut &*bytes).skip_until(b'\n').ok()?;
    bytes[..skipped].ends_with(b"\n").then(|| skipped - 1)
}

/// Adds bytes to the partial line. Of a line that is too long one byte too many is kept, so that it
/// shows.
fn store(partial: &mut Vec<u8>, bytes: &[u8]) {
    let room = LONGEST_LINE + 1 - partial.len();
    partial.extend_from_slice(&bytes[..bytes.len().min(room)]);
}

enum Answer<'a> {
    Text(&'static str),
    Message {
        protocol: u8,
        verdict: &'static str,
        bytes: Cow<'a, [u8]>,
    },
}

fn append_answer(answers: &mut Vec<u8>, answer: &Answer) {
    match answer {
        Answer::Text(text) => answers.extend_from_slice(text.as_bytes()),
        Answer::Message {
            protocol,
            verdict,
            bytes,
        } => {
            answers.extend_from_slice(b"message ");
            append_decimal(answers, *protocol);
            answers.push(b' ');
            answers.extend_from_slice(verdict.as_bytes());
            answers.push(b' ');
            if bytes.is_empty() {
                answers.push(b'-');
            } else {
                append_hex(answers, bytes);
            }
        }
    }
    answers.push(b'\n');
}

fn append_decimal(answers: &mut Vec<u8>, number: u8) {
    if number >= 100 {
        answers.push(b'0' + number / 100);
    }
    if number >= 10 {
        answers.push(b'0' + number / 10 % 10);
    }
    answers.push(b'0' + number % 10);
}

fn append_hex(answers: &mut Vec<u8>, bytes: &[u8]) {
    let start = answers.len();
    answers.resize(start + 2 * bytes.len(), 0);
    let (pairs, _) = answers[start..].as_chunks_mut::<2>();
    for (pair, byte) in pairs.iter_mut().zip(bytes) {
        *pair = [hex_digit(byte >> 4), hex_digit(byte & 15)];
    }
}

fn hex_digit(value: u8) -> u8 {
    if value < 10 {
        b'0' + value
    } else {
        b'a' - 10 + value
    }
}

/// The incomplete messages, by channel, each with the line of the fragment that was accepted last.
type LinePool = Pool<u32, u64>;

/// Answers lines, one after another.
struct Answerer {
    /// The lines so far.
    lines: u64,
    /// Room for the bytes of a line's frame.
    frame: Vec<u8>,
    pool: LinePool,
}

impl Answerer {
    fn new() -> Answerer {
        Answerer {
            lines: 0,
            frame: vec![0; LONGEST_LINE / 2],
            pool: LinePool::default(),
        }
    }

    fn answer(&mut self, line: &[u8]) -> Answer<'_> {
        self.lines += 1;
        if line.len() > LONGEST_LINE {
            return Answer::Text("bad line");
        }
        if let Some((channel, digits)) = frame_request(line) {
            return match decode_hex(digits, &mut self.frame) {
                Some(frame) => answer_frame(frame, channel, self.lines, &mut self.pool),
                None => Answer::Text("bad line"),
            };
        }
        if let Some(from) = forget_request(line) {
            self.pool.retain(|_, message| message.timestamp >= from);
            return Answer::Text("ok");
        }
        Answer::Text("bad line")
    }
}

/// The channel and the hex digits of a line `frame CHANNEL HEX`.
fn frame_request(line: &[u8]) -> Option<(u32, &[u8])> {
    let rest = line.strip_prefix(b"frame ")?;
    let digits = rest.iter().take_while(|byte| byte.is_ascii_digit()).count();
    let (channel, rest) = rest.split_at(digits);
    let channel = u32::try_from(number(channel, CHANNEL_DIGITS)?).ok()?;
    Some((channel, rest.strip_prefix(b" ")?))
}

/// The line that a line `forget LINE` names.
fn forget_request(line: &[u8]) -> Option<u64> {
    number(line.strip_prefix(b"forget ")?, LINE_DIGITS)
}

/// The value of some decimal digits, at most so many, if it fits.
fn number(digits: &[u8], most: usize) -> Option<u64> {
    if digits.is_empty() || digits.len() > most || !digits.iter().all(u8::is_ascii_digit) {
        return None;
    }
    digits.iter().try_fold(0u64, |number, byte| {
        number.checked_mul(10)?.checked_add(u64::from(byte - b'0'))
    })
}

/// The bytes that the digits encode, where they are whole pairs, one at least.
fn decode_hex<'a>(digits: &[u8], bytes: &'a mut [u8]) -> Option<&'a [u8]> {
    let (pairs, odd) = digits.as_chunks::<2>();
    if pairs.is_empty() || !odd.is_empty() {
        return None;
    }
    let bytes = &mut bytes[..pairs.len()];
    let mut seen = 0;
    for (byte, &[high, low]) in bytes.iter_mut().zip(pairs) {
        let (high, low) = (VALUES[usize::from(high)], VALUES[usize::from(low)]);
        seen |= high | low;
        *byte = high << 4 | low;
    }
    (seen < NO_DIGIT).then_some(bytes)
}

fn answer_frame<'a>(frame: &'a [u8], channel: u32, line: u64, pool: &mut LinePool) -> Answer<'a> {
    let packet = match read_frame(frame) {
        Ok(packet) => packet,
        Err(Unread::Refused) => return Answer::Text("refused frame"),
        Err(Unread::Other) => return Answer::Text("other"),
    };
    match packet.part {
        Some(part) => answer_part(&packet, part, channel, line, pool),
        None if packet.is_fragment => Answer::Text("other"),
        None => answer_message(
            &packet.addresses,
            packet.protocol,
            Cow::Borrowed(packet.payload),
            "refused frame",
        ),
    }
}

/// Answers with the message, or, if it is none of its protocol, with the refusal.
fn answer_message<'a>(
    addresses: &Addresses,
    protocol: u8,
    bytes: Cow<'a, [u8]>,
    refusal: &'static str,
) -> Answer<'a> {
    match judge(addresses, protocol, &bytes) {
        Some(verdict) => Answer::Message {
            protocol,
            verdict,
            bytes,
        },
        None => Answer::Text(refusal),
    }
}

fn answer_part<'a>(
    packet: &Packet<'a>,
    part: Part,
    channel: u32,
    line: u64,
    pool: &mut LinePool,
) -> Answer<'a> {
    match add_part(pool, packet, part, channel, line) {
        Ok(Some(message)) => answer_message(
            &packet.addresses,
            packet.protocol,
            Cow::Owned(message),
            "refused message",
        ),
        Ok(None) => Answer::Text("wait"),
        Err(Refusal::TooLong) => Answer::Text("refused long"),
        Err(Refusal::Unaligned) => Answer::Text("refused unaligned"),
        Err(Refusal::ConflictingEnd) => Answer::Text("refused end"),
        Err(Refusal::Overlap) => Answer::Text("refused overlap"),
    }
}

/// The verdict on a message, if it is one of its protocol.
fn judge(addresses: &Addresses, protocol: u8, message: &[u8]) -> Option<&'static str> {
    match protocol {
        ICMPV4 => judge_icmpv4(addresses, message),
        TCP => judge_tcp(addresses, message),
        UDP => judge_udp(addresses, message),
        ICMPV6 => judge_icmpv6(addresses, message),
        _ => Some("none"),
    }
}

/// The verdict on a message of ICMP (RFC 792), if it has the length of its kind.
fn judge_icmpv4(addresses: &Addresses, message: &[u8]) -> Option<&'static str> {
    let (header, _) = message.split_first_chunk::<ICMP_MIN_LEN>()?;
    let is_timestamp = matches!(header[..2], [TIMESTAMP | TIMESTAMP_REPLY, 0]);
    if is_timestamp && message.len() != ICMPV4_TIMESTAMP_LEN {
        return None;
    }
    Some(match addresses {
        Addresses::V4(_) => word(is_all_ones(total(message))),
        Addresses::V6(_) => "none",
    })
}

/// The verdict on a segment (RFC 9293, 3.1), if its data offset fits.
fn judge_tcp(addresses: &Addresses, segment: &[u8]) -> Option<&'static str> {
    let (header, _) = segment.split_first_chunk::<TCP_MIN_LEN>()?;
    let header_len = 4 * usize::from(header[12] >> 4);
    if header_len < TCP_MIN_LEN || header_len > segment.len() {
        return None;
    }
    Some(judge_sum(addresses, TCP, segment))
}

/// The verdict on a datagram (RFC 768), if its length field is 0 or names neither too many nor too
/// few bytes.
fn judge_udp(addresses: &Addresses, datagram: &[u8]) -> Option<&'static str> {
    let (header, _) = datagram.split_first_chunk::<UDP_LEN>()?;
    let summed = match usize::from(u16::from_be_bytes([header[4], header[5]])) {
        0 => datagram,
        length if length < UDP_LEN => return None,
        length => datagram.get(..length)?,
    };
    Some(if header[6..] == [0, 0] {
        "none"
    } else {
        judge_sum(addresses, UDP, summed)
    })
}

/// The verdict on a message of ICMPv6 (RFC 4443, 2.1), if it has a header.
fn judge_icmpv6(addresses: &Addresses, message: &[u8]) -> Option<&'static str> {
    if message.len() < ICMP_MIN_LEN {
        return None;
    }
    Some(match addresses {
        Addresses::V4(_) => "none",
        Addresses::V6(_) => judge_sum(addresses, ICMPV6, message),
    })
}

/// The verdict on the sum of pseudo header and message. (Over IPv6 the length has two words, whose
/// sum leaves the same rest as the length itself.)
fn judge_sum(addresses: &Addresses, protocol: u8, summed: &[u8]) -> &'static str {
    let pseudo = total(addresses.bytes()) + u64::from(protocol) + summed.len() as u64;
    word(is_all_ones(pseudo + total(summed)))
}

fn word(is_good: bool) -> &'static str {
    if is_good { "good" } else { "bad" }
}

/// The sum of the 16-bit words, an odd last byte followed by a zero byte (RFC 1071).
fn total(bytes: &[u8]) -> u64 {
    let (words, odd) = bytes.as_chunks::<2>();
    let whole: u64 = words
        .iter()
        .map(|&word| u64::from(u16::from_be_bytes(word)))
        .sum();
    whole + odd.iter().map(|&byte| u64::from(byte) << 8).sum::<u64>()
}

/// Whether the ones' complement sum is all ones.
fn is_all_ones(total: u64) -> bool {
    total != 0 && total % 0xffff == 0
}
