//! Whole frames, sliced into the parts of all layers, of which each is read.

use crate::datagrams::Datagram;
use crate::echoes::Message;
use crate::fault::{Fault, need};
use crate::ip_packets::{Ipv4, Ipv6, Payload};
use crate::job::Job;
use crate::links::{Arp, Frame, Tag, sum_of_address, sum_of_bytes, word};
use crate::random::Random;
use crate::segments::Segment;

/// Ethernet II frames of one kind: UDP over IPv4 (0), TCP with options over IPv4 (1), UDP over IPv6 (2),
/// UDP over IPv4 after one VLAN tag (3) and after two (4), UDP over IPv6 with hop-by-hop and destination
/// options (5), ARP (6), and frames that are refused (7).
pub struct SlicedFrames<const KIND: u8>;

/// Frames of all these kinds.
pub struct SlicedMix;

impl<const KIND: u8> Job for SlicedFrames<KIND> {
    fn packet(random: &mut Random) -> Vec<u8> {
        frame(random, KIND)
    }

    fn sum(packet: &[u8]) -> u64 {
        sum_of_frame(packet)
    }
}

impl Job for SlicedMix {
    fn packet(random: &mut Random) -> Vec<u8> {
        let kind = random.below(8);
        frame(random, kind)
    }

    fn sum(packet: &[u8]) -> u64 {
        sum_of_frame(packet)
    }
}

/// A frame of one kind.
fn frame(random: &mut Random, kind: u8) -> Vec<u8> {
    let mut frame = Vec::new();
    let payload_len = append_headers(random, kind, &mut frame);
    random.append(payload_len.into(), &mut frame);
    frame
}

/// The headers of a frame of one kind; returned is how many bytes of payload follow them.
pub fn append_headers(random: &mut Random, kind: u8, frame: &mut Vec<u8>) -> u8 {
    random.append(12, frame);
    match kind {
        0 => append_udp_over_ipv4(random, frame),
        1 => append_tcp_over_ipv4(random, 8, frame),
        2 => append_udp_over_ipv6(random, frame),
        3 => {
            append_tag(random, &[0x81, 0], frame);
            append_udp_over_ipv4(random, frame)
        }
        4 => {
            append_tag(random, &[0x88, 0xa8], frame);
            append_tag(random, &[0x81, 0], frame);
            append_udp_over_ipv4(random, frame)
        }
        5 => append_options_over_ipv6(random, frame),
        6 => append_arp(random, frame),
        _ => append_refused(random, frame),
    }
}

/// An ether type of tags, and what else a tag has.
fn append_tag(random: &mut Random, ether_type: &[u8], frame: &mut Vec<u8>) {
    frame.extend_from_slice(ether_type);
    random.append(2, frame);
}

fn append_udp_over_ipv4(random: &mut Random, frame: &mut Vec<u8>) -> u8 {
    let payload_len = random.below(64);
    append_ipv4_header(random, 0x45, 28 + payload_len, 17, frame);
    append_udp_header(random, 8 + payload_len, frame);
    payload_len
}

/// A header with timestamps.
fn append_tcp_over_ipv4(random: &mut Random, data_offset: u8, frame: &mut Vec<u8>) -> u8 {
    let payload_len = random.below(64);
    append_ipv4_header(random, 0x45, 52 + payload_len, 6, frame);
    random.append(12, frame);
    frame.push(data_offset << 4);
    random.append(7, frame);
    frame.extend_from_slice(&[1, 1, 8, 10]);
    random.append(8, frame);
    payload_len
}

fn append_udp_over_ipv6(random: &mut Random, frame: &mut Vec<u8>) -> u8 {
    let payload_len = random.below(64);
    append_ipv6_header(random, 17, 8 + payload_len, frame);
    append_udp_header(random, 8 + payload_len, frame);
    payload_len
}

/// Hop-by-hop options, destination options and UDP.
fn append_options_over_ipv6(random: &mut Random, frame: &mut Vec<u8>) -> u8 {
    let payload_len = random.below(64);
    let words = random.below(3);
    append_ipv6_header(random, 0, 24 + 8 * words + payload_len, frame);
    frame.extend_from_slice(&[60, 0]);
    random.append(6, frame);
    frame.extend_from_slice(&[17, words]);
    random.append(6 + 8 * usize::from(words), frame);
    append_udp_header(random, 8 + payload_len, frame);
    payload_len
}

/// An ARP packet of Ethernet and IPv4, which padding follows.
fn append_arp(random: &mut Random, frame: &mut Vec<u8>) -> u8 {
    frame.extend_from_slice(&[8, 6, 0, 1, 8, 0, 6, 4, 0, 1 + random.below(2)]);
    random.append(20, frame);
    18
}

/// A packet that is cut off, one whose version isn't that of its ether type, one of a data offset of 4,
/// and one of a UDP length above the payload's.
fn append_refused(random: &mut Random, frame: &mut Vec<u8>) -> u8 {
    match random.below(4) {
        0 => {
            append_ipv4_header(random, 0x45, 200, 17, frame);
            append_udp_header(random, 180, frame);
            100
        }
        1 => {
            append_ipv4_header(random, 0x65, 28, 17, frame);
            append_udp_header(random, 8, frame);
            0
        }
        2 => append_tcp_over_ipv4(random, 4, frame),
        _ => {
            append_ipv4_header(random, 0x45, 38, 17, frame);
            append_udp_header(random, 19, frame);
            10
        }
    }
}

/// The ether type and a header without options.
fn append_ipv4_header(
    random: &mut Random,
    first: u8,
    total_len: u8,
    protocol: u8,
    frame: &mut Vec<u8>,
) {
    frame.extend_from_slice(&[8, 0, first, random.byte(), 0, total_len]);
    random.append(2, frame);
    frame.extend_from_slice(&[0x40, 0, random.byte(), protocol]);
    random.append(10, frame);
}

/// The ether type and a header.
fn append_ipv6_header(
    random: &mut Random,
    next_header: u8,
    payload_length: u8,
    frame: &mut Vec<u8>,
) {
    frame.extend_from_slice(&[0x86, 0xdd, 0x60 + random.below(16)]);
    random.append(3, frame);
    frame.extend_from_slice(&[0, payload_length, next_header]);
    random.append(33, frame);
}

fn append_udp_header(random: &mut Random, length: u8, frame: &mut Vec<u8>) {
    random.append(4, frame);
    frame.extend_from_slice(&[0, length]);
    random.append(2, frame);
}

/// The parts of a frame.
struct Packet<'a> {
    link: Frame<'a>,
    tags: [Option<LinkTag<'a>>; 3],
    net: Option<Net<'a>>,
    transport: Option<Transport<'a>>,
}

pub enum LinkTag<'a> {
    Vlan(Tag<'a>),
    Macsec(Macsec<'a>),
}

pub enum Net<'a> {
    V4(Ipv4<'a>),
    V6(Ipv6<'a>),
    Arp(Arp<'a>),
}

pub enum Transport<'a> {
    Udp(Datagram<'a>),
    Tcp(Segment<'a>),
    Icmpv4(Message<'a>),
    Icmpv6(Message<'a>),
}

/// A MACsec header and what is there of its payload, and how many bytes of that are missing; the ether
/// type is that of an unmodified payload.
pub struct Macsec<'a> {
    header: &'a [u8],
    ether_type: Option<u16>,
    payload: &'a [u8],
    missing: u8,
}

/// The ether type of what comes next, its bytes, and their place in the frame.
pub struct Rest<'a> {
    pub ether_type: u16,
    pub bytes: &'a [u8],
    pub at: usize,
}

const ETHERNET_HEADER: usize = 14;
const VLAN_HEADER: usize = 4;

impl<'a> Packet<'a> {
    fn parse(bytes: &'a [u8]) -> Result<Packet<'a>, Fault> {
        let link = Frame::parse(bytes)?;
        let mut rest = Some(Rest::after_link(&link));
        let mut tags = [const { None }; 3];
        for slot in &mut tags {
            let Some((tag, following)) = rest.as_ref().map_or(Ok(None), LinkTag::parse)? else {
                break;
            };
            *slot = Some(tag);
            rest = following;
        }
        let (net, transport) = match rest {
            Some(rest) => layers(&rest)?,
            None => (None, None),
        };
        Ok(Packet {
            link,
            tags,
            net,
            transport,
        })
    }
}

impl<'a> Rest<'a> {
    pub fn after_link(link: &Frame<'a>) -> Rest<'a> {
        Rest {
            ether_type: u16::from_be_bytes([link.header[12], link.header[13]]),
            bytes: link.payload,
            at: ETHERNET_HEADER,
        }
    }
}

/// A tag and what follows it.
type Tagged<'a> = (LinkTag<'a>, Option<Rest<'a>>);

impl<'a> LinkTag<'a> {
    /// The tag that the ether type names, if it names one.
    fn parse(rest: &Rest<'a>) -> Result<Option<Tagged<'a>>, Fault> {
        LinkTag::parse_with(Macsec::parse, rest)
    }

    /// The same, where this reads a MACsec header and its payload.
    pub fn parse_with(
        parse_macsec: impl FnOnce(&'a [u8]) -> Result<Macsec<'a>, Fault>,
        rest: &Rest<'a>,
    ) -> Result<Option<Tagged<'a>>, Fault> {
        match rest.ether_type {
            0x8100 | 0x88a8 | 0x9100 => {
                let tag = Tag::parse(rest.bytes).map_err(|fault| fault.moved(rest.at))?;
                let following = Rest {
                    ether_type: u16::from_be_bytes([tag.header[2], tag.header[3]]),
                    bytes: tag.payload,
                    at: rest.at + VLAN_HEADER,
                };
                Ok(Some((LinkTag::Vlan(tag), Some(following))))
            }
            0x88e5 => {
                let macsec = parse_macsec(rest.bytes).map_err(|fault| fault.moved(rest.at))?;
                let following = macsec.ether_type.map(|ether_type| Rest {
                    ether_type,
                    bytes: macsec.payload,
                    at: rest.at + macsec.header.len(),
                });
                Ok(Some((LinkTag::Macsec(macsec), following)))
            }
            _ => Ok(None),
        }
    }
}

impl<'a> Macsec<'a> {
    /// As IEEE 802.1AE has it (clause 9).
    fn parse(bytes: &'a [u8]) -> Result<Macsec<'a>, Fault> {
        let macsec = Macsec::parse_lax(bytes)?;
        need(bytes.len() + usize::from(macsec.missing), bytes, 0)?;
        Ok(macsec)
    }

    /// The same, whether the payload is whole or not.
    pub fn parse_lax(bytes: &'a [u8]) -> Result<Macsec<'a>, Fault> {
        need(6, bytes, 0)?;
        if bytes[0] & 0x80 != 0 {
            return Err(Fault::Version(1));
        }
        let is_modified = bytes[0] & 0x0c != 0;
        let short_len = usize::from(bytes[1] & 0x3f);
        if !is_modified && short_len == 1 {
            return Err(Fault::Length(short_len));
        }
        let identifier_len = if bytes[0] & 0x20 != 0 { 8 } else { 0 };
        let ether_type_len = if is_modified { 0 } else { 2 };
        let header_len = 6 + identifier_len + ether_type_len;
        need(header_len, bytes, 0)?;
        let (header, rest) = bytes.split_at(header_len);
        let payload_len = match short_len {
            0 => rest.len(),
            short_len => short_len - ether_type_len,
        };
        let ether_type = if is_modified {
            None
        } else {
            Some(u16::from_be_bytes([
                header[header_len - 2],
                header[header_len - 1],
            ]))
        };
        Ok(Macsec {
            header,
            ether_type,
            payload: rest.get(..payload_len).unwrap_or(rest),
            missing: payload_len.saturating_sub(rest.len()) as u8,
        })
    }
}

type Layers<'a> = (Option<Net<'a>>, Option<Transport<'a>>);

/// The layers in what an ether type names.
fn layers<'a>(rest: &Rest<'a>) -> Result<Layers<'a>, Fault> {
    let inner = |fault: Fault| fault.moved(rest.at);
    match rest.ether_type {
        0x0800 => {
            let packet = Ipv4::parse(rest.bytes).map_err(inner)?;
            let headers_len = packet.header.len() + packet.authentication.map_or(0, <[u8]>::len);
            let transport = Transport::parse(&packet.payload)
                .map_err(|fault| fault.moved(rest.at + headers_len))?;
            Ok((Some(Net::V4(packet)), transport))
        }
        0x86dd => {
            let packet = Ipv6::parse(rest.bytes).map_err(inner)?;
            let headers_len = packet.header.len() + packet.extensions.bytes.len();
            let transport = Transport::parse(&packet.payload)
                .map_err(|fault| fault.moved(rest.at + headers_len))?;
            Ok((Some(Net::V6(packet)), transport))
        }
        0x0806 => {
            let packet = Arp::parse(rest.bytes).map_err(inner)?;
            Ok((Some(Net::Arp(packet)), None))
        }
        _ => Ok((None, None)),
    }
}

impl<'a> Transport<'a> {
    /// The message that the payload is, unless it is a part of one or its protocol is another.
    #[inline(always)]
    pub fn parse(payload: &Payload<'a>) -> Result<Option<Transport<'a>>, Fault> {
        if payload.is_fragment {
            return Ok(None);
        }
        let message = match payload.number {
            1 => Transport::Icmpv4(Message::parse_icmpv4(payload.bytes)?),
            6 => Transport::Tcp(Segment::parse(payload.bytes)?),
            17 => Transport::Udp(Datagram::parse(payload.bytes)?),
            58 => Transport::Icmpv6(Message::parse(payload.bytes)?),
            _ => return Ok(None),
        };
        Ok(Some(message))
    }
}

fn sum_of_frame(frame: &[u8]) -> u64 {
    match Packet::parse(frame) {
        Ok(packet) => sum_of_packet(&packet),
        Err(fault) => sum_of_fault(&fault),
    }
}

#[inline(always)]
pub fn sum_of_fault(fault: &Fault) -> u64 {
    match fault {
        Fault::Short { needed, found, at } => (needed + found + at) as u64,
        _ => 1,
    }
}

fn sum_of_packet(packet: &Packet) -> u64 {
    let tags: u64 = packet.tags.iter().flatten().map(sum_of_tag).sum();
    sum_of_link(&packet.link)
        .wrapping_add(tags)
        .wrapping_add(sum_of_net(&packet.net))
        .wrapping_add(sum_of_transport(&packet.transport))
}

// Two kinds of packets have what the next functions sum up. These are inlined always, since a part whose
// address a call is given is kept in memory.

#[inline(always)]
pub fn sum_of_link(frame: &Frame) -> u64 {
    let [a, b, c, d, e, f, g, h, i, j, k, l, m, n] = *frame.header;
    sum_of_address([a, b, c, d, e, f])
        + sum_of_address([g, h, i, j, k, l])
        + word(m, n)
        + frame.payload.len() as u64
}

#[inline(always)]
pub fn sum_of_tag(tag: &LinkTag) -> u64 {
    match tag {
        LinkTag::Vlan(tag) => {
            let [a, b, c, d] = *tag.header;
            (word(a, b) & 0xfff) + word(c, d) + tag.payload.len() as u64
        }
        LinkTag::Macsec(macsec) => macsec.header.len() as u64 + u64::from(macsec.missing > 0),
    }
}

#[inline(always)]
pub fn sum_of_net(packet: &Option<Net>) -> u64 {
    match packet {
        Some(Net::V4(packet)) => {
            u64::from(packet.address(12).to_bits())
                + u64::from(packet.address(16).to_bits())
                + sum_of_payload(&packet.payload)
        }
        Some(Net::V6(packet)) => (u128::from_be_bytes(packet.address(8).octets()) as u64)
            .wrapping_add(u128::from_be_bytes(packet.address(24).octets()) as u64)
            .wrapping_add(packet.extensions.bytes.len() as u64)
            .wrapping_add(sum_of_payload(&packet.payload)),
        Some(Net::Arp(packet)) => {
            word(packet.fixed[6], packet.fixed[7])
                + sum_of_bytes(packet.sender_hardware)
                + sum_of_bytes(packet.sender_protocol)
                + sum_of_bytes(packet.target_hardware)
                + sum_of_bytes(packet.target_protocol)
        }
        None => 3,
    }
}

#[inline(always)]
fn sum_of_payload(payload: &Payload) -> u64 {
    u64::from(payload.number) + u64::from(payload.is_fragment) + sum_of_bytes(payload.bytes)
}

#[inline(always)]
pub fn sum_of_transport(message: &Option<Transport>) -> u64 {
    match message {
        Some(Transport::Udp(datagram)) => {
            let [a, b, c, d, ..] = *datagram.header;
            word(a, b) + word(c, d) + sum_of_bytes(datagram.payload)
        }
        Some(Transport::Tcp(segment)) => sum_of_segment(segment),
        Some(Transport::Icmpv4(message) | Transport::Icmpv6(message)) => {
            u64::from(message.header[0])
                + u64::from(message.header[1])
                + sum_of_bytes(message.payload)
        }
        None => 4,
    }
}

#[inline(always)]
fn sum_of_segment(segment: &Segment) -> u64 {
    let [a, b, c, d, e, f, g, h, _, _, _, _, _, flags, ..] = *segment.fixed;
    let flag = |at: u32| u64::from(flags >> at & 1);
    word(a, b)
        + word(c, d)
        + u64::from(u32::from_be_bytes([e, f, g, h]))
        + (flag(0) + flag(1) + flag(2) + flag(3) + flag(4))
        + sum_of_bytes(segment.options)
        + sum_of_bytes(segment.payload)
}
