//! Frames that were cut, as in captures of the first bytes of each, sliced as far as they are there, and
//! all parts and what stopped the reading are read.

use crate::datagrams::{self, Datagram};
use crate::fault::{Fault, need};
use crate::ip_packets::{
    AUTHENTICATION, DESTINATION_OPTIONS, Extensions, FRAGMENT, HOP_BY_HOP, IPV6_HEADER, Ipv4, Ipv6,
    LenSource, Payload, ROUTING, authentication_len, is_part, options_len,
};
use crate::ipv4_headers::whole_header;
use crate::job::Job;
use crate::links::{Arp, Frame};
use crate::random::Random;
use crate::sliced_packets::{
    LinkTag, Macsec, Net, Rest, Transport, append_headers, sum_of_fault, sum_of_link, sum_of_net,
    sum_of_tag, sum_of_transport,
};

/// Frames of the kinds of `SlicedMix`: a third of them whole, a third cut in the payload, and a third
/// cut in the headers.
pub struct LaxSlicedMix;

impl Job for LaxSlicedMix {
    fn packet(random: &mut Random) -> Vec<u8> {
        let kind = random.below(8);
        let mut frame = Vec::new();
        let payload_len = usize::from(append_headers(random, kind, &mut frame));
        let headers_len = frame.len();
        random.append(payload_len, &mut frame);
        match random.below(3) {
            0 => {}
            1 => frame.truncate(headers_len + offset_below(random, payload_len)),
            _ => frame.truncate(offset_below(random, headers_len)),
        }
        frame
    }

    fn sum(packet: &[u8]) -> u64 {
        match Packet::parse(packet) {
            Ok(packet) => sum_of_packet(&packet),
            Err(fault) => sum_of_fault(&fault),
        }
    }
}

/// A random offset below a length of at most some thousand bytes, or 0.
fn offset_below(random: &mut Random, len: usize) -> usize {
    len * usize::from(random.byte()) / 256
}

/// The parts of a frame as far as they are there.
struct Packet<'a> {
    link: Frame<'a>,
    tags: [Option<LinkTag<'a>>; 3],
    net: Option<Net<'a>>,
    /// Whether bytes of the IP payload are missing.
    incomplete: bool,
    transport: Option<Transport<'a>>,
    stop: Option<Stop>,
}

/// The fault that stopped the reading, and the layer that was being read.
struct Stop {
    fault: Fault,
    layer: Layer,
}

/// The layers in which a fault may be, by the numbers that the library gives them.
#[derive(Clone, Copy)]
enum Layer {
    Vlan = 3,
    Macsec = 4,
    Ipv4 = 7,
    Authentication = 9,
    Ipv6 = 10,
    HopByHop = 13,
    DestinationOptions = 14,
    Routing = 15,
    Fragment = 16,
    Udp = 17,
    Tcp = 19,
    Icmpv4 = 20,
    Icmpv6 = 23,
    Arp = 24,
}

impl Layer {
    /// The layer of a tag.
    fn of_tag(ether_type: u16) -> Layer {
        match ether_type {
            0x88e5 => Layer::Macsec,
            _ => Layer::Vlan,
        }
    }

    /// The layer of an extension header.
    fn of_extension(number: u8) -> Layer {
        match number {
            HOP_BY_HOP => Layer::HopByHop,
            ROUTING => Layer::Routing,
            FRAGMENT => Layer::Fragment,
            AUTHENTICATION => Layer::Authentication,
            _ => Layer::DestinationOptions,
        }
    }

    /// The layer of a message.
    fn of_message(number: u8) -> Layer {
        match number {
            1 => Layer::Icmpv4,
            6 => Layer::Tcp,
            17 => Layer::Udp,
            _ => Layer::Icmpv6,
        }
    }

    /// A fault in this layer, which starts at an offset, as what stopped the reading.
    fn stop(self, at: usize) -> impl FnOnce(Fault) -> Stop {
        move |fault| Stop {
            fault: fault.moved(at),
            layer: self,
        }
    }
}

impl<'a> Packet<'a> {
    /// Refuses a frame whose link header isn't whole, and nothing else.
    fn parse(bytes: &'a [u8]) -> Result<Packet<'a>, Fault> {
        let link = Frame::parse(bytes)?;
        let rest = Rest::after_link(&link);
        let mut packet = Packet {
            link,
            tags: [const { None }; 3],
            net: None,
            incomplete: false,
            transport: None,
            stop: None,
        };
        packet.stop = packet.read(rest).err();
        Ok(packet)
    }

    /// Reads what follows the link header up to the first fault.
    fn read(&mut self, mut rest: Rest<'a>) -> Result<(), Stop> {
        for slot in &mut self.tags {
            let tagged = LinkTag::parse_with(Macsec::parse_lax, &rest);
            let Some((tag, following)) = tagged.map_err(Layer::of_tag(rest.ether_type).stop(0))?
            else {
                break;
            };
            *slot = Some(tag);
            match following {
                Some(following) => rest = following,
                None => return Ok(()),
            }
        }
        match rest.ether_type {
            0x0800 => self.read_ipv4(&rest),
            0x86dd => self.read_ipv6(&rest),
            0x0806 => {
                let packet = Arp::parse(rest.bytes).map_err(Layer::Arp.stop(rest.at))?;
                self.net = Some(Net::Arp(packet));
                Ok(())
            }
            _ => Ok(()),
        }
    }

    fn read_ipv4(&mut self, rest: &Rest<'a>) -> Result<(), Stop> {
        let header = whole_header(rest.bytes).map_err(Layer::Ipv4.stop(rest.at))?;
        let following = &rest.bytes[header.len()..];
        let total_len = usize::from(u16::from_be_bytes([header[2], header[3]]));
        let body = match total_len.checked_sub(header.len()) {
            Some(len) => Body::of_len(following, len, LenSource::TotalLen),
            None => Body::all(following),
        };
        let after_header = rest.at + header.len();
        let (authentication, number, bytes, stop) =
            authentication(header[9], body.bytes, after_header);
        let payload = Payload {
            number,
            is_fragment: u16::from_be_bytes([header[6], header[7]]) & 0x3fff != 0,
            source: body.source,
            bytes,
        };
        self.incomplete = body.incomplete;
        self.net = Some(Net::V4(Ipv4 {
            header,
            authentication,
            payload,
        }));
        match stop {
            Some(stop) => Err(stop),
            None => self.read_transport(
                &payload,
                after_header + authentication.map_or(0, <[u8]>::len),
            ),
        }
    }

    fn read_ipv6(&mut self, rest: &Rest<'a>) -> Result<(), Stop> {
        let (header, following) = Ipv6::header(rest.bytes).map_err(Layer::Ipv6.stop(rest.at))?;
        let payload_length = usize::from(u16::from_be_bytes([header[4], header[5]]));
        let body = if payload_length == 0 && !following.is_empty() {
            Body::all(following)
        } else {
            Body::of_len(following, payload_length, LenSource::PayloadLength)
        };
        let after_header = rest.at + IPV6_HEADER;
        let (extensions, number, bytes, stop) = extensions(header[6], body.bytes, after_header);
        let payload = Payload {
            number,
            is_fragment: extensions.is_fragment,
            source: body.source,
            bytes,
        };
        let headers_end = after_header + extensions.bytes.len();
        self.incomplete = body.incomplete;
        self.net = Some(Net::V6(Ipv6 {
            header,
            extensions,
            payload,
        }));
        match stop {
            Some(stop) => Err(stop),
            None => self.read_transport(&payload, headers_end),
        }
    }

    /// Reads the message in a payload, which starts at an offset.
    fn read_transport(&mut self, payload: &Payload<'a>, at: usize) -> Result<(), Stop> {
        let message = match payload {
            Payload {
                number: 17,
                is_fragment: false,
                bytes,
                ..
            } => datagram(bytes).map(|datagram| Some(Transport::Udp(datagram))),
            payload => Transport::parse(payload),
        };
        self.transport = message.map_err(Layer::of_message(payload.number).stop(at))?;
        Ok(())
    }
}

/// What is there of the bytes after a header.
struct Body<'a> {
    bytes: &'a [u8],
    source: LenSource,
    incomplete: bool,
}

impl<'a> Body<'a> {
    /// So many bytes, as this field says, or all where fewer are there.
    fn of_len(following: &'a [u8], len: usize, field: LenSource) -> Body<'a> {
        match following.get(..len) {
            Some(bytes) => Body {
                bytes,
                source: field,
                incomplete: false,
            },
            None => Body {
                incomplete: true,
                ..Body::all(following)
            },
        }
    }

    fn all(bytes: &'a [u8]) -> Body<'a> {
        Body {
            bytes,
            source: LenSource::Slice,
            incomplete: false,
        }
    }
}

/// An authentication header, if the number names one, the number and the bytes after it, and what stopped
/// there; the bytes start at an offset.
fn authentication(number: u8, bytes: &[u8], at: usize) -> (Option<&[u8]>, u8, &[u8], Option<Stop>) {
    if number != AUTHENTICATION {
        return (None, number, bytes, None);
    }
    match authentication_len(bytes, at) {
        Ok(len) => {
            let (header, rest) = bytes.split_at(len);
            (Some(header), header[0], rest, None)
        }
        Err(fault) => {
            let stop = Layer::Authentication.stop(0)(fault);
            (None, number, bytes, Some(stop))
        }
    }
}

/// The extension headers up to the first fault, the number and the bytes after them, and what stopped
/// there; the bytes start at an offset.
fn extensions(first: u8, bytes: &[u8], at: usize) -> (Extensions<'_>, u8, &[u8], Option<Stop>) {
    let (mut number, mut rest, mut is_fragment) = (first, bytes, false);
    let stop = loop {
        let len = bytes.len() - rest.len();
        match extension_len(number, rest, len) {
            Ok(Some(len)) => {
                is_fragment |= number == FRAGMENT && is_part(rest);
                (number, rest) = (rest[0], &rest[len..]);
            }
            Ok(None) => break None,
            Err(fault) => break Some(Layer::of_extension(number).stop(at)(fault)),
        }
    };
    let len = bytes.len() - rest.len();
    let extensions = Extensions {
        first: (len > 0).then_some(first),
        is_fragment,
        bytes: &bytes[..len],
    };
    (extensions, number, rest, stop)
}

/// The length of the extension header of this number, if it is that of one.
fn extension_len(number: u8, bytes: &[u8], at: usize) -> Result<Option<usize>, Fault> {
    let len = match number {
        HOP_BY_HOP if at > 0 => return Err(Fault::HopByHopNotAtStart),
        HOP_BY_HOP | ROUTING | DESTINATION_OPTIONS => options_len(bytes, at)?,
        AUTHENTICATION => authentication_len(bytes, at)?,
        FRAGMENT => {
            need(8, bytes, at)?;
            8
        }
        _ => return Ok(None),
    };
    Ok(Some(len))
}

/// What is there of a datagram: as many bytes as its length says, and all where that is above them or
/// below the length of a header.
fn datagram(bytes: &[u8]) -> Result<Datagram<'_>, Fault> {
    let (header, rest) = bytes.split_first_chunk().ok_or(Fault::Short {
        needed: datagrams::HEADER,
        found: bytes.len(),
        at: 0,
    })?;
    let length = usize::from(u16::from_be_bytes([header[4], header[5]]));
    let payload = length
        .checked_sub(datagrams::HEADER)
        .and_then(|len| rest.get(..len))
        .unwrap_or(rest);
    let is_whole = length == datagrams::HEADER + payload.len();
    Ok(Datagram {
        header,
        payload,
        len_source: if is_whole { 4 } else { 0 },
    })
}

fn sum_of_packet(packet: &Packet) -> u64 {
    let tags: u64 = packet.tags.iter().flatten().map(sum_of_tag).sum();
    sum_of_link(&packet.link)
        .wrapping_add(tags)
        .wrapping_add(sum_of_net(&packet.net))
        .wrapping_add(sum_of_bound(packet))
        .wrapping_add(sum_of_transport(&packet.transport))
        .wrapping_add(sum_of_stop(&packet.stop))
}

/// Of an IP payload whether bytes are missing, and what bounds it.
fn sum_of_bound(packet: &Packet) -> u64 {
    let source = match &packet.net {
        Some(Net::V4(packet)) => packet.payload.source,
        Some(Net::V6(packet)) => packet.payload.source,
        Some(Net::Arp(_)) | None => LenSource::Slice,
    };
    u64::from(packet.incomplete) + source as u64
}

fn sum_of_stop(stop: &Option<Stop>) -> u64 {
    match stop {
        Some(stop) => sum_of_fault(&stop.fault) + stop.layer as u64,
        None => 6,
    }
}
