//! Packets that were sliced.

use crate::raw::{EpArp, EpIcmp, EpIpv4, EpIpv6, EpLaxPacket, EpLink, EpPacket, EpPart, EpTag, EpTcp, EpUdp};
use crate::{Layer, Refusal};
use std::net::{Ipv4Addr, Ipv6Addr};

/// A packet that was sliced, over the bytes that it was sliced from.
#[derive(Clone, Debug)]
pub struct Packet<'a> {
    bytes: &'a [u8],
    fields: EpPacket,
}

/// A packet as far as it is there, also where it was cut off or a header breaks its format.
///
/// Also where the total length of IPv4 is less than its header, the payload is all that follows. A UDP length that doesn't
/// fit isn't a fault here. So a packet without a stop of which nothing is missing may still be refused by the strict calls.
#[derive(Clone, Debug)]
pub struct LaxPacket<'a> {
    packet: Packet<'a>,
    stop: Option<Stop>,
    incomplete: bool,
}

/// Why the reading of a packet stopped before its end.
#[derive(Clone, Copy, Debug, PartialEq, Eq)]
pub struct Stop {
    /// The refusal of the first layer that isn't there.
    pub refusal: Refusal,
    /// The layer that was being read: it says which extension header, where the refusal's layer is that of any of IPv6.
    pub layer: Layer,
}

impl<'a> LaxPacket<'a> {
    pub(crate) fn from_raw(bytes: &'a [u8], raw: EpLaxPacket) -> Result<LaxPacket<'a>, Refusal> {
        let packet = Packet::from_raw(bytes, raw.packet)?;
        let stop = Refusal::from_raw(&raw.stop).map(|refusal| Stop { refusal, layer: Layer(raw.stop_layer) });
        Ok(LaxPacket { packet, stop, incomplete: raw.incomplete })
    }

    /// The layers that are there. Where a length field says more than is there, the payload ends with the packet's bytes.
    /// Where an extension header stopped the reading, the IP payload starts with it, and `payload_number` is its number.
    #[must_use]
    pub fn packet(&self) -> &Packet<'a> {
        &self.packet
    }

    /// Why the reading stopped before the end, if it did.
    #[must_use]
    pub fn stop(&self) -> Option<Stop> {
        self.stop
    }

    /// Whether bytes are missing that the length field of IPv4, IPv6 or MACsec counts: of the payload of the IP packet, or
    /// where there is none, of what follows the tags.
    #[must_use]
    pub fn is_incomplete(&self) -> bool {
        self.incomplete
    }
}

/// A link header.
#[derive(Clone, Copy, Debug, PartialEq, Eq)]
pub enum Link<'p> {
    /// Of Ethernet II.
    Ethernet2(&'p EpLink),
    /// Of a Linux cooked capture.
    LinuxSll(&'p EpLink),
}

/// A packet of the network layer.
#[derive(Clone, Copy, Debug, PartialEq, Eq)]
pub enum Net<'p> {
    /// Of IPv4.
    Ipv4(&'p EpIpv4),
    /// Of IPv6.
    Ipv6(&'p EpIpv6),
    /// Of ARP.
    Arp(&'p EpArp),
}

/// A message of the transport layer.
#[derive(Clone, Copy, Debug, PartialEq, Eq)]
pub enum Transport<'p> {
    /// A UDP datagram.
    Udp(&'p EpUdp),
    /// A TCP segment.
    Tcp(&'p EpTcp),
    /// An ICMP message over IPv4.
    Icmpv4(&'p EpIcmp),
    /// An ICMP message over IPv6.
    Icmpv6(&'p EpIcmp),
}

impl<'a> Packet<'a> {
    pub(crate) fn from_raw(bytes: &'a [u8], fields: EpPacket) -> Result<Packet<'a>, Refusal> {
        match Refusal::from_raw(&fields.refusal) {
            Some(refusal) => Err(refusal),
            None => Ok(Packet { bytes, fields }),
        }
    }

    /// The bytes that it was sliced from.
    #[must_use]
    pub fn bytes(&self) -> &'a [u8] {
        self.bytes
    }

    /// All fields.
    #[must_use]
    pub fn fields(&self) -> &EpPacket {
        &self.fields
    }

    /// The bytes of a part of this packet.
    ///
    /// # Panics
    ///
    /// Where the part is another packet's and doesn't lie in this one.
    #[must_use]
    pub fn bytes_of(&self, part: EpPart) -> &'a [u8] {
        &self.bytes[part.offset..][..part.len]
    }

    /// The link header, if there is one.
    #[must_use]
    pub fn link(&self) -> Option<Link<'_>> {
        match self.fields.link.kind {
            1 => Some(Link::Ethernet2(&self.fields.link)),
            2 => Some(Link::LinuxSll(&self.fields.link)),
            _ => None,
        }
    }

    /// The tags after the link header.
    #[must_use]
    pub fn tags(&self) -> &[EpTag] {
        &self.fields.tags[..self.fields.tag_count as usize]
    }

    /// The packet of the network layer, if there is one.
    #[must_use]
    pub fn net(&self) -> Option<Net<'_>> {
        match self.fields.net {
            1 => Some(Net::Arp(&self.fields.arp)),
            4 => Some(Net::Ipv4(&self.fields.ipv4)),
            6 => Some(Net::Ipv6(&self.fields.ipv6)),
            _ => None,
        }
    }

    /// The message of the transport layer, if there is one.
    #[must_use]
    pub fn transport(&self) -> Option<Transport<'_>> {
        match self.fields.transport {
            1 => Some(Transport::Icmpv4(&self.fields.icmp)),
            6 => Some(Transport::Tcp(&self.fields.tcp)),
            17 => Some(Transport::Udp(&self.fields.udp)),
            58 => Some(Transport::Icmpv6(&self.fields.icmp)),
            _ => None,
        }
    }

    /// The innermost payload: of the message, else of the IP packet, else what the last ether type
    /// names. An ARP packet has none.
    #[must_use]
    pub fn payload(&self) -> &'a [u8] {
        self.bytes_of(match (self.transport(), self.net()) {
            (Some(Transport::Udp(datagram)), _) => datagram.payload,
            (Some(Transport::Tcp(segment)), _) => segment.payload,
            (Some(Transport::Icmpv4(message) | Transport::Icmpv6(message)), _) => message.payload,
            (None, Some(Net::Ipv4(packet))) => packet.payload,
            (None, Some(Net::Ipv6(packet))) => packet.payload,
            (None, Some(Net::Arp(_))) => EpPart { offset: 0, len: 0 },
            (None, None) => self.fields.ether_payload,
        })
    }
}

impl EpIpv4 {
    /// The source address.
    #[must_use]
    pub fn source_addr(&self) -> Ipv4Addr {
        self.source.into()
    }

    /// The destination address.
    #[must_use]
    pub fn destination_addr(&self) -> Ipv4Addr {
        self.destination.into()
    }
}

impl EpIpv6 {
    /// The source address.
    #[must_use]
    pub fn source_addr(&self) -> Ipv6Addr {
        self.source.into()
    }

    /// The destination address.
    #[must_use]
    pub fn destination_addr(&self) -> Ipv6Addr {
        self.destination.into()
    }
}

/// Fields by the names that the headers of the Rust crate etherparse give them, where etherparse.h has others.
macro_rules! named {
    ($($kind:ident { $($name:ident: $type:ty = $field:ident, $doc:literal;)* })*) => { $(
        impl $kind { $(
            #[doc = $doc]
            #[must_use]
            pub fn $name(&self) -> $type {
                self.$field
            }
        )* }
    )* };
}

named! {
    EpLink {
        ether_type: u16 = protocol, "Of Ethernet II: the ether type.";
        protocol_type: u16 = protocol, "Of a cooked capture: the protocol's number.";
        arp_hrd_type: u16 = hardware_type, "Of a cooked capture: the hardware type (ARPHRD).";
        sender_address_valid_length: u16 = address_len, "Of a cooked capture: how many bytes of the address are the sender's.";
        sender_address: [u8; 8] = address, "Of a cooked capture: the sender's address.";
    }
    EpTag {
        pcp: u8 = priority, "Of VLAN: the priority code point.";
        drop_eligible_indicator: bool = drop_eligible, "Of VLAN: whether the frame may be dropped first.";
        endstation_id: bool = end_station, "Of MACsec: bit ES.";
        scb: bool = single_copy_broadcast, "Of MACsec: bit SCB.";
        userdata_changed: bool = changed, "Of MACsec: bit C.";
        an: u8 = association, "Of MACsec: the association number.";
        packet_nr: u32 = packet_number, "Of MACsec: the packet number.";
    }
    EpArp {
        hw_addr_type: u16 = hardware_type, "The kind of hardware address.";
        proto_addr_type: u16 = protocol_type, "The kind of protocol address, an ether type.";
        sender_hw_addr: EpPart = sender_hardware, "The sender's hardware address.";
        sender_protocol_addr: EpPart = sender_protocol, "The sender's protocol address.";
        target_hw_addr: EpPart = target_hardware, "The target's hardware address.";
        target_protocol_addr: EpPart = target_protocol, "The target's protocol address.";
    }
    EpUdp {
        length: u16 = stated_len, "The length, as the header states it.";
    }
}

impl EpTag {
    /// Of MACsec: the secure channel identifier, if there is one.
    #[must_use]
    pub fn sci(&self) -> Option<u64> {
        if self.has_channel {
            Some(self.channel)
        } else {
            None
        }
    }
}
