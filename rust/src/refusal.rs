//! Why a packet is refused.

use crate::raw::{self, EpRefusal};
use std::error::Error;
use std::fmt;

/// Why a packet is refused.
#[derive(Clone, Copy, Debug, PartialEq, Eq)]
pub enum Refusal {
    /// A layer has too few bytes.
    TooFewBytes {
        /// The layer.
        layer: Layer,
        /// How many bytes it needs.
        needed: usize,
        /// How many are there.
        there: usize,
        /// The offset of its first byte.
        place: usize,
        /// Where the number of bytes that are there comes from.
        source: LenSource,
    },
    /// A header breaks its format.
    Header {
        /// The layer.
        layer: Layer,
        /// What is wrong.
        fault: Fault,
        /// The field that it holds in place of a right one.
        value: u32,
    },
}

/// The layers of a packet, numbered as the exports number them. Each is displayed by its name in etherparse.h.
#[derive(Clone, Copy, Debug, PartialEq, Eq)]
pub struct Layer(pub u32);

/// Where the length that bounds a layer comes from.
#[derive(Clone, Copy, Debug, PartialEq, Eq)]
pub enum LenSource {
    /// The bytes that were passed.
    Slice,
    /// The short length of a MACsec header.
    MacsecShortLength,
    /// The total length of an IPv4 header.
    Ipv4HeaderTotalLen,
    /// The payload length of an IPv6 header.
    Ipv6HeaderPayloadLen,
    /// The length field of a UDP header.
    UdpHeaderLen,
    /// The data offset of a TCP header.
    TcpHeaderLen,
    /// The address lengths of an ARP packet.
    ArpAddrLengths,
}

/// What is wrong in a header.
#[derive(Clone, Copy, Debug, PartialEq, Eq)]
pub enum Fault {
    /// A packet type of a Linux cooked capture above 4.
    LinuxSllPacketType,
    /// A hardware type of a Linux cooked capture that isn't read.
    LinuxSllHardwareType,
    /// MACsec version 1.
    MacsecVersion,
    /// A MACsec short length without room for the ether type.
    MacsecShortLen,
    /// An IP version that is neither 4 nor 6.
    IpVersion,
    /// An IPv4 header of another version.
    Ipv4Version,
    /// An IPv4 header length below 5.
    Ipv4HeaderLen,
    /// An IPv6 header of another version.
    Ipv6Version,
    /// An authentication header of length 0.
    AuthHeaderLen,
    /// Hop-by-hop options after another extension header.
    HopByHopNotAtStart,
    /// A TCP data offset below 5.
    TcpDataOffset,
}

impl Refusal {
    /// None where nothing is refused.
    pub(crate) fn from_raw(raw: &EpRefusal) -> Option<Refusal> {
        let layer = Layer(raw.layer);
        let fault = match raw.kind {
            raw::REFUSAL_NONE => return None,
            raw::REFUSAL_TOO_FEW_BYTES => {
                return Some(Refusal::TooFewBytes {
                    layer,
                    needed: raw.needed,
                    there: raw.there,
                    place: raw.place,
                    source: LenSource::from_raw(raw.source),
                });
            }
            raw::REFUSAL_LINUX_SLL_PACKET_TYPE => Fault::LinuxSllPacketType,
            raw::REFUSAL_LINUX_SLL_HARDWARE_TYPE => Fault::LinuxSllHardwareType,
            raw::REFUSAL_MACSEC_VERSION => Fault::MacsecVersion,
            raw::REFUSAL_MACSEC_SHORT_LEN => Fault::MacsecShortLen,
            raw::REFUSAL_IP_VERSION => Fault::IpVersion,
            raw::REFUSAL_IPV4_VERSION => Fault::Ipv4Version,
            raw::REFUSAL_IPV4_HEADER_LEN => Fault::Ipv4HeaderLen,
            raw::REFUSAL_IPV6_VERSION => Fault::Ipv6Version,
            raw::REFUSAL_AUTH_HEADER_LEN => Fault::AuthHeaderLen,
            raw::REFUSAL_HOP_BY_HOP_NOT_AT_START => Fault::HopByHopNotAtStart,
            _ => Fault::TcpDataOffset,
        };
        Some(Refusal::Header { layer, fault, value: raw.value })
    }
}

impl fmt::Display for Layer {
    fn fmt(&self, f: &mut fmt::Formatter<'_>) -> fmt::Result {
        let index = (self.0 as usize).wrapping_sub(1);
        f.write_str(raw::LAYER_NAMES.get(index).unwrap_or(&"no layer"))
    }
}

impl LenSource {
    fn from_raw(number: u32) -> LenSource {
        match number {
            raw::SOURCE_SLICE => LenSource::Slice,
            raw::SOURCE_MACSEC_SHORT_LENGTH => LenSource::MacsecShortLength,
            raw::SOURCE_IPV4_HEADER_TOTAL_LEN => LenSource::Ipv4HeaderTotalLen,
            raw::SOURCE_IPV6_HEADER_PAYLOAD_LEN => LenSource::Ipv6HeaderPayloadLen,
            raw::SOURCE_UDP_HEADER_LEN => LenSource::UdpHeaderLen,
            raw::SOURCE_TCP_HEADER_LEN => LenSource::TcpHeaderLen,
            _ => LenSource::ArpAddrLengths,
        }
    }
}

impl fmt::Display for LenSource {
    fn fmt(&self, f: &mut fmt::Formatter<'_>) -> fmt::Result {
        f.write_str(match self {
            LenSource::Slice => "bytes that were passed",
            LenSource::MacsecShortLength => "MACsec short length",
            LenSource::Ipv4HeaderTotalLen => "IPv4 total length",
            LenSource::Ipv6HeaderPayloadLen => "IPv6 payload length",
            LenSource::UdpHeaderLen => "UDP length",
            LenSource::TcpHeaderLen => "TCP data offset",
            LenSource::ArpAddrLengths => "ARP address lengths",
        })
    }
}

impl fmt::Display for Fault {
    fn fmt(&self, f: &mut fmt::Formatter<'_>) -> fmt::Result {
        f.write_str(match self {
            Fault::LinuxSllPacketType => "packet type of a Linux cooked capture",
            Fault::LinuxSllHardwareType => "hardware type of a Linux cooked capture",
            Fault::MacsecVersion => "MACsec version",
            Fault::MacsecShortLen => "MACsec short length",
            Fault::IpVersion => "IP version",
            Fault::Ipv4Version => "IPv4 version",
            Fault::Ipv4HeaderLen => "IPv4 header length",
            Fault::Ipv6Version => "IPv6 version",
            Fault::AuthHeaderLen => "authentication header length",
            Fault::HopByHopNotAtStart => "hop-by-hop options not at the start",
            Fault::TcpDataOffset => "TCP data offset",
        })
    }
}

// Of a length 0 and of a header's place there is no value to show.
impl fmt::Display for Refusal {
    fn fmt(&self, f: &mut fmt::Formatter<'_>) -> fmt::Result {
        match self {
            Refusal::TooFewBytes { layer, needed, there, place, .. } => {
                write!(f, "{layer} at byte {place} needs {needed} bytes, and {there} are there")
            }
            Refusal::Header { fault: fault @ (Fault::AuthHeaderLen | Fault::HopByHopNotAtStart), .. } => fault.fmt(f),
            Refusal::Header { fault, value, .. } => write!(f, "{fault}: {value}"),
        }
    }
}

impl Error for Refusal {}
