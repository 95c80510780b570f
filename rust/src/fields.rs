//! What headers say beyond the fields of a packet: options, extension headers and ICMP messages.

use crate::raw::{self, EpExtension, EpExtensions, EpIcmpFields, EpNdp, EpPart, EpTcpOption};
use crate::Packet;
use std::error::Error;
use std::fmt;
use std::net::{Ipv4Addr, Ipv6Addr};

/// An option of a TCP header, without the end of the list.
#[derive(Clone, Copy, Debug, PartialEq, Eq, Hash)]
pub enum TcpOptionElement {
    /// No operation: padding between options (RFC 9293, section 3.2).
    Noop,
    /// The greatest segment that the sender takes (RFC 9293, section 3.2).
    MaximumSegmentSize(u16),
    /// By how many bits window sizes are shifted (RFC 7323, section 2.2).
    WindowScale(u8),
    /// Selective acknowledgements are understood (RFC 2018, section 2).
    SelectiveAcknowledgementPermitted,
    /// Blocks of bytes that arrived after a gap, each by the number of its first byte and of the byte after its last one: the
    /// first, and up to three more (RFC 2018, section 3).
    SelectiveAcknowledgement((u32, u32), [Option<(u32, u32)>; 3]),
    /// The sender's clock, and the clock value that it replies to (RFC 7323, section 3.2).
    Timestamp(u32, u32),
}

/// What is wrong with an option of a TCP header.
#[derive(Clone, Copy, Debug, PartialEq, Eq, Hash)]
pub enum TcpOptionReadError {
    /// Fewer bytes are left than the option needs.
    UnexpectedEndOfSlice {
        /// The kind of the option.
        option_id: u8,
        /// How many bytes it needs.
        expected_len: u8,
        /// How many bytes are left.
        actual_len: usize,
    },
    /// The option's length byte isn't one that its kind has.
    UnexpectedSize {
        /// The kind of the option.
        option_id: u8,
        /// Its length byte.
        size: u8,
    },
    /// No option of this kind is known.
    UnknownId(u8),
}

impl fmt::Display for TcpOptionReadError {
    fn fmt(&self, f: &mut fmt::Formatter<'_>) -> fmt::Result {
        match self {
            TcpOptionReadError::UnexpectedEndOfSlice { option_id, expected_len, actual_len } => {
                write!(f, "TCP option of kind {option_id}: {expected_len} byte(s) are needed, and {actual_len} are left")
            }
            TcpOptionReadError::UnexpectedSize { option_id, size } => {
                write!(f, "TCP option of kind {option_id}: the length byte is {size}, which this kind doesn't have")
            }
            TcpOptionReadError::UnknownId(kind) => write!(f, "TCP option of kind {kind}: the kind is unknown"),
        }
    }
}

impl Error for TcpOptionReadError {}

fn element(option: &EpTcpOption) -> Result<TcpOptionElement, TcpOptionReadError> {
    let option_id = option.kind;
    match option.fault {
        0 => {}
        1 => {
            return Err(TcpOptionReadError::UnexpectedEndOfSlice {
                option_id,
                expected_len: option.needed,
                actual_len: option.there,
            })
        }
        2 => return Err(TcpOptionReadError::UnexpectedSize { option_id, size: option.stated_len }),
        _ => return Err(TcpOptionReadError::UnknownId(option_id)),
    }
    let block = |index: usize| (option.blocks[index].left_edge, option.blocks[index].right_edge);
    let more = |index: usize| if index < option.block_count as usize { Some(block(index)) } else { None };
    Ok(match option_id {
        2 => TcpOptionElement::MaximumSegmentSize(option.maximum_segment_size),
        3 => TcpOptionElement::WindowScale(option.window_scale),
        4 => TcpOptionElement::SelectiveAcknowledgementPermitted,
        5 => TcpOptionElement::SelectiveAcknowledgement(block(0), [more(1), more(2), more(3)]),
        8 => TcpOptionElement::Timestamp(option.timestamp, option.echoed_timestamp),
        _ => TcpOptionElement::Noop,
    })
}

/// The options of a TCP header, one after the other, up to the end of the list or the first fault, which is the last item.
#[derive(Clone, Debug)]
pub struct TcpOptionsIterator<'a> {
    bytes: &'a [u8],
    left: EpPart,
}

impl Iterator for TcpOptionsIterator<'_> {
    type Item = Result<TcpOptionElement, TcpOptionReadError>;

    fn next(&mut self) -> Option<Self::Item> {
        // SAFETY: pointer and length are one slice's, and the part is another place; below, too.
        let option = unsafe { raw::ep_tcp_option_next(self.bytes.as_ptr(), self.bytes.len(), &mut self.left) };
        if option.kind == 0 {
            None
        } else {
            Some(element(&option))
        }
    }
}

impl std::iter::FusedIterator for TcpOptionsIterator<'_> {}

/// Hop-by-hop options, a routing header or destination options (RFC 8200, sections 4.3, 4.4 and 4.6).
#[derive(Clone, Copy, Debug, PartialEq, Eq, Hash)]
pub struct RawExtension<'a> {
    /// The number of what follows the header.
    pub next_header: u8,
    /// What follows the header's first two bytes.
    pub payload: &'a [u8],
}

/// A fragment header (RFC 8200, section 4.5).
#[derive(Clone, Copy, Debug, PartialEq, Eq, Hash)]
pub struct FragmentExtension {
    /// The number of what follows the header.
    pub next_header: u8,
    /// The offset of the payload in the datagram, in units of 8 bytes.
    pub fragment_offset: u16,
    /// Whether other fragments follow.
    pub more_fragments: bool,
    /// The identification, which the fragments of one datagram share.
    pub identification: u32,
}

/// An authentication header (RFC 4302, section 2).
#[derive(Clone, Copy, Debug, PartialEq, Eq, Hash)]
pub struct AuthenticationExtension<'a> {
    /// The number of what follows the header.
    pub next_header: u8,
    /// The security parameters index.
    pub spi: u32,
    /// The sequence number.
    pub sequence_number: u32,
    /// The integrity check value.
    pub raw_icv: &'a [u8],
}

/// One extension header of an IP packet.
#[derive(Clone, Copy, Debug, PartialEq, Eq, Hash)]
pub enum Extension<'a> {
    /// Hop-by-hop options.
    HopByHop(RawExtension<'a>),
    /// A routing header.
    Routing(RawExtension<'a>),
    /// A fragment header.
    Fragment(FragmentExtension),
    /// Destination options.
    DestinationOptions(RawExtension<'a>),
    /// An authentication header.
    Authentication(AuthenticationExtension<'a>),
}

/// The extension headers of an IP packet, one after the other.
#[derive(Clone, Debug)]
pub struct Extensions<'a> {
    bytes: &'a [u8],
    left: EpExtensions,
}

fn extension<'a>(bytes: &'a [u8], found: &EpExtension) -> Extension<'a> {
    let next_header = found.next_header;
    let payload = &bytes[found.payload.offset..][..found.payload.len];
    match found.layer {
        raw::LAYER_IPV6_HOP_BY_HOP_HEADER => Extension::HopByHop(RawExtension { next_header, payload }),
        raw::LAYER_IPV6_ROUTE_HEADER => Extension::Routing(RawExtension { next_header, payload }),
        raw::LAYER_IPV6_FRAG_HEADER => Extension::Fragment(FragmentExtension {
            next_header,
            fragment_offset: found.fragment_offset,
            more_fragments: found.more_fragments,
            identification: found.identification,
        }),
        raw::LAYER_IP_AUTH_HEADER => Extension::Authentication(AuthenticationExtension {
            next_header,
            spi: found.spi,
            sequence_number: found.sequence_number,
            raw_icv: payload,
        }),
        _ => Extension::DestinationOptions(RawExtension { next_header, payload }),
    }
}

impl<'a> Iterator for Extensions<'a> {
    type Item = Extension<'a>;

    fn next(&mut self) -> Option<Extension<'a>> {
        let found = unsafe { raw::ep_extension_next(self.bytes.as_ptr(), self.bytes.len(), &mut self.left) };
        if found.layer == 0 {
            None
        } else {
            Some(extension(self.bytes, &found))
        }
    }
}

impl std::iter::FusedIterator for Extensions<'_> {}

/// What goes with an echo request and its reply.
#[derive(Clone, Copy, Debug, PartialEq, Eq, Hash)]
pub struct IcmpEchoHeader {
    /// The identifier, which the reply repeats.
    pub id: u16,
    /// The sequence number, which the reply repeats.
    pub seq: u16,
}

/// What goes with a timestamp request and its reply (RFC 792). Times are milliseconds since midnight UT.
#[derive(Clone, Copy, Debug, PartialEq, Eq, Hash)]
pub struct TimestampMessage {
    /// The identifier, which the reply repeats.
    pub id: u16,
    /// The sequence number, which the reply repeats.
    pub seq: u16,
    /// When the request was last touched by its sender.
    pub originate_timestamp: u32,
    /// When the request was first touched by its receiver.
    pub receive_timestamp: u32,
    /// When the reply was last touched by its sender.
    pub transmit_timestamp: u32,
}

/// The kind of an ICMP message of either version (RFC 792; RFC 4443), with what goes with it.
#[derive(Clone, Copy, Debug, PartialEq, Eq, Hash)]
pub enum IcmpType {
    /// A type and code that no other variant has; neighbor discovery is in [`Packet::ndp`].
    Unknown {
        /// The type.
        type_u8: u8,
        /// The code.
        code_u8: u8,
        /// What follows the checksum, bytes 4 to 7.
        bytes5to8: [u8; 4],
    },
    /// An echo request.
    EchoRequest(IcmpEchoHeader),
    /// The reply to one.
    EchoReply(IcmpEchoHeader),
    /// A packet couldn't be delivered.
    DestinationUnreachable {
        /// The code.
        code_u8: u8,
        /// Of ICMPv4 with code 4: the greatest packet that the next network takes; 0 where it isn't reported.
        next_hop_mtu: u16,
    },
    /// Of ICMPv4: another gateway is the better one.
    Redirect {
        /// The code.
        code_u8: u8,
        /// The better gateway.
        gateway_internet_address: Ipv4Addr,
    },
    /// A packet or its fragments took too long.
    TimeExceeded {
        /// The code.
        code_u8: u8,
    },
    /// A packet's header has a fault.
    ParameterProblem {
        /// The code.
        code_u8: u8,
        /// The offset of the fault in the packet. With ICMPv4 only code 0 has one.
        pointer: u32,
    },
    /// Of ICMPv4: a request for the receiver's time.
    TimestampRequest(TimestampMessage),
    /// Of ICMPv4: the reply to one.
    TimestampReply(TimestampMessage),
    /// Of ICMPv6: a packet is bigger than the next link takes.
    PacketTooBig {
        /// The greatest packet in bytes that the next link takes.
        mtu: u32,
    },
}

/// A message of neighbor discovery for IPv6 (RFC 4861, section 4), without its options.
#[derive(Clone, Copy, Debug, PartialEq, Eq, Hash)]
pub enum NdpMessage {
    /// A host requests advertisements of routers.
    RouterSolicitation,
    /// A router advertises itself.
    RouterAdvertisement {
        /// The hop limit for packets to send, 0 where the router gives none.
        cur_hop_limit: u8,
        /// Addresses are available by DHCPv6: bit M.
        managed: bool,
        /// Other configuration is available by DHCPv6: bit O.
        other: bool,
        /// How long the router is a default router, in seconds; 0: it is none.
        router_lifetime: u16,
        /// How long a neighbor is reachable after a confirmation, in milliseconds; 0: not given.
        reachable_time: u32,
        /// The time between repeated solicitations, in milliseconds; 0: not given.
        retrans_timer: u32,
    },
    /// A node requests the link-layer address of a target.
    NeighborSolicitation {
        /// The address whose link-layer address is requested.
        target: Ipv6Addr,
    },
    /// The answer to it, or an unsolicited change.
    NeighborAdvertisement {
        /// The sender is a router: bit R.
        router: bool,
        /// It answers a solicitation: bit S.
        solicited: bool,
        /// It overrides the link-layer address that is cached: bit O.
        overrides: bool,
        /// The address whose link-layer address this is.
        target: Ipv6Addr,
    },
    /// A router names a better first hop.
    Redirect {
        /// The better first hop; the destination itself where that is a neighbor.
        target: Ipv6Addr,
        /// The address whose packets go there.
        destination: Ipv6Addr,
    },
}

fn timestamps(found: &EpIcmpFields) -> TimestampMessage {
    TimestampMessage {
        id: found.id,
        seq: found.sequence_number,
        originate_timestamp: found.originate_timestamp,
        receive_timestamp: found.receive_timestamp,
        transmit_timestamp: found.transmit_timestamp,
    }
}

fn ndp(found: &EpNdp) -> Option<NdpMessage> {
    let target = found.target.into();
    Some(match found.icmp_type {
        133 => NdpMessage::RouterSolicitation,
        134 => NdpMessage::RouterAdvertisement {
            cur_hop_limit: found.hop_limit,
            managed: found.managed,
            other: found.other,
            router_lifetime: found.router_lifetime,
            reachable_time: found.reachable_time,
            retrans_timer: found.retrans_timer,
        },
        135 => NdpMessage::NeighborSolicitation { target },
        136 => NdpMessage::NeighborAdvertisement {
            router: found.router,
            solicited: found.solicited,
            overrides: found.overrides,
            target,
        },
        137 => NdpMessage::Redirect { target, destination: found.destination.into() },
        _ => return None,
    })
}

impl<'a> Packet<'a> {
    /// The options of the TCP header, none where there is no such header.
    #[must_use]
    pub fn tcp_options(&self) -> TcpOptionsIterator<'a> {
        // SAFETY: the struct is one that a call filled.
        TcpOptionsIterator { bytes: self.bytes(), left: unsafe { raw::ep_tcp_options(self.fields()) } }
    }

    /// The bytes of the options of the IPv4 header, none where there is no such header.
    #[must_use]
    pub fn ipv4_options(&self) -> &'a [u8] {
        self.bytes_of(unsafe { raw::ep_ipv4_options(self.fields()) })
    }

    /// The extension headers of the IP packet: all of IPv6, or the authentication header of IPv4.
    #[must_use]
    pub fn extensions(&self) -> Extensions<'a> {
        Extensions { bytes: self.bytes(), left: unsafe { raw::ep_ip_extensions(self.fields()) } }
    }

    /// The ICMP message from its header on, header and payload; of which version it is.
    pub(crate) fn icmp_message(&self) -> Option<(bool, &'a [u8])> {
        let icmp = &self.fields().icmp;
        let message = EpPart { offset: icmp.header.offset, len: icmp.header.len + icmp.payload.len };
        match self.fields().transport {
            1 => Some((false, self.bytes_of(message))),
            58 => Some((true, self.bytes_of(message))),
            _ => None,
        }
    }

    /// The kind of the ICMP message, if there is one.
    #[must_use]
    pub fn icmp_type(&self) -> Option<IcmpType> {
        let (is_v6, message) = self.icmp_message()?;
        let icmp = &self.fields().icmp;
        let code_u8 = icmp.code;
        let found = unsafe {
            if is_v6 {
                raw::ep_icmpv6_fields(message.as_ptr(), message.len())
            } else {
                raw::ep_icmpv4_fields(message.as_ptr(), message.len())
            }
        };
        let echo = IcmpEchoHeader { id: found.id, seq: found.sequence_number };
        Some(match found.kind {
            raw::ICMP_ECHO_REQUEST => IcmpType::EchoRequest(echo),
            raw::ICMP_ECHO_REPLY => IcmpType::EchoReply(echo),
            raw::ICMP_DESTINATION_UNREACHABLE => IcmpType::DestinationUnreachable { code_u8, next_hop_mtu: found.mtu as u16 },
            raw::ICMP_REDIRECT => IcmpType::Redirect { code_u8, gateway_internet_address: found.gateway.into() },
            raw::ICMP_TIME_EXCEEDED => IcmpType::TimeExceeded { code_u8 },
            raw::ICMP_PARAMETER_PROBLEM => IcmpType::ParameterProblem { code_u8, pointer: found.pointer },
            raw::ICMP_TIMESTAMP_REQUEST => IcmpType::TimestampRequest(timestamps(&found)),
            raw::ICMP_TIMESTAMP_REPLY => IcmpType::TimestampReply(timestamps(&found)),
            raw::ICMP_PACKET_TOO_BIG => IcmpType::PacketTooBig { mtu: found.mtu },
            _ => IcmpType::Unknown { type_u8: icmp.icmp_type, code_u8, bytes5to8: icmp.rest },
        })
    }

    /// The message of neighbor discovery, if the packet has one.
    #[must_use]
    pub fn ndp(&self) -> Option<NdpMessage> {
        match self.icmp_message()? {
            (true, message) => ndp(&unsafe { raw::ep_ndp_message(message.as_ptr(), message.len()) }),
            (false, _) => None,
        }
    }
}
