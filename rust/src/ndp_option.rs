//! The options of messages of neighbor discovery.

use crate::addresses::Addresses;
use crate::raw::{self, EpNdpOption, EpPart};
use crate::Packet;
use std::error::Error;
use std::fmt;
use std::iter::FusedIterator;
use std::net::Ipv6Addr;

/// A prefix that a router announces (RFC 4861, section 4.6.2).
#[derive(Clone, Copy, Debug, PartialEq, Eq, Hash)]
pub struct PrefixInformation {
    /// How many leading bits of the prefix are valid, 0 to 128.
    pub prefix_length: u8,
    /// Addresses of the prefix are on the link: bit L.
    pub on_link: bool,
    /// A host may form an address with the prefix (RFC 4862): bit A.
    pub autonomous: bool,
    /// How long the prefix is on the link, in seconds; all ones: for ever.
    pub valid_lifetime: u32,
    /// How long addresses formed with it are preferred, in seconds; all ones: for ever.
    pub preferred_lifetime: u32,
    /// The prefix. Its bits after `prefix_length` are to be ignored.
    pub prefix: Ipv6Addr,
}

/// An option of neighbor discovery (RFC 4861, section 4.6; RFC 8106, section 5).
#[derive(Clone, Debug, PartialEq, Eq, Hash)]
pub enum NdpOption<'a> {
    /// The sender's link-layer address (type 1, section 4.6.1), with what fills its last unit of 8 bytes.
    SourceLinkLayerAddress(&'a [u8]),
    /// The target's link-layer address (type 2, section 4.6.1), with what fills its last unit of 8 bytes.
    TargetLinkLayerAddress(&'a [u8]),
    /// A prefix (type 3, section 4.6.2).
    PrefixInformation(PrefixInformation),
    /// The start of the packet that is redirected (type 4, section 4.6.3).
    RedirectedHeader(&'a [u8]),
    /// The link's greatest packet in bytes (type 5, section 4.6.4).
    Mtu(u32),
    /// Recursive DNS servers (type 25; RFC 8106, section 5.1).
    RecursiveDnsServer {
        /// How long they may be used, in seconds; all ones: for ever.
        lifetime: u32,
        /// Their addresses.
        addresses: Addresses<'a, Ipv6Addr>,
    },
    /// Domains in which names are searched (type 31; RFC 8106, section 5.2).
    DnsSearchList {
        /// How long they may be used, in seconds; all ones: for ever.
        lifetime: u32,
        /// Their names as labels (RFC 1035, section 3.1), filled with zeros.
        names: &'a [u8],
    },
    /// An option of another type, or of a length that its type doesn't have.
    Unknown {
        /// The type.
        kind: u8,
        /// What follows type and length.
        bytes: &'a [u8],
    },
}

/// What is wrong with the option at an offset, in bytes from the first option on (RFC 4861, section 4.6).
#[derive(Clone, Copy, Debug, PartialEq, Eq, Hash)]
pub enum NdpOptionError {
    /// Fewer bytes are left than the option needs: its type and its length, or as many as its length gives.
    UnexpectedEnd {
        /// The offset of the option.
        offset: usize,
        /// How many bytes it needs.
        needed_len: usize,
        /// How many bytes are left.
        actual_len: usize,
    },
    /// The option's length is 0.
    ZeroLength {
        /// The offset of the option.
        offset: usize,
    },
}

impl fmt::Display for NdpOptionError {
    fn fmt(&self, f: &mut fmt::Formatter<'_>) -> fmt::Result {
        match self {
            NdpOptionError::UnexpectedEnd { offset, needed_len, actual_len } => write!(
                f,
                "neighbor discovery option at offset {offset}: {needed_len} byte(s) are needed, and {actual_len} are left"
            ),
            NdpOptionError::ZeroLength { offset } => {
                write!(f, "neighbor discovery option at offset {offset}: the length is 0")
            }
        }
    }
}

impl Error for NdpOptionError {}

/// The options of a message of neighbor discovery, one after the other (RFC 4861, section 4.6), up to the end or the first fault,
/// which is the last item.
#[derive(Clone, Debug)]
pub struct NdpOptionsIterator<'a> {
    options: &'a [u8],
    left: EpPart,
}

fn option<'a>(options: &'a [u8], found: &EpNdpOption) -> Result<NdpOption<'a>, NdpOptionError> {
    let carried = &options[found.carried.offset..][..found.carried.len];
    let lifetime = found.lifetime;
    Ok(match found.kind {
        raw::NDP_OPTION_SOURCE_LINK_LAYER_ADDRESS => NdpOption::SourceLinkLayerAddress(carried),
        raw::NDP_OPTION_TARGET_LINK_LAYER_ADDRESS => NdpOption::TargetLinkLayerAddress(carried),
        raw::NDP_OPTION_PREFIX_INFORMATION => NdpOption::PrefixInformation(PrefixInformation {
            prefix_length: found.prefix_length,
            on_link: found.on_link,
            autonomous: found.autonomous,
            valid_lifetime: found.valid_lifetime,
            preferred_lifetime: found.preferred_lifetime,
            prefix: found.prefix.into(),
        }),
        raw::NDP_OPTION_REDIRECTED_HEADER => NdpOption::RedirectedHeader(carried),
        raw::NDP_OPTION_MTU => NdpOption::Mtu(found.mtu),
        raw::NDP_OPTION_RECURSIVE_DNS_SERVER => {
            NdpOption::RecursiveDnsServer { lifetime, addresses: Addresses::new(carried) }
        }
        raw::NDP_OPTION_DNS_SEARCH_LIST => NdpOption::DnsSearchList { lifetime, names: carried },
        raw::NDP_OPTION_FAULT => {
            let offset = found.option.offset;
            return Err(match found.fault {
                1 => NdpOptionError::UnexpectedEnd { offset, needed_len: found.needed, actual_len: found.there },
                _ => NdpOptionError::ZeroLength { offset },
            });
        }
        _ => NdpOption::Unknown { kind: found.option_type, bytes: carried },
    })
}

impl<'a> Iterator for NdpOptionsIterator<'a> {
    type Item = Result<NdpOption<'a>, NdpOptionError>;

    fn next(&mut self) -> Option<Self::Item> {
        // SAFETY: pointer and length are one slice's, and the part is another place; below, too.
        let found = unsafe { raw::ep_ndp_option_next(self.options.as_ptr(), self.options.len(), &mut self.left) };
        if found.kind == raw::NDP_OPTION_NONE {
            None
        } else {
            Some(option(self.options, &found))
        }
    }
}

impl FusedIterator for NdpOptionsIterator<'_> {}

impl<'a> Packet<'a> {
    /// The options of the message of neighbor discovery, none where there is no such message.
    #[must_use]
    pub fn ndp_options(&self) -> NdpOptionsIterator<'a> {
        let options = match self.icmp_message() {
            Some((true, message)) => {
                let part = unsafe { raw::ep_ndp_options(message.as_ptr(), message.len()) };
                &message[part.offset..][..part.len]
            }
            _ => &[],
        };
        NdpOptionsIterator { options, left: EpPart { offset: 0, len: options.len() } }
    }
}
