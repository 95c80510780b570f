//! The IP packets in frames, as plain Rust reads them.

const ETHERNET_LEN: usize = 14;
const VLAN_LEN: usize = 4;
const MACSEC_MIN_LEN: usize = 6;
const MACSEC_IDENTIFIER_LEN: usize = 8;
const ETHER_TYPE_LEN: usize = 2;
const ARP_MIN_LEN: usize = 8;
const MOST_TAGS: usize = 3;

const IPV4_TYPE: u16 = 0x0800;
const ARP_TYPE: u16 = 0x0806;
const VLAN_TYPE: u16 = 0x8100;
const SERVICE_VLAN_TYPE: u16 = 0x88a8;
const DOUBLE_VLAN_TYPE: u16 = 0x9100;
const IPV6_TYPE: u16 = 0x86dd;
const MACSEC_TYPE: u16 = 0x88e5;

const IPV4_MIN_LEN: usize = 20;
const IPV6_LEN: usize = 40;
const FRAGMENT_LEN: usize = 8;

const HOP_BY_HOP: u8 = 0;
const ROUTING: u8 = 43;
const FRAGMENT: u8 = 44;
const AUTHENTICATION: u8 = 51;
const DESTINATION: u8 = 60;

/// Why there is no IP packet in a frame.
pub enum Unread {
    /// The frame breaks a format.
    Refused,
    /// It has something else.
    Other,
}

/// The identifiers of the VLAN tags, the outer one first.
#[derive(Clone, Copy, Default, PartialEq, Eq, Hash)]
pub struct VlanIds {
    ids: [u16; MOST_TAGS],
    count: u8,
}

impl VlanIds {
    fn push(&mut self, id: u16) {
        self.ids[usize::from(self.count)] = id;
        self.count += 1;
    }
}

/// Source and destination.
#[derive(Clone, Copy, PartialEq, Eq, Hash)]
pub enum Addresses {
    V4([u8; 8]),
    V6([u8; 32]),
}

impl Addresses {
    pub fn bytes(&self) -> &[u8] {
        match self {
            Addresses::V4(bytes) => bytes,
            Addresses::V6(bytes) => bytes,
        }
    }
}

/// The place of a payload in its message.
#[derive(Clone, Copy)]
pub struct Part {
    pub identification: u32,
    pub units: u16,
    pub more: bool,
}

impl Part {
    fn is_fragment(&self) -> bool {
        self.units != 0 || self.more
    }
}

/// An IP packet in a frame.
pub struct Packet<'a> {
    pub vlan_ids: VlanIds,
    pub addresses: Addresses,
    /// What the IPv4 header or the first fragment header says, if that is of a part.
    pub part: Option<Part>,
    /// Whether any header says that this is a part.
    pub is_fragment: bool,
    pub protocol: u8,
    pub payload: &'a [u8],
}

/// The IP packet in an Ethernet II frame.
pub fn read_frame(frame: &[u8]) -> Result<Packet<'_>, Unread> {
    let (ethernet, mut rest) = frame
        .split_first_chunk::<ETHERNET_LEN>()
        .ok_or(Unread::Refused)?;
    let mut ether_type = u16::from_be_bytes([ethernet[12], ethernet[13]]);
    let mut vlan_ids = VlanIds::default();
    for _ in 0..MOST_TAGS {
        (ether_type, rest) = match ether_type {
            VLAN_TYPE | SERVICE_VLAN_TYPE | DOUBLE_VLAN_TYPE => {
                let (tag, payload) = rest
                    .split_first_chunk::<VLAN_LEN>()
                    .ok_or(Unread::Refused)?;
                vlan_ids.push(u16::from_be_bytes([tag[0], tag[1]]) & 0xfff);
                (u16::from_be_bytes([tag[2], tag[3]]), payload)
            }
            MACSEC_TYPE => read_macsec(rest)?,
            _ => break,
        };
    }
    match ether_type {
        IPV4_TYPE => read_ipv4(vlan_ids, rest).ok_or(Unread::Refused),
        IPV6_TYPE => read_ipv6(vlan_ids, rest).ok_or(Unread::Refused),
        ARP_TYPE if !is_arp(rest) => Err(Unread::Refused),
        _ => Err(Unread::Other),
    }
}

/// The ether type and the bytes that stand after a MACsec header (IEEE 802.1AE, clause 9).
fn read_macsec(bytes: &[u8]) -> Result<(u16, &[u8]), Unread> {
    let (fixed, rest) = bytes
        .split_first_chunk::<MACSEC_MIN_LEN>()
        .ok_or(Unread::Refused)?;
    let is_changed = fixed[0] & 0x0c != 0;
    let short_len = usize::from(fixed[1] & 0x3f);
    if fixed[0] & 0x80 != 0 || (!is_changed && short_len == 1) {
        return Err(Unread::Refused);
    }
    let identifier_len = if fixed[0] & 0x20 != 0 {
        MACSEC_IDENTIFIER_LEN
    } else {
        0
    };
    let protected = rest.get(identifier_len..).ok_or(Unread::Refused)?;
    // The short length counts the ether type of an unchanged payload. One of 0 takes all.
    let protected = match short_len {
        0 => protected,
        len => protected.get(..len).ok_or(Unread::Refused)?,
    };
    if is_changed {
        return Err(Unread::Other);
    }
    let (ether_type, payload) = protected
        .split_first_chunk::<ETHER_TYPE_LEN>()
        .ok_or(Unread::Refused)?;
    Ok((u16::from_be_bytes(*ether_type), payload))
}

/// Whether the first bytes are an ARP packet (RFC 826).
fn is_arp(bytes: &[u8]) -> bool {
    bytes
        .split_first_chunk::<ARP_MIN_LEN>()
        .is_some_and(|(fixed, addresses)| {
            addresses.len() >= 2 * (usize::from(fixed[4]) + usize::from(fixed[5]))
        })
}

/// The packet at the start of the bytes (RFC 791, 3.1).
fn read_ipv4(vlan_ids: VlanIds, bytes: &[u8]) -> Option<Packet<'_>> {
    let (header, _) = bytes.split_first_chunk::<IPV4_MIN_LEN>()?;
    let header_len = 4 * usize::from(header[0] & 0xf);
    let total_len = usize::from(u16::from_be_bytes([header[2], header[3]]));
    if header[0] >> 4 != 4 || header_len < IPV4_MIN_LEN {
        return None;
    }
    // What follows the total length is padding.
    let body = bytes.get(header_len..total_len)?;
    let (protocol, payload) = match header[9] {
        AUTHENTICATION => (*body.first()?, body.get(authentication_len(body)?..)?),
        protocol => (protocol, body),
    };
    let more_and_offset = u16::from_be_bytes([header[6], header[7]]);
    let part = Part {
        identification: u32::from(u16::from_be_bytes([header[4], header[5]])),
        units: more_and_offset & 0x1fff,
        more: more_and_offset & 0x2000 != 0,
    };
    Some(Packet {
        vlan_ids,
        addresses: Addresses::V4(*header[12..].first_chunk()?),
        part: Some(part).filter(Part::is_fragment),
        is_fragment: part.is_fragment(),
        protocol,
        payload,
    })
}

/// The packet at the start of the bytes (RFC 8200, 3 and 4).
fn read_ipv6(vlan_ids: VlanIds, bytes: &[u8]) -> Option<Packet<'_>> {
    let (header, payload) = bytes.split_first_chunk::<IPV6_LEN>()?;
    if header[0] >> 4 != 6 {
        return None;
    }
    // What follows the payload length is padding. A length of 0 takes all.
    let mut rest = match usize::from(u16::from_be_bytes([header[4], header[5]])) {
        0 => payload,
        len => payload.get(..len)?,
    };
    let mut protocol = header[6];
    let mut is_first = true;
    let mut first_part = None;
    let mut is_fragment = false;
    loop {
        let len = match protocol {
            HOP_BY_HOP if !is_first => return None,
            HOP_BY_HOP | ROUTING | DESTINATION => 8 * (usize::from(*rest.get(1)?) + 1),
            FRAGMENT => FRAGMENT_LEN,
            AUTHENTICATION => authentication_len(rest)?,
            _ => break,
        };
        let (extension, following) = rest.split_at_checked(len)?;
        if protocol == FRAGMENT {
            let part = read_fragment_header(extension.first_chunk()?);
            is_fragment |= part.is_fragment();
            first_part.get_or_insert(part);
        }
        protocol = extension[0];
        rest = following;
        is_first = false;
    }
    Some(Packet {
        vlan_ids,
        addresses: Addresses::V6(*header[8..].first_chunk()?),
        part: first_part.filter(Part::is_fragment),
        is_fragment,
        protocol,
        payload: rest,
    })
}

fn read_fragment_header(header: &[u8; FRAGMENT_LEN]) -> Part {
    let offset_and_more = u16::from_be_bytes([header[2], header[3]]);
    Part {
        identification: u32::from_be_bytes([header[4], header[5], header[6], header[7]]),
        units: offset_and_more >> 3,
        more: offset_and_more & 1 != 0,
    }
}

/// The length that an authentication header states (RFC 4302, 2.2).
fn authentication_len(bytes: &[u8]) -> Option<usize> {
    match *bytes.get(1)? {
        0 => None,
        words => Some(4 * (usize::from(words) + 2)),
    }
}
