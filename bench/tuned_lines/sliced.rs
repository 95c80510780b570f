//! Zero copy slices of a frame, from Ethernet II to the IP payload.

/// Why a frame is refused. `run` prints all of these as `refused frame`.
#[derive(Debug, Clone, Copy, PartialEq, Eq)]
pub enum SliceError {
    /// Fewer bytes than a header or a length field requires, or more than it allows.
    Len,
    MacsecVersion,
    MacsecShortLen,
    Ipv4Version,
    Ipv4HeaderLength,
    Ipv6Version,
    ZeroPayloadLen,
    HopByHopNotAtStart,
    TcpDataOffset,
}

use SliceError::*;

mod ether_type {
    pub const IPV4: u16 = 0x0800;
    pub const ARP: u16 = 0x0806;
    pub const VLAN_TAGGED_FRAME: u16 = 0x8100;
    pub const IPV6: u16 = 0x86dd;
    pub const PROVIDER_BRIDGING: u16 = 0x88a8;
    pub const MACSEC: u16 = 0x88e5;
    pub const VLAN_DOUBLE_TAGGED_FRAME: u16 = 0x9100;
}

pub mod ip_number {
    pub const HOP_BY_HOP: u8 = 0;
    pub const ICMP: u8 = 1;
    pub const TCP: u8 = 6;
    pub const UDP: u8 = 17;
    pub const IPV6_ROUTE: u8 = 43;
    pub const IPV6_FRAG: u8 = 44;
    pub const AUTH: u8 = 51;
    pub const IPV6_ICMP: u8 = 58;
    pub const IPV6_DEST_OPTIONS: u8 = 60;
}

#[inline(always)]
pub(crate) fn be16(s: &[u8], at: usize) -> u16 {
    u16::from_be_bytes([s[at], s[at + 1]])
}

/// VLAN ids of a frame, outer first; 0xffff where there is none.
#[derive(Debug, Clone, Copy, PartialEq, Eq)]
pub struct VlanIds([u16; 3]);

impl VlanIds {
    pub const NONE: VlanIds = VlanIds([0xffff; 3]);

    fn push(&mut self, id: u16) {
        if let Some(free) = self.0.iter_mut().find(|it| **it == 0xffff) {
            *free = id;
        }
    }

    pub fn as_array(&self) -> [u16; 3] {
        self.0
    }
}

/// Source and destination of the IP header, as they stand there.
#[derive(Debug, Clone, Copy, PartialEq, Eq)]
pub enum Addresses<'a> {
    V4(&'a [u8; 8]),
    V6(&'a [u8; 32]),
}

/// Where a fragment stands in its packet.
#[derive(Debug, Clone, Copy, PartialEq, Eq)]
pub struct FragInfo {
    pub identification: u32,
    /// Offset in bytes.
    pub offset: u16,
    pub more: bool,
}

impl FragInfo {
    #[inline]
    fn is_fragmenting(&self) -> bool {
        self.more || self.offset != 0
    }
}

#[derive(Debug, Clone, Copy, PartialEq, Eq)]
pub struct IpSlice<'a> {
    pub addresses: Addresses<'a>,
    /// The number after the extension headers.
    pub number: u8,
    pub payload: &'a [u8],
    /// Set where the packet is cut: IPv4's own fields, or the first fragment header.
    pub fragment: Option<FragInfo>,
    /// A fragment header after the first one fragments, the first one doesn't.
    pub later_fragment: bool,
}

#[derive(Debug, Clone, Copy, PartialEq, Eq)]
pub enum NetSlice<'a> {
    Ip(IpSlice<'a>),
    Arp(&'a [u8]),
}

#[derive(Debug, Clone, Copy, PartialEq, Eq)]
pub struct SlicedPacket<'a> {
    pub vlan_ids: VlanIds,
    pub net: Option<NetSlice<'a>>,
}

impl<'a> SlicedPacket<'a> {
    /// Most VLAN and MACsec headers that are taken.
    pub const LINK_EXTS_CAP: usize = 3;

    #[inline]
    pub fn from_ethernet(frame: &'a [u8]) -> Result<SlicedPacket<'a>, SliceError> {
        if frame.len() < 14 {
            return Err(Len);
        }
        let mut ether_type = be16(frame, 12);
        let mut rest = &frame[14..];
        let mut vlan_ids = VlanIds::NONE;
        let mut link_exts = 0;
        let net = loop {
            match ether_type {
                ether_type::IPV4 => break Some(NetSlice::Ip(IpSlice::from_ipv4(rest)?)),
                ether_type::IPV6 => break Some(NetSlice::Ip(IpSlice::from_ipv6(rest)?)),
                ether_type::ARP => break Some(NetSlice::Arp(arp(rest)?)),
                ether_type::VLAN_TAGGED_FRAME
                | ether_type::PROVIDER_BRIDGING
                | ether_type::VLAN_DOUBLE_TAGGED_FRAME
                    if link_exts < Self::LINK_EXTS_CAP =>
                {
                    let Some((tag, payload)) = rest.split_first_chunk::<4>() else {
                        return Err(Len);
                    };
                    vlan_ids.push(be16(tag, 0) & 0x0fff);
                    ether_type = be16(tag, 2);
                    rest = payload;
                }
                ether_type::MACSEC if link_exts < Self::LINK_EXTS_CAP => match macsec(rest)? {
                    Some((next, payload)) => {
                        ether_type = next;
                        rest = payload;
                    }
                    None => break None,
                },
                _ => break None,
            }
            link_exts += 1;
        };
        Ok(SlicedPacket { vlan_ids, net })
    }
}

/// Next ether type and payload of a MACsec header, None where the payload is modified.
fn macsec(s: &[u8]) -> Result<Option<(u16, &[u8])>, SliceError> {
    if s.len() < 6 {
        return Err(Len);
    }
    let tci = s[0];
    if tci & 0x80 != 0 {
        return Err(MacsecVersion);
    }
    let unmodified = tci & 0x0c == 0;
    let short_len = usize::from(s[1] & 0x3f);
    if unmodified && short_len == 1 {
        return Err(MacsecShortLen);
    }
    let tag_len = 6 + if tci & 0x20 != 0 { 8 } else { 0 };
    let header_len = tag_len + if unmodified { 2 } else { 0 };
    if s.len() < header_len {
        return Err(Len);
    }
    // the short length counts the ether type too
    let end = match short_len {
        0 => s.len(),
        n => tag_len + n,
    };
    if s.len() < end {
        return Err(Len);
    }
    Ok(unmodified.then(|| (be16(s, tag_len), &s[header_len..end])))
}

fn arp(s: &[u8]) -> Result<&[u8], SliceError> {
    if s.len() < 8 {
        return Err(Len);
    }
    let len = 8 + 2 * usize::from(s[4]) + 2 * usize::from(s[5]);
    s.get(..len).ok_or(Len)
}

/// Length of the authentication header at the start of `s`.
#[inline]
fn auth_len(s: &[u8]) -> Result<usize, SliceError> {
    if s.len() < 12 {
        return Err(Len);
    }
    if s[1] == 0 {
        return Err(ZeroPayloadLen);
    }
    Ok((usize::from(s[1]) + 2) * 4)
}

impl<'a> IpSlice<'a> {
    #[inline]
    pub fn from_ipv4(s: &'a [u8]) -> Result<IpSlice<'a>, SliceError> {
        let Some(fixed) = s.first_chunk::<20>() else {
            return Err(Len);
        };
        if fixed[0] >> 4 != 4 {
            return Err(Ipv4Version);
        }
        let header_len = usize::from(fixed[0] & 0x0f) * 4;
        if header_len < 20 {
            return Err(Ipv4HeaderLength);
        }
        let total_len = usize::from(be16(fixed, 2));
        if s.len() < header_len || total_len < header_len || s.len() < total_len {
            return Err(Len);
        }
        let mut payload = &s[header_len..total_len];
        let mut number = fixed[9];
        if number == ip_number::AUTH {
            let len = auth_len(payload)?;
            number = payload[0];
            payload = payload.get(len..).ok_or(Len)?;
        }
        let word = be16(fixed, 6);
        let fragment = FragInfo {
            identification: u32::from(be16(fixed, 4)),
            offset: word << 3,
            more: word & 0x2000 != 0,
        };
        let Some(addresses) = fixed.last_chunk::<8>() else {
            return Err(Len);
        };
        Ok(IpSlice {
            addresses: Addresses::V4(addresses),
            number,
            payload,
            fragment: Some(fragment).filter(FragInfo::is_fragmenting),
            later_fragment: false,
        })
    }

    #[inline]
    pub fn from_ipv6(s: &'a [u8]) -> Result<IpSlice<'a>, SliceError> {
        let Some((header, rest)) = s.split_first_chunk::<40>() else {
            return Err(Len);
        };
        if header[0] >> 4 != 6 {
            return Err(Ipv6Version);
        }
        let mut payload = match usize::from(be16(header, 4)) {
            0 => rest,
            len => rest.get(..len).ok_or(Len)?,
        };
        let mut number = header[6];
        let mut first_fragment = None;
        let mut later_fragment = false;
        let mut at_start = true;
        loop {
            let len = match number {
                ip_number::HOP_BY_HOP | ip_number::IPV6_ROUTE | ip_number::IPV6_DEST_OPTIONS => {
                    if number == ip_number::HOP_BY_HOP && !at_start {
                        return Err(HopByHopNotAtStart);
                    }
                    if payload.len() < 8 {
                        return Err(Len);
                    }
                    (usize::from(payload[1]) + 1) * 8
                }
                ip_number::IPV6_FRAG => {
                    let Some(h) = payload.first_chunk::<8>() else {
                        return Err(Len);
                    };
                    let word = be16(h, 2);
                    let info = FragInfo {
                        identification: u32::from_be_bytes([h[4], h[5], h[6], h[7]]),
                        offset: word & 0xfff8,
                        more: word & 1 != 0,
                    };
                    if first_fragment.is_none() {
                        first_fragment = Some(info);
                    } else {
                        later_fragment |= info.is_fragmenting();
                    }
                    8
                }
                ip_number::AUTH => auth_len(payload)?,
                _ => break,
            };
            number = payload[0];
            payload = payload.get(len..).ok_or(Len)?;
            at_start = false;
        }
        let Some(addresses) = header.last_chunk::<32>() else {
            return Err(Len);
        };
        let fragment = first_fragment.filter(FragInfo::is_fragmenting);
        Ok(IpSlice {
            addresses: Addresses::V6(addresses),
            number,
            payload,
            later_fragment: later_fragment && fragment.is_none(),
            fragment,
        })
    }
}
