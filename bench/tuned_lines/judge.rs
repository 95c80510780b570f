//! Readable messages and their verdicts.

use crate::kernel::Kernel;
use crate::sliced::{Addresses, SliceError, be16, ip_number};

#[derive(Debug, Clone, Copy, PartialEq, Eq)]
pub enum Verdict {
    Good,
    Bad,
    None,
}

/// A message that its transport accepts.
#[derive(Debug, Clone, Copy, PartialEq, Eq)]
pub enum Message<'a> {
    Icmpv4(&'a [u8]),
    Tcp(&'a [u8]),
    Udp(&'a [u8]),
    Icmpv6(&'a [u8]),
    Raw(&'a [u8]),
}

impl<'a> Message<'a> {
    #[inline]
    pub fn read(number: u8, m: &'a [u8]) -> Result<Message<'a>, SliceError> {
        match number {
            ip_number::TCP => {
                if m.len() < 20 {
                    return Err(SliceError::Len);
                }
                let data_offset = usize::from(m[12] >> 4);
                if data_offset < 5 {
                    return Err(SliceError::TcpDataOffset);
                }
                if m.len() < 4 * data_offset {
                    return Err(SliceError::Len);
                }
                Ok(Message::Tcp(m))
            }
            ip_number::UDP => {
                if m.len() < 8 {
                    return Err(SliceError::Len);
                }
                match usize::from(be16(m, 4)) {
                    0 => {}
                    len if len > m.len() || len < 8 => return Err(SliceError::Len),
                    _ => {}
                }
                Ok(Message::Udp(m))
            }
            ip_number::ICMP => {
                if m.len() < 8 || (matches!(m[0], 13 | 14) && m[1] == 0 && m.len() != 20) {
                    return Err(SliceError::Len);
                }
                Ok(Message::Icmpv4(m))
            }
            ip_number::IPV6_ICMP => {
                if m.len() < 8 {
                    return Err(SliceError::Len);
                }
                Ok(Message::Icmpv6(m))
            }
            _ => Ok(Message::Raw(m)),
        }
    }

    /// `Good` exactly where pseudo header and summed bytes sum to all ones.
    ///
    /// Words are summed in native byte order: turning the bytes of every word multiplies
    /// the sum by 256 modulo 65535, which keeps "divisible" and "zero" as they are.
    #[inline]
    pub fn judge<K: Kernel>(&self, addresses: Addresses<'_>) -> Verdict {
        let (number, summed) = match (*self, addresses) {
            (Message::Tcp(m), _) => (ip_number::TCP, m),
            (Message::Udp(m), _) => {
                if be16(m, 6) == 0 {
                    return Verdict::None;
                }
                let len = usize::from(be16(m, 4));
                (ip_number::UDP, if len == 0 { m } else { &m[..len] })
            }
            (Message::Icmpv4(m), Addresses::V4(_)) => return verdict(K::sum(m)),
            (Message::Icmpv6(m), Addresses::V6(_)) => (ip_number::IPV6_ICMP, m),
            (Message::Icmpv4(_), Addresses::V6(_))
            | (Message::Icmpv6(_), Addresses::V4(_))
            | (Message::Raw(_), _) => return Verdict::None,
        };
        let (pair, len) = match addresses {
            // the length field has 16 bits over IPv4, 32 over IPv6
            Addresses::V4(pair) => (address_sum(pair), summed.len() as u64 & 0xffff),
            Addresses::V6(pair) => (address_sum(pair), summed.len() as u64 & 0xffff_ffff),
        };
        let words = u64::from(u16::from(number).to_be())
            + u64::from((len as u16).to_be())
            + u64::from(((len >> 16) as u16).to_be());
        verdict(pair + words + K::sum(summed))
    }
}

#[inline]
fn address_sum(pair: &[u8]) -> u64 {
    pair.as_chunks::<4>()
        .0
        .iter()
        .map(|w| u64::from(u32::from_ne_bytes(*w)))
        .sum()
}

#[inline]
fn verdict(sum: u64) -> Verdict {
    if sum != 0 && sum.is_multiple_of(65535) {
        Verdict::Good
    } else {
        Verdict::Bad
    }
}
