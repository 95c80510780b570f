//! Messages of multicast groups: IGMP over IPv4, multicast listener discovery over IPv6.

use crate::addresses::{Address, Addresses};
use crate::raw::{self, EpGroupMessage, EpGroupRecords, EpPart};
use crate::{Net, Packet};
use std::error::Error;
use std::fmt;
use std::iter::FusedIterator;
use std::marker::PhantomData;
use std::net::{Ipv4Addr, Ipv6Addr};

/// A message of the Internet group management protocol (RFC 2236; RFC 3376): type, group and sources.
#[derive(Clone, Debug, PartialEq, Eq)]
pub enum IgmpMessage<'a> {
    /// A query of version 1 or 2 (type 17, 8 bytes; RFC 2236, section 2).
    Query {
        /// How long a host may wait with its report, in tenths of a second; 0: version 1.
        max_response_time: u8,
        /// The group that is queried; all zeros: every group.
        group: Ipv4Addr,
    },
    /// A query of version 3 (type 17, 12 bytes or more; RFC 3376, section 4.1).
    QueryV3 {
        /// How long a host may wait with its report, as a code (section 4.1.1).
        max_response_code: u8,
        /// The group that is queried; all zeros: every group.
        group: Ipv4Addr,
        /// The sources that are queried; none: every source.
        sources: Addresses<'a, Ipv4Addr>,
    },
    /// A report of version 1 (type 18).
    ReportV1 {
        /// The group that is joined.
        group: Ipv4Addr,
    },
    /// A report of version 2 (type 22).
    ReportV2 {
        /// The group that is joined.
        group: Ipv4Addr,
    },
    /// A group is left (type 23).
    Leave {
        /// The group.
        group: Ipv4Addr,
    },
    /// A report of version 3 (type 34; RFC 3376, section 4.2).
    ReportV3(GroupRecords<'a, Ipv4Addr>),
}

/// A message of multicast listener discovery (RFC 2710; RFC 3810): type, group and sources.
#[derive(Clone, Debug, PartialEq, Eq)]
pub enum MldMessage<'a> {
    /// A query of version 1 (type 130, 24 bytes; RFC 2710, section 3).
    Query {
        /// How long a listener may wait with its report, in milliseconds.
        max_response_delay: u16,
        /// The group that is queried; all zeros: every group.
        group: Ipv6Addr,
    },
    /// A query of version 2 (type 130, 28 bytes or more; RFC 3810, section 5.1).
    QueryV2 {
        /// How long a listener may wait with its report, as a code (section 5.1.3).
        max_response_code: u16,
        /// The group that is queried; all zeros: every group.
        group: Ipv6Addr,
        /// The sources that are queried; none: every source.
        sources: Addresses<'a, Ipv6Addr>,
    },
    /// A report of version 1 (type 131).
    Report {
        /// The group that is listened to.
        group: Ipv6Addr,
    },
    /// The end of listening (type 132).
    Done {
        /// The group that is no more listened to.
        group: Ipv6Addr,
    },
    /// A report of version 2 (type 143; RFC 3810, section 5.2).
    ReportV2(GroupRecords<'a, Ipv6Addr>),
}

/// A message has fewer bytes than its kind needs.
#[derive(Clone, Copy, Debug, PartialEq, Eq, Hash)]
pub struct MulticastError {
    /// How many bytes it needs.
    pub needed_len: usize,
    /// How many bytes it has.
    pub actual_len: usize,
}

impl fmt::Display for MulticastError {
    fn fmt(&self, f: &mut fmt::Formatter<'_>) -> fmt::Result {
        let MulticastError { needed_len, actual_len } = self;
        write!(f, "multicast group message: {needed_len} byte(s) are needed, and {actual_len} are there")
    }
}

impl Error for MulticastError {}

/// The record of a group in a report, with addresses of one version (RFC 3376, section 4.2.4; RFC 3810, section 5.2.5).
#[derive(Clone, Debug, PartialEq, Eq, Hash)]
pub struct GroupRecord<'a, A> {
    /// The type: 1 to 6 (RFC 3376, section 4.2.12).
    pub kind: u8,
    /// The group.
    pub group: A,
    /// The sources.
    pub sources: Addresses<'a, A>,
    /// What follows them, of which neither standard defines any.
    pub auxiliary_data: &'a [u8],
}

/// Fewer bytes are left than the record of a group needs.
#[derive(Clone, Copy, Debug, PartialEq, Eq, Hash)]
pub struct GroupRecordError {
    /// The offset of the record, in bytes from the first record on.
    pub offset: usize,
    /// How many bytes it needs: at first those before its sources, then all.
    pub needed_len: usize,
    /// How many bytes are left.
    pub actual_len: usize,
}

impl fmt::Display for GroupRecordError {
    fn fmt(&self, f: &mut fmt::Formatter<'_>) -> fmt::Result {
        let GroupRecordError { offset, needed_len, actual_len } = self;
        write!(f, "group record at offset {offset}: {needed_len} byte(s) are needed, and {actual_len} are left")
    }
}

impl Error for GroupRecordError {}

/// The records of a report, one after the other (RFC 3376, section 4.2; RFC 3810, section 5.2): as many as it names, or up to the
/// first that is cut off, whose fault is the last item.
#[derive(Clone, Debug, PartialEq, Eq)]
pub struct GroupRecords<'a, A> {
    records: &'a [u8],
    left: EpGroupRecords,
    kind: PhantomData<A>,
}

impl<'a, A> GroupRecords<'a, A> {
    fn new(message: &'a [u8], found: EpGroupRecords) -> GroupRecords<'a, A> {
        let records = part_of(message, found.left);
        let left = EpPart { offset: 0, len: records.len() };
        GroupRecords { records, left: EpGroupRecords { left, ..found }, kind: PhantomData }
    }

    /// How many of the records that the report names are left, whether its bytes have them or not: none after a fault.
    #[must_use]
    pub fn count_left(&self) -> u16 {
        self.left.count as u16
    }
}

impl<'a, A: Address> Iterator for GroupRecords<'a, A> {
    type Item = Result<GroupRecord<'a, A>, GroupRecordError>;

    fn next(&mut self) -> Option<Self::Item> {
        // SAFETY: pointer and length are one slice's, and the struct is another place; below, too.
        let found = unsafe { raw::ep_group_record_next(self.records.as_ptr(), self.records.len(), &mut self.left) };
        match found.kind {
            0 => None,
            1 => Some(Ok(GroupRecord {
                kind: found.record_type,
                group: A::of(found.group),
                sources: Addresses::new(part_of(self.records, found.sources)),
                auxiliary_data: part_of(self.records, found.auxiliary_data),
            })),
            _ => Some(Err(GroupRecordError {
                offset: found.bytes.offset,
                needed_len: found.needed,
                actual_len: found.there,
            })),
        }
    }
}

impl<A: Address> FusedIterator for GroupRecords<'_, A> {}

fn part_of(bytes: &[u8], part: EpPart) -> &[u8] {
    &bytes[part.offset..][..part.len]
}

fn too_short(found: &EpGroupMessage) -> MulticastError {
    MulticastError { needed_len: found.needed, actual_len: found.there }
}

fn igmp<'a>(message: &'a [u8], found: &EpGroupMessage) -> Option<Result<IgmpMessage<'a>, MulticastError>> {
    let group = Address::of(found.group);
    let max_response = found.max_response as u8;
    Some(Ok(match found.kind {
        raw::GROUP_QUERY => IgmpMessage::Query { max_response_time: max_response, group },
        raw::GROUP_QUERY_WITH_SOURCES => IgmpMessage::QueryV3 {
            max_response_code: max_response,
            group,
            sources: Addresses::new(part_of(message, found.sources)),
        },
        raw::GROUP_REPORT => IgmpMessage::ReportV1 { group },
        raw::GROUP_REPORT_V2 => IgmpMessage::ReportV2 { group },
        raw::GROUP_LEAVE => IgmpMessage::Leave { group },
        raw::GROUP_RECORDS => IgmpMessage::ReportV3(GroupRecords::new(message, found.records)),
        raw::GROUP_TOO_SHORT => return Some(Err(too_short(found))),
        _ => return None,
    }))
}

fn mld<'a>(message: &'a [u8], found: &EpGroupMessage) -> Option<Result<MldMessage<'a>, MulticastError>> {
    let group = Address::of(found.group);
    Some(Ok(match found.kind {
        raw::GROUP_QUERY => MldMessage::Query { max_response_delay: found.max_response, group },
        raw::GROUP_QUERY_WITH_SOURCES => MldMessage::QueryV2 {
            max_response_code: found.max_response,
            group,
            sources: Addresses::new(part_of(message, found.sources)),
        },
        raw::GROUP_REPORT => MldMessage::Report { group },
        raw::GROUP_LEAVE => MldMessage::Done { group },
        raw::GROUP_RECORDS => MldMessage::ReportV2(GroupRecords::new(message, found.records)),
        raw::GROUP_TOO_SHORT => return Some(Err(too_short(found))),
        _ => return None,
    }))
}

impl<'a> Packet<'a> {
    /// The message of IGMP, if the packet has one of a known type: the payload of an IPv4 packet of protocol 2 that is no
    /// fragment.
    #[must_use]
    pub fn igmp(&self) -> Option<Result<IgmpMessage<'a>, MulticastError>> {
        let message = match self.net()? {
            Net::Ipv4(packet) if packet.payload_number == 2 && !packet.is_part => self.bytes_of(packet.payload),
            _ => return None,
        };
        igmp(message, &unsafe { raw::ep_igmp_message(message.as_ptr(), message.len()) })
    }

    /// The message of multicast listener discovery, if the packet has one.
    #[must_use]
    pub fn mld(&self) -> Option<Result<MldMessage<'a>, MulticastError>> {
        match self.icmp_message()? {
            (true, message) => mld(message, &unsafe { raw::ep_mld_message(message.as_ptr(), message.len()) }),
            (false, _) => None,
        }
    }
}
