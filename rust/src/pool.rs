//! Messages that come in parts.

use crate::raw::{self, EpAdded, EpMessage, EpPartRefusal, EpPool};
use crate::{OutOfMemory, Refusal};
use std::error::Error;
use std::fmt;
use std::net::{IpAddr, Ipv4Addr, Ipv6Addr};

/// The messages that are incomplete.
///
/// One that never completes is held until [`Pool::forget_before`] drops it. So a caller whose input isn't
/// trusted calls that regularly: a receiver gives a message up by a timer (RFC 791, section 3.2), over IPv6
/// 60 seconds after its first part came (RFC 8200, section 4.5).
#[derive(Debug)]
pub struct Pool {
    raw: EpPool,
    // The greatest length of a message.
    room: Vec<u8>,
}

// SAFETY: as of a `Session`.
unsafe impl Send for Pool {}

/// A message that is complete.
#[derive(Clone, Debug, PartialEq, Eq)]
pub struct Message {
    /// Where it came from.
    pub source: IpAddr,
    /// Where it goes to.
    pub destination: IpAddr,
    /// The number of its protocol.
    pub number: u8,
    /// Its bytes.
    pub bytes: Vec<u8>,
}

/// Why a fragment is refused.
#[derive(Clone, Copy, Debug, PartialEq, Eq)]
pub enum PartRefusal {
    /// Others follow it, and its length is no multiple of 8.
    Unaligned {
        /// Its offset in the message, in units of 8 bytes.
        offset: u16,
        /// Its length.
        len: usize,
    },
    /// It ends after byte 65535.
    TooLong {
        /// Its offset in the message, in units of 8 bytes.
        offset: u16,
        /// Its length.
        len: usize,
    },
    /// It ends elsewhere than the message.
    ConflictingEnd {
        /// The end of the message, in bytes.
        previous_end: u16,
        /// Its own end, in bytes.
        end: u16,
    },
    /// Over IPv6 it overlaps another part (RFC 5722; RFC 8200, section 4.5): the message is dropped with all of its
    /// parts.
    Overlapping {
        /// Its offset in the message, in units of 8 bytes.
        offset: u16,
        /// Its length.
        len: usize,
    },
}

/// Why a frame isn't taken. All messages are as they were, but for that of an overlapping part.
#[derive(Clone, Copy, Debug, PartialEq, Eq)]
pub enum AddError {
    /// The frame is refused.
    Frame(Refusal),
    /// The part of a message in it is refused.
    Part(PartRefusal),
    /// There was no memory for the part.
    OutOfMemory,
}

impl fmt::Display for PartRefusal {
    fn fmt(&self, f: &mut fmt::Formatter<'_>) -> fmt::Result {
        match self {
            PartRefusal::Unaligned { offset, len } => {
                write!(f, "a part of {len} bytes at offset {offset}, and no multiple of 8")
            }
            PartRefusal::TooLong { offset, len } => {
                write!(f, "a part of {len} bytes at offset {offset}, which ends beyond byte 65535")
            }
            PartRefusal::ConflictingEnd { previous_end, end } => {
                write!(f, "a part that ends at {end}, of a message that ends at {previous_end}")
            }
            PartRefusal::Overlapping { offset, len } => {
                write!(f, "a part of {len} bytes at offset {offset}, which overlaps another")
            }
        }
    }
}

impl Error for PartRefusal {}

impl fmt::Display for AddError {
    fn fmt(&self, f: &mut fmt::Formatter<'_>) -> fmt::Result {
        match self {
            AddError::Frame(refusal) => refusal.fmt(f),
            AddError::Part(refusal) => refusal.fmt(f),
            AddError::OutOfMemory => f.write_str("out of memory"),
        }
    }
}

impl Error for AddError {
    fn source(&self) -> Option<&(dyn Error + 'static)> {
        match self {
            AddError::Frame(refusal) => Some(refusal),
            AddError::Part(refusal) => Some(refusal),
            AddError::OutOfMemory => None,
        }
    }
}

impl PartRefusal {
    fn from_raw(raw: &EpPartRefusal) -> Option<PartRefusal> {
        let EpPartRefusal { offset, previous_end, end, len, .. } = *raw;
        match raw.kind {
            0 => None,
            1 => Some(PartRefusal::Unaligned { offset, len }),
            2 => Some(PartRefusal::TooLong { offset, len }),
            3 => Some(PartRefusal::ConflictingEnd { previous_end, end }),
            _ => Some(PartRefusal::Overlapping { offset, len }),
        }
    }
}

impl Message {
    fn from_raw(raw: &EpMessage, room: &[u8]) -> Message {
        let (source, destination) = if raw.ip_version == 4 {
            (IpAddr::from(Ipv4Addr::from(raw.ipv4_source)), IpAddr::from(Ipv4Addr::from(raw.ipv4_destination)))
        } else {
            (IpAddr::from(Ipv6Addr::from(raw.ipv6_source)), IpAddr::from(Ipv6Addr::from(raw.ipv6_destination)))
        };
        Message { source, destination, number: raw.number, bytes: room[..raw.len].to_vec() }
    }
}

type AddCall = unsafe extern "C" fn(*mut EpPool, *const u8, usize, u64, u32, *mut u8, usize) -> EpAdded;

impl Pool {
    /// A pool with no message.
    pub fn new() -> Result<Pool, OutOfMemory> {
        let mut raw = EpPool { is_open: false, held: std::ptr::null_mut() };
        // SAFETY: it begins as zeros. Here and below these calls alone change it.
        match unsafe { raw::ep_pool_new(&mut raw) } {
            raw::DONE => Ok(Pool { raw, room: vec![0; 65535] }),
            _ => Err(OutOfMemory),
        }
    }

    /// Takes an Ethernet II frame, which came at this time on this channel, and returns the message that is
    /// complete with it. Messages of other channels are other messages.
    pub fn add(&mut self, frame: &[u8], time: u64, channel: u32) -> Result<Option<Message>, AddError> {
        self.add_by(raw::ep_pool_add, frame, time, channel)
    }

    /// The same of a packet of a Linux cooked capture. What a pool takes may come from captures of different kinds.
    pub fn add_linux_sll(&mut self, packet: &[u8], time: u64, channel: u32) -> Result<Option<Message>, AddError> {
        self.add_by(raw::ep_pool_add_linux_sll, packet, time, channel)
    }

    /// The same of an IP packet of either version.
    pub fn add_ip(&mut self, packet: &[u8], time: u64, channel: u32) -> Result<Option<Message>, AddError> {
        self.add_by(raw::ep_pool_add_ip, packet, time, channel)
    }

    fn add_by(&mut self, call: AddCall, bytes: &[u8], time: u64, channel: u32) -> Result<Option<Message>, AddError> {
        // SAFETY: pointers and lengths are those of slices that were written, and nothing overlaps.
        let added: EpAdded = unsafe {
            call(
                &mut self.raw,
                bytes.as_ptr(),
                bytes.len(),
                time,
                channel,
                self.room.as_mut_ptr(),
                self.room.len(),
            )
        };
        match added.status {
            raw::DONE => Ok(None),
            raw::COMPLETED => Ok(Some(Message::from_raw(&added.message, &self.room))),
            _ => Err(match (Refusal::from_raw(&added.refusal), PartRefusal::from_raw(&added.part)) {
                (Some(refusal), _) => AddError::Frame(refusal),
                (_, Some(refusal)) => AddError::Part(refusal),
                _ => AddError::OutOfMemory,
            }),
        }
    }

    /// The messages that these Ethernet II frames complete, each frame with its time and channel; and why a frame isn't
    /// taken, after which the next ones are.
    pub fn messages<'p, F: AsRef<[u8]> + 'p, I: IntoIterator<Item = (F, u64, u32)>>(
        &'p mut self,
        frames: I,
    ) -> impl Iterator<Item = Result<Message, AddError>> + 'p
    where
        I::IntoIter: 'p,
    {
        frames.into_iter().filter_map(move |(frame, time, channel)| self.add(frame.as_ref(), time, channel).transpose())
    }

    /// Drops the messages whose last part came before this time.
    pub fn forget_before(&mut self, time: u64) {
        // SAFETY: as above.
        unsafe { raw::ep_pool_forget_before(&mut self.raw, time) };
    }

    /// How many messages are incomplete.
    #[must_use]
    pub fn open_len(&mut self) -> usize {
        // SAFETY: as above.
        unsafe { raw::ep_pool_open(&mut self.raw) }
    }
}

impl Drop for Pool {
    fn drop(&mut self) {
        // SAFETY: as above; what it held is freed here alone.
        unsafe { raw::ep_pool_free(&mut self.raw) }
    }
}
