//! TCP streams: the bytes of one direction of a connection, put together from its segments.

use crate::raw::{self, EpSegmentFlags, EpStream, EpStreamAdded, EpStreamProgress, EpTcp};
use crate::OutOfMemory;
use std::error::Error;
use std::fmt;
use std::io::{self, Read};
use std::iter;

/// How many bytes a chunk has at most.
const CHUNK: usize = 1 << 16;

/// Control flags of a TCP segment (RFC 9293, section 3.1). By default none is set.
#[derive(Clone, Copy, Debug, Default, PartialEq, Eq, Hash)]
pub struct SegmentFlags {
    /// SYN: the sequence number is its own, and the payload begins at the next one.
    pub syn: bool,
    /// ACK.
    pub ack: bool,
    /// FIN: no byte comes after the payload.
    pub fin: bool,
    /// RST: the connection is reset, and the payload is no part of the stream.
    pub rst: bool,
}

impl From<&EpTcp> for SegmentFlags {
    fn from(header: &EpTcp) -> SegmentFlags {
        SegmentFlags { syn: header.syn, ack: header.ack, fin: header.fin, rst: header.rst }
    }
}

impl SegmentFlags {
    pub(crate) fn to_raw(self) -> EpSegmentFlags {
        EpSegmentFlags { syn: self.syn, ack: self.ack, fin: self.fin, rst: self.rst }
    }
}

/// Positions at which a segment has another byte than one before it. The first byte stays.
#[derive(Clone, Copy, Debug, Default, PartialEq, Eq, Hash)]
pub struct Conflicts {
    /// How many there are.
    pub count: u64,
    /// The one that was found first.
    pub first: Option<u64>,
}

/// Positions whose bytes are missing.
#[derive(Clone, Copy, Debug, PartialEq, Eq, Hash)]
pub struct Gap {
    /// The first of them.
    pub start: u64,
    /// The position after the last one.
    pub end: u64,
}

/// What became of a segment that was accepted.
#[derive(Clone, Copy, Debug, PartialEq, Eq, Hash)]
pub struct AddedSegment {
    /// The position of its first byte, those before the ones that are held left out.
    pub position: u64,
    /// The positions of its bytes that differ from those that are held.
    pub conflicts: Conflicts,
}

/// Why a segment isn't accepted. Nothing changes then.
#[derive(Clone, Copy, Debug, PartialEq, Eq, Hash)]
pub enum SegmentError {
    /// It ends after the window.
    OutsideWindow {
        /// The position after the window.
        window_end: u64,
    },
    /// It has a byte or FIN after FIN, or its FIN stands before a byte or FIN.
    AfterFin {
        /// The position of the FIN that stands before the other.
        fin: u64,
    },
    /// The connection was reset.
    AfterReset,
    /// There is no memory for it.
    OutOfMemory,
}

impl fmt::Display for SegmentError {
    fn fmt(&self, f: &mut fmt::Formatter<'_>) -> fmt::Result {
        match self {
            SegmentError::OutsideWindow { window_end } => {
                write!(f, "a segment that ends after the window, which ends at byte {window_end}")
            }
            SegmentError::AfterFin { fin } => write!(f, "FIN at byte {fin}, and a byte or FIN after it"),
            SegmentError::AfterReset => f.write_str("a segment after the connection was reset"),
            SegmentError::OutOfMemory => f.write_str("out of memory"),
        }
    }
}

impl Error for SegmentError {}

/// How far a stream came.
#[derive(Clone, Copy, Debug, PartialEq, Eq, Hash)]
pub struct StreamProgress {
    /// How many bytes can be read: those that follow the ones that were read, up to the first that is missing.
    pub available: usize,
    /// How many bytes were read.
    pub consumed: u64,
    /// The first positions whose bytes are missing, if bytes after them are held.
    pub gap: Option<Gap>,
    /// The conflicts of all segments.
    pub conflicts: Conflicts,
    /// Whether all bytes before FIN came.
    pub is_finished: bool,
    /// Whether the connection was reset.
    pub is_reset: bool,
    /// Whether the first segment that came had no SYN: bytes before it may be missing.
    pub joined_late: bool,
}

/// The bytes that one end of a TCP connection sent, put together as its segments come.
///
/// It holds no more bytes than its window has. The first byte that came for a position stays. Positions count from 0, the
/// number after that of SYN or, where SYN wasn't seen, that of the first segment.
///
/// [`Read`] and [`chunks`](Stream::chunks) give the bytes that are available, in their order; where the next byte is missing,
/// the one returns 0 and the other ends, and more may come.
#[derive(Debug)]
pub struct Stream {
    raw: EpStream,
}

// SAFETY: as of a `Session`.
unsafe impl Send for Stream {}

impl Conflicts {
    fn from_raw(raw: &raw::EpConflicts) -> Conflicts {
        Conflicts { count: raw.count, first: Some(raw.first).filter(|_| raw.count > 0) }
    }
}

impl Stream {
    /// A stream of which no segment came, with a window of so many bytes.
    pub fn new(window: usize) -> Result<Stream, OutOfMemory> {
        let mut raw = EpStream { is_open: false, held: std::ptr::null_mut() };
        // SAFETY: it begins as zeros. Here and below these calls alone change it.
        match unsafe { raw::ep_stream_new(&mut raw, window) } {
            raw::DONE => Ok(Stream { raw }),
            _ => Err(OutOfMemory),
        }
    }

    /// Takes a segment, in any order: the bytes of its payload for which none is held yet, and its flags.
    ///
    /// # Errors
    ///
    /// In the order of [`SegmentError`]'s variants; nothing changes then.
    pub fn add(&mut self, sequence_number: u32, flags: SegmentFlags, payload: &[u8]) -> Result<AddedSegment, SegmentError> {
        // SAFETY: pointer and length are one slice's, and nothing overlaps.
        let added: EpStreamAdded = unsafe {
            raw::ep_stream_add(&mut self.raw, sequence_number, &flags.to_raw(), payload.as_ptr(), payload.len())
        };
        let at = added.refused_at;
        match (added.status, added.refusal) {
            (raw::DONE, _) => {
                Ok(AddedSegment { position: added.position, conflicts: Conflicts::from_raw(&added.conflicts) })
            }
            (_, raw::SEGMENT_OUTSIDE_WINDOW) => Err(SegmentError::OutsideWindow { window_end: at }),
            (_, raw::SEGMENT_AFTER_FIN) => Err(SegmentError::AfterFin { fin: at }),
            (_, raw::SEGMENT_AFTER_RESET) => Err(SegmentError::AfterReset),
            _ => Err(SegmentError::OutOfMemory),
        }
    }

    /// All bytes that are available, which are taken away.
    #[must_use]
    pub fn take_available(&mut self) -> Vec<u8> {
        let mut bytes = vec![0; self.progress().available];
        let count = self.read_into(&mut bytes);
        bytes.truncate(count);
        bytes
    }

    /// An iterator over the bytes that are available, in chunks of at most 64 KiB, each of which is taken away. It ends where the
    /// next byte is missing; after the segment that brings it there are more.
    pub fn chunks(&mut self) -> impl Iterator<Item = Vec<u8>> + '_ {
        iter::from_fn(move || {
            let mut chunk = vec![0; self.progress().available.min(CHUNK)];
            let count = self.read_into(&mut chunk);
            chunk.truncate(count);
            Some(chunk).filter(|chunk| !chunk.is_empty())
        })
    }

    fn read_into(&mut self, output: &mut [u8]) -> usize {
        // SAFETY: pointer and length are one slice's that was written, and nothing overlaps.
        unsafe { raw::ep_stream_read(&mut self.raw, output.as_mut_ptr(), output.len()) }
    }

    /// How far it came.
    #[must_use]
    pub fn progress(&mut self) -> StreamProgress {
        // SAFETY: as above.
        let raw: EpStreamProgress = unsafe { raw::ep_stream_progress_of(&mut self.raw) };
        StreamProgress {
            available: raw.available,
            consumed: raw.consumed,
            gap: Some(Gap { start: raw.gap.start, end: raw.gap.end }).filter(|gap| gap.start < gap.end),
            conflicts: Conflicts::from_raw(&raw.conflicts),
            is_finished: raw.is_finished,
            is_reset: raw.is_reset,
            joined_late: raw.joined_late,
        }
    }

    /// The first positions whose bytes are missing, if bytes after them are held.
    #[must_use]
    pub fn gap(&mut self) -> Option<Gap> {
        self.progress().gap
    }

    /// The conflicts of all segments.
    #[must_use]
    pub fn conflicts(&mut self) -> Conflicts {
        self.progress().conflicts
    }

    /// Whether all bytes before FIN came.
    #[must_use]
    pub fn is_finished(&mut self) -> bool {
        self.progress().is_finished
    }
}

impl Read for Stream {
    fn read(&mut self, output: &mut [u8]) -> io::Result<usize> {
        Ok(self.read_into(output))
    }
}

impl Drop for Stream {
    fn drop(&mut self) {
        // SAFETY: as above; what it held is freed here alone.
        unsafe { raw::ep_stream_free(&mut self.raw) }
    }
}
