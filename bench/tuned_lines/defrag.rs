//! Reassembly: merged ranges, one data buffer for each datagram, buffers used again
//! (RFC 791, RFC 8200; over IPv6 RFC 5722's rule, if it is requested).

use crate::sliced::{Addresses, FragInfo, IpSlice, VlanIds};
use std::collections::HashMap;
use std::collections::hash_map::Entry;
use std::hash::{BuildHasher, Hash, Hasher, RandomState};

pub const MAX_IP_DEFRAG_LEN: usize = 65535;

#[derive(Debug, Clone, Copy, PartialEq, Eq)]
pub enum IpDefragError {
    SegmentTooBig,
    UnalignedFragmentPayloadLen,
    ConflictingEnd,
    OverlappingFragment,
}

/// A closed range of offsets in bytes, or a fragment: its first offset, its end, its flag.
#[derive(Debug, Default, Clone, Copy, PartialEq, Eq)]
pub struct IpFragRange {
    pub start: u16,
    pub end: u16,
    /// Read only where overlaps are refused.
    more: bool,
}

/// A list of ranges; the first few need no memory of their own.
#[derive(Debug, Default)]
struct RangeList {
    inline: [IpFragRange; RangeList::INLINE],
    inline_len: u8,
    on_heap: bool,
    heap: Vec<IpFragRange>,
}

impl RangeList {
    const INLINE: usize = 4;

    fn clear(&mut self) {
        self.inline_len = 0;
        self.on_heap = false;
        self.heap.clear();
    }

    #[inline]
    fn as_slice(&self) -> &[IpFragRange] {
        if self.on_heap {
            &self.heap
        } else {
            &self.inline[..usize::from(self.inline_len)]
        }
    }

    #[inline]
    fn insert(&mut self, at: usize, range: IpFragRange) {
        let len = usize::from(self.inline_len);
        if !self.on_heap && len < Self::INLINE {
            self.inline.copy_within(at..len, at + 1);
            self.inline[at] = range;
            self.inline_len += 1;
            return;
        }
        if !self.on_heap {
            self.heap.reserve(4 * Self::INLINE);
            self.heap.extend_from_slice(&self.inline);
            self.on_heap = true;
        }
        self.heap.insert(at, range);
    }

    /// Replaces those from `from` to `to - 1` (at least one) by `range`.
    #[inline]
    fn replace(&mut self, from: usize, to: usize, range: IpFragRange) {
        if self.on_heap {
            self.heap[from] = range;
            self.heap.drain(from + 1..to);
        } else {
            self.inline[from] = range;
            self.inline
                .copy_within(to..usize::from(self.inline_len), from + 1);
            self.inline_len -= (to - from - 1) as u8;
        }
    }
}

/// Buffer of one fragmented packet.
#[derive(Debug, Default)]
pub struct IpDefragBuf {
    /// At least as long as the greatest end. Bytes that no range holds are zeros or those
    /// of an earlier packet; they are never returned.
    data: Vec<u8>,
    /// Sorted by start. Merged ranges, no two of which share a number; or, where overlaps
    /// are refused, the fragments that aren't empty, no two of which share a byte.
    ranges: RangeList,
    /// Only where overlaps are refused: sum of the lengths of `ranges`.
    held: u16,
    /// Only where overlaps are refused: greatest end of all fragments.
    greatest: u16,
    end: Option<u16>,
    refuses_overlap: bool,
}

impl IpDefragBuf {
    /// Empties the buffer for another packet, keeping its memory.
    pub fn reset(&mut self, refuses_overlap: bool) {
        self.ranges.clear();
        self.held = 0;
        self.greatest = 0;
        self.end = None;
        self.refuses_overlap = refuses_overlap;
    }

    /// The text up to the named end; of use where the buffer is complete.
    pub fn text(&self) -> &[u8] {
        &self.data[..usize::from(self.end.unwrap_or(0))]
    }

    /// Adds a fragment that begins at byte `offset`. On Err nothing is changed (the caller
    /// drops the whole buffer at an overlap).
    pub fn add(&mut self, offset: u16, more: bool, bytes: &[u8]) -> Result<(), IpDefragError> {
        let start = usize::from(offset);
        let end = start + bytes.len();
        if end > MAX_IP_DEFRAG_LEN {
            return Err(IpDefragError::SegmentTooBig);
        }
        if more && !bytes.len().is_multiple_of(8) {
            return Err(IpDefragError::UnalignedFragmentPayloadLen);
        }
        let range = IpFragRange {
            start: offset,
            end: end as u16,
            more,
        };
        if let Some(named) = self.end
            && (range.end > named || (!more && range.end != named))
        {
            return Err(IpDefragError::ConflictingEnd);
        }
        if self.refuses_overlap {
            if self.add_disjoint(range, bytes)? {
                return Ok(()); // an exact repeat
            }
        } else {
            self.add_merging(range);
        }
        self.store(start, bytes);
        if !more {
            self.end = Some(range.end);
        }
        Ok(())
    }

    /// True where `range` and `bytes` repeat a fragment.
    fn add_disjoint(&mut self, range: IpFragRange, bytes: &[u8]) -> Result<bool, IpDefragError> {
        let ranges = self.ranges.as_slice();
        // an end below an accepted byte
        if !range.more && ranges.last().is_some_and(|last| last.end > range.end) {
            return Err(IpDefragError::OverlappingFragment);
        }
        if !bytes.is_empty() {
            let at = ranges.partition_point(|it| it.start < range.start);
            if let Some(next) = ranges.get(at)
                && next.start < range.end
            {
                let span = usize::from(range.start)..usize::from(range.end);
                return if *next == range && self.data[span] == *bytes {
                    Ok(true)
                } else {
                    Err(IpDefragError::OverlappingFragment)
                };
            }
            if at > 0 && ranges[at - 1].end > range.start {
                return Err(IpDefragError::OverlappingFragment);
            }
            self.ranges.insert(at, range);
            self.held += range.end - range.start;
        }
        self.greatest = self.greatest.max(range.end);
        Ok(false)
    }

    /// Merges `range` with all that share a number with it.
    fn add_merging(&mut self, range: IpFragRange) {
        let ranges = self.ranges.as_slice();
        let from = ranges.partition_point(|it| it.end < range.start);
        let to = from + ranges[from..].partition_point(|it| it.start <= range.end);
        if from == to {
            self.ranges.insert(from, range);
        } else {
            let merged = IpFragRange {
                start: range.start.min(ranges[from].start),
                end: range.end.max(ranges[to - 1].end),
                more: true,
            };
            self.ranges.replace(from, to, merged);
        }
    }

    fn store(&mut self, start: usize, bytes: &[u8]) {
        if self.data.capacity() == 0 {
            // room for one more of the same size
            self.data.reserve(start + 2 * bytes.len());
        }
        if self.data.len() < start {
            self.data.resize(start, 0);
        }
        let inside = (self.data.len() - start).min(bytes.len());
        self.data[start..start + inside].copy_from_slice(&bytes[..inside]);
        self.data.extend_from_slice(&bytes[inside..]);
    }

    pub fn is_complete(&self) -> bool {
        self.end.is_some()
            && if self.refuses_overlap {
                self.held == self.greatest
            } else {
                matches!(self.ranges.as_slice(), [IpFragRange { start: 0, .. }])
            }
    }
}

/// Name of a datagram: addresses 32 (IPv4: 8, rest 0), identification 4, channel 4,
/// VLAN ids 6, number 1, version 1.
#[derive(Debug, Clone, PartialEq, Eq)]
pub struct IpFragId([u8; 48]);

impl IpFragId {
    #[inline]
    pub fn new(vlan_ids: VlanIds, ip: &IpSlice<'_>, info: &FragInfo, channel: u32) -> IpFragId {
        let mut id = [0u8; 48];
        match ip.addresses {
            Addresses::V4(pair) => id[..8].copy_from_slice(pair),
            Addresses::V6(pair) => {
                id[..32].copy_from_slice(pair);
                id[47] = 1;
            }
        }
        id[32..36].copy_from_slice(&info.identification.to_ne_bytes());
        id[36..40].copy_from_slice(&channel.to_ne_bytes());
        let [a, b, c] = vlan_ids.as_array();
        id[40..42].copy_from_slice(&a.to_ne_bytes());
        id[42..44].copy_from_slice(&b.to_ne_bytes());
        id[44..46].copy_from_slice(&c.to_ne_bytes());
        id[46] = ip.number;
        IpFragId(id)
    }
}

impl Hash for IpFragId {
    #[inline]
    fn hash<H: Hasher>(&self, state: &mut H) {
        state.write(&self.0);
    }
}

#[derive(Debug, Default)]
struct Reassembly {
    buf: IpDefragBuf,
    timestamp: u64,
}

/// The reassemblies. Their buffers stand in one vector, the map holds
/// their indices; a finished one is used again with its memory.
#[derive(Debug)]
pub struct IpDefragPool<S = RandomState> {
    active: HashMap<IpFragId, u32, S>,
    reassemblies: Vec<Reassembly>,
    free: Vec<u32>,
    /// An overlap ends an IPv6 reassembly (RFC 5722).
    ipv6_refuses_overlap: bool,
}

impl IpDefragPool {
    pub fn new(ipv6_refuses_overlap: bool) -> IpDefragPool {
        IpDefragPool::with_hasher(ipv6_refuses_overlap, RandomState::new())
    }
}

impl<S: BuildHasher> IpDefragPool<S> {
    pub fn with_hasher(ipv6_refuses_overlap: bool, state: S) -> IpDefragPool<S> {
        IpDefragPool {
            active: HashMap::with_hasher(state),
            reassemblies: Vec::new(),
            free: Vec::new(),
            ipv6_refuses_overlap,
        }
    }

    /// Adds a fragment. `Ok(Some(_))` is the whole payload; it stands in the pool's buffer
    /// until the next call.
    pub fn process(
        &mut self,
        vlan_ids: VlanIds,
        ip: &IpSlice<'_>,
        info: &FragInfo,
        channel: u32,
        timestamp: u64,
    ) -> Result<Option<&[u8]>, IpDefragError> {
        let id = IpFragId::new(vlan_ids, ip, info, channel);
        match self.active.entry(id) {
            Entry::Occupied(entry) => {
                let index = *entry.get();
                let reassembly = &mut self.reassemblies[index as usize];
                match reassembly.buf.add(info.offset, info.more, ip.payload) {
                    Ok(()) => reassembly.timestamp = timestamp,
                    Err(err) => {
                        if err == IpDefragError::OverlappingFragment {
                            entry.remove();
                            self.free.push(index);
                        }
                        return Err(err);
                    }
                }
                if !reassembly.buf.is_complete() {
                    return Ok(None);
                }
                entry.remove();
                self.free.push(index);
                Ok(Some(self.reassemblies[index as usize].buf.text()))
            }
            Entry::Vacant(entry) => {
                let index = match self.free.last() {
                    Some(&index) => index,
                    None => {
                        // no more than 2^32 reassemblies fit any memory
                        let index = self.reassemblies.len() as u32;
                        self.reassemblies.push(Reassembly::default());
                        self.free.push(index);
                        index
                    }
                };
                let reassembly = &mut self.reassemblies[index as usize];
                reassembly
                    .buf
                    .reset(self.ipv6_refuses_overlap && matches!(ip.addresses, Addresses::V6(_)));
                // a lone fragment completes nothing: something before or after it is open
                reassembly.buf.add(info.offset, info.more, ip.payload)?;
                reassembly.timestamp = timestamp;
                entry.insert(index);
                self.free.pop();
                Ok(None)
            }
        }
    }

    /// Keeps exactly the reassemblies whose timestamp is at least `first`.
    pub fn retain_from(&mut self, first: u64) {
        let (reassemblies, free) = (&self.reassemblies, &mut self.free);
        if self.active.is_empty() {
            return;
        }
        self.active.retain(|_, index| {
            let keep = reassemblies[*index as usize].timestamp >= first;
            if !keep {
                free.push(*index);
            }
            keep
        });
    }
}
