//! Fragments of one message, put together in plain Rust, and the hash of their names.

use std::hash::Hasher;

pub enum Refusal {
    TooLong,
    Unaligned,
    ConflictingEnd,
    Overlap,
}

/// The places from `start` to `end`, where the end is none.
#[derive(Clone, Copy)]
pub struct Section {
    start: u16,
    end: u16,
}

impl Section {
    fn touches(self, other: Section) -> bool {
        self.start <= other.end && other.start <= self.end
    }
}

/// The fragments of one message.
pub struct Reassembly {
    pub data: Vec<u8>,
    pub sections: Vec<Section>,
    end: Option<u16>,
    /// Where overlaps are refused: start, end and flag of each fragment.
    members: Option<Vec<(u16, u16, bool)>>,
}

impl Reassembly {
    pub fn new(mut data: Vec<u8>, mut sections: Vec<Section>) -> Reassembly {
        data.clear();
        sections.clear();
        Reassembly {
            data,
            sections,
            end: None,
            members: None,
        }
    }

    /// Of a message over IPv6, whose fragments may not overlap (RFC 5722).
    pub fn refusing_overlap() -> Reassembly {
        Reassembly {
            members: Some(Vec::new()),
            ..Reassembly::new(Vec::new(), Vec::new())
        }
    }

    pub fn add(&mut self, units: u16, more: bool, bytes: &[u8]) -> Result<(), Refusal> {
        let len = u16::try_from(bytes.len()).map_err(|_| Refusal::TooLong)?;
        let start = 8 * units;
        let end = start.checked_add(len).ok_or(Refusal::TooLong)?;
        if more && len % 8 != 0 {
            return Err(Refusal::Unaligned);
        }
        if self.end.is_some_and(|known| known < end || (!more && end != known)) {
            return Err(Refusal::ConflictingEnd);
        }
        let place = usize::from(start)..usize::from(end);
        if let Some(members) = &mut self.members {
            if members.contains(&(start, end, more)) && self.data[place.clone()] == *bytes {
                return Ok(());
            }
            let reach = if more { end } else { u16::MAX };
            if members.iter().any(|&(from, to, _)| from.max(start) < to.min(reach)) {
                return Err(Refusal::Overlap);
            }
            members.push((start, end, more));
        }
        if self.data.len() < place.end {
            self.data.resize(place.end, 0);
        }
        self.data[place.clone()].copy_from_slice(bytes);
        let mut joined = Section { start, end };
        self.sections.retain(|section| {
            let apart = !joined.touches(*section);
            if !apart {
                joined.start = joined.start.min(section.start);
                joined.end = joined.end.max(section.end);
            }
            apart
        });
        self.sections.push(joined);
        if !more {
            self.end = Some(end);
            self.data.truncate(place.end);
        }
        Ok(())
    }

    pub fn is_complete(&self) -> bool {
        self.end.is_some() && matches!(self.sections.as_slice(), [Section { start: 0, .. }])
    }
}

/// A hash that is made by a multiplication for each word.
#[derive(Default)]
pub struct FoldHasher(u64);

impl Hasher for FoldHasher {
    fn write(&mut self, bytes: &[u8]) {
        for chunk in bytes.chunks(8) {
            let mut word = [0; 8];
            word[..chunk.len()].copy_from_slice(chunk);
            self.write_u64(u64::from_le_bytes(word));
        }
    }

    fn write_u8(&mut self, number: u8) {
        self.write_u64(u64::from(number));
    }

    fn write_u16(&mut self, number: u16) {
        self.write_u64(u64::from(number));
    }

    fn write_u32(&mut self, number: u32) {
        self.write_u64(u64::from(number));
    }

    fn write_u64(&mut self, number: u64) {
        let product = u128::from(self.0 ^ number) * 0x9e37_79b9_7f4a_7c15;
        self.0 = product as u64 ^ (product >> 64) as u64;
    }

    fn write_usize(&mut self, number: usize) {
        self.write_u64(number as u64);
    }

    fn finish(&self) -> u64 {
        self.0
    }
}
