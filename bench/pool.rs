//! Messages put together in plain Rust, many at once, each under its name.

use crate::frames::{Addresses, Packet, Part, VlanIds};
use crate::reassembly::{FoldHasher, Reassembly, Refusal};
use std::collections::HashMap;
use std::collections::hash_map::Entry;
use std::hash::{BuildHasher, BuildHasherDefault, Hash};

/// What a fragment's message is known by.
#[derive(PartialEq, Eq, Hash)]
pub struct Name<C> {
    channel: C,
    vlan_ids: VlanIds,
    addresses: Addresses,
    identification: u32,
    protocol: u8,
}

/// An incomplete message.
pub struct Incomplete<T> {
    reassembly: Reassembly,
    /// Of the fragment that was accepted last.
    pub timestamp: T,
}

pub type Pool<C, T, S = BuildHasherDefault<FoldHasher>> = HashMap<Name<C>, Incomplete<T>, S>;

/// Adds a packet, which is this part of a message, to the others of it. The message is returned if it is complete now.
/// Over IPv6 a part that overlaps another drops it.
pub fn add_part<C: Eq + Hash, T, S: BuildHasher>(
    pool: &mut Pool<C, T, S>,
    packet: &Packet,
    part: Part,
    channel: C,
    timestamp: T,
) -> Result<Option<Vec<u8>>, Refusal> {
    let name = Name {
        channel,
        vlan_ids: packet.vlan_ids,
        addresses: packet.addresses,
        identification: part.identification,
        protocol: packet.protocol,
    };
    match pool.entry(name) {
        Entry::Occupied(mut entry) => {
            let incomplete = entry.get_mut();
            match incomplete
                .reassembly
                .add(part.units, part.more, packet.payload)
            {
                Ok(()) => {
                    incomplete.timestamp = timestamp;
                    let is_complete = incomplete.reassembly.is_complete();
                    Ok(is_complete.then(|| entry.remove().reassembly.data))
                }
                Err(refusal) => {
                    if matches!(refusal, Refusal::Overlap) {
                        entry.remove();
                    }
                    Err(refusal)
                }
            }
        }
        Entry::Vacant(place) => {
            let mut reassembly = match packet.addresses {
                Addresses::V4(_) => Reassembly::new(Vec::new(), Vec::new()),
                Addresses::V6(_) => Reassembly::refusing_overlap(),
            };
            reassembly.add(part.units, part.more, packet.payload)?;
            // One fragment is no message: more follow it, or bytes before it are missing.
            place.insert(Incomplete {
                reassembly,
                timestamp,
            });
            Ok(None)
        }
    }
}
