//! TCP connections: their keys, states and counts.

use crate::raw::{self, EpConnectionState, EpEndpoint, EpPacketKey};
use crate::SegmentFlags;
use std::collections::{BTreeMap, HashMap};
use std::net::{IpAddr, Ipv4Addr, Ipv6Addr, SocketAddr};
use std::num::NonZeroUsize;

/// A direction in which segments of a connection go.
#[derive(Clone, Copy, Debug, PartialEq, Eq, PartialOrd, Ord, Hash)]
pub enum Direction {
    /// From the lower endpoint to the higher one.
    FromLower,
    /// From the higher endpoint to the lower one.
    FromHigher,
}

/// What the segments of a TCP connection have in common, whichever way they go: VLAN identifiers, both endpoints, and a
/// channel of the caller's.
///
/// The lower endpoint is that of the lower IP version, then of the lower address, then of the lower port.
#[derive(Clone, Copy, Debug, PartialEq, Eq, PartialOrd, Ord, Hash)]
pub struct FlowKey {
    vlan_ids: [u16; 3],
    vlan_count: u16,
    lower: SocketAddr,
    higher: SocketAddr,
    channel: u32,
}

/// How far a TCP connection came, by the control flags of its segments (RFC 9293, figure 5).
#[derive(Clone, Copy, Debug, Default, PartialEq, Eq, Hash)]
pub enum ConnectionState {
    /// No segment came.
    #[default]
    Unseen,
    /// The endpoint that opens it sent SYN.
    SynSent {
        /// The direction of the SYN.
        opener: Direction,
    },
    /// The other endpoint answered with SYN, and the first one didn't acknowledge that.
    SynReceived {
        /// The direction of the acknowledgment that is missing.
        opener: Direction,
    },
    /// Both endpoints may send.
    Established,
    /// One endpoint sent FIN.
    Closing {
        /// The direction of the FIN.
        closer: Direction,
    },
    /// Both endpoints sent FIN.
    Closed,
    /// An endpoint sent RST before both sent FIN.
    Reset,
}

impl Direction {
    /// The other direction.
    #[must_use]
    pub fn other(self) -> Direction {
        match self {
            Direction::FromLower => Direction::FromHigher,
            Direction::FromHigher => Direction::FromLower,
        }
    }

    fn from_raw(number: u32) -> Direction {
        match number {
            raw::FROM_HIGHER => Direction::FromHigher,
            _ => Direction::FromLower,
        }
    }

    fn number(self) -> u32 {
        match self {
            Direction::FromLower => raw::FROM_LOWER,
            Direction::FromHigher => raw::FROM_HIGHER,
        }
    }
}

fn socket_address(raw: &EpEndpoint) -> SocketAddr {
    let [a, b, c, d, ..] = raw.address;
    let address = match raw.version {
        4 => IpAddr::from(Ipv4Addr::new(a, b, c, d)),
        _ => IpAddr::from(Ipv6Addr::from(raw.address)),
    };
    SocketAddr::new(address, raw.port)
}

impl FlowKey {
    /// The key of the connection to which an Ethernet II frame belongs, which came on this channel, and the frame's
    /// direction. There is none where the frame is refused, where it has no TCP segment whose header is whole, and where it is
    /// a fragment.
    #[must_use]
    pub fn of_ethernet(frame: &[u8], channel: u32) -> Option<(FlowKey, Direction)> {
        // SAFETY: pointer and length are one slice's, here and below.
        FlowKey::from_raw(unsafe { raw::ep_flow_key_ethernet(frame.as_ptr(), frame.len(), channel) })
    }

    /// The same of a packet of a Linux cooked capture.
    #[must_use]
    pub fn of_linux_sll(packet: &[u8], channel: u32) -> Option<(FlowKey, Direction)> {
        FlowKey::from_raw(unsafe { raw::ep_flow_key_linux_sll(packet.as_ptr(), packet.len(), channel) })
    }

    /// The same of an IP packet of either version.
    #[must_use]
    pub fn of_ip(packet: &[u8], channel: u32) -> Option<(FlowKey, Direction)> {
        FlowKey::from_raw(unsafe { raw::ep_flow_key_ip(packet.as_ptr(), packet.len(), channel) })
    }

    fn from_raw(raw: EpPacketKey) -> Option<(FlowKey, Direction)> {
        let EpPacketKey { status, direction, key } = raw;
        let read = FlowKey {
            vlan_ids: key.vlan_ids,
            vlan_count: key.vlan_count,
            lower: socket_address(&key.lower),
            higher: socket_address(&key.higher),
            channel: key.channel,
        };
        Some((read, Direction::from_raw(direction))).filter(|_| status == raw::DONE)
    }

    /// The key and the direction of a segment from one endpoint to another, without VLAN tags: of a datagram that a
    /// [`Pool`](crate::Pool) put together. Where both endpoints are the same, the direction is [`Direction::FromLower`].
    #[must_use]
    pub fn between(source: SocketAddr, destination: SocketAddr, channel: u32) -> (FlowKey, Direction) {
        // A flow label and a scope are no part of an endpoint.
        let [source, destination] = [source, destination].map(|end| SocketAddr::new(end.ip(), end.port()));
        let direction = if source > destination { Direction::FromHigher } else { Direction::FromLower };
        let (lower, higher) = (source.min(destination), source.max(destination));
        (FlowKey { vlan_ids: [0; 3], vlan_count: 0, lower, higher, channel }, direction)
    }

    /// The identifiers of the VLAN tags, the outer one first.
    #[must_use]
    pub fn vlan_ids(&self) -> &[u16] {
        &self.vlan_ids[..usize::from(self.vlan_count)]
    }

    /// The source and the destination of segments in a direction.
    #[must_use]
    pub fn endpoints(&self, direction: Direction) -> (SocketAddr, SocketAddr) {
        match direction {
            Direction::FromLower => (self.lower, self.higher),
            Direction::FromHigher => (self.higher, self.lower),
        }
    }

    /// The channel on which the packets came.
    #[must_use]
    pub fn channel(&self) -> u32 {
        self.channel
    }
}

impl ConnectionState {
    /// The state after one more segment, which goes in this direction.
    ///
    /// It goes by control flags alone. A connection whose begin wasn't seen is established with its first ACK. SYN begins a
    /// new connection after FIN of both endpoints or RST, and no other segment counts then.
    #[must_use]
    pub fn after(self, direction: Direction, flags: SegmentFlags) -> ConnectionState {
        // SAFETY: both structs are there during the call.
        ConnectionState::from_raw(&unsafe {
            raw::ep_connection_state_after(&self.to_raw(), direction.number(), &flags.to_raw())
        })
    }

    fn to_raw(self) -> EpConnectionState {
        let (state, direction) = match self {
            ConnectionState::Unseen => (raw::STATE_UNSEEN, 0),
            ConnectionState::SynSent { opener } => (raw::STATE_SYN_SENT, opener.number()),
            ConnectionState::SynReceived { opener } => (raw::STATE_SYN_RECEIVED, opener.number()),
            ConnectionState::Established => (raw::STATE_ESTABLISHED, 0),
            ConnectionState::Closing { closer } => (raw::STATE_CLOSING, closer.number()),
            ConnectionState::Closed => (raw::STATE_CLOSED, 0),
            ConnectionState::Reset => (raw::STATE_RESET, 0),
        };
        EpConnectionState { state, direction }
    }

    fn from_raw(raw: &EpConnectionState) -> ConnectionState {
        let direction = Direction::from_raw(raw.direction);
        match raw.state {
            raw::STATE_SYN_SENT => ConnectionState::SynSent { opener: direction },
            raw::STATE_SYN_RECEIVED => ConnectionState::SynReceived { opener: direction },
            raw::STATE_ESTABLISHED => ConnectionState::Established,
            raw::STATE_CLOSING => ConnectionState::Closing { closer: direction },
            raw::STATE_CLOSED => ConnectionState::Closed,
            raw::STATE_RESET => ConnectionState::Reset,
            _ => ConnectionState::Unseen,
        }
    }
}

/// What is counted of a packet of a connection.
#[derive(Clone, Copy, Debug, PartialEq, Eq, Hash)]
pub struct FlowPacket {
    /// When it came, in a unit of the caller's.
    pub time: u64,
    /// How many bytes it has: those of the frame, or which else the caller counts.
    pub bytes: u64,
    /// In which direction it goes.
    pub direction: Direction,
    /// Its control flags.
    pub flags: SegmentFlags,
}

/// How many packets go in a direction, and how many bytes they have, `u64::MAX` of each at most.
#[derive(Clone, Copy, Debug, Default, PartialEq, Eq, Hash)]
pub struct Traffic {
    /// The packets.
    pub packets: u64,
    /// Their bytes.
    pub bytes: u64,
}

/// What is counted of a connection, and a value of the caller's.
#[derive(Clone, Debug, PartialEq, Eq)]
pub struct Flow<T> {
    /// From the lower endpoint.
    pub from_lower: Traffic,
    /// From the higher endpoint.
    pub from_higher: Traffic,
    /// The earliest time of a packet, `u64::MAX` where none came.
    pub first: u64,
    /// The latest one, 0 where none came.
    pub last: u64,
    /// How far the connection came.
    pub state: ConnectionState,
    /// The caller's value.
    pub value: T,
}

impl<T> Flow<T> {
    /// No packet.
    #[must_use]
    pub fn new(value: T) -> Flow<T> {
        let none = Traffic::default();
        Flow { from_lower: none, from_higher: none, first: u64::MAX, last: 0, state: ConnectionState::Unseen, value }
    }

    /// Counts one packet more.
    pub fn count(&mut self, packet: FlowPacket) {
        let traffic = match packet.direction {
            Direction::FromLower => &mut self.from_lower,
            Direction::FromHigher => &mut self.from_higher,
        };
        traffic.packets = traffic.packets.saturating_add(1);
        traffic.bytes = traffic.bytes.saturating_add(packet.bytes);
        self.first = self.first.min(packet.time);
        self.last = self.last.max(packet.time);
        self.state = self.state.after(packet.direction, packet.flags);
    }
}

/// Connections by their keys, up to a number of them, with what is counted of each and a value of the caller's.
///
/// Where one more begins than there may be, the one is dropped whose last packet came before those of all others. So whoever
/// opens many connections drops others: those that are silent first.
#[derive(Clone, Debug)]
pub struct Flows<T> {
    flows: HashMap<FlowKey, (u64, Flow<T>)>,
    // The keys by the number of the last packet, which is in the flow, too.
    order: BTreeMap<u64, FlowKey>,
    packets: u64,
    most: NonZeroUsize,
}

impl<T> Flows<T> {
    /// No connection, and at most so many.
    #[must_use]
    pub fn new(most: NonZeroUsize) -> Flows<T> {
        Flows { flows: HashMap::new(), order: BTreeMap::new(), packets: 0, most }
    }

    /// Counts a packet of the connection with this key. Where there is none yet, it begins with this value, and if there
    /// were as many as there may be, that whose last packet came first is dropped and returned.
    pub fn add(&mut self, key: FlowKey, packet: FlowPacket, value: impl FnOnce() -> T) -> Option<(FlowKey, Flow<T>)> {
        let is_new = !self.flows.contains_key(&key);
        let dropped = if is_new && self.flows.len() == self.most.get() { self.pop_oldest() } else { None };
        let (number, flow) = self.flows.entry(key).or_insert_with(|| (0, Flow::new(value())));
        self.order.remove(number);
        self.packets += 1;
        *number = self.packets;
        self.order.insert(*number, key);
        flow.count(packet);
        dropped
    }

    /// The flow of a key.
    #[must_use]
    pub fn get(&self, key: &FlowKey) -> Option<&Flow<T>> {
        self.flows.get(key).map(|(_, flow)| flow)
    }

    /// The value in the flow of a key. The order of flows stays.
    #[must_use]
    pub fn value_mut(&mut self, key: &FlowKey) -> Option<&mut T> {
        self.flows.get_mut(key).map(|(_, flow)| &mut flow.value)
    }

    /// The key and the flow whose last packet came before those of all others.
    #[must_use]
    pub fn oldest(&self) -> Option<(&FlowKey, &Flow<T>)> {
        self.iter().next()
    }

    /// Keys and flows, that whose last packet came first at first.
    pub fn iter(&self) -> impl Iterator<Item = (&FlowKey, &Flow<T>)> {
        self.order.values().filter_map(move |key| Some((key, self.get(key)?)))
    }

    /// Takes out the flow of a key.
    pub fn remove(&mut self, key: &FlowKey) -> Option<Flow<T>> {
        let (number, flow) = self.flows.remove(key)?;
        self.order.remove(&number);
        Some(flow)
    }

    /// Takes out the flow whose last packet came before those of all others. So a caller bounds the memory of all values:
    /// while it is too much, this is called.
    pub fn pop_oldest(&mut self) -> Option<(FlowKey, Flow<T>)> {
        let key = *self.order.values().next()?;
        self.remove(&key).map(|flow| (key, flow))
    }

    /// Keeps the flows for which the test returns `true`, and drops the others. The test is called once for each, first for
    /// that whose last packet came before those of all others. The order of flows stays.
    pub fn retain(&mut self, mut keep: impl FnMut(&FlowKey, &Flow<T>) -> bool) {
        let flows = &mut self.flows;
        self.order.retain(|_, key| {
            let is_kept = matches!(flows.get(key), Some((_, flow)) if keep(key, flow));
            if !is_kept {
                flows.remove(key);
            }
            is_kept
        });
    }

    /// How many flows there are.
    #[must_use]
    pub fn len(&self) -> usize {
        self.flows.len()
    }

    /// Whether there is none.
    #[must_use]
    pub fn is_empty(&self) -> bool {
        self.flows.is_empty()
    }
}
