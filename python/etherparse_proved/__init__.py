"""Packets sliced, judged, summed, built and put together, and lines of hex frames answered, by proved code.

    >>> from etherparse_proved import slice_ethernet
    >>> slice_ethernet(frame).ipv4.source
    IPv4Address('10.0.0.1')

Bytes are taken from any buffer: bytes, bytearray, memoryview, array. The layers of a packet and what is built or put together
are frozen dataclasses.

The libraries libetherparse and libnetlines are looked for in the folder that ETHERPARSE_LIB_DIR names, in this package, in
the folder that it was installed beside, and where the loader looks, which chooses those for the processor.
"""

from ._captures import Capture, CapturedPacket, CaptureLink, CaptureRefused, CaptureWriter
from ._fields import (
    Authentication,
    DestinationOptions,
    DestinationUnreachable,
    EchoReply,
    EchoRequest,
    Extension,
    Fragment,
    GatewayRedirect,
    HopByHopOptions,
    IcmpMessage,
    MaximumSegmentSize,
    NdpMessage,
    NeighborAdvertisement,
    NeighborRedirect,
    NeighborSolicitation,
    NoOperation,
    PacketTooBig,
    ParameterProblem,
    RouterAdvertisement,
    RouterSolicitation,
    Routing,
    Sack,
    SackPermitted,
    TcpOption,
    TimeExceeded,
    TimestampReply,
    TimestampRequest,
    Timestamps,
    UnknownIcmp,
    UnreadableOption,
    WindowScale,
)
from ._flows import (
    ConnectionState,
    Direction,
    Endpoint,
    Flow,
    FlowKey,
    Flows,
    State,
    Traffic,
    flow_key_ethernet,
    flow_key_ip,
    flow_key_linux_sll,
)
from ._groups import (
    GroupRecord,
    IgmpLeave,
    IgmpMessage,
    IgmpQuery,
    IgmpQueryV3,
    IgmpReportV1,
    IgmpReportV2,
    IgmpReportV3,
    MldDone,
    MldMessage,
    MldQuery,
    MldQueryV2,
    MldReport,
    MldReportV2,
    ShortGroupMessage,
    UnreadableRecord,
)
from ._handles import InUse, Message, PartRefused, Pool, Session, answers
from ._layers import Arp, Icmp, Ipv4, Ipv6, Link, Tag, Tcp, Udp
from ._ndp_options import (
    DnsSearchList,
    LinkMtu,
    NdpOption,
    PrefixInformation,
    RecursiveDnsServer,
    RedirectedHeader,
    SourceLinkLayerAddress,
    TargetLinkLayerAddress,
    UnknownNdpOption,
    UnreadableNdpOption,
)
from ._packets import (
    LaxPacket,
    Packet,
    Refused,
    Verdict,
    checksum,
    checksum_is_right,
    slice_ethernet,
    slice_ethernet_lax,
    slice_ip,
    slice_ip_lax,
    slice_linux_sll,
    slice_linux_sll_lax,
    verdict_ethernet,
    verdict_ip,
    verdict_linux_sll,
)
from ._plans import (
    BuildRefused,
    PlannedArp,
    PlannedAuthentication,
    PlannedCapture,
    PlannedEcho,
    PlannedEthernet,
    PlannedExtensions,
    PlannedFragment,
    PlannedIcmp,
    PlannedTag,
    PlannedTcp,
    PlannedUdp,
    build,
    build_arp,
)
from ._streams import AddedSegment, Conflicts, Flags, Gap, SegmentFlags, SegmentRefused, Stream, StreamProgress

__version__ = "2.0.0"

__all__ = [
    "AddedSegment", "Arp", "Authentication", "BuildRefused", "Capture", "CaptureLink", "CaptureRefused", "CaptureWriter",
    "CapturedPacket", "Conflicts", "ConnectionState", "DestinationOptions",
    "DestinationUnreachable", "Direction", "DnsSearchList", "EchoReply", "EchoRequest", "Endpoint", "Extension", "Flags",
    "Flow", "FlowKey", "Flows", "Fragment", "Gap", "GatewayRedirect", "GroupRecord", "HopByHopOptions", "Icmp", "IcmpMessage",
    "IgmpLeave", "IgmpMessage", "IgmpQuery", "IgmpQueryV3", "IgmpReportV1", "IgmpReportV2", "IgmpReportV3", "InUse", "Ipv4",
    "Ipv6", "LaxPacket", "Link", "LinkMtu", "MaximumSegmentSize", "Message", "MldDone", "MldMessage", "MldQuery", "MldQueryV2",
    "MldReport", "MldReportV2", "NdpMessage", "NdpOption", "NeighborAdvertisement", "NeighborRedirect", "NeighborSolicitation",
    "NoOperation", "Packet", "PacketTooBig", "ParameterProblem", "PartRefused", "PlannedArp", "PlannedAuthentication",
    "PlannedCapture", "PlannedEcho", "PlannedEthernet", "PlannedExtensions", "PlannedFragment", "PlannedIcmp", "PlannedTag",
    "PlannedTcp", "PlannedUdp", "Pool", "PrefixInformation", "RecursiveDnsServer", "RedirectedHeader", "Refused",
    "RouterAdvertisement", "RouterSolicitation", "Routing", "Sack", "SackPermitted", "SegmentFlags", "SegmentRefused",
    "Session", "ShortGroupMessage", "SourceLinkLayerAddress", "State", "Stream", "StreamProgress", "Tag",
    "TargetLinkLayerAddress", "Tcp", "TcpOption", "TimeExceeded", "TimestampReply", "TimestampRequest", "Timestamps", "Traffic",
    "Udp", "UnknownIcmp", "UnknownNdpOption", "UnreadableNdpOption", "UnreadableOption", "UnreadableRecord", "Verdict",
    "WindowScale", "answers", "build", "build_arp", "checksum", "checksum_is_right", "flow_key_ethernet", "flow_key_ip",
    "flow_key_linux_sll", "slice_ethernet", "slice_ethernet_lax", "slice_ip", "slice_ip_lax", "slice_linux_sll",
    "slice_linux_sll_lax", "verdict_ethernet", "verdict_ip", "verdict_linux_sll",
]  # fmt: skip

# In errors and pickles each is named by the package, whatever module of it has it.
for _name in __all__:
    if hasattr(globals()[_name], "__qualname__"):
        globals()[_name].__module__ = __name__
