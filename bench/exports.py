"""Nanoseconds a frame in Python, of which the payload is read, or an address as text and a port: the best of 200 rounds."""

import time

import dpkt
import etherparse_proved as etherparse
from scapy.layers.inet import IP, UDP
from scapy.layers.l2 import Ether

CALLS, ROUNDS = 50, 200
FRAME = etherparse.build(
    bytes(22),
    source="10.0.0.1",
    destination="10.0.0.2",
    transport=etherparse.PlannedUdp(1, 2),
    link=etherparse.PlannedEthernet(b"\2\0\0\0\0\1", b"\2\0\0\0\0\2"),
)


def sliced():
    return len(etherparse.slice_ethernet(FRAME).payload)


def sliced_by_dpkt():
    return len(dpkt.ethernet.Ethernet(FRAME).data.data.data)


def ours():
    packet = etherparse.slice_ethernet(FRAME)
    return str(packet.ipv4.source), packet.udp.destination_port


def by_dpkt():
    packet = dpkt.ethernet.Ethernet(FRAME)
    return dpkt.utils.inet_to_str(packet.data.src), packet.data.data.dport


def by_scapy():
    packet = Ether(FRAME)
    return packet[IP].src, packet[UDP].dport


def built():
    return len(
        etherparse.build(bytes(22), source="10.0.0.1", destination="10.0.0.2", transport=etherparse.PlannedUdp(1, 2))
    )


def built_by_scapy():
    return len(bytes(IP(src="10.0.0.1", dst="10.0.0.2", ttl=64) / UDP(sport=1, dport=2) / bytes(22)))


def measure(name, call, wanted):
    best = float("inf")
    for _ in range(ROUNDS):
        start = time.perf_counter_ns()
        for _ in range(CALLS):
            found = call()
        best = min(best, (time.perf_counter_ns() - start) / CALLS)
        assert found == wanted, (name, found)
    print(f"{name:44} {best:8.0f}")


expected = "10.0.0.1", 2
measure("Python: slice_ethernet, payload", sliced, 22)
measure("Python: dpkt, payload", sliced_by_dpkt, 22)
measure("Python: slice_ethernet, address and port", ours, expected)
measure("Python: dpkt, address and port", by_dpkt, expected)
measure("Python: scapy, address and port", by_scapy, expected)
measure("Python: build, 50 bytes", built, 50)
measure("Python: scapy builds", built_by_scapy, 50)
