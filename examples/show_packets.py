#!/usr/bin/env python3
"""Shows the packets of a capture: protocol, ends, hop limit or TTL, and octets.

    show_packets.py CAPTURE [COUNT]      the first COUNT packets, all where left out

It reads captures of raw IP packets (link type 101), as `mapt` writes them.
"""
import ipaddress
import struct
import sys

NAMES = {1: "ICMP", 6: "TCP", 17: "UDP", 58: "ICMPv6"}
FRAGMENT = 44


def ends_of(version, octets, protocol, payload, first):
    """Source and destination, with ports where the packet has them."""
    size = 4 if version == 4 else 16
    start = 12 if version == 4 else 8
    addresses = [str(ipaddress.ip_address(octets[start + i * size : start + (i + 1) * size])) for i in (0, 1)]
    if protocol in (6, 17) and first and len(payload) >= 4:
        ports = struct.unpack(">HH", payload[:4])
        addresses = [f"[{a}]:{p}" if ":" in a else f"{a}:{p}" for a, p in zip(addresses, ports)]
    return addresses


def words_of(octets):
    """A packet in a line of words."""
    version = octets[0] >> 4 if octets else 0
    if version == 4 and len(octets) >= 20:
        length, left, protocol = struct.unpack(">H", octets[2:4])[0], octets[8], octets[9]
        place = struct.unpack(">H", octets[6:8])[0]
        payload, kind = octets[4 * (octets[0] & 15) : length], f"IPv4, TTL {left}"
    elif version == 6 and len(octets) >= 40:
        protocol, left, place = octets[6], octets[7], 0
        payload, kind = octets[40:], f"IPv6, hop limit {left}"
        if protocol == FRAGMENT and len(payload) >= 8:
            protocol, place, payload = payload[0], struct.unpack(">H", payload[2:4])[0] >> 3, payload[8:]
    else:
        return "no IP packet"
    source, destination = ends_of(version, octets, protocol, payload, place & 0x1FFF == 0)
    name = NAMES.get(protocol, f"protocol {protocol}")
    part = f", fragment at {8 * (place & 0x1FFF)}" if place & 0x1FFF or (version == 4 and place & 0x2000) else ""
    return f"{name} over {kind}{part}, from {source} to {destination}"


def records_of(octets):
    """Times in microseconds, and packets."""
    if octets[:4] != bytes.fromhex("d4c3b2a1") or octets[20:24] != bytes.fromhex("65000000"):
        sys.exit("show_packets: no capture of raw IP packets")
    at = 24
    while at + 16 <= len(octets):
        seconds, fraction, length = struct.unpack("<III", octets[at : at + 12])
        yield seconds * 1000000 + fraction, octets[at + 16 : at + 16 + length]
        at += 16 + length


def main():
    if not 2 <= len(sys.argv) <= 3:
        sys.exit(__doc__)
    most = int(sys.argv[2]) if sys.argv[2:] else None
    with open(sys.argv[1], "rb") as file:
        octets = file.read()
    for number, (time, packet) in enumerate(records_of(octets)):
        if number == most:
            break
        print(f"{time / 1000000:.6f}  {words_of(packet)}")
        for start in range(0, len(packet), 16):
            print("          " + packet[start : start + 16].hex(" "))


main()
