"""LAN captures of the home's one host: UDP from 192.168.1.10:5000 over IPv4, with right sums (python3 alone).

The octets are spelled as docs/FORMATS.md says: classic pcap with the lowest octet first, in microseconds, with
raw IP packets.
"""

import struct

SOURCE = bytes([192, 168, 1, 10])
SOURCE_PORT = 5000
UDP = 17
TTL = 64

# Octets of the two headers in front of a payload, and of what stands in front of a packet in a capture.
HEADERS = 20 + 8
RECORD_HEADER = 16
FILE_HEADER = struct.pack("<IHHIIII", 0xA1B2C3D4, 2, 4, 0, 0, 262144, 101)

# The longest packet of the host that is served.
LONGEST = 1480


def check_of(octets):
    """The internet check sum (RFC 1071): an odd end is padded with 0."""
    padded = octets + bytes(len(octets) % 2)
    total = sum(struct.unpack(f">{len(padded) // 2}H", padded))
    while total > 0xFFFF:
        total = (total & 0xFFFF) + (total >> 16)
    return 0xFFFF - total


def address(text):
    """The four octets of an IPv4 address."""
    return bytes(int(part) for part in text.split("."))


def packet(identification, destination, port, payload):
    """A whole UDP packet (RFC 791, RFC 768). A UDP sum of 0 is written as 65535."""
    length = 8 + len(payload)
    pseudo = SOURCE + destination + struct.pack(">HH", UDP, length)
    udp = struct.pack(">HHHH", SOURCE_PORT, port, length, 0) + payload
    udp_sum = check_of(pseudo + udp) or 0xFFFF
    udp = udp[:6] + struct.pack(">H", udp_sum) + udp[8:]
    head = struct.pack(">BBHHHBBH", 0x45, 0, 20 + length, identification, 0, TTL, UDP, 0)
    head += SOURCE + destination
    head_sum = check_of(head)
    return head[:10] + struct.pack(">H", head_sum) + head[12:] + udp


def record(time, octets):
    """A packet's record. The time is in microseconds."""
    seconds, fraction = divmod(time, 1_000_000)
    return struct.pack("<IIII", seconds, fraction, len(octets), len(octets)) + octets
