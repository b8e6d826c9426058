#!/usr/bin/env python3
"""Makes a large LAN capture of the home's one host.

  make_load.py short FILE    200,000 records of 30 octets: the most records, the shortest packets
  make_load.py full FILE     200,000 records in exactly 64 MiB: the most records, the longest file
  make_load.py long FILE     records of 1,480 octets in at most 64 MiB: the longest packets

With the word `ethernet` behind them the same packets stand in Ethernet frames, and the capture says so.

Prints the number of records.
"""

import pathlib
import sys

sys.dont_write_bytecode = True
sys.path.insert(0, str(pathlib.Path(__file__).resolve().parent.parent / "examples"))

from lan_capture import FILE_HEADER, HEADERS, LONGEST, RECORD_HEADER, address, packet, record

MOST_RECORDS = 200_000
MOST_OCTETS = 64 * 1024 * 1024
MOST_OF_PACKETS = MOST_OCTETS - len(FILE_HEADER)

# How many packets are made; the records take them in turn.
MADE = 256

DESTINATION = address("198.51.100.7")
PORT = 53


def short_lengths():
    """The lengths of the packets, record by record."""
    return [30] * MOST_RECORDS


def full_lengths():
    each, longer = divmod(MOST_OF_PACKETS - MOST_RECORDS * RECORD_HEADER, MOST_RECORDS)
    return [each + 1] * longer + [each] * (MOST_RECORDS - longer)


def long_lengths():
    return [LONGEST] * (MOST_OF_PACKETS // (RECORD_HEADER + LONGEST))


LOADS = {"short": short_lengths, "full": full_lengths, "long": long_lengths}


# An Ethernet header in front of an IPv4 packet, and where a file header has the link type.
FRAME_HEADER = bytes.fromhex("020000000001020000000002" "0800")
LINK_TYPE_AT = 20
ETHERNET = 1


def framed_header():
    header = bytearray(FILE_HEADER)
    header[LINK_TYPE_AT : LINK_TYPE_AT + 4] = ETHERNET.to_bytes(4, "little")
    return header


def capture(lengths, framed):
    """A capture of packets with these lengths, a microsecond apart."""
    made = {}
    octets = framed_header() if framed else bytearray(FILE_HEADER)
    front = FRAME_HEADER if framed else b""
    for number, length in enumerate(lengths):
        key = (number % MADE, length)
        if key not in made:
            payload = bytes((key[0] + at) % 256 for at in range(length - HEADERS))
            made[key] = packet(key[0], DESTINATION, PORT, payload)
        octets += record(number, front + made[key])
    return octets


def main():
    framed = sys.argv[3:] == ["ethernet"]
    if len(sys.argv) != (4 if framed else 3) or sys.argv[1] not in LOADS:
        print(__doc__, file=sys.stderr)
        return 2
    lengths = LOADS[sys.argv[1]]()
    pathlib.Path(sys.argv[2]).write_bytes(capture(lengths, framed))
    print(len(lengths))
    return 0


if __name__ == "__main__":
    sys.exit(main())
