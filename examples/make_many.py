#!/usr/bin/env python3
"""Makes many/lan-home.pcap: 1,000 UDP packets of the home's one host.

  make_many.py            writes the capture
  make_many.py --check    writes nothing, and says whether the stored captures and configurations are as they
                          should be; ends with status 1 where one isn't
"""

import pathlib
import sys

sys.dont_write_bytecode = True

from lan_capture import FILE_HEADER, HEADERS, LONGEST, address, packet, record

HERE = pathlib.Path(__file__).resolve().parent
STORED_RUN = HERE.parent / "crates" / "mapt" / "data"

PACKETS = 1000

# Where the packets go, in turn.
DESTINATIONS = [
    (address("198.51.100.7"), 53),
    (address("203.0.113.5"), 123),
    (address("198.51.100.99"), 443),
    (address("203.0.113.80"), 3478),
    (address("192.0.3.1"), 65535),
]


def payload_of(number):
    """The payload of a packet: each hundredth is as long as can be, and the others have 0 to 96 octets."""
    length = LONGEST - HEADERS if number % 100 == 99 else number * 37 % 97
    return bytes((number * 31 + at * 7) % 256 for at in range(length))


def capture():
    """All packets, with rising times from 1 second on."""
    octets = bytearray(FILE_HEADER)
    time = 1_000_000
    for number in range(PACKETS):
        destination, port = DESTINATIONS[number % len(DESTINATIONS)]
        octets += record(time, packet(number, destination, port, payload_of(number)))
        time += 250 + number * 7919 % 5000
    return bytes(octets)


def stored():
    """Each stored file with the octets that it should hold."""
    config = (STORED_RUN / "home.toml").read_bytes()
    return [
        (HERE / "home.toml", config),
        (HERE / "lan-home.pcap", (STORED_RUN / "lan-home.pcap").read_bytes()),
        (HERE / "many" / "home.toml", config),
        (HERE / "many" / "lan-home.pcap", capture()),
    ]


def main():
    if sys.argv[1:] == ["--check"]:
        wrong = [path for path, octets in stored() if path.read_bytes() != octets]
        for path in wrong:
            print(f"examples: {path.relative_to(HERE)} isn't as it should be")
        if not wrong:
            print("examples: the stored files are as they should be")
        return 1 if wrong else 0
    if sys.argv[1:]:
        print(__doc__, file=sys.stderr)
        return 2
    (HERE / "many" / "lan-home.pcap").write_bytes(capture())
    return 0


if __name__ == "__main__":
    sys.exit(main())
