#!/usr/bin/env bash
# Has tshark read each capture that the program writes for the examples, with checksums verified: as many
# packets come out as went in, and each UDP sum is right. And has text2pcap write an example's packet as a padded
# Ethernet frame with a time in nanoseconds, which is replayed to the same packet.
#
#   interop/tshark.sh [PROGRAM]      PROGRAM is crates/mapt/out/mapt where left out
set -eu

if ! command -v tshark >/dev/null; then
    echo "interop: skipped, since tshark is missing"
    exit 0
fi
top="$(cd "$(dirname "$0")/.." && pwd)"
program="$(realpath -m "${1:-$top/crates/mapt/out/mapt}")"
if [ ! -x "$program" ]; then
    echo "interop: there is no program $program; examples/quickstart.sh builds it" >&2
    exit 1
fi
work="$(mktemp -d)"
trap 'rm -rf "$work"' EXIT

# One line a packet of a capture that passes the filter: the field.
fields() {
    tshark -n -r "$1" -o udp.check_checksum:TRUE -Y "$2" -T fields -e "$3" 2>/dev/null
}

# Replays the example in this folder, and has its access capture read.
check() {
    local sent received right
    cp "$top/$1/home.toml" "$top/$1/lan-home.pcap" "$work/"
    (cd "$work" && "$program" replay home.toml out-)
    sent="$(fields "$work/lan-home.pcap" "ip && udp" frame.number | wc -l)"
    received="$(fields "$work/out-access.pcap" "ipv6 && udp" frame.number | wc -l)"
    right="$(fields "$work/out-access.pcap" "ipv6 && udp" udp.checksum.status | grep -c -x -e 1 -e Good || true)"
    echo "interop: $1: $sent packets in, $received out, $right of them with a right UDP sum"
    arrived="$(fields "$work/out-core.pcap" "ip && udp" udp.checksum.status | grep -c -x -e 1 -e Good || true)"
    echo "interop: $1: $arrived packets in the core with a right UDP sum"
    [ "$sent" -gt 0 ] && [ "$received" -eq "$sent" ] && [ "$right" -eq "$sent" ] && [ "$arrived" -eq "$sent" ]
}

# Octets of a capture before the first packet: the file header and that of the record.
before_packet=40

# Replays the first example's packet from a capture that text2pcap writes.
check_ethernet() {
    if ! command -v text2pcap >/dev/null; then
        echo "interop: Ethernet: skipped, since text2pcap is missing"
        return
    fi
    cp "$top/examples/home.toml" "$top/examples/lan-home.pcap" "$work/"
    (cd "$work" && "$program" replay home.toml raw-)
    tail -c +$((before_packet + 1)) "$top/examples/lan-home.pcap" | od -Ax -tx1 -v |
        text2pcap -q -e 0x0800 -F nsecpcap - "$work/lan-home.pcap" >/dev/null 2>&1
    (cd "$work" && "$program" replay home.toml ethernet-)
    for name in raw ethernet; do
        tail -c +$((before_packet + 1)) "$work/$name-access.pcap" >"$work/$name"
    done
    if cmp -s "$work/raw" "$work/ethernet"; then
        echo "interop: Ethernet: a padded frame comes out as the same packet"
    else
        echo "interop: Ethernet: a padded frame comes out as another packet"
        return 1
    fi
}

status=0
check_ethernet || status=1
for example in examples examples/many; do
    check "$example" || status=1
done
exit "$status"
