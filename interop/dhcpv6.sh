#!/usr/bin/env bash
# Has tshark read the container of DHCPv6 options that the program writes, in a DHCPv6 Reply around it (RFC 8415,
# section 7.3), and says what it saw: the rule, the default mapping rule, and no malformed part.
#
#   interop/dhcpv6.sh [PROGRAM]      PROGRAM is crates/mapt/out/mapt where left out
set -eu

for tool in tshark text2pcap; do
    if ! command -v "$tool" >/dev/null; then
        echo "interop: DHCPv6: skipped, since $tool is missing"
        exit 0
    fi
done
top="$(cd "$(dirname "$0")/.." && pwd)"
program="$(realpath -m "${1:-$top/crates/mapt/out/mapt}")"
if [ ! -x "$program" ]; then
    echo "interop: there is no program $program; examples/quickstart.sh builds it" >&2
    exit 1
fi
work="$(mktemp -d)"
trap 'rm -rf "$work"' EXIT

# A Reply with transaction id 000001, and the container as its one option.
octets="07000001$("$program" options "$top/examples/container.txt" | sed -n 's/^octets //p')"
spaced="$(echo "$octets" | sed 's/../ &/g')"
echo "000000$spaced" | text2pcap -q -6 fe80::1,fe80::2 -u 547,546 - "$work/reply.pcap" >/dev/null 2>&1
tshark -n -r "$work/reply.pcap" -V 2>/dev/null >"$work/read"

status=0
for wanted in "S46 Rule\|S46_RULE\|S46 rule" "S46 DMR\|S46_DMR\|S46 Default Mapping Rule\|S46 dmr"; do
    if ! grep -qi "$wanted" "$work/read"; then
        echo "interop: DHCPv6: tshark names no option like $wanted"
        status=1
    fi
done
if grep -qi "malformed" "$work/read"; then
    echo "interop: DHCPv6: tshark finds a malformed part"
    status=1
fi
grep -i -A 12 "MAP-T" "$work/read" | sed 's/^/    /' || true
[ "$status" -ne 0 ] || echo "interop: DHCPv6: tshark reads the container's rule and default mapping rule"
exit "$status"
