#!/usr/bin/env bash
# Counts the instructions of `mapt replay` by callgrind: those of a capture of RECORDS records (20000 where not set), less
# those of a capture of none, a record. A record is the shortest packet, and becomes one in each of two captures.
#
#   bench/instructions.sh [PROGRAM]      PROGRAM is crates/mapt/out/mapt where left out
#
# Where KEEP is set, what callgrind counted is copied to that file, for callgrind_annotate.
set -eu

top="$(cd "$(dirname "$0")/.." && pwd)"
program="$(realpath -m "${1:-$top/crates/mapt/out/mapt}")"
records="${RECORDS:-20000}"
if [ ! -x "$program" ]; then
    echo "bench: there is no program $program; examples/quickstart.sh builds it" >&2
    exit 1
fi
for tool in valgrind python3; do
    if ! command -v "$tool" >/dev/null; then
        echo "bench: skipped, since $tool is missing"
        exit 0
    fi
done
work="$(mktemp -d)"
trap 'rm -rf "$work"' EXIT
cp "$top/examples/home.toml" "$work/"
cd "$work"
python3 "$top/bench/make_load.py" short all.pcap >/dev/null

# The instructions of a replay of so many records, each of 16 octets of header and 30 of packet.
instructions() {
    head -c $((24 + 46 * $1)) all.pcap >lan-home.pcap
    valgrind --tool=callgrind --callgrind-out-file=counts "$program" replay home.toml out- 2>&1 \
        | sed -n 's/.*Collected *: *//p'
}

none="$(instructions 0)"
some="$(instructions "$records")"
echo "$(((some - none) / records)) instructions a record, by $records records"
if [ -n "${KEEP:-}" ]; then
    cp counts "$KEEP"
fi
