#!/usr/bin/env bash
# Replays the example in a folder of its own, and shows the packet that went in and the two that came out.
#
# Where the gate (.ci/run) has left the proved program, that one runs. Else `rt try` builds one in about a minute, without a proof.
set -eu

top="$(cd "$(dirname "$0")/.." && pwd)"
program="$top/crates/mapt/out/mapt"
work="$(mktemp -d)"
trap 'rm -rf "$work"' EXIT
cp "$top/examples/home.toml" "$top/examples/lan-home.pcap" "$work/"

# Whether the proved program is there, and no source is newer.
is_proved() {
    [ -x "$program" ] && [ -z "$(find "$top/crates" -path '*/out' -prune -o -name '*.rt' -newer "$program" -print)" ]
}

show_packets() {
    if command -v python3 >/dev/null; then
        python3 -B "$top/examples/show_packets.py" "$1"
    else
        # The first packet stands behind 24 octets of file header and 16 of record header.
        od -A n -v -t x1 -j 40 "$1"
    fi
}

if is_proved; then
    echo "The program that the gate proved and built: crates/mapt/out/mapt"
    (cd "$work" && "$program" replay home.toml out-)
else
    echo "Building the program without a proof, in about a minute. The gate, .ci/run, proves it."
    if ! (cd "$top/crates/mapt" && rt try --data "home.toml=$work/home.toml" --data "lan-home.pcap=$work/lan-home.pcap" \
        -- replay home.toml "$work/out-") >"$work/build.log" 2>&1; then
        cat "$work/build.log" >&2
        echo "quickstart: the program wasn't built, or didn't end well, as the lines above say" >&2
        exit 1
    fi
fi

cd "$work"
echo
echo "In, on the home's LAN (lan-home.pcap):"
show_packets lan-home.pcap
echo
echo "Out, on the access network (out-access.pcap):"
show_packets out-access.pcap
echo
echo "Out, in the core (out-core.pcap):"
show_packets out-core.pcap
