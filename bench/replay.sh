#!/usr/bin/env bash
# Measures `mapt replay` on large LAN captures, which it writes as two captures, that of the access network and that of the
# core, beside two copies of the same file, and prints a table. Where `tcprewrite` is installed, it rewrites addresses, the
# port and the sums of the same records in Ethernet frames, once, since it writes one capture.
#
#   bench/replay.sh [PROGRAM]      PROGRAM is crates/mapt/out/mapt where left out
#
# Each time is the least of RUNS runs (5 where not set). Rates are in records per second. The ratio is the
# replay's time over the copies'. The memory is the largest that was resident, by GNU time.
set -eu

top="$(cd "$(dirname "$0")/.." && pwd)"
program="$(realpath -m "${1:-$top/crates/mapt/out/mapt}")"
runs="${RUNS:-5}"
if [ ! -x "$program" ]; then
    echo "bench: there is no program $program; examples/quickstart.sh builds it" >&2
    exit 1
fi
if ! command -v python3 >/dev/null; then
    echo "bench: skipped, since python3 is missing, which makes the captures"
    exit 0
fi
work="$(mktemp -d)"
trap 'rm -rf "$work"' EXIT
cp "$top/examples/home.toml" "$work/"
cd "$work"

# The least time of a command in microseconds.
least_time() {
    local least="" start end
    for _ in $(seq "$runs"); do
        start="$(date +%s%N)"
        "$@"
        end="$(date +%s%N)"
        if [ -z "$least" ] || [ $(((end - start) / 1000)) -lt "$least" ]; then
            least=$(((end - start) / 1000))
        fi
    done
    echo "$least"
}

# The largest resident memory of a command in MiB, or "-".
memory() {
    if [ -x /usr/bin/time ] && /usr/bin/time -f %M -o "$work/memory" "$@" 2>/dev/null; then
        echo $((($(tail -n 1 "$work/memory") + 1023) / 1024))
    else
        echo "-"
    fi
}

# Both captures of a replay have as many records as the LAN's.
copy_twice() {
    cp lan-home.pcap copy.pcap
    cp lan-home.pcap copy-too.pcap
}

# The time of tcprewrite on the same records in Ethernet frames, or "-".
rewriting() {
    if ! command -v tcprewrite >/dev/null; then
        echo "-"
        return
    fi
    python3 "$top/bench/make_load.py" "$1" frames.pcap ethernet >/dev/null
    least_time tcprewrite --pnat=192.168.1.10/32:192.0.2.18/32 --portmap=5000:1232 --fixcsum \
        --infile=frames.pcap --outfile=rewritten.pcap
}

row() {
    printf '%-6s %8s %9s %10s %10s %10s %10s %6s %7s %13s\n' "$@"
}

row load records octets "replay us" "records/s" "copies us" "records/s" ratio MiB "tcprewrite us"
for load in short full long; do
    records="$(python3 "$top/bench/make_load.py" "$load" lan-home.pcap)"
    octets="$(wc -c <lan-home.pcap)"
    replay="$(least_time "$program" replay home.toml out-)"
    copy="$(least_time copy_twice)"
    rewrite="$(rewriting "$load")"
    used="$(memory "$program" replay home.toml out-)"
    ratio="$(awk "BEGIN { printf \"%.1f\", $replay / $copy }")"
    row "$load" "$records" "$octets" "$replay" $((records * 1000000 / replay)) \
        "$copy" $((records * 1000000 / copy)) "$ratio" "$used" "$rewrite"
done
if ! command -v tcprewrite >/dev/null; then
    echo "bench: tcprewrite was skipped, since it is missing"
fi
if [ ! -x /usr/bin/time ]; then
    echo "bench: the memory was skipped, since /usr/bin/time is missing"
fi
