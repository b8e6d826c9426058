#!/usr/bin/env python3
"""Tries what no proof sees: that the built program reads and writes real files, and puts its text on standard output.

    .ci/trusted_edge.py [PROGRAM]      PROGRAM is crates/mapt/out/mapt where left out

Each check is a function below. It works in a folder of its own, as nobody where it is started by root, so that a folder that may only be
read is one. The octets that a replay has to write are computed here, and not by the program. The last line counts.
"""
import os
import shutil
import struct
import subprocess
import sys
import tempfile
import threading

TOP = os.path.dirname(os.path.dirname(os.path.realpath(__file__)))
NOBODY = 65534
PIECE = 65536

HOME = open(os.path.join(TOP, "examples", "home.toml"), "rb").read()
RULES = b"dmr 2001:db8:ffff::/64\nrule 2001:db8::/40 192.0.2.0/24 ea 16 offset 6 forward 0\n"

CAPTURE_HEAD = bytes.fromhex("d4c3b2a1020004000000000000000000000004006500" "0000")
HOST, FAR, OUTSIDE = bytes([192, 168, 1, 10]), bytes([198, 51, 100, 7]), bytes([192, 0, 2, 18])
EDGE6 = bytes.fromhex("20010db8001234000000c00002120034")
FAR6 = bytes.fromhex("20010db8ffff000000c6336407000000")
HOST_PORT, FAR_PORT, OUTSIDE_PORT = 5000, 53, 1232


def folded(octets):
    """The internet sum of octets (RFC 1071)."""
    if len(octets) % 2:
        octets += b"\0"
    total = sum(struct.unpack(">%dH" % (len(octets) // 2), octets))
    while total > 0xFFFF:
        total = (total & 0xFFFF) + (total >> 16)
    return total


def datagram(source, destination, port, data):
    """A UDP datagram with its sum, between two addresses of one version."""
    head = struct.pack(">HHHH", port, FAR_PORT, 8 + len(data), 0)
    pseudo = source + destination + struct.pack(">HH", 17, 8 + len(data))
    check = 0xFFFF - folded(pseudo + head + data)
    return head[:6] + struct.pack(">H", check or 0xFFFF) + data


def packet4(source, port, ttl, number, flags, data):
    """A UDP packet over IPv4 to the far host."""
    head = struct.pack(">BBHHHBBH", 0x45, 0, 28 + len(data), number, flags, ttl, 17, 0) + source + FAR
    check = struct.pack(">H", 0xFFFF - folded(head))
    return head[:10] + check + head[12:] + datagram(source, FAR, port, data)


def packet6(data):
    """The same as the edge sends it."""
    head = struct.pack(">IHBB", 0x60000000, 8 + len(data), 17, 63) + EDGE6 + FAR6
    return head + datagram(EDGE6, FAR6, OUTSIDE_PORT, data)


def capture(packets):
    """A capture of these packets, a second apart."""
    octets = [CAPTURE_HEAD]
    for number, packet in enumerate(packets):
        octets.append(struct.pack("<IIII", number, 0, len(packet), len(packet)) + packet)
    return b"".join(octets)


def load(count, size):
    """A LAN capture, and the two captures that a replay of it writes."""
    data = [bytes((7 * i + j) % 256 for j in range(size)) for i in range(count)]
    lan = [packet4(HOST, HOST_PORT, 64, i % 65536, 0, text) for i, text in enumerate(data)]
    access = [packet6(text) for text in data]
    core = []
    for i, text in enumerate(data):
        core.append(packet4(OUTSIDE, OUTSIDE_PORT, 62, i % 65536, 0 if 28 + size <= 1260 else 0x4000, text))
    return capture(lan), capture(access), capture(core)


class Room:
    """A folder with the home's configuration, in which the program runs."""

    def __init__(self, program, place):
        self.program, self.place = program, place
        self.put("home.toml", HOME)

    def put(self, name, octets):
        path = os.path.join(self.place, name)
        with open(path, "wb") as file:
            file.write(octets)
        os.chmod(path, 0o644)

    def get(self, name):
        with open(os.path.join(self.place, name), "rb") as file:
            return file.read()

    def has(self, name):
        return os.path.lexists(os.path.join(self.place, name))

    def run(self, *words, **how):
        """The program's status, output and line of fault."""
        if os.geteuid() == 0:
            how.update(user=NOBODY, group=NOBODY, extra_groups=[])
        how.setdefault("stdout", subprocess.PIPE)
        ran = subprocess.run([self.program, *words], cwd=self.place, stderr=subprocess.PIPE, timeout=100, **how)
        return ran.returncode, ran.stdout, ran.stderr.decode()

    def ends(self, words, status, fault, **how):
        """Whether the program ends so, and puts nothing on standard output."""
        got = self.run(*words, **how)
        return got[0] == status and not got[1] and got[2] == fault


def large_files_are_read_and_written(room):
    """3 MiB in and out, in many pieces, octet for octet, and nothing on standard output."""
    lan, access, core = load(3000, 1032)
    if len(lan) <= 3 << 20:
        return False
    room.put("lan-home.pcap", lan)
    ended = room.run("replay", "home.toml", "out-")
    return ended == (0, b"", "") and room.get("out-access.pcap") == access and room.get("out-core.pcap") == core


def shorter_outputs_take_the_place_of_longer_ones(room):
    """A file that is written again holds the new octets alone."""
    for count in (40, 3):
        lan, access, core = load(count, 32)
        room.put("lan-home.pcap", lan)
        if room.run("replay", "home.toml", "out-") != (0, b"", ""):
            return False
    return room.get("out-access.pcap") == access and room.get("out-core.pcap") == core


def padded(count):
    """The home's configuration behind so many octets of comments."""
    line = b"# " + 61 * b"x" + b"\n"
    return line * (count // len(line)) + HOME


def a_long_configuration_is_read_whole(room):
    """What stands behind the first piece counts, also where the file is exactly as long as its pieces."""
    room.put("long.toml", padded(3 * PIECE))
    filled = padded(PIECE)
    room.put("even.toml", filled + b"#" * (-len(filled) % PIECE - 1) + b"\n")
    if len(room.get("even.toml")) % PIECE:
        return False
    return all(room.run("rules", name, "0") == (0, RULES, "") for name in ("long.toml", "even.toml"))


def a_pipe_is_read_to_its_end(room):
    """A configuration that comes through a pipe, in pieces of another size."""
    reading, writing = os.pipe()
    octets = padded(2 * PIECE)

    def feed():
        for start in range(0, len(octets), 5000):
            os.write(writing, octets[start : start + 5000])
        os.close(writing)

    os.chmod(f"/proc/self/fd/{reading}", 0o666)
    feeder = threading.Thread(target=feed)
    feeder.start()
    ended = room.run("rules", "/dev/stdin", "0", stdin=reading)
    os.close(reading)
    feeder.join()
    return ended == (0, RULES, "")


def files_that_can_not_be_read_are_told(room):
    """A file that isn't there, a folder, and memory that no one may read: none is an empty file."""
    told = "mapt: the configuration could not be read [ReadFault(Config)]\n"
    if not all(room.ends(("rules", name, "0"), 3, told) for name in ("nothing.toml", ".", "/proc/self/mem")):
        return False
    os.mkdir(os.path.join(room.place, "lan-home.pcap"))
    told = "mapt: the LAN capture of edge 0 could not be read [ReadFault(InLan(0))]\n"
    return room.ends(("replay", "home.toml", "out-"), 3, told) and not room.has("out-access.pcap")


def a_full_disk_is_told(room):
    """A write that fails names its file; what was written before it stands, and nothing is written behind it."""
    lan, access, _ = load(2, 32)
    room.put("lan-home.pcap", lan)
    os.symlink("/dev/full", os.path.join(room.place, "one-access.pcap"))
    told = "mapt: the written capture of the access network could not be written [WriteFault(OutAccess)]\n"
    if not room.ends(("replay", "home.toml", "one-"), 4, told) or room.has("one-core.pcap"):
        return False
    os.symlink("/dev/full", os.path.join(room.place, "two-core.pcap"))
    told = "mapt: the written capture of the core could not be written [WriteFault(OutCore)]\n"
    return room.ends(("replay", "home.toml", "two-"), 4, told) and room.get("two-access.pcap") == access


def a_full_terminal_is_told(room):
    """So does text that can't be put on standard output."""
    with open("/dev/full", "wb") as full:
        ended = room.run("rules", "home.toml", "0", stdout=full)
    return ended == (4, None, "mapt: the report could not be written [WriteFault(Report)]\n")


def folders_that_take_no_file_are_told(room):
    """A folder that isn't there, and one that may only be read."""
    room.put("lan-home.pcap", load(1, 32)[0])
    locked = os.path.join(room.place, "locked")
    os.mkdir(locked, 0o555)
    told = "mapt: the written capture of the access network could not be written [WriteFault(OutAccess)]\n"
    return all(room.ends(("replay", "home.toml", prefix), 4, told) for prefix in ("no-such-folder/", "locked/"))


def text_is_put_once(room):
    """A text of one line and one of many: each once, and whole."""
    if room.run("owner", "home.toml", "0", "192.0.2.18", "1023") != (0, b"none\n", ""):
        return False
    rules, lines = [], []
    for i in range(200):
        rules.append(b'[[rule]]\nprefix6 = "2001:db9:%x00::/40"\nprefix4 = "198.18.%d.0/24"\nea = 16\n\n' % (i, i))
        lines.append(b"rule 2001:db9:%x00::/40 198.18.%d.0/24 ea 16 offset 6 forward 0\n" % (i, i) if i else b"rule 2001:db9::/40 198.18.0.0/24 ea 16 offset 6 forward 0\n")
    room.put("many.toml", HOME[: HOME.index(b"[[rule]]")] + b"".join(rules))
    return room.run("rules", "many.toml", "0") == (0, RULES[: RULES.index(b"rule")] + b"".join(lines), "")


CHECKS = [
    large_files_are_read_and_written,
    shorter_outputs_take_the_place_of_longer_ones,
    a_long_configuration_is_read_whole,
    a_pipe_is_read_to_its_end,
    files_that_can_not_be_read_are_told,
    a_full_disk_is_told,
    a_full_terminal_is_told,
    folders_that_take_no_file_are_told,
    text_is_put_once,
]


def tried(check, program):
    """Whether a check passes, in a folder of its own."""
    with tempfile.TemporaryDirectory(prefix="mapt-") as place:
        mine = os.path.join(place, "mapt")
        shutil.copyfile(program, mine)
        os.chmod(mine, 0o755)
        work = os.path.join(place, "work")
        os.mkdir(work)
        os.chmod(place, 0o755)
        if os.geteuid() == 0:
            os.chown(work, NOBODY, NOBODY)
        try:
            return check(Room(mine, work))
        except (OSError, subprocess.TimeoutExpired) as fault:
            print(f"trusted edge: {fault}")
            return False


def main():
    program = sys.argv[1] if sys.argv[1:] else os.path.join(TOP, "crates", "mapt", "out", "mapt")
    if not os.access(program, os.X_OK):
        print(f"trusted edge: there is no program {program}")
        return 1
    failed = 0
    for check in CHECKS:
        if not tried(check, os.path.abspath(program)):
            print(f"trusted edge: FAILED: {check.__name__.replace('_', ' ')}")
            failed += 1
    print(f"trusted edge: {len(CHECKS) - failed} checks passed, {failed} failed")
    return 1 if failed else 0


sys.exit(main())
