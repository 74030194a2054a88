#!/usr/bin/env python3
"""bench/speed/peers.py FOLDER LIBRARIES TURNS: one wide key listed by readers that others wrote, beside the walk. Makes a hive with 16,000
subkeys in one `lh` list, builds the judge (compare/setup) and peers.rs, and prints the table. FOLDER takes what is built, LIBRARIES has
libspeed.a. The libraries of others are Debian's, unpacked below compare/target/peers; what cannot be had is said to be missing."""
import os
import subprocess
import sys
import tempfile

sys.dont_write_bytecode = True
HERE = os.path.dirname(os.path.abspath(__file__))
COMPARE = os.path.join(HERE, "../../compare")
sys.path.insert(0, COMPARE)
from peers import unpacked

KEYS = 16000


def words(*numbers):
    return b"".join((x & 0xFFFFFFFF).to_bytes(4, "little") for x in numbers)


def cell(body):
    size = (len(body) + 11) // 8 * 8
    return words(-size) + body + bytes(size - 4 - len(body))


def key(name, flags, parent, count, listed, longest):
    """A key record as document 01 lays it down; what a key does not have is at FFFFFFFF."""
    return cell(b"nk" + flags.to_bytes(2, "little") + bytes(8) + words(0, parent, count, 0, listed, -1, 0, -1, -1, -1, longest, 0, 0, 0, 0)
                + len(name).to_bytes(2, "little") + bytes(2) + name)


def binned(cells, at):
    """Cells in a bin of as many pages as they need, at an offset; what is left of it is one free cell."""
    body = b"".join(cells)
    size = (32 + len(body) + 4095) // 4096 * 4096
    left = size - 32 - len(body)
    return b"hbin" + words(at, size) + bytes(20) + body + (words(left) + bytes(left - 4) if left else b"")


def wide_hive():
    """A hive whose root has KEYS subkeys in one `lh` list, in the order of their names: the list has a bin of its own, and so have the
    root and each 42 of the keys."""
    names = [b"Desk%05d" % i for i in range(KEYS)]
    root, listed = 32, 4096 + 32
    first = 4096 + (32 + 4 + 4 + 8 * KEYS + 4095) // 4096 * 4096
    records = [key(name, 0x20, root, 0, -1, 0) for name in names]
    room = (4096 - 32) // len(records[0])
    places = [first + i // room * 4096 + 32 + i % room * len(records[0]) for i in range(KEYS)]
    hashes = []
    for name in names:
        sum_ = 0
        for x in name.upper():
            sum_ = (sum_ * 37 + x) % 2 ** 32
        hashes.append(sum_)
    entries = b"".join(words(at, sum_) for at, sum_ in zip(places, hashes))
    bins = binned([key(b"Hall", 0x2C, -1, KEYS, listed, 2 * len(names[0]))], 0)
    bins += binned([cell(b"lh" + KEYS.to_bytes(2, "little") + entries)], len(bins))
    assert len(bins) == first
    for i in range(0, KEYS, room):
        bins += binned(records[i:i + room], len(bins))
    head = bytearray(4096)
    head[0:48] = b"regf" + words(1, 1, 0, 0, 1, 5, 0, 1, root, len(bins), 1)
    sum_ = 0
    for i in range(0, 508, 4):
        sum_ ^= int.from_bytes(head[i:i + 4], "little")
    head[508:512] = words(sum_)
    return bytes(head) + bins


def shown(ns):
    return f"{ns / 1e6:.2f} ms" if ns >= 1e6 else f"{ns / 1e3:.2f} us"


def main():
    folder, libraries, turns = sys.argv[1:4]
    built = os.path.join(folder, "peers")
    subprocess.run(["rustc", "--edition", "2021", "-C", "opt-level=3", os.path.join(HERE, "peers.rs"), "-o", built, "-L", "native=" + libraries,
                    "-l", "static=speed"], check=True)
    given = []
    for name, package, library in ("hivex", "libhivex0", "libhivex.so.0"), ("bfio", "libbfio1", "libbfio.so.1"), ("regf", "libregf1", "libregf.so.1"):
        path = unpacked(package, library)
        given += [f"{name}={path}"] if path else []
        if not path:
            print(f"{package} is missing: its package could not be had")
    setup = subprocess.run([os.path.join(COMPARE, "setup"), "--wrap"], capture_output=True, text=True)
    if setup.returncode:
        print("the judge is missing:", *setup.stderr.splitlines()[-1:])
    with tempfile.NamedTemporaryFile(dir="/dev/shm", suffix=".hive") as hive:
        hive.write(wide_hive())
        hive.flush()
        lines = subprocess.run([built, hive.name, turns] + given, check=True, stdout=subprocess.PIPE, text=True).stdout.splitlines()
        kept, lists, entries, sum_ = lines[0].split()
        rows = [(name, float(least), float(median)) for name, least, median in (line.split("\t") for line in lines[1:])]
        if not setup.returncode:
            judge = os.path.join(COMPARE, "target/bin/judge-wrap")
            told = subprocess.run([judge, "time", hive.name, turns], check=True, stdout=subprocess.PIPE, text=True).stdout.split()
            assert told[:2] == [kept, sum_], "notatin lists others"
            rows.append(("notatin's parse_sub_key_list", float(told[2]), float(told[3])))
        print(f"A key of {kept} subkeys, {lists} list of {entries} entries, in a hive of {os.path.getsize(hive.name)} bytes in memory. All list the same offsets.")
    print(f"Least / median of {turns} calls, of {-(-int(turns) // 20)} of libregf's.\n\n| reader | time | of the Rattle, at the least |\n|---|---|---|")
    for name, least, median in rows:
        print(f"| {name} | {shown(least)} / {shown(median)} | {least / rows[0][1]:.2f} |")


main()
