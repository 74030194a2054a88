#!/usr/bin/env python3
"""Makes the hives of crates/hive_listing, crates/listing_cases and crates/deleted_listing, and what documents 01 and 02 say that the
listings print of each, that of crates/bins_listing included, whose hive `compare/hives store` makes; and the hives, the listings and the
commands of crates/supplier_listing, with what it writes.

    compare/listing.py          (from the project's root)

The hives are document 01's own example and damaged copies of it, one or more for each refusal that the program can print with one
beside it that it does not refuse, and the hives of ../shared/data/hives. The lines come from paper.py, the paper's reading."""
import os
import struct

import paper

BASE, BUDGET, ROOM, MOST = 4096, 1024, 4096, 65536
DELETED_ROOM = 1024


def base_line(image, most=MOST):
    """ "`base`: sequences, version, raw type, root, bins size, stored and computed checksum (eight lower-case hex digits)." """
    if len(image) > most:
        raise paper.Refused(paper.TOO_LARGE)
    paper.base_block(image)
    u = lambda at: paper.unsigned(image, at, 4)
    return "base %d %d %d %d %d %d %d %08x %08x" % (
        u(4), u(8), u(20), u(24), u(28), paper.signed(image, 36), u(40), u(508), paper.checksum(image))


def bins_line(totals):
    """ "`bins`: bins, allocated and free cells, allocated and free bytes." """
    return "bins %d %d %d %d %d" % tuple(totals)


def listing(image):
    """ "It reads one hive of at most 65,536 bytes .. with base 4,096, budget 1,024, room 4,096, takes base block, bins, root key (no
    line of its own) and walk in turn, prints the lines of each that succeeds, and stops at the first refusal with `refused N`." """
    lines = []
    try:
        lines.append(base_line(image))
        u = lambda at: paper.unsigned(image, at, 4)
        root, size = paper.signed(image, 36), u(40)
        lines.append(bins_line(paper.bins(image, BASE, size)))
        # 2: "for the program, also a negative root offset"
        if root < 0:
            raise paper.Refused(paper.OUTSIDE)
        at = root + BASE
        paper.key_record(image, at)
        # "`keys`: kept, lists, entries; then one offset a line."; document 02, order 2: "the program's `keys` line" gives "the number
        # dropped as a further number", "The example's line becomes `keys 2 1 2 0`"
        kept, lists, entries, dropped = paper.walk(image, u(at + 24), u(at + 32), BASE, BUDGET, [0] * ROOM)
        lines.append("keys %d %d %d %d" % (len(kept), lists, entries, dropped))
        lines += [str(x) for x in kept]
    except paper.Refused as r:
        lines.append("refused %d" % r.number)
    return "".join(line + "\n" for line in lines)


def deleted(image):
    """Document 02, order 4, as `./list --deleted` prints it: the base block's line, the number of deleted keys, and their positions."""
    lines = []
    try:
        lines.append(base_line(image))
        positions = paper.deleted_keys(image, BASE, paper.unsigned(image, 40, 4), [0] * DELETED_ROOM)
        lines.append("deleted %d" % len(positions))
        lines += [str(x) for x in positions]
    except paper.Refused as r:
        lines.append("refused %d" % r.number)
    return "".join(line + "\n" for line in lines)


def refused_before(came, size):
    """What is refused of bins that are cut short, by document 02, order 6: "A bin is judged once its 32 header bytes are in, a cell once
    its 4, a rest too short for a header with the part that ends the bin before it or with the first part"; "8 is given only when the end
    is declared early". Places count from the base; the rules are document 01's, of the whole check. """
    at = 0
    while at <= len(came):
        if came and size - at < 32:
            return paper.BAD_BIN
        if len(came) < at + 32:
            break
        length = paper.bin_size(came, 0, at, size - at)
        if length is None:
            return paper.BAD_BIN
        cell, over = at + 32, at + length
        while cell < over and cell + 4 <= len(came):
            word = paper.cell_word(came, cell, over)
            if word is None:
                return paper.BAD_CELL
            cell += abs(word)
        at = over
    return paper.CUT_SHORT


def bins_alone(image):
    """Document 02, order 6, as `./list --bins` prints it: the base block's line and that of the bins, for a hive of any size; "the answer
    is the one that the whole check gives on a complete hive with these bytes". """
    lines = []
    try:
        lines.append(base_line(image, len(image)))
        size = paper.unsigned(image, 40, 4)
        if len(image) < BASE + size:
            raise paper.Refused(refused_before(image[BASE:], size))
        lines.append(bins_line(paper.bins(image, BASE, size)))
    except paper.Refused as r:
        lines.append("refused %d" % r.number)
    return "".join(line + "\n" for line in lines)


class Hive(bytearray):
    def word(self, at, n):
        self[at:at + 4] = struct.pack("<I", n & 0xFFFFFFFF)
        return self

    def half(self, at, n):
        self[at:at + 2] = struct.pack("<H", n)
        return self

    def text(self, at, s):
        self[at:at + len(s)] = s
        return self

    def summed(self):
        return self.word(508, paper.checksum(self))


def headed(length):
    """ "regf, sequences 1 1, version 1.5, format 1, root 32, bins size .., clustering 1, checksum .."; "one bin" """
    h = Hive(length).text(0, b"regf").word(4, 1).word(8, 1).word(20, 1).word(24, 5).word(32, 1).word(36, 32)
    h.word(40, length - BASE).word(44, 1).summed()
    return h.text(BASE, b"hbin").word(BASE + 8, length - BASE)


def nk(h, at, name, subkeys=0, subkey_list=0):
    h.word(at, -88).text(at + 4, b"nk").half(at + 6, 32).word(at + 24, subkeys).word(at + 32, subkey_list)
    return h.half(at + 76, len(name)).text(at + 80, name)


def example():
    """ "`nk` at 32 (size -88, flags 32, 2 subkeys, list 120, name `ROOT`); `lh` at 120 (size -24, entries 144 and 232 with hashes 65
    and 66); `nk` at 144 and 232 (size -88, flags 32, names `A`, `b`); free cell 3776 at 320." """
    h = headed(8192)
    nk(h, BASE + 32, b"ROOT", 2, 120)
    h.word(BASE + 120, -24).text(BASE + 124, b"lh").half(BASE + 126, 2)
    h.word(BASE + 128, 144).word(BASE + 132, 65).word(BASE + 136, 232).word(BASE + 140, 66)
    nk(h, BASE + 144, b"A")
    nk(h, BASE + 232, b"b")
    return h.word(BASE + 320, 3776)


def wide(kind, count, offset):
    """A root key over one list of a kind with so many entries, all the same offset, in one allocated cell; a free cell fills the bin."""
    each = 8 if kind in (b"lf", b"lh") else 4
    cell = (8 + each * count + 7) // 8 * 8
    length = BASE + (120 + cell + 8 + 4095) // 4096 * 4096
    h = headed(length)
    nk(h, BASE + 32, b"ROOT", 2, 120)
    h.word(BASE + 120, -cell).text(BASE + 124, kind).half(BASE + 126, count)
    for i in range(count):
        h.word(BASE + 128 + each * i, offset)
    return h.word(BASE + 120 + cell, length - BASE - 120 - cell)


def hives():
    """The cases: a label and a hive."""
    e = example
    at = BASE + 32          # the root's key record
    li = BASE + 120         # its list
    yield "empty", b""
    yield "cut_to_4095", e()[:4095]
    yield "cut_to_4096", e()[:4096]
    yield "cut_to_8191", e()[:8191]
    yield "example", e()
    yield "one_byte_more", e() + b"\0"
    yield "not_regf", e().text(0, b"refg")
    yield "wrong_checksum", e().word(508, 0)
    yield "bins_size_0", e().word(40, 0)
    yield "bins_size_4097", e().word(40, 4097)
    yield "bins_size_4095", e().word(40, 4095)
    yield "not_hbin", e().text(BASE, b"hbni")
    yield "bin_elsewhere", e().word(BASE + 4, 4096)
    yield "cell_0", e().word(BASE + 320, 0)
    yield "cell_past_the_bin", e().word(BASE + 320, 3784)
    yield "cell_of_4", e().word(BASE + 320, 4)
    yield "root_negative", e().word(36, -1)
    yield "root_least", e().word(36, -2147483648)
    yield "root_at_the_end", e().word(36, 4096)
    yield "root_past_the_end", e().word(36, 4097)
    yield "root_79_left", e().word(36, 4096 - 79)
    yield "root_80_left", e().word(36, 4096 - 80)
    yield "root_no_nk", e().text(at + 4, b"nl")
    yield "root_is_the_list", e().word(36, 120)
    yield "root_size_79", e().word(at, -80 + 1)
    yield "root_free", e().word(at, 88)
    yield "root_name_to_the_end", e().half(at + 76, 8)
    yield "root_name_past_the_end", e().half(at + 76, 9)
    yield "count_most", e().word(at + 24, 1048576)
    yield "count_above", e().word(at + 24, 1048577)
    yield "count_0", e().word(at + 24, 0)
    yield "count_0_list_gone", e().word(at + 24, 0).word(at + 32, -1)
    yield "list_at_the_end", e().word(at + 32, 4096)
    yield "list_past_the_end", e().word(at + 32, 4097)
    yield "list_7_left", e().word(at + 32, 4096 - 7)
    yield "list_8_left", e().word(at + 32, 4096 - 8)
    yield "list_unknown", e().text(li + 4, b"lx")
    yield "list_count_0", e().half(li + 6, 0)
    yield "entries_to_the_end", e().half(li + 6, (8192 - li - 8) // 8)
    yield "entries_past_the_end", e().half(li + 6, (8192 - li - 8) // 8 + 1)
    yield "entry_dropped", e().word(li + 8, 0xFFFFF000)
    yield "entry_kept_last", e().word(li + 8, 0xFFFFEFFF)
    yield "names_itself", e().text(li + 4, b"ri").half(li + 6, 1).word(li + 8, 120)
    yield "ri_of_nothing", e().text(li + 4, b"ri").half(li + 6, 0)
    # an `ri` of n entries names an `li` list of two, of which one is dropped: 1 + n lists
    for label, n in ("lists_1024", 1023), ("lists_1025", 1024):
        h = wide(b"ri", n, 112 + (8 + 4 * n + 7) // 8 * 8 + 16)
        leaf = BASE + 120 + (8 + 4 * n + 7) // 8 * 8
        left = len(h) - leaf - 16
        h.word(leaf, -16).text(leaf + 4, b"li").half(leaf + 6, 2).word(leaf + 8, 32).word(leaf + 12, 0xFFFFF000)
        for i in range(n):
            h.word(li + 8 + 4 * i, leaf - BASE)
        yield label, h.word(leaf + 16, left)
    yield "keys_4096", wide(b"li", 4096, 32)
    yield "keys_4097", wide(b"li", 4097, 32)
    yield "all_65536", bytes(65536)
    yield "all_65537", bytes(65537)
    yield "example_of_65537", bytes(e()) + bytes(65537 - 8192)
    real = "../shared/data/hives"
    for name in sorted(os.listdir(real)):
        if name.endswith(".hive"):
            yield name[:-5].replace("-", "_").replace(".", "_"), open(os.path.join(real, name), "rb").read()


def opening(base, position):
    return paper.house_record(paper.OPENS, struct.pack("<IQ", base, position))


def named(offsets):
    return b"".join(paper.house_record(paper.NAMES, struct.pack("<I", o)) for o in offsets)


def close(number):
    return paper.house_record(paper.CLOSES, struct.pack("<I", number))


def delivered(base, position, offsets):
    """Document 02, order 12: "one opening, then offsets, one close and no further bytes, the close gives their true number" """
    return opening(base, position) + named(offsets) + close(len(offsets))


def chosen(image, key):
    """The root's record, or the one named, once base block and bins are read."""
    if len(image) > MOST:
        raise paper.Refused(paper.TOO_LARGE)
    base_line(image)
    root = paper.signed(image, 36)
    paper.bins(image, BASE, paper.unsigned(image, 40, 4))
    if key == "root" and root < 0:
        raise paper.Refused(paper.OUTSIDE)
    return paper.key_at(image, root + BASE if key == "root" else int(key), BASE)


def check(image, key, listing_):
    """Document 02, order 12, as `./listing check` prints it."""
    try:
        if len(image) <= MOST < len(listing_):
            raise paper.Refused(paper.TOO_LARGE)
        kept, lists, entries, dropped = paper.check_listing(image, chosen(image, key), BUDGET, listing_)
        return b"accepted %d %d %d %d\n" % (len(kept), lists, entries, dropped)
    except paper.Refused as r:
        return b"refused %d\n" % r.number


def write(image, key):
    """The same of `write`: a line, and behind it the listing, which is to fit the bytes that a check takes."""
    try:
        out = bytearray(MOST)
        size, kept, lists, entries, dropped = paper.write_listing(image, chosen(image, key), BUDGET, out)
        return b"written %d %d %d %d\n" % (len(kept), lists, entries, dropped) + bytes(out[:size])
    except paper.Refused as r:
        return b"refused %d\n" % r.number


def commands():
    """The hives, the listings, and the commands of supplier_listing: a verb, a hive, a key and a listing."""
    real = "../shared/data/hives/samba-1.3-40k-3v-repaired.hive"
    e = example
    li = BASE + 120
    root, a, b = BASE + 32, BASE + 144, BASE + 232
    hives = {
        "example": e(), "swapped": e().word(li + 8, 232).word(li + 16, 144), "entry_dropped": e().word(li + 8, 0xFFFFF000),
        "not_regf": e().text(0, b"refg"), "not_hbin": e().text(BASE, b"hbni"), "root_negative": e().word(36, -1),
        "names_itself": e().text(li + 4, b"ri").half(li + 6, 1).word(li + 8, 120),
        "keys_6550": wide(b"li", 6550, 32), "keys_6551": wide(b"li", 6551, 32), "all_65537": bytes(65537),
        "samba": open(real, "rb").read(),
    }
    right = delivered(BASE, root, [a, b])
    key = chosen(hives["samba"], "root")
    listings = {
        "right.listing": right, "of_b.listing": delivered(BASE, root, [b]), "of_A.listing": delivered(BASE, a, []),
        "of_samba.listing": delivered(BASE, key.position, paper.sub_key_counts_of(hives["samba"], key, BUDGET)[0]),
        "empty.listing": b"", "cut.listing": right[:-1], "byte_more.listing": right + b"\0",
        "close_3.listing": opening(BASE, root) + named([a, b]) + close(3), "no_opening.listing": named([a, b]) + close(2),
        "offset_wrong.listing": delivered(BASE, root, [a, b + 1]), "base_wrong.listing": delivered(0, root, [a, b]),
        "position_wrong.listing": delivered(BASE, root + (1 << 32), [a, b]),
        "all_65536": bytes(65536), "all_65537": bytes(65537),
    }
    rows = [("check", "-", "root", "right.listing")]
    rows += [("check", "example", "root", name) for name in sorted(listings)]
    rows += [("check", "example", key, "right.listing") for key in (str(root), "000%d" % root, str(a), str(li), "8192", "8193", "9" * 40)]
    rows += [("check", "example", str(a), "of_A.listing"), ("check", "samba", "root", "of_samba.listing"), ("check", "swapped", "root", "right.listing"),
             ("check", "entry_dropped", "root", "of_b.listing"), ("check", "entry_dropped", "root", "right.listing")]
    rows += [("check", hive, "root", name) for hive in ("not_regf", "not_hbin", "root_negative", "names_itself", "all_65537")
             for name in ("right.listing", "cut.listing")]
    rows += [("write", hive, "root", "-") for hive in sorted(hives)] + [("write", "example", key, "-") for key in (str(a), "8193")]
    return hives, listings, rows


def main():
    home = "crates/supplier_listing"
    hives_, listings, rows = commands()
    files = dict(hives_, **listings)
    for name in files:
        open("%s/data/%s" % (home, name), "wb").write(bytes(files[name]))
    files["-"] = example()
    open(home + "/stdin", "wb").write(example())
    open(home + "/args", "w").write("".join(word + "\n" for row in rows for word in row))
    answer = lambda verb, hive, key, name: check(bytes(files[hive]), key, files[name]) if verb == "check" else write(bytes(files[hive]), key)
    open(home + "/stdout", "wb").write(b"".join(answer(*row) for row in rows))
    home = "crates/hive_listing"
    open(home + "/stdin", "wb").write(example())
    open(home + "/stdout", "w").write(listing(bytes(example())))
    # the key `A` deleted: its cell, at 144, is free
    home = "crates/deleted_listing"
    hive = example().word(BASE + 144, 88)
    open(home + "/stdin", "wb").write(hive)
    open(home + "/stdout", "w").write(deleted(bytes(hive)))
    home = "crates/bins_listing"
    open(home + "/stdout", "w").write(bins_alone(open(home + "/stdin", "rb").read()))
    home = "crates/listing_cases"
    lines, calls = [], []
    for label, hive in hives():
        open("%s/data/%s" % (home, label), "wb").write(bytes(hive))
        lines.append(label + "\n" + listing(bytes(hive)))
        calls.append('    case(b"%s");' % label)
    open(home + "/stdout", "w").write("".join(lines))
    print("\n".join(calls))


if __name__ == "__main__":
    main()
