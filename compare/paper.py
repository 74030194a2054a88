#!/usr/bin/env python3
"""Document 01, and what has landed of document 02, read as a program, and nothing else: written from the papers, not from the Rust
and not from the Rattle (but for `SoFar`, a record that is the project's own).

    compare/paper.py < CASES > LINES

reads a stream of cases and writes one whole line for each (compare/README.md). Each test stands in the order of the paper's
sentences, which are quoted."""
import bisect
import collections
import functools
import itertools
import operator
import sys

# "Refusal numbers"
SHORT, OUTSIDE, BAD_SIZE, BAD_SIGN, BAD_NAME, NO_LIST, TOO_MANY, CUT_SHORT, NO_ROOM, BAD_BIN, BAD_CELL = range(1, 12)
TOO_LARGE, BAD_BUDGET, TOO_DEEP, OUT_OF_STEPS, NOT_FOUND = range(12, 17)
# document 02, orders 1, 6, 7, 9, 11 and 12
BAD_DATA, PAST_END, ALREADY_IN, NOT_PERMITTED, OTHER_PLACE, BAD_RECORD, NOT_THE_LIST = 17, 18, 19, 20, 21, 22, 23

MOST_COUNT = 1_048_576
MOST_BUDGET = 65_536


class Refused(Exception):
    """ "A refusal returns its number, the position of the list, bin, cell or record at fault .. and, from the walk, the lists
    read so far. Other fields are 0, except that NO ROOM also returns the places needed and the walk's entry count." Document 02,
    order 2, of the number dropped: "with 9, given too". """

    def __init__(self, number, position=0, lists=0, places=0, entries=0, dropped=0, why=None):
        super().__init__(number)
        self.number, self.position, self.lists, self.places, self.entries = number, position, lists, places, entries
        # which of a number's reasons it was: no part of an answer, `stored.py` counts them
        self.dropped, self.why = dropped, why

    def told(self):
        """The refusal of a walk or of one leaf list, whole."""
        return ["refused", self.number, self.position, self.lists, self.places, self.entries, self.dropped]


# "All numbers are little-endian."
def unsigned(image, at, width):
    return int.from_bytes(image[at:at + width], "little")


def signed(image, at):
    return int.from_bytes(image[at:at + 4], "little", signed=True)


# ---- "Base block"

def checksum(image):
    # 1: "under 508 bytes for a checksum"; "0 for numbers 1 and 4 on header or checksum input"
    if len(image) < 508:
        raise Refused(SHORT)
    # "The checksum is the XOR of the 127 words of bytes 0 to 507, 0 becoming 1 and FFFFFFFF becoming FFFFFFFE."
    x = 0
    for at in range(0, 508, 4):
        x ^= unsigned(image, at, 4)
    return {0: 1, 0xFFFFFFFF: 0xFFFFFFFE}.get(x, x)


# "Type 0 is primary, 1 log, 6 new log, every other number unknown; format 1 is direct load, others unknown."
TYPES = {0: "primary", 1: "log", 6: "newlog"}
FORMATS = {1: "direct"}


def base_block(image):
    # "Length is checked before signature."
    if len(image) < 4096:
        raise Refused(SHORT)
    if image[0:4] != b"regf":
        raise Refused(BAD_SIGN)
    u = lambda at, width=4: unsigned(image, at, width)
    # "primary and secondary sequence 4, 8; time 12 (8 bytes); major, minor 20, 24; type 28; format 32; root offset 36 (signed);
    # bins size 40; clustering 44; filename 48 (64 bytes); unnamed 112 (396 bytes); checksum 508."
    # "The raw number is given beside the kind." "it reports stored and computed."
    block = [u(4), u(8), u(12, 8), u(20), u(24), u(28), TYPES.get(u(28), "unknown"), u(32), FORMATS.get(u(32), "unknown"),
             signed(image, 36), u(40), u(44), u(508), checksum(image)]
    # "The extension at 512: two 16-byte ids, flags, a 16-byte id, signature, time (8 bytes), 3,512 bytes, boot type 4088, boot
    # recover 4092."
    at = 512
    widths = {}
    for name, width in [("rm", 16), ("log", 16), ("flags", 4), ("tm", 16), ("signature", 4), ("time", 8), ("remaining", 3512)]:
        widths[name] = (at, width)
        at += width
    assert at == 4088
    number = lambda name: unsigned(image, *widths[name])
    part = lambda name: image[widths[name][0]:sum(widths[name])]
    return (block + [number("flags"), number("signature"), number("time"), u(4088), u(4092)]
            + [hexed(image[48:112])] + summed(image[112:508])
            + [hexed(part("rm")), hexed(part("log")), hexed(part("tm"))] + summed(part("remaining")))


# ---- "Modules in order": "`is_big_data_block` is true exactly when bytes 4 and 5 exist and are `db`."

def is_big_data_block(image):
    return len(image) >= 6 and image[4:6] == b"db"


# ---- "Key and value records"

def record(image, position, fixed, sign, length_at):
    """The checks that both records share, "in order: 2, 1, 3, 4, 5". Gives the size's magnitude and the name's length."""
    # 2: "a position is greater than the image length"
    if position > len(image):
        raise Refused(OUTSIDE, position)
    left = len(image) - position
    # 1: "80 left for a key record, 24 for a value record"
    if left < fixed:
        raise Refused(SHORT, position)
    # 3: "a record's size magnitude is below its fixed part (80 or 24) or above the bytes left"
    size = abs(signed(image, position))
    if size < fixed or size > left:
        raise Refused(BAD_SIZE, position)
    # 4: "a signature is not one expected"
    if image[position + 4:position + 6] != sign:
        raise Refused(BAD_SIGN, position)
    # 5: "a name passes its cell's end"
    length = unsigned(image, position + length_at, 2)
    if fixed + length > size:
        raise Refused(BAD_NAME, position)
    return size, length


def key_numbers(image, p):
    """A key record's numbers, the magnitude of its size, and the length of its name."""
    # "size 0 (signed), "nk" 4, flags 6, time 8 (8 bytes), access 16, parent 20 (signed), subkeys 24, volatile subkeys 28, subkey
    # list 32, volatile list 36 (signed), values 40, value list 44 (signed), security 48, class 52 (signed), four largest sizes 56
    # to 68, work 72, name length 76 and class length 78 (16 bits each), name 80."
    size, length = record(image, p, 80, b"nk", 76)
    u = lambda at, width=4: unsigned(image, p + at, width)
    s = lambda at: signed(image, p + at)
    # "A negative size means allocated, a positive one free; both read."
    return [s(0), int(s(0) < 0), u(6, 2), u(8, 8), u(16), s(20), u(24), u(28), u(32), s(36), u(40), s(44), u(48), s(52),
            u(56), u(60), u(64), u(68), u(72), u(76, 2), u(78, 2)], size, length


def key_record(image, p):
    fields, size, length = key_numbers(image, p)
    # "The name and the slack (from the name's end to the cell's end) are handed back as parts of the caller's image"
    return fields + [hexed(image[p + 80:p + 80 + length])] + summed(image[p + 80 + length:p + size])


def value_record(image, p):
    # "Value record: size 0, "vk" 4, name length 6, data size 8, data offset 12, type 16, flags 20, name 24." The specification has
    # 16 bits of flags there, and two spare bytes after them.
    _, length = record(image, p, 24, b"vk", 6)
    u = lambda at, width=4: unsigned(image, p + at, width)
    size = signed(image, p)
    return [size, int(size < 0), u(6, 2), u(8), u(12), u(16), u(20, 2)], image[p + 24:p + 24 + length]


# ---- "Value lists and lookup"

def value_entries(image, count, offset, base):
    """The list's entries and its refusals without 9."""
    # "In order: count 0 succeeds with none; then 6; then 7"
    if count == 0:
        return []
    # 6: "value count above 0, list offset at most 0 or at least the image length"; "compares the offset without the base"
    if offset <= 0 or offset >= len(image):
        raise Refused(NO_LIST)
    # 7: "subkey or value count above 1,048,576"
    if count > MOST_COUNT:
        raise Refused(TOO_MANY)
    # "position = offset + base, then 2"
    position = offset + base
    if position > len(image):
        raise Refused(OUTSIDE, position)
    # "size word plus 4 bytes an entry must be present, else 8"
    if position + 4 + 4 * count > len(image):
        raise Refused(CUT_SHORT, position)
    # "The entries are given as stored, relative."
    return [unsigned(image, position + 4 + 4 * i, 4) for i in range(count)]


def value_list(image, count, offset, base, out):
    entries = value_entries(image, count, offset, base)
    # "then 9"
    if len(entries) > len(out):
        raise Refused(NO_ROOM, places=len(entries))
    out[:len(entries)] = entries
    return entries


def lower(name):
    """ "ASCII lower case only" """
    return bytes(x + 32 if 65 <= x <= 90 else x for x in name)


def lookup(image, count, offset, base, name):
    # "Lookup by name goes through the list in order." "the list's refusals without 9 come first"
    for entry in value_entries(image, count, offset, base):
        # "The first match or the first unreadable record decides; the latter gives its refusal."
        position = entry + base
        fields, stored = value_record(image, position)
        # "A stored name matches if both lengths are 0, or if flag 0001 is set and the bytes are equal after ASCII lower case only."
        if len(stored) == 0 and len(name) == 0 or fields[6] & 1 and lower(stored) == lower(name):
            # "A match gives the record and its position"
            return [position] + fields
    # 16: "every record reads and none matches"; "Count 0 is NOT FOUND."
    raise Refused(NOT_FOUND)


# ---- "The subkey walk"

KINDS = {b"ri": 4, b"lf": 8, b"lh": 8, b"li": 4}


def one_list(image, position):
    """ "2, then 8 if under 8 bytes are left, 4 if bytes 4 and 5 aren't `ri`, `lf`, `lh` or `li`, 8 if its entries pass the
    image." "Count: 16 bits at 6; entries at 8, of 8 bytes (`lf`, `lh`: offset, hint) or 4 (`li`, `ri`)." """
    if position > len(image):
        raise Refused(OUTSIDE, position)
    if len(image) - position < 8:
        raise Refused(CUT_SHORT, position)
    sign = image[position + 4:position + 6]
    if sign not in KINDS:
        raise Refused(BAD_SIGN, position)
    each, count = KINDS[sign], unsigned(image, position + 6, 2)
    if position + 8 + each * count > len(image):
        raise Refused(CUT_SHORT, position)
    return sign, each, count


def ordinary(image, position, named):
    """How the walk and one leaf list read a list: document 01 asks for nothing of who names it."""
    return one_list(image, position)


# Document 02, order 9: "`lf` is permitted above minor version 2, `lh` above 4". The other two kinds are not spoken of: they are permitted.
PERMITTED_ABOVE = {b"lf": 2, b"lh": 4}


def strict(minor):
    """The same by the "strict profile beside the ordinary reading", of a hive of this minor version. `named`: an `ri` list names it."""

    def read(image, position, named):
        # "Refusals, after those of a single list in 01"
        sign, each, count = one_list(image, position)
        # "20 NOT PERMITTED for the kind or for `ri` under `ri`"; its position is 0: "every number above 16"
        if sign in PERMITTED_ABOVE and minor <= PERMITTED_ABOVE[sign]:
            raise Refused(NOT_PERMITTED, why="kind")
        if sign == b"ri" and named:
            raise Refused(NOT_PERMITTED, why="`ri` under `ri`")
        # "then 3 for a size word that is not negative, too small for the entries or past the image"; "every list's entries must lie
        # inside its own cell, which must be allocated". The entries stand at 8, and a list of none still has its 8 bytes.
        word = signed(image, position)
        for why, wrong in (("not negative", word >= 0), ("too small", -word < 8 + each * count), ("past the image", position - word > len(image))):
            if wrong:
                raise Refused(BAD_SIZE, position, why=why)
        return sign, each, count

    return read


def kept_of(named, base):
    # "A leaf entry whose offset plus base is 4,294,967,296 or more is dropped; others are kept as that sum."
    return [x + base for x in named if x + base < 4_294_967_296]


def dropped_of(named, base):
    # "A leaf entry whose offset plus base is 4,294,967,296 or more is dropped"; document 02, order 2: the number of these "is
    # defined by its own count over the entries"
    return sum(x + base >= 4_294_967_296 for x in named)


def leaf(image, base, position, out, read=ordinary):
    """One leaf list by itself: no walk reads lists, so none is told, and no `ri` list names it."""
    # the refusals of one list
    sign, each, n = read(image, position, False)
    # 4: "a signature is not one expected": an `ri` list has no leaf entries
    if sign == b"ri":
        raise Refused(BAD_SIGN, position)
    named = [unsigned(image, position + 8 + each * i, 4) for i in range(n)]
    kept, dropped = kept_of(named, base), dropped_of(named, base)
    # order 2: "It equals entries minus kept (with 9, given too, minus the places needed)"
    assert dropped == n - len(kept)
    # "9 comes after all others"; "the places needed and the walk's entry count", here the list's
    if len(kept) > len(out):
        raise Refused(NO_ROOM, 0, 0, len(kept), n, dropped)
    # "On success the output is written from the first place on"
    out[:len(kept)] = kept
    # "offsets kept .. and leaf entries, dropped ones included"; order 2: "Each leaf list's answer .. give the number dropped as a
    # further number"
    return kept, n, dropped


def walked(image, count, offset, base, budget, read=ordinary):
    """The walk with no regard to room: its refusals without 9."""
    # "From a key record: 13, then 7; count 0 succeeds and reads nothing."
    if budget > MOST_BUDGET:
        raise Refused(BAD_BUDGET)
    if count > MOST_COUNT:
        raise Refused(TOO_MANY)
    kept, lists, entries, dropped = [], 0, 0, 0
    # "The top list has level 1; a list named in an `ri` list lies one level lower." "Entries are followed depth first, in order."
    # What is still to be reached, the next one last:
    ahead = [(offset, 1)] if count > 0 else []
    while ahead:
        offset, level = ahead.pop()
        # "On reaching a list, at its offset plus base: 14, 15, 2, then 8 .. 4 .. 8"
        position = offset + base
        if level == 9:
            raise Refused(TOO_DEEP, position, lists)
        if lists == budget:
            raise Refused(OUT_OF_STEPS, position, lists)
        # order 9: "and before it counts as read"; below the top list is what an `ri` list names
        try:
            sign, each, n = read(image, position, level > 1)
        except Refused as r:
            raise Refused(r.number, r.position, lists, why=r.why) from None
        # "Then it counts as read." "A list reached twice counts twice."
        lists += 1
        named = [unsigned(image, position + 8 + each * i, 4) for i in range(n)]
        if sign == b"ri":
            ahead.extend((x, level + 1) for x in reversed(named))
        else:
            # "leaf entries, dropped ones included"
            entries += n
            kept.extend(kept_of(named, base))
            dropped += dropped_of(named, base)
    # order 2: "It equals entries minus kept"
    assert dropped == entries - len(kept)
    # "The answer gives offsets kept, lists read, and leaf entries"; "the walk's .. give the number dropped as a further number"
    return kept, lists, entries, dropped


def walk(image, count, offset, base, budget, out, read=ordinary):
    kept, lists, entries, dropped = walked(image, count, offset, base, budget, read)
    # "9 comes after all others"; "the lists read so far"; "the places needed and the walk's entry count"; order 2: "with 9,
    # given too"
    if len(kept) > len(out):
        raise Refused(NO_ROOM, 0, lists, len(kept), entries, dropped)
    # "On success the output is written from the first place on"
    out[:len(kept)] = kept
    return kept, lists, entries, dropped


# ---- document 02, order 11: "A record that knows its place"

# "The key record is to carry its position and base": these two, and the numbers of document 01 in their order, the size with whether it
# means allocated
Key = collections.namedtuple("Key", "position base size allocated flags time access parent subkeys volatile_subkeys subkey_list "
                             "volatile_list values value_list security class_at largest_1 largest_2 largest_3 largest_4 work name_length class_length")


def key_at(image, position, base):
    return Key(position, base, *key_numbers(image, position)[0])


def is_in_place(image, key):
    """Whether the bytes at the record's position read, with its base, "as this same record": its every number. The name and the slack
    are no numbers of it."""
    try:
        return key_at(image, key.position, key.base) == key
    except Refused:
        return False


def in_place(image, key):
    # "new, 21 OTHER PLACE, before all others, where the bytes at that position do not read as this same record"; position 0: "every
    # number above 16"
    if not is_in_place(image, key):
        raise Refused(OTHER_PLACE)


# "walk and value list take the base from it"
def sub_keys_of(image, key, budget, out, read=ordinary):
    in_place(image, key)
    return walk(image, key.subkeys, key.subkey_list, key.base, budget, out, read)


def sub_key_counts_of(image, key, budget, read=ordinary):
    in_place(image, key)
    return walked(image, key.subkeys, key.subkey_list, key.base, budget, read)


def value_list_of(image, key, out):
    in_place(image, key)
    return value_list(image, key.values, key.value_list, key.base, out)


def find_value_of(image, key, name):
    in_place(image, key)
    return lookup(image, key.values, key.value_list, key.base, name)


# ---- "Bins and cells"

def bin_size(image, base, at, rest):
    """The size of the bin at a position, with so many bytes to the end of the bins; None where there is no bin."""
    # "A bin has "hbin", its own relative offset at 4, its size at 8, a nonzero multiple of 4,096 within the rest; else 10, also
    # where the rest is too short for a header."
    length = unsigned(image, at + 8, 4)
    if (rest < 32 or image[at:at + 4] != b"hbin" or unsigned(image, at + 4, 4) != at - base
            or length == 0 or length % 4096 != 0 or length > rest):
        return None
    return length


def cell_word(image, cell, bin_end):
    """The size word of the cell at a position of a bin; None where there is no cell."""
    # "From its byte 32 cells fill it: size magnitude a nonzero multiple of 8 within the bin; else 11."
    # a size word that passes the bin's end leaves no cell "within the bin"
    word = signed(image, cell) if cell + 4 <= bin_end else 0
    if word == 0 or word % 8 != 0 or abs(word) > bin_end - cell:
        return None
    return word


def bins_and_cells(image, base, size):
    """The number of the bins, and each cell's position and size word."""
    # "Base plus size past the image: 8, never 2."; "the base for 8 on the bins"
    if base + size > len(image):
        raise Refused(CUT_SHORT, base)
    count, cells = 0, []
    # "Bins fill the bins size exactly from the base."
    at, end = base, base + size
    while at < end:
        length = bin_size(image, base, at, end - at)
        if length is None:
            raise Refused(BAD_BIN, at)
        cell, bin_end = at + 32, at + length
        while cell < bin_end:
            word = cell_word(image, cell, bin_end)
            if word is None:
                raise Refused(BAD_CELL, cell)
            cells.append((cell, word))
            cell += abs(word)
        # "Each bin is judged with its cells before the next."
        count += 1
        at += length
    return count, cells


def bins(image, base, size):
    count, cells = bins_and_cells(image, base, size)
    # "Answers: bins, allocated and free cells and bytes." "A negative size means allocated, a positive one free"
    used, free = [-w for _, w in cells if w < 0], [w for _, w in cells if w > 0]
    # "Allocated plus free bytes plus 32 per bin equal the bins size"
    assert sum(used) + sum(free) + 32 * count == size
    return [count, len(used), len(free), sum(used), sum(free)]


# ---- document 02, order 4: "Keys that were deleted"

def step(lent, start, place):
    """ "a reader that stands on one cell of the lent bins and tells the cell and the next place": it stands in the bin that starts at
    `start`, on the cell at `place`, or before the bin's first cell where both are the same. Places count from the bins' start. Gives the
    cell's place, its size word and the next spot; None at the end of the bins. """
    if start == place == len(lent):
        return None
    # the bin by the rules above, the base being 0
    size = bin_size(lent, 0, start, max(len(lent) - start, 0))
    if size is None:
        raise Refused(BAD_BIN, start)
    over = start + size
    # "From its byte 32 cells fill it": before that byte there is none
    cell = start + 32 if place == start else place
    word = cell_word(lent, cell, over) if cell >= start + 32 else None
    if word is None:
        raise Refused(BAD_CELL, cell)
    # "tells the cell and the next place": behind a bin's last cell the next bin starts
    after = cell + abs(word)
    return cell, word, (over, over) if after == over else (start, after)


def cells_by_steps(lent):
    """Each cell's place and size word, by the reader, from the start of bins that are right to their end."""
    cells, spot = [], (0, 0)
    while (told := step(lent, *spot)) is not None:
        cells.append(told[:2])
        spot = told[2]
    return cells


def reads_as_key(image, position):
    """ "reads as a key record by document 01" """
    try:
        key_record(image, position)
        return True
    except Refused:
        return False


def deleted_keys(image, base, size, out):
    # "Within checked bins"; "Refusals: those of the bins"
    _, cells = bins_and_cells(image, base, size)
    # "The work goes through a reader": it goes through the same cells
    assert cells_by_steps(image[base:base + size]) == [(at - base, word) for at, word in cells]
    # "list the image position of each free cell that reads as a key record by document 01"; "A negative size means allocated, a
    # positive one free"; "Every such cell appears once, in rising position; cells within a free cell aren't searched."
    found = [at for at, word in cells if word > 0 and reads_as_key(image, at)]
    # "then 9"; "NO ROOM also returns the places needed"
    if len(found) > len(out):
        raise Refused(NO_ROOM, places=len(found))
    # "On success the output is written from the first place on"
    out[:len(found)] = found
    return found


# ---- document 02, order 6: "Bins as they arrive"

def judgements(joined, size):
    """All that can be judged of bins of a size while these of their bytes are in, in order: of each judgement how many bytes are in when
    it is made, and a bin (None), a cell by its size word, or the refusal, whose place counts from the base."""
    at = 0
    while at < size and at <= len(joined):
        # "a rest too short for a header with the part that ends the bin before it or with the first part"
        if size - at < 32:
            yield at, Refused(BAD_BIN, at)
            return
        # "A bin is judged once its 32 header bytes are in"
        if at + 32 > len(joined):
            return
        length = bin_size(joined, 0, at, size - at)
        yield at + 32, Refused(BAD_BIN, at) if length is None else None
        if length is None:
            return
        cell, at = at + 32, at + length
        # "a cell once its 4"
        while cell < at and cell + 4 <= len(joined):
            word = cell_word(joined, cell, at)
            yield cell + 4, Refused(BAD_CELL, cell) if word is None else word
            if word is None:
                return
            cell += abs(word)
        if cell < at:
            return


def with_one(totals, made):
    """The totals with a bin or a cell more."""
    bins_, used, free, used_bytes, free_bytes = totals
    if made is None:
        return bins_ + 1, used, free, used_bytes, free_bytes
    return (bins_, used + 1, free, used_bytes - made, free_bytes) if made < 0 else (bins_, used, free + 1, used_bytes, free_bytes + made)


def arriving(base, size, ends, image):
    """ "The bin and cell check is to take the bins in consecutive parts, a part of no bytes included, with base and bins size given
    first." The parts are told by where each of them ends in the image. Gives what each part without a refusal is answered, the bytes
    that are in and the totals of what is judged; then the refusal of all others, or None; and the end's answer."""
    # "18 PAST END, where a part exceeds what remains, given before any byte of that part is looked at"; position 0: "every number above 16"
    within = bisect.bisect_right(ends, size)
    joined = image[:ends[within - 1] if within else 0]
    refusal = Refused(PAST_END) if within < len(ends) else None
    made = list(judgements(joined, size))
    whens = [when for when, _ in made]
    if made and isinstance(made[-1][1], Refused):
        # the refusal is the last that is judged, by the part with which its bytes are in; "After a refusal every later part gives the same"
        when, fault = made.pop()
        first = bisect.bisect_left(ends, when)
        if first < within:
            within, refusal = first, Refused(fault.number, base + fault.position)
    totals = list(itertools.accumulate((what for _, what in made), with_one, initial=(0,) * 5))
    good = [(end, *totals[bisect.bisect_right(whens, end)]) for end in ends[:within]]
    if refusal is not None:
        end = refusal
    # "8 is given only when the end is declared early"; "the base for 8 on the bins"
    elif len(joined) < size:
        end = Refused(CUT_SHORT, base)
    else:
        end = list(totals[-1])
    # "Where the joined bytes number exactly the bins size, or a bin or cell refusal comes before that, the answer is the one that the
    # whole check gives on a complete hive with these bytes": what has not come is taken as zeros
    if size <= IMAGE_MOST and (refusal is None and len(joined) == size or refusal is not None and refusal.number in (BAD_BIN, BAD_CELL)):
        assert told_whole(end) == whole_check(base, size, joined)
    return good, refusal, end


def told_whole(end):
    """An answer of the bins as its line has it."""
    return ["refused", end.number, end.position] if isinstance(end, Refused) else ["ok"] + end


def whole_check(base, size, joined):
    """The whole check's answer on a hive with these bytes at the base, and zeros behind them up to the bins size. Before the base stand
    zeros, and of a base too large for an image only the last 64, the positions being put right."""
    before = base if base <= IMAGE_MOST else 64
    try:
        return ["ok"] + bins(bytes(before) + joined + bytes(size - len(joined)), before, size)
    except Refused as r:
        return ["refused", r.number, r.position + base - before]


def row_of_parts(base, size, times, name, image):
    # a row of lengths, so many times; a part that passes the image's end is what is left of it
    lengths = [unsigned(name, 4 * i, 4) for i in range(len(name) // 4)] * times
    ends = [min(end, len(image)) for end in itertools.accumulate(lengths)]
    good, refusal, end = arriving(base, size, ends, image)
    told = good + [(refusal.number, refusal.position)] * (len(ends) - len(good)) if refusal is not None else good
    line = told_whole(end) + [len(ends), len(good)] + sums(list(itertools.chain.from_iterable(told)))
    if len(ends) <= FEW:
        for part in told:
            line += ["part", "ok" if len(part) > 2 else "refused", *part]
    return line


class SoFar:
    """The record between two parts, of any numbers. It is the project's own and in neither paper: what follows are the definitions of
    crates/bins_arriving/specs/Arriving.antt, byte by byte. The answer is five totals, or a refusal's number and position."""

    def __init__(self, base, size, taken, place, over, head, answer):
        self.base, self.size, self.taken, self.place, self.over, self.head, self.answer = base, size, taken, place, over, bytearray(head), answer

    def refused(self):
        return len(self.answer) == 2

    def settle(self):
        if self.taken == self.place == self.over and 0 < self.size - self.place < 32:
            self.answer = [BAD_BIN, self.base + self.place]

    def add(self, more):
        # "a sum of 64 bits, which stays at the largest"
        self.answer = [min(x + y, 2 ** 64 - 1) for x, y in zip(self.answer, more)]

    def judge_bin(self):
        sign, own, size = (unsigned(self.head, at, 4) for at in (0, 4, 8))
        left = max(self.size - self.place, 0)
        if left >= 32 and sign == 0x6E696268 and own == self.place and size > 0 and size % 4096 == 0 and size <= left:
            self.place, self.over = self.place + 32, self.place + size
            self.add([1, 0, 0, 0, 0])
        else:
            self.answer = [BAD_BIN, self.base + self.place]

    def judge_cell(self):
        word = signed(self.head, 0)
        size = abs(word)
        if size > 0 and size % 8 == 0 and size <= max(self.over - self.place, 0):
            self.place += size
            self.add([0, 1, 0, size, 0] if word < 0 else [0, 0, 1, 0, size])
        else:
            self.answer = [BAD_CELL, self.base + self.place]

    def eat(self, x):
        if self.taken < self.place:
            self.taken += 1
        else:
            at = self.taken - self.place
            if at < 12:
                self.head[at] = x
            self.taken += 1
            if self.taken - self.place >= (32 if self.place == self.over else 4):
                if self.place == self.over:
                    self.judge_bin()
                else:
                    self.judge_cell()
        if not self.refused():
            self.settle()

    def part(self, part):
        if self.refused():
            return
        if max(self.size - self.taken, 0) < len(part):
            self.answer = [PAST_END, 0]
            return
        self.settle()
        for x in part:
            if self.refused():
                return
            self.eat(x)

    def ended(self):
        return [CUT_SHORT, self.base] if not self.refused() and self.taken < self.size else self.answer

    @staticmethod
    def told(answer):
        return ["ok" if len(answer) > 2 else "refused"] + answer


def one_part(words, name, part):
    """A record of the case's five words and its name: twelve bytes of a header, a byte that is 0 for totals, and these, or the refusal."""
    answer = [unsigned(name, 13 + 8 * i, 8) for i in range(5)] if unsigned(name, 12, 1) == 0 else [unsigned(name, 13, 4), unsigned(name, 17, 8)]
    so_far = SoFar(*words, name[:12].ljust(12, b"\0"), answer)
    so_far.part(part)
    return (so_far.told(so_far.ended()) + [so_far.base, so_far.size, so_far.taken, so_far.place, so_far.over, hexed(so_far.head)]
            + so_far.told(so_far.answer))


# ---- document 02, order 7: "Totals beside the keys"

class Table:
    """ "Keep a table of key position (lent with the key record) and kept number, with the grand total stored." Order 11: "The table of
    order 7 stores the position from it", from the record. A place has whether it is
    taken, the position and the number. A table may be written by hand too, and then be one that no call makes. What 02 leaves open is the
    project's own: of the free places the first is taken, of two with one position the first is meant, and the total has 64 bits. """

    def __init__(self):
        # "up to 256 chosen keys"; "a new image starts an empty table"
        self.places, self.total, self.by_hand = [(False, 0, 0)] * 256, 0, False

    def lay(self, at, place, more):
        """Another content of a place, and by how much the total grows, in the 64 bits that it has."""
        self.places[at] = place
        self.total = (self.total + more) % 2 ** 64
        # "Adding, replacing and removing an entry keep the total equal to the sum over the entries"
        entries = [(position, kept) for taken, position, kept in self.places if taken]
        assert self.by_hand or self.total == sum(kept for _, kept in entries) and len(dict(entries)) == len(entries)

    def place_of(self, position):
        """The first place with the key at a position; None where it is not in."""
        return next((i for i, (taken, its, _) in enumerate(self.places) if taken and its == position), None)

    def found(self, position):
        # "or 16 on replacing and removing"; "0 for numbers .. 9 .. 16 and every number above 16"
        at = self.place_of(position)
        if at is None:
            raise Refused(NOT_FOUND)
        return at

    def add(self, image, key, kept_by):
        # order 11: 21 "before all others"
        in_place(image, key)
        # "Refusals, in order: 19 ALREADY IN on adding"
        if self.place_of(key.position) is not None:
            raise Refused(ALREADY_IN)
        # "on adding and replacing the walk's refusals without 9"
        kept = kept_by(key)
        # "on adding 9, with 257 places needed, when all 256 are taken"
        free = [i for i, (taken, _, _) in enumerate(self.places) if not taken]
        if not free:
            raise Refused(NO_ROOM, places=257)
        # "freed places are used again"
        self.lay(free[0], (True, key.position, kept), kept)
        return kept

    def replace(self, image, key, kept_by):
        # order 11: 21 "before all others"
        in_place(image, key)
        at = self.found(key.position)
        kept = kept_by(key)
        self.lay(at, (True, key.position, kept), kept - self.places[at][2])
        return kept

    def remove(self, position):
        at = self.found(position)
        kept = self.places[at][2]
        self.lay(at, (False, 0, 0), -kept)
        return kept

    def kept_of(self, position):
        return self.places[self.found(position)][2]

    def told(self):
        return [sum(taken for taken, _, _ in self.places), self.total] + summed([int(x) for place in self.places for x in place])


def made_up(position, base, count, offset):
    """The key record of kinds 0 and 1 (compare/README.md): one that can stand in an image, and need not."""
    return Key(position, base, -88, 1, 4002, 4003, 4004, 4005, count, 4006, offset, 4007, 4008, 4009, 4010, 4011, 4012, 4013, 4014, 4015, 4016, 5, 4018)


def one_call(table, kind, position, k, base, budget, count, offset, walks, image):
    """What a call answers, at the k-th position; None where no call is made."""
    def kept_by(key):
        by = key.subkeys, key.subkey_list, key.base, budget
        if by not in walks:
            walks[by] = len(walked(image, *by)[0])
        return walks[by]

    if kind in (0, 1, 8, 9):
        # "lent with the key record"
        key = key_at(image, position, base) if kind > 1 else made_up(position, base, count, offset)
        return table.add(image, key, kept_by) if kind in (0, 8) else table.replace(image, key, kept_by)
    if kind == 2:
        return table.remove(position)
    if kind == 3:
        return table.kept_of(position)
    if kind == 4:
        return table.total
    if kind == 5:
        table.by_hand = True
        table.places[(base + k) % 256] = (budget % 2 == 1, position, count)
    elif kind == 6:
        table.by_hand, table.total = True, position
    elif kind == 7:
        table.__init__()
    return None


def calls_made(name, image):
    """The calls of a row: of each its kind, what it is answered and the stored total behind it; and the table that they leave."""
    table, walks, calls = Table(), {}, []
    for at in range(0, len(name) - 31, 32):
        kind, times, low, high, base, budget, count, offset = (unsigned(name, at + 4 * i, 4) for i in range(8))
        # how far the positions of a call lie apart: a record that is made up has its list in this word
        step = offset if kind > 1 and offset > 0 else 1
        for k in range(times):
            before = list(table.places), table.total
            try:
                answer = one_call(table, kind, (low + 2 ** 32 * high + k * step) % 2 ** 64, k, base, budget, count, offset, walks, image)
                if answer is not None:
                    calls.append((kind, ["ok", answer], table.total))
            except Refused as r:
                # "A refused call changes nothing."
                assert (table.places, table.total) == before
                calls.append((kind, r.told(), table.total))
    return calls, table


def row_of_calls(name, image):
    calls, table = calls_made(name, image)
    line = ["ok", len(calls), sum(told[0] == "ok" for _, told, _ in calls)] + sums([x for _, told, total in calls for x in told[1:] + [total]])
    if len(calls) <= FEW:
        for _, told, _ in calls:
            line += ["call", *told]
    return line + table.told()


# ---- order 11 again: a record given with an image, and a record's own place

def given(name):
    """The record that a name holds (compare/README.md), and the text behind it; what the name lacks is 0."""
    head = name[:96].ljust(96, b"\0")
    u = lambda at, width=4: unsigned(head, 16 + at, width)
    s = lambda at: signed(head, 16 + at)
    return Key(unsigned(head, 0, 8), unsigned(head, 8, 4), s(0), int(unsigned(head, 12, 4) != 0), u(6, 2), u(8, 8), u(16), s(20), u(24), u(28), u(32), s(36),
               u(40), s(44), u(48), s(52), u(56), u(60), u(64), u(68), u(72), u(76, 2), u(78, 2)), name[96:]


def on_a_table(image, key, adding, filled, budget):
    """An entry added to a table, or replaced in it, and the table after it: empty, or its first place with the record's position and a number."""
    table = Table()
    if filled % 2 == 1:
        table.by_hand, table.places[0], table.total = True, (True, key.position, filled), filled
    before = list(table.places), table.total
    kept_by = lambda key: len(walked(image, key.subkeys, key.subkey_list, key.base, budget)[0])
    try:
        told = ["ok", table.add(image, key, kept_by) if adding else table.replace(image, key, kept_by)]
    except Refused as r:
        # "A refused call changes nothing."
        assert (table.places, table.total) == before
        told = r.told()
    return told + table.told()


def with_a_record(minor, function, filled, budget, room, name, image):
    key, text = given(name)
    if function in (1, 3):
        return told_walk(room, lambda out: sub_keys_of(image, key, budget, out, ordinary if function == 1 else strict(minor)))
    if function in (2, 4):
        return told_counts(lambda: sub_key_counts_of(image, key, budget, ordinary if function == 2 else strict(minor)))
    if function == 5:
        return told_values(room, lambda out: value_list_of(image, key, out))
    if function == 6:
        return told_lookup(lambda: find_value_of(image, key, text))
    if function in (7, 8):
        return on_a_table(image, key, function == 7, filled, budget)
    return ["ok", int(is_in_place(image, key))]


def place_told(image, position, base):
    try:
        key = key_at(image, position, base)
    except Refused as r:
        return ["refused", r.number, r.position]
    return ["ok", key.position, key.base, int(is_in_place(image, key))]


# ---- "Name hash"

def upper(x):
    """ "97 to 122 and 224 to 254 except 247 are 32 less, 255 is 376, the others unchanged." Document 02, order 5: "Document 01's upper
    case is wrong above 255: units 1072 to 1103 become 32 less and 1104 to 1119 become 80 less." """
    if 97 <= x <= 122 or 224 <= x <= 254 and x != 247 or 1072 <= x <= 1103:
        return x - 32
    if 1104 <= x <= 1119:
        return x - 80
    return 376 if x == 255 else x


def name_hash(flags, name):
    # "Characters are bytes, or 16-bit units if flag 0020 of the key is clear."
    if flags & 0x0020:
        units = list(name)
    else:
        # 5: "a 16-bit name to be hashed has odd length"; position 0: "5 on a hash"
        if len(name) % 2 == 1:
            raise Refused(BAD_NAME)
        units = [unsigned(name, at, 2) for at in range(0, len(name), 2)]
    # "From 0, for each character: hash times 37 plus the upper-case character, modulo 2^32."
    h = 0
    for x in units:
        h = (h * 37 + upper(x)) % 2 ** 32
    return h


# ---- a cell at a position: document 02, order 1, "cell by cell in reading order: 2, 8 (size word .. not there, or a cell past the
# image) .. 17 BAD DATA for a cell too small"

def cell_at(image, position, least):
    # 2: "a position is greater than the image length"
    if position > len(image):
        raise Refused(OUTSIDE, position)
    left = len(image) - position
    # 8: "size word .. not there"
    if left < 4:
        raise Refused(CUT_SHORT, position)
    # 8: "or a cell past the image"
    word = signed(image, position)
    if abs(word) > left:
        raise Refused(CUT_SHORT, position)
    # "a cell too small": that is for the reader to refuse. "A negative size means allocated, a positive one free; both read."
    return ["small" if abs(word) < least else "held", abs(word), int(word < 0)]


# ---- document 02, order 1: "Value data, whole"

MOST_IN_ONE = 16_344  # bytes of a value's data in a cell of its own, and of a segment


def data_cell(image, position, least):
    """A cell of the data, "cell by cell in reading order: 2, 8 .. 17 BAD DATA for a cell too small". Its position."""
    held, _, _ = cell_at(image, position, least)
    # 17: position 0, "every number above 16"
    if held == "small":
        raise Refused(BAD_DATA)
    return position


def big_data(image, position, segments):
    """The `db` cell at a position. Gives the offset of the segment list."""
    # "Refusals, cell by cell in reading order: 2"
    if position > len(image):
        raise Refused(OUTSIDE, position)
    left = len(image) - position
    # "8 (.. for `db`, 12 bytes not there, or a cell past the image)"
    if left < 12 or abs(signed(image, position)) > left:
        raise Refused(CUT_SHORT, position)
    # "4 for `db`"
    if image[position + 4:position + 6] != b"db":
        raise Refused(BAD_SIGN, position)
    # "17 BAD DATA for a cell too small or, on the `db` cell, a wrong segment count"; "number of segments at 6"
    if abs(signed(image, position)) < 12 or unsigned(image, position + 6, 2) != segments:
        raise Refused(BAD_DATA)
    # "offset of the segment list at 8"
    return unsigned(image, position + 8, 4)


def data_parts(image, base, minor, raw, offset):
    """Where a value's data stands: parts of bytes, each with its start and its length. Its refusals without 9."""
    # "with the top bit of the data size set, the data is the first bytes of the offset field, at most 4"
    if raw >= 2 ** 31:
        size = raw - 2 ** 31
        # "also 17 for a resident size above 4"
        if size > 4:
            raise Refused(BAD_DATA)
        return [(offset.to_bytes(4, "little"), 0, size)]
    # "a data size of 0 gives no bytes and no cell is read"
    if raw == 0:
        return []
    # "When the minor version is above 3 and the size above 16,344 it is a `db` cell"; "Otherwise it is in a cell after the size word"
    if not (minor > 3 and raw > MOST_IN_ONE):
        return [(image, data_cell(image, offset + base, 4 + raw) + 4, raw)]
    # "every segment but the last giving 16,344 bytes, the segments exactly as many as needed"
    lengths = [MOST_IN_ONE] * (raw // MOST_IN_ONE) + ([raw % MOST_IN_ONE] if raw % MOST_IN_ONE else [])
    listed = big_data(image, offset + base, len(lengths))
    # "cell by cell in reading order": the list, then each segment
    listed = data_cell(image, listed + base, 4 + 4 * len(lengths))
    return [(image, data_cell(image, unsigned(image, listed + 4 + 4 * i, 4) + base, 4 + length) + 4, length)
            for i, length in enumerate(lengths)]


def value_data(image, base, minor, raw, offset, out):
    parts = data_parts(image, base, minor, raw, offset)
    size = sum(length for _, _, length in parts)
    # "last 9"; "NO ROOM also returns the places needed"
    if size > len(out):
        raise Refused(NO_ROOM, places=size)
    # "Copy a value's data into a lent buffer"; "the places after the last one written keep their old contents"
    out[:size] = b"".join(source[at:at + length] for source, at, length in parts)
    return size


# ---- document 02, order 10: "From li to lh and back"

def entries_of(lent, position, kind):
    """The entries of the list at a position, which is to be of one kind: of each the bytes, as stored."""
    # "Refusals: those of one list"; its position counts from the start of the slice that it is in
    sign, each, count = one_list(lent, position)
    # "BAD SIGN for another kind"
    if sign != kind:
        raise Refused(BAD_SIGN, position)
    return [lent[at:at + each] for at in range(position + 8, position + 8 + each * count, each)]


def hash_of(image, position):
    """ "with each hash worked out from the key record that the entry names"; "those of the key record or hash" """
    # "A negative size means allocated, a positive one free; both read."
    _, length = record(image, position, 80, b"nk", 76)
    return name_hash(unsigned(image, position + 6, 2), image[position + 80:position + 80 + length])


def as_cell(kind, entries, out):
    """The entries as an allocated cell of one kind in a lent buffer. Gives the cell's size."""
    # "Count: 16 bits at 6; entries at 8"
    content = kind + len(entries).to_bytes(2, "little") + b"".join(entries)
    # "Both give the smallest multiple of 8 as size": that holds the size word and these
    size = next(n for n in range(4 + len(content), 4 + len(content) + 8) if n % 8 == 0)
    # "then 9"; "NO ROOM also returns the places needed"
    if size > len(out):
        raise Refused(NO_ROOM, places=size)
    # "A negative size means allocated"; "and zero the rest of the cell"; "the places after the last one written keep their old contents"
    out[:size] = (-size).to_bytes(4, "little", signed=True) + content + bytes(size - 4 - len(content))
    return size


def write_lh(lent, position, image, base, out):
    """ "Write an `li` list as an allocated `lh` cell in a lent buffer" """
    entries, hashes = [], {}
    # "entry by entry"
    for offset in entries_of(lent, position, b"li"):
        named = unsigned(offset, 0, 4) + base
        # "2 for an offset plus base above 32 bits"
        if named >= 4_294_967_296:
            raise Refused(OUTSIDE, named)
        # a key that was named before has the same hash again
        if named not in hashes:
            hashes[named] = hash_of(image, named).to_bytes(4, "little")
        # "entries at 8, of 8 bytes (`lf`, `lh`: offset, hint)"
        entries.append(offset + hashes[named])
    return as_cell(b"lh", entries, out)


def write_li(lent, position, out):
    """ "and write an `lh` list as `li`" """
    return as_cell(b"li", [entry[:4] for entry in entries_of(lent, position, b"lh")], out)


def there_and_back(image, position, base, li_first, room):
    """Both steps, each with a buffer of so many bytes: what it is answered, and the buffer after it; the second where the first succeeds."""
    as_lh = lambda lent, at, out: write_lh(lent, at, image, base, out)
    kind, first, second = (b"lh", write_li, as_lh) if li_first else (b"li", as_lh, write_li)
    said, there = in_bytes(room, lambda out: first(image, position, out))
    if said[0] != "ok":
        return [(said, there)]
    # "the second lent the first's cell beside the same image"
    again, back = in_bytes(room, lambda out: second(there[:said[1]], 0, out))
    if again[0] == "ok":
        old, new = entries_of(image, position, kind), entries_of(back[:again[1]], 0, kind)
        # "from `li` and back gives the same entries; from `lh` and back too"
        assert [x[:4] for x in new] == [x[:4] for x in old]
        # "with hashes equal if the old ones were right"
        right = all(unsigned(x, 4, 4) == hash_of(image, unsigned(x, 0, 4) + base) for x in set(old) if kind == b"lh")
        assert new == old or not right
    return [(said, there), (again, back)]


# ---- document 02, order 12: "Check another tool's listing"

# "Kind 1 opens .. kind 2 is one offset (four), kind 3 closes with the number of offsets (four)", and how many bytes of content each has
OPENS, NAMES, CLOSES = 1, 2, 3
CONTENT = {OPENS: 4 + 8, NAMES: 4, CLOSES: 4}


def house_record(kind, content):
    """ "length of what follows (four bytes), kind (two bytes), content, little-endian"; "The length counts kind and content." """
    what_follows = kind.to_bytes(2, "little") + content
    return len(what_follows).to_bytes(4, "little") + what_follows


def house_records(listing):
    """ "A listing is a row of house records": of each the kind and the content. Their refusal is 22; its position is 0, "every number above
    16", and so are its other numbers."""
    records, at = [], 0
    while at < len(listing):
        # "22 BAD RECORD for a wrong length": the four bytes, or what they count, are not there, or they do not count a kind
        length = unsigned(listing, at, 4)
        if len(listing) - at < 4 or len(listing) - at - 4 < length or length < 2:
            raise Refused(BAD_RECORD, why="length")
        kind, content = unsigned(listing, at + 4, 2), listing[at + 6:at + 4 + length]
        # "kind"; and a length that is not this kind's
        if kind not in CONTENT:
            raise Refused(BAD_RECORD, why="kind")
        if len(content) != CONTENT[kind]:
            raise Refused(BAD_RECORD, why="length")
        records.append((kind, content))
        at += 4 + length
    return records


def listing_of(listing):
    """What a listing says: the base and the key position of its opening, and its offsets."""
    records = house_records(listing)
    kinds = [kind for kind, _ in records]
    # "one opening, then offsets, one close and no further bytes"; "order .. or further bytes"
    close = kinds.index(CLOSES) if CLOSES in kinds else len(kinds)
    if kinds[:close + 1] != [OPENS] + [NAMES] * (close - 1) + [CLOSES]:
        raise Refused(BAD_RECORD, why="order")
    if len(kinds) > close + 1:
        raise Refused(BAD_RECORD, why="further bytes")
    # "the close gives their true number"; "closing number"
    (_, opening), *named, (_, closing) = records
    if unsigned(closing, 0, 4) != len(named):
        raise Refused(BAD_RECORD, why="closing number")
    # "opens with the base (four bytes) and key position (eight)"; "one offset (four)"
    return unsigned(opening, 0, 4), unsigned(opening, 4, 8), [unsigned(content, 0, 4) for _, content in named]


def check_listing(image, key, budget, listing):
    # "Refusals on checking: 22 BAD RECORD"
    base, position, offsets = listing_of(listing)
    # "the walk's own without 9"; order 11: 21 "before all others" of these
    kept, lists, entries, dropped = sub_key_counts_of(image, key, budget)
    # "then 23 NOT THE LIST for another opening or other offsets"; "the opening agrees with the key record lent, and the offsets are the
    # walk's in order"
    if (base, position) != (key.base, key.position):
        raise Refused(NOT_THE_LIST, why="opening")
    if offsets != kept:
        raise Refused(NOT_THE_LIST, why="offsets")
    return kept, lists, entries, dropped


def write_listing(image, key, budget, out):
    """ "A writer makes the listing". Gives its bytes, and what the walk counts."""
    # "On writing: the walk's own"
    kept, lists, entries, dropped = sub_key_counts_of(image, key, budget)
    listing = (house_record(OPENS, key.base.to_bytes(4, "little") + key.position.to_bytes(8, "little"))
               + b"".join(house_record(NAMES, offset.to_bytes(4, "little")) for offset in kept) + house_record(CLOSES, len(kept).to_bytes(4, "little")))
    # "with 9 where the listing does not fit"; "NO ROOM also returns the places needed and the walk's entry count": of a buffer of bytes
    # the bytes; order 2: "with 9, given too"
    if len(listing) > len(out):
        raise Refused(NO_ROOM, 0, lists, len(listing), entries, dropped)
    # "On success the output is written from the first place on"; "the places after the last one written keep their old contents"
    out[:len(listing)] = listing
    # "and what it writes is accepted under the same budget"
    assert check_listing(image, key, budget, bytes(out[:len(listing)])) == (kept, lists, entries, dropped)
    return len(listing), kept, lists, entries, dropped


def with_a_listing(tag, a, b, c, d, e, name, image):
    """A listing checked (40), written (41), or written and then checked (42), by the key record at a position, to whose position `b` is added."""
    try:
        key = key_at(image, a, c)
    except Refused as r:
        return ["refused", r.number, r.position]
    key = key._replace(position=key.position + b)
    if tag == 40:
        return told_counts(lambda: check_listing(image, key, d, name))
    out = bytearray(bytes_pattern[:e])
    try:
        size, kept, *counts = write_listing(image, key, d, out)
        said = ["ok", size, len(kept)] + counts
    except Refused as r:
        said = r.told()
    told = said + whole_buffer(bytes(out))
    return told + ["checked"] + told_counts(lambda: check_listing(image, key, d, bytes(out[:size]))) if tag == 42 and said[0] == "ok" else told


# ---- a number into a lent buffer: "All numbers are little-endian."; where it does not fit, nothing changes

def put(out, at, width, number):
    if at + width > len(out):
        return False
    out[at:at + width] = (number % 256 ** width).to_bytes(width, "little")
    return True


# ---- the stream and the lines (compare/README.md)

IMAGE_MOST, NAME_MOST, ROOM_MOST, BYTES_MOST, DATA_MOST, WIDE_MOST, CELL_MOST = 524_288, 65_536, 262_144, 32, 65_536, 8_192, 524_288
FEW = 4  # parts or calls of a row that are written out
PATCH, LENGTH = 100, 101


def hexed(part):
    return part.hex() or "-"


def sums(row):
    """The sum of a row and the sum of its running sums, both in 64 bits."""
    return [sum(row) % 2 ** 64, sum(itertools.accumulate(row)) % 2 ** 64]


def summed(part):
    return [len(part)] + sums(part)


pattern = [(i + 1) * 0x9E3779B1 % 2 ** 32 for i in range(ROOM_MOST)]
bytes_pattern = bytes((i + 1) * 0x9E3779B1 % 256 for i in range(CELL_MOST))
wide_pattern = [(i + 1) * 0x9E3779B1 for i in range(WIDE_MOST)]  # in 64 bits


def untouched(out, written, before=pattern):
    """ "the places after the last one written keep their old contents": how many of them do. """
    if out[written:] == before[written:len(out)]:
        return len(out) - written
    return sum(out[i] == before[i] for i in range(written, len(out)))


@functools.lru_cache(512)
def whole_buffer(out):
    """A buffer of bytes: its row, and how many of its bytes are as they were."""
    return summed(out) + [sum(map(operator.eq, out, bytes_pattern))]


def in_bytes(room, write):
    """What is answered by a function that writes into a buffer of so many bytes, and the buffer after it."""
    out = bytearray(bytes_pattern[:room])
    try:
        said = ["ok", write(out)]
    except Refused as r:
        said = ["refused", r.number, r.position, r.places]
    return said, bytes(out)


def with_part(image, position, read, parts):
    """A record's answer. "for a refused record each is the empty part": their lengths follow the refusal."""
    try:
        return ["ok"] + read(image, position)
    except Refused as r:
        return ["refused", r.number, r.position] + [0] * parts


def whole_value(image, position):
    fields, name = value_record(image, position)
    return fields + [hexed(name)]


def told_values(room, listed):
    """A value list's answer, and what it leaves of a buffer of so many places."""
    out = pattern[:room]
    try:
        entries = listed(out)
        return ["ok", len(entries)] + sums(entries) + [untouched(out, len(entries))]
    except Refused as r:
        return ["refused", r.number, r.position, r.places, untouched(out, 0)]


def told_walk(room, walk_into):
    """A walk's, likewise."""
    out = pattern[:room]
    try:
        kept, lists, entries, dropped = walk_into(out)
        return ["ok", len(kept), lists, entries, dropped] + sums(kept) + [untouched(out, len(kept))]
    except Refused as r:
        return r.told() + [untouched(out, 0)]


def told_counts(counts):
    try:
        kept, lists, entries, dropped = counts()
        return ["ok", len(kept), lists, entries, dropped]
    except Refused as r:
        return r.told()


def told_lookup(found):
    try:
        return ["ok"] + found()
    except Refused as r:
        return ["refused", r.number, r.position]


def by_record(tag, a, b, c, d, e, name, image):
    """The walk, what it counts, the value list and the lookup from the key record at a position, read with a base."""
    try:
        key = key_at(image, a, c)
    except Refused as r:
        return ["refused", r.number, r.position]
    read = strict(b) if tag in STRICT else ordinary
    if tag == 13:
        return told_values(d, lambda out: value_list_of(image, key, out))
    if tag in (14, 31):
        return told_walk(e, lambda out: sub_keys_of(image, key, d, out, read))
    if tag in (20, 34):
        return told_counts(lambda: sub_key_counts_of(image, key, d, read))
    return told_lookup(lambda: find_value_of(image, key, name))


# the tags of order 9, each with that of the ordinary reading, whose words stand in the same places
STRICT = {29: 11, 30: 5, 31: 14, 32: 16, 33: 17, 34: 20}


def minor_of(tag, b, d, e, name):
    """Where a case of order 9 has the minor version; what a name lacks of four bytes is 0."""
    return {29: b, 30: unsigned(name, 0, 4), 31: b, 32: d, 33: e, 34: b}[tag]


def answer(tag, a, b, c, d, e, name, image):
    said = answer_of(tag, a, b, c, d, e, name, image)
    # "What strict accepts, ordinary reading answers identically." As its refusals come behind those of a list and before it counts as
    # read, all that it does not refuse by 20 or 3 is as the ordinary reading has it, refusals too.
    if tag in STRICT and (said[0] == "ok" or said[1] not in (NOT_PERMITTED, BAD_SIZE)):
        assert said == answer_of(STRICT[tag], a, b, c, d, e, name, image)
    return said


def answer_of(tag, a, b, c, d, e, name, image):
    as_signed = lambda x: x - 2 ** 32 if x >= 2 ** 31 else x
    read = strict(minor_of(tag, b, d, e, name)) if tag in STRICT else ordinary
    if tag in (13, 14, 15, 20, 31, 34):
        return by_record(tag, a, b, c, d, e, name, image)
    if tag == 22:
        try:
            fields, _ = value_record(image, a)
        except Refused as r:
            return ["refused", r.number, r.position]
        # "data size 8, data offset 12"
        return answer(21, fields[3], fields[4], c, d, e, name, image)
    if tag == 21:
        said, out = in_bytes(e, lambda out: value_data(image, c, d, a, b, out))
        return said + whole_buffer(out)
    if tag in (35, 36):
        lent, position = name if d == 1 else image, a + 2 ** 32 * b
        said, out = in_bytes(e, lambda out: write_lh(lent, position, image, c, out) if tag == 35 else write_li(lent, position, out))
        return said + whole_buffer(out)
    if tag == 37:
        told = [said + whole_buffer(out) for said, out in there_and_back(image, a + 2 ** 32 * b, c, d == 1, e)]
        return told[0] + [x for again in told[1:] for x in ["back"] + again]
    if tag == 4:
        return told_values(d, lambda out: value_list(image, a, as_signed(b), c, out))
    if tag in (5, 30):
        return told_walk(e, lambda out: walk(image, a, b, c, d, out, read))
    if tag == 8:
        return told_lookup(lambda: lookup(image, a, as_signed(b), c, name))
    if tag in (16, 32):
        out = pattern[:e]
        try:
            kept, entries, dropped = leaf(image, c, a + 2 ** 32 * b, out, read)
            return ["ok", len(kept), entries, dropped] + sums(kept) + [untouched(out, len(kept))]
        except Refused as r:
            return r.told() + [untouched(out, 0)]
    if tag in (17, 33):
        return told_counts(lambda: walked(image, a, b, c, d, read))
    if tag == 24:
        out = wide_pattern[:e]
        try:
            found = deleted_keys(image, a, b, out)
            return ["ok"] + summed(out[:len(found)]) + [untouched(out, len(found), wide_pattern)]
        except Refused as r:
            return ["refused", r.number, r.position, r.places, untouched(out, 0, wide_pattern)]
    if tag == 26:
        return row_of_parts(a, b, c, name, image)
    if tag == 27:
        return one_part((a, b, c, d, e), name, image)
    if tag == 28:
        return row_of_calls(name, image)
    if tag == 38:
        return with_a_record(a, b, c, d, e, name, image)
    if tag == 39:
        return place_told(image, a + 2 ** 32 * b, c)
    if tag in (40, 41, 42):
        return with_a_listing(tag, a, b, c, d, e, name, image)
    if tag == 6:
        return with_part(image, a, key_record, 2)
    if tag == 7:
        return with_part(image, a, whole_value, 1)
    try:
        if tag == 1:
            return ["ok", checksum(image)]
        if tag == 2:
            return ["ok"] + base_block(image)
        if tag == 3:
            return ["ok", int(is_big_data_block(image))]
        if tag == 9:
            return ["ok", name_hash(a & 0xFFFF, image)]
        if tag == 10:
            return ["ok"] + bins(image, a, b)
        if tag in (11, 29):
            # of tag 29 the word c is 1 where an `ri` list names the list
            sign, each, count = read(image, a, c == 1)
            return ["ok", unsigned(sign, 0, 2), each, count]
        if tag == 12:
            # words past the end count as 0
            u = lambda width: unsigned(image, a, width)
            return ["ok", u(1), u(2), u(4), u(8), as_signed(u(4))]
        if tag == 18:
            return ["ok"] + cell_at(image, a, b)
        if tag == 19:
            out = bytearray(bytes_pattern[:e])
            written = put(out, b, a, c + 2 ** 32 * d)
            return ["ok", int(written)] + whole_buffer(bytes(out))
        if tag in (23, 25):
            told = step(image, a + 2 ** 32 * b, c + 2 ** 32 * d)
            return ["ok", "end"] if told is None else ["ok", "cell", *told[:2], *told[2]]
        return ["none"]
    except Refused as r:
        return ["refused", r.number, r.position]


def bad(why):
    sys.exit(f"a bad case in the stream: {why}")


def cases(read):
    """Each case: tag, the five words, name, image. What a mask leaves out is as before."""
    words, name, kept, length, image = [0] * 5, b"", bytearray(IMAGE_MOST), 0, b""

    def exactly(n):
        got = read(n)
        if len(got) < n:
            bad("it is cut short")
        return got

    while True:
        tag = read(1)
        if not tag:
            return
        tag, mask = tag[0], exactly(1)[0]
        if mask > 127:
            bad("a mask")
        fresh = [int.from_bytes(exactly(4), "little") if mask >> i & 1 else None for i in range(7)]
        words = [w if x is None else x for w, x in zip(words, fresh)]
        if fresh[5] is not None:
            if fresh[5] > NAME_MOST:
                bad("a name too long")
            name = exactly(fresh[5])
        if fresh[6] is not None:
            if fresh[6] > IMAGE_MOST:
                bad("an image too long")
            length = fresh[6]
            image = exactly(length)
            kept[:length] = image
        if tag == PATCH:
            if words[0] + len(name) > IMAGE_MOST:
                bad("a patch past the end")
            kept[words[0]:words[0] + len(name)] = name
            image = None
        elif tag == LENGTH:
            if words[0] > IMAGE_MOST:
                bad("an image too long")
            length = words[0]
            image = None
        else:
            if (tag in (4, 13) and words[3] > ROOM_MOST or tag in (5, 14, 16, 30, 31, 32, 38) and words[4] > ROOM_MOST
                    or tag == 19 and words[4] > BYTES_MOST or tag in (21, 22) and words[4] > DATA_MOST
                    or tag == 24 and words[4] > WIDE_MOST or tag in (35, 36, 37, 41, 42) and words[4] > CELL_MOST):
                bad("room")
            if image is None:
                image = bytes(kept[:length])
            yield tag, *words, name, image


def main():
    write = sys.stdout.write
    for case in cases(sys.stdin.buffer.read):
        write(f"{case[0]} {' '.join(map(str, answer(*case)))}\n")


if __name__ == "__main__":
    main()
