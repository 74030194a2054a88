#!/usr/bin/env python3
"""compare/stored.py SEED HIVE..: what the stored cases are, for compare/STORED.md. Exit 1 where a refusal of a function, or a success or
a refusal by 9 with entries dropped, or a refusal of a call on a table or of a function that takes a record with an image, or a number of a record
that alone is another, or a reason of the strict profile's refusals or of a listing's, or an answer of the way back
from a list's other kind, is not among them, where bins in parts end in another answer than the whole check's, or where a listing that was written
is not accepted."""
import collections
import os
import sys

import paper as reader

NAMES = {1: "checksum", 2: "base block", 3: "`is_big_data_block`", 4: "value list", 5: "subkey walk", 6: "key record", 7: "value record",
         8: "lookup", 9: "name hash", 10: "bins and cells", 11: "one list", 12: "words", 13: "a record's value list",
         14: "a record's subkeys", 15: "a record's lookup", 16: "a leaf list", 17: "a walk's counts",
         18: "a cell", 19: "a number written", 20: "a record's counts", 21: "a value's data", 22: "a record's value data",
         23: "a step of the reader", 24: "deleted keys", 25: "a step of the bins", 26: "bins in parts", 27: "one part on a record", 28: "totals beside the keys",
         29: "one list, strictly", 30: "subkey walk, strictly", 31: "a record's subkeys, strictly", 32: "a leaf list, strictly",
         33: "a walk's counts, strictly", 34: "a record's counts, strictly", 35: "an `li` list as `lh`", 36: "an `lh` list as `li`", 37: "there and back",
         38: "a record given with an image", 39: "a record's place", 40: "a listing checked", 41: "a listing written", 42: "written and checked"}
# what documents 01 and 02 let each function be refused by
REFUSALS = {1: [1], 2: [1, 4], 4: [2, 6, 7, 8, 9], 5: [2, 4, 7, 8, 9, 13, 14, 15], 6: [1, 2, 3, 4, 5], 7: [1, 2, 3, 4, 5],
            8: [1, 2, 3, 4, 5, 6, 7, 8, 16], 9: [5], 10: [8, 10, 11], 11: [2, 4, 8], 16: [2, 4, 8, 9],
            17: [2, 4, 7, 8, 13, 14, 15], 18: [2, 8], 20: [1, 2, 3, 4, 7, 8, 13, 15],
            21: [2, 4, 8, 9, 17], 22: [1, 2, 3, 4, 5, 8, 9, 17], 23: [10, 11], 24: [8, 9, 10, 11], 25: [10, 11],
            26: [8, 10, 11, 18], 27: [8, 10, 11, 18],
            29: [2, 3, 4, 8, 20], 30: [2, 3, 4, 7, 8, 9, 13, 15, 20], 31: [1, 2, 3, 4, 5, 7, 8, 9, 13, 15, 20], 32: [2, 3, 4, 8, 9, 20],
            33: [2, 3, 4, 7, 8, 13, 15, 20], 34: [1, 2, 3, 4, 5, 7, 8, 13, 15, 20],
            35: [1, 2, 3, 4, 5, 8, 9], 36: [2, 4, 8, 9], 37: [1, 2, 3, 4, 5, 8, 9], 39: [1, 2, 3, 4, 5],
            40: [1, 2, 3, 4, 5, 7, 8, 13, 14, 15, 21, 22, 23], 41: [1, 2, 3, 4, 5, 7, 8, 9, 13, 14, 15, 21], 42: [1, 2, 3, 4, 5, 7, 8, 9, 13, 14, 15, 21]}
# for what a listing is refused by 22 and by 23, and what the walk of its record may be refused by behind 22
LISTING = {22: ["length", "kind", "order", "closing number", "further bytes"], 23: ["opening", "offsets"]}
BEHIND = [2, 4, 7, 8, 13, 14, 15, 21]
# why the strict profile refuses a list by 20 and by 3; one leaf list is named by no `ri` list
REASONS = {20: ["kind", "`ri` under `ri`"], 3: ["not negative", "too small", "past the image"]}
# the calls on a table of totals, and what 02 lets each be refused by: a key record's own refusals come first where it is read, and one that is
# made up may be in its place or not
WALKED, READ = [2, 4, 7, 8, 13, 14, 15], [1, 2, 3, 4, 5]
CALLS = {8: ("a key added", sorted({*READ, *WALKED, 9, 19})), 0: ("the same, its record made up", WALKED + [9, 19, 21]), 9: ("replaced", sorted({*READ, *WALKED, 16})),
         1: ("the same, its record made up", WALKED + [16, 21]), 2: ("removed", [16]), 3: ("an entry read", [16]), 4: ("the total", [])}
# the functions that take a record with an image, by the word of tag 38 that says which, and what each is refused by
STRICTLY = [2, 3, 4, 7, 8, 13, 15, 20]
GIVEN = {0: ("the check by itself", []), 1: ("its subkeys", WALKED + [9, 21]), 2: ("their counts", WALKED + [21]), 3: ("its subkeys, strictly", STRICTLY + [9, 21]),
         4: ("their counts, strictly", STRICTLY + [21]), 5: ("its value list", [2, 6, 7, 8, 9, 21]), 6: ("a lookup", [1, 2, 3, 4, 5, 6, 7, 8, 16, 21]),
         7: ("added to a table", WALKED + [19, 21]), 8: ("replaced in a table", WALKED + [16, 21])}
# where an `ok` line of each function that drops entries tells how many; where a refusal by 9 does, and which of them have a buffer
DROPPED, DROPPED_BY_9, WITH_ROOM = {5: 5, 14: 5, 16: 4, 17: 5, 20: 5, 30: 5, 31: 5, 32: 4, 33: 5, 34: 5, 40: 5, 41: 6, 42: 6}, 7, (5, 14, 16, 30, 31, 32, 41, 42)


def counted(path):
    counts = collections.defaultdict(collections.Counter)
    for line in open(path):
        tag, answer, *rest = line.split()
        counts[int(tag)][f"{answer} {rest[0]}" if answer == "refused" else answer] += 1
    return counts


def rows_of_parts(crate):
    """Of the rows of parts of which none is past the end: how many have just the bins' bytes, how many others are refused by 10 or 11 (of a
    size that an image can have), and of both how many end otherwise than the whole check on these bytes; how many have at least a part,
    how many kinds of bytes, base and size these are, and how many of the kinds have more than one answer."""
    whole = before = unequal = rows = 0
    kinds = collections.defaultdict(set)
    with open(f"crates/{crate}/stdin", "rb") as stdin, open(f"crates/{crate}/stdout") as stdout:
        for (tag, base, size, times, _, _, name, image), line in zip(reader.cases(stdin.read), stdout):
            parts = len(name) // 4 * times
            come = min(times * sum(reader.unsigned(name, 4 * i, 4) for i in range(len(name) // 4)), len(image))
            if tag != 26 or come > size:
                continue
            words = line.split()
            end = words[1:7 if words[1] == "ok" else 4]
            if come == size or end[1] in ("10", "11") and size <= reader.IMAGE_MOST:
                whole += come == size
                before += come < size
                unequal += end != [str(x) for x in reader.whole_check(base, size, image[:come])]
            if parts:
                rows += 1
                kinds[base, size, image[:come]].add(" ".join(end))
    return whole, before, unequal, rows, len(kinds), sum(len(ends) > 1 for ends in kinds.values())


def rows_of_calls(crate):
    """Of the calls of each kind what they were answered, by number; and how many rows leave a table that calls alone made."""
    counts, by_calls = collections.defaultdict(collections.Counter), 0
    with open(f"crates/{crate}/stdin", "rb") as stdin:
        for tag, *_, name, image in reader.cases(stdin.read):
            if tag == 28:
                calls, table = reader.calls_made(name, image)
                by_calls += not table.by_hand
                for kind, told, _ in calls:
                    counts[kind]["ok" if told[0] == "ok" else told[1]] += 1
    return counts, by_calls


def out_of_place(image, key):
    """The names of the numbers in which a record is another than the one that its place has; None where that has none."""
    try:
        there = reader.key_at(image, key.position, key.base)
    except reader.Refused:
        return None
    return [name for name, x, y in zip(key._fields, key, there) if x != y]


def records_given(crate):
    """Of the records given with an image, for each function what it is answered; how many are in their place, how many are where no record is, and
    of those where another is and a single number differs, which it is; by function."""
    counts, others = collections.defaultdict(collections.Counter), collections.defaultdict(collections.Counter)
    with open(f"crates/{crate}/stdin", "rb") as stdin, open(f"crates/{crate}/stdout") as stdout:
        for (tag, _, function, _, _, _, name, image), line in zip(reader.cases(stdin.read), stdout):
            if tag == 38:
                function = function if function in GIVEN else 0
                words = line.split()
                counts[function]["ok" if words[1] == "ok" else int(words[2])] += 1
                differs = out_of_place(image, reader.given(name)[0])
                others[function]["nothing" if differs is None else "same" if not differs else differs[0] if len(differs) == 1 else "several"] += 1
    return counts, others


def why_refused(tag, a, b, c, d, e, name, image):
    """Of a strict case: the number and the reason of its refusal, where the strict profile gave it."""
    read = reader.strict(reader.minor_of(tag, b, d, e, name))
    try:
        if tag == 29:
            read(image, a, c == 1)
        elif tag == 32:
            reader.leaf(image, c, a + 2 ** 32 * b, [], read)
        elif tag in (31, 34):
            key = reader.key_record(image, a)
            reader.walked(image, key[6], key[8], c, d, read)
        else:
            reader.walked(image, a, b, c, d, read)
    except reader.Refused as r:
        return (r.number, r.why) if r.why else None
    return None


def reasons(crate):
    """Of each strict function, how many refusals there are of each number and reason."""
    counts = collections.defaultdict(collections.Counter)
    with open(f"crates/{crate}/stdin", "rb") as stdin:
        for case in reader.cases(stdin.read):
            if case[0] in reader.STRICT:
                counts[case[0]][why_refused(*case)] += 1
    return counts


def trips(crate):
    """Of the lists that are written as their other kind and back: how the second step is answered where the first succeeds, by which kind came
    first; and of those from `lh` that succeed in both, how many come back with other hashes."""
    counts, other = {b"li": collections.Counter(), b"lh": collections.Counter()}, 0
    with open(f"crates/{crate}/stdin", "rb") as stdin:
        for tag, a, b, base, d, room, _, image in reader.cases(stdin.read):
            if tag == 37:
                kind, position = b"lh" if d == 1 else b"li", a + 2 ** 32 * b
                for said, out in reader.there_and_back(image, position, base, d == 1, room)[1:]:
                    counts[kind]["ok" if said[0] == "ok" else said[1]] += 1
                    other += said[0] == "ok" and reader.entries_of(out[:said[1]], 0, kind) != reader.entries_of(image, position, kind)
    return counts, other


def whys_of_listings(crate):
    """Of the listings that are checked, how many are refused for each reason by 22 and by 23; of those by 22, what the walk of the record is refused
    by too; and of those that the walk refuses, how many have another opening too."""
    counts, behind, openings = collections.Counter(), collections.Counter(), 0
    with open(f"crates/{crate}/stdin", "rb") as stdin:
        for tag, a, b, c, d, _, name, image in reader.cases(stdin.read):
            if tag != 40:
                continue
            try:
                key = reader.key_at(image, a, c)._replace(position=a + b)
            except reader.Refused:
                continue
            walk = None
            try:
                reader.sub_key_counts_of(image, key, d)
            except reader.Refused as r:
                walk = r.number
            try:
                reader.check_listing(image, key, d, name)
            except reader.Refused as r:
                counts[r.number, r.why] += 1
                if r.number == 22 and walk is not None:
                    behind[walk] += 1
                elif r.number == walk:
                    openings += reader.listing_of(name)[:2] != (key.base, key.position)
    return counts, behind, openings


def unaccepted(path):
    """Of the listings that were written and checked, how many were not accepted."""
    return sum(line.startswith("42 ok ") and " checked ok " not in line for line in open(path))


def dropping(path, tags):
    """Of these functions, how many lines tell of entries dropped: successes, and refusals by 9."""
    counts = {tag: collections.Counter() for tag in tags}
    for line in open(path):
        words = line.split()
        tag, answer = int(words[0]), " ".join(words[1:2 if words[1] == "ok" else 3])
        if tag in counts and answer in ("ok", "refused 9"):
            counts[tag][answer] += words[DROPPED[tag] if answer == "ok" else DROPPED_BY_9] != "0"
    return counts


def told(path):
    """Of the steps, how many successes tell a cell and how many the end; of the deleted keys, how many list none, one and more."""
    counts = {tag: collections.Counter() for tag in (23, 24, 25)}
    for tag, answer, what, *_ in (line.split() for line in open(path)):
        if int(tag) in counts and answer == "ok":
            counts[int(tag)][what if tag != "24" else ("none", "one")[int(what)] if int(what) < 2 else "more"] += 1
    return counts


def size(crate):
    return sum(os.path.getsize(f"crates/{crate}/{f}") for f in ("stdin", "stdout"))


seed, hives = sys.argv[1], [os.path.basename(h) for h in sys.argv[2:]]
paper, parts, listings, rust = (counted(f"crates/{crate}/stdout") for crate in ("replay_paper", "replay_parts", "replay_listings", "replay_rust"))
missing = [(NAMES[t], n) for t, ns in REFUSALS.items() for n in ns if not (listings if t >= 40 else parts if t >= 26 else paper)[t][f"refused {n}"]]
drops = dropping("crates/replay_paper/stdout", [t for t in DROPPED if t < 26]) | dropping("crates/replay_parts/stdout", [t for t in DROPPED if 28 < t < 40])
drops |= dropping("crates/replay_listings/stdout", [t for t in DROPPED if t >= 40])
missing += [(NAMES[t], f"{a}, dropped") for t, c in drops.items() for a in ("ok", "refused 9")[:2 if t in WITH_ROOM else 1] if not c[a]]
tells = told("crates/replay_paper/stdout")
missing += [(NAMES[t], a) for t, c in tells.items() for a in (("none", "one", "more") if t == 24 else ("cell", "end")) if not c[a]]
whole, before, unequal, rows, kinds, undecided = rows_of_parts("replay_parts")
missing += [("bins in parts", why) for why, bad in (("unequal to the whole check", unequal), ("with two answers", undecided), ("whole", not whole)) if bad]
calls, by_calls = rows_of_calls("replay_parts")
missing += [(CALLS[k][0], n) for k in CALLS for n in ["ok"] + CALLS[k][1] if not calls[k][n]]
given, others = records_given("replay_parts")
# the position and the base are the record's own: the one says where to look, the other how to read
numbers = reader.Key._fields[2:]
missing += [(f"{NAMES[38]}, {GIVEN[f][0]}", n) for f in GIVEN for n in ["ok"] + GIVEN[f][1] if not given[f][n]]
missing += [(f"{NAMES[38]}, {GIVEN[f][0]}", why) for f in GIVEN for why in ("same", "nothing") if not others[f][why]]
missing += [(f"{NAMES[38]}, the check", f"another {n}") for n in numbers if not others[0][n]]
missing += [(f"{NAMES[38]}, {GIVEN[f][0]}", "another number") for f in GIVEN if not any(others[f][n] for n in numbers)]
whys = reasons("replay_parts")
missing += [(NAMES[t], f"{n}: {why}") for t in reader.STRICT for n in REASONS for why in REASONS[n] if not whys[t][n, why] and (t, why) != (32, "`ri` under `ri`")]
back, other = trips("replay_parts")
missing += [(NAMES[37], why) for why, there in (("from `li`", back[b"li"]["ok"]), ("with hashes that were right", back[b"lh"]["ok"] - other), ("with others", other)) if not there]
missing += [(NAMES[37], f"back, {n}") for n in READ + [9] if not back[b"lh"][n]]
listing_whys, behind, openings = whys_of_listings("replay_listings")
missing += [(NAMES[40], f"{n}: {why}") for n in LISTING for why in LISTING[n] if not listing_whys[n, why]]
missing += [(NAMES[40], f"22 before {n}") for n in BEHIND if not behind[n]]
missing += [(NAMES[40], why) for why, bad in (("before another opening", not openings), ("not accepted", unaccepted("crates/replay_listings/stdout"))) if bad]
total = lambda counts: sum(sum(c.values()) for c in counts.values())
print(f"""# The stored cases

Made by `compare/store {seed}` (seed {seed}), which writes this file, and replayed by proved programs in `rt ci`, so that the gate needs neither
the Rust nor Python. The stream and the lines are described in compare/README.md.

The cases are shares, picked by the seed, of what `judge/src/bin/cases.rs` makes: boundaries on both sides and short inputs
exhaustively (`fixed`), random and damaged images (`rounds`), and hives that other people's software wrote, with cuts and damaged
copies (`hives`): {", ".join(hives)}.

## crates/replay_paper: {total(paper):,} cases, {size("replay_paper") // 1000} KB, answers of compare/paper.py

| Function | Cases | Success | Refused by number: cases |
|---|---|---|---|""")


def table(counts):
    for tag in sorted(counts):
        c = counts[tag]
        numbers = sorted((int(k.split()[1]), n) for k, n in c.items() if k.startswith("refused"))
        told = [f"{k}: {n}" for k, n in numbers if k in REFUSALS[tag]] if tag == 27 else [f"{k}: {n}" for k, n in numbers]
        others = sum(c.values()) - c["ok"] - sum(n for k, n in numbers if tag != 27 or k in REFUSALS[tag])
        print(f"| {NAMES[tag]} | {sum(c.values())} | {c['ok']} | {', '.join(told)}{f', any other: {others}' if others else ''} |")


table(paper)
dropped = {t: f"{NAMES[t]} {c['ok']}" + (f" and {c['refused 9']}" if c["refused 9"] else "") for t, c in drops.items()}
print(f"""
Entries are dropped in so many successes, and refusals by 9: {", ".join(dropped[t] for t in dropped if t < 26)}.
A cell is told in {tells[23]["cell"]} steps of the reader, the end in {tells[23]["end"]}, and the same by the bins. Deleted keys: none in {tells[24]["none"]} lists, one in {tells[24]["one"]}, more in {tells[24]["more"]}.

## crates/replay_parts: {total(parts):,} cases, {size("replay_parts") // 1000} KB, answers of compare/paper.py

Bins as they arrive: the stored cases of "bins and cells" again, cut in parts, each rule on both sides, random and damaged bins, hives; and one
part on records of any numbers, whose refusals may be of any number too. The strict profile: each rule
on both sides, alone, at the top and below it, each refusal before each other, random images, hives. Lists written anew, `li` as `lh` and `lh` as
`li`: each refusal of an entry at the first, in the middle and at the last, two of them in either order, sums that wrap to a key, names of bytes and
of units, up to 65,535 entries, rooms on both sides, random and damaged images, hives. Totals beside the keys: rows of calls, each refusal on both
sides and before each other, full tables, places used again, tables that no call made, records that are made up and stand in the image or do not, random
rows, the keys of hives. Records that know their place: one given with its own image, with one that has other bytes in the name, the slack and
elsewhere, with one in which a single number is another, each in turn, with one where no record is, and with positions past the image and far past
it; each function, with what else would refuse it; random and damaged images and records, hives. A program by itself, since `rt try`, by which
`compare/slips` runs them, takes no more than a megabyte of output from one.

| Function | Cases | Success | Refused by number: cases |
|---|---|---|---|""")
table({t: c for t, c in parts.items() if t >= 26})
strict = {t: parts[t] for t in reader.STRICT}
as_ordinary = total(strict) - sum(n for c in whys.values() for why, n in c.items() if why)
said = "; ".join(f"by {n} " + ", ".join(f"{why} {sum(c[n, why] for c in whys.values()):,}" for why in REASONS[n]) for n in REASONS)
beside = ", ".join(f"{NAMES[t]} {sum(parts[t].values()):,}" for t in sorted(set(reader.STRICT.values())))
calls_table = "\n".join(f"| {CALLS[k][0]} | {sum(calls[k].values()):,} | {calls[k]['ok']:,} | {', '.join(f'{n}: {calls[k][n]:,}' for n in sorted(n for n in calls[k] if n != 'ok'))} |" for k in CALLS)
given_table = "\n".join(
    f"| {GIVEN[f][0]} | {sum(given[f].values()):,} | {given[f]['ok']:,} | {', '.join(f'{n}: {given[f][n]:,}' for n in sorted(n for n in given[f] if n != 'ok'))} "
    f"| {others[f]['same']:,} | {others[f]['nothing']:,} | {sum(others[f][n] for n in numbers):,} | {others[f]['several']:,} |" for f in GIVEN)
print(f"""
{whole:,} rows of parts have just the bins' bytes, and {before:,} others, of a size that an image can have, are refused by 10 or 11: each ends in the answer that the whole check gives on these bytes.
{rows:,} rows with at least one part and none past the end have {kinds:,} different bytes, bases and sizes: whatever their cuts, all that are alike in these end in one answer.

The {parts[28]["ok"]:,} rows of calls by what each call was answered:

| Call | Calls | Success | Refused by number: calls |
|---|---|---|---|
{calls_table}

{by_calls:,} of the rows leave a table that calls alone made: there the paper's reading holds the stored total, after each call, to the sum over the entries. The others write places or the total by hand.

The {sum(parts[38].values()):,} records given with an image by the function that takes them; in its place is a record whose every number the place has:

| Function | Cases | Success | Refused by number: cases | In its place | No record there | One number another | Several |
|---|---|---|---|---|---|---|---|
{given_table}

Of the {sum(others[0][n] for n in numbers):,} that the check by itself finds another by one number, each of a record's {len(numbers)} numbers behind position and base is that one at least {min(others[0][n] for n in numbers)} times.

Of the {total(strict):,} strict cases so many are refused for a reason that is the strict profile's own: {said}. The other {as_ordinary:,} have the ordinary reading's answer, success or refusal: `paper.py` holds each to it.
Entries are dropped in so many successes, and refusals by 9: {", ".join(dropped[t] for t in dropped if 28 < t < 40)}.
Beside them, once for the minor versions of one image and words, stand cases of the ordinary reading: {beside}.

There and back {back[b"li"]["ok"] + back[b"lh"]["ok"]:,} cases succeed in both steps, {back[b"li"]["ok"]:,} from `li` and {back[b"lh"]["ok"]:,} from `lh`: `paper.py` holds each to the same entries. Of those from `lh` {back[b"lh"]["ok"] - other:,} come back with the same hashes; the other {other:,} had wrong ones.
In {sum(n for k, n in back[b"lh"].items() if k != "ok"):,} cases from `lh` the way back is refused, by number: {", ".join(f"{n}: {back[b'lh'][n]}" for n in sorted(k for k in back[b"lh"] if k != "ok"))}.

## crates/replay_listings: {total(listings):,} cases, {size("replay_listings") // 1000} KB, answers of compare/paper.py

Listings of a key's subkeys, checked and written: each byte of a small listing wrong in turn, cuts at each length, further bytes; records left out,
doubled, in another order, with others between them, with other lengths, kinds and contents; closing numbers; other openings, the high half of the
position among them; other offsets, the same in another order, repeats; no offset at all; entries dropped; each refusal of the walk behind a wrong
form and before another list; records out of their place; rooms on both sides; up to 6,550 offsets checked and 52,426 written; random and damaged
images and listings, hives. A program by itself, since replay_parts has all the output that `rt try` takes.

| Function | Cases | Success | Refused by number: cases |
|---|---|---|---|""")
table(listings)
listing_said = "; ".join(f"by {n} " + ", ".join(f"{why} {listing_whys[n, why]:,}" for why in LISTING[n]) for n in LISTING)
print(f"""
The reasons: {listing_said}. Of the listings refused by 22 so many have a record whose walk is refused too, by number: {", ".join(f"{n}: {behind[n]}" for n in sorted(behind))}. Of those that the walk refuses {openings:,} have another opening too.
Entries are dropped in so many successes, and refusals by 9: {", ".join(dropped[t] for t in dropped if t >= 40)}. Each of the {listings[42]["ok"]:,} listings that were written and then checked is accepted.

## crates/replay_rust: {total(rust):,} cases, {size("replay_rust") // 1000} KB, the Rust's own answers

Only cases that 01 compares (and, beyond 01, value records and single lists), and of these only such whose times, texts and flags the
Rust's conversions keep whole: a FILETIME from 1677 to 2262, 8-bit names, 16-bit names that are valid and have no NUL, flags that the
Rust knows. What is kept is decided by the case's input alone, never by the answer.

| Function | Cases | Values | Error | Empty |
|---|---|---|---|---|""")
for tag in sorted(rust):
    c = rust[tag]
    print(f"| {NAMES[tag]} | {sum(c.values())} | {c['ok']} | {c['error']} | {c['empty']} |")
print()
if missing:
    print("MISSING: " + ", ".join(f"{f} {n}" for f, n in missing))
    sys.exit(1)
print(f"Every refusal of every function is among the {total(paper):,}, {total(parts):,} and {total(listings):,} cases.")
