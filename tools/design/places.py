#!/usr/bin/env python3
"""Counts the places of docs/DESIGN-PASS.md in crates/*/src: python3 tools/design/places.py [COMMIT] [--list].

Without a commit the files of the checkout are read. Each count is a pattern over the source text, so that two commits can be set side by
side; what a pattern cannot see stands in the page, by name.
"""
import collections
import glob
import hashlib
import re
import subprocess
import sys

args = [a for a in sys.argv[1:] if not a.startswith('--')]
listing = '--list' in sys.argv


def files():
    if not args:
        return {p: open(p).read() for p in sorted(glob.glob('crates/*/src/**/*.rt', recursive=True))}
    names = subprocess.run(['git', 'ls-tree', '-r', '--name-only', args[0], 'crates'], capture_output=True, text=True).stdout.split()
    names = [n for n in names if re.match(r'crates/\w+/src/.*\.rt$', n)]
    return {n: subprocess.run(['git', 'show', args[0] + ':' + n], capture_output=True, text=True).stdout for n in names}


def bare(text):
    return '\n'.join(line.split('//')[0] for line in text.split('\n'))


def functions(text):
    """Name, parameters, result, clauses and body of each function."""
    found = []
    for m in re.finditer(r'\bfn (\w+)(<[^>{(]*>)?\(', text):
        depth, i = 1, m.end()
        while depth and i < len(text):
            depth += {'(': 1, ')': -1}.get(text[i], 0)
            i += 1
        params = text[m.end():i - 1]
        j, depth, body = i, 0, None
        while j < len(text):
            c = text[j]
            if c == '{':
                # a clause's braces stand on a line that begins with a clause's word
                line = text[text.rfind('\n', 0, j) + 1:j]
                k, d = j + 1, 1
                while d and k < len(text):
                    d += {'{': 1, '}': -1}.get(text[k], 0)
                    k += 1
                if re.search(r'\b(requires|ensures)\b', line):
                    j = k
                    continue
                body = text[j + 1:k - 1]
                break
            if c == ';':
                break
            j += 1
        if body is None:
            continue
        head = text[i:j]
        result = re.match(r'\s*->\s*([^\n{]+)', head)
        found.append((m.group(1), params, result.group(1).strip() if result else '', head, body))
    return found


count = collections.OrderedDict()
places = collections.defaultdict(list)


def add(key, where):
    count[key] = count.get(key, 0) + 1
    places[key].append(where)


KEYS = [
    '1 enums of the shape of Result', '1 enums of the shape of Option', '1 numbers that stand for a refusal',
    '1 functions with a number or place that stands for none', '1 numbers for kinds', '1 flags with a value beside them',
    '2 copied files', '2 functions that are another one but for names, types and numbers',
    '3 loops that count an index by hand', '4 equality, conversion and arithmetic by hand',
    '5 clauses that three functions or more have', '5 four parameters that three functions or more have', '6 slices with a count beside them', '7 switches on which step to run',
]
for k in KEYS:
    count[k] = 0

texts = {n: bare(t) for n, t in files().items()}
sums, bodies, clauses, groups = collections.defaultdict(list), collections.defaultdict(list), collections.defaultdict(list), collections.defaultdict(list)
for name, text in texts.items():
    raw = files()[name] if False else text
    sums[hashlib.sha256(text.split('\n\n', 1)[-1].encode()).hexdigest()].append(name)
    for m in re.finditer(r'\benum (\w+) \{\n(.*?)\n\}', text, re.S):
        variants = [v.strip().rstrip(',') for v in m.group(2).split('\n') if v.strip()]
        if any(re.match(r'Refused\b', v) for v in variants):
            add(KEYS[0], f'{name}: {m.group(1)}')
        elif len(variants) == 2 and sum('(' in v for v in variants) == 1:
            add(KEYS[1], f'{name}: {m.group(1)}')
    for m in re.finditer(r'pub const (\w+): u32 = \d+;|\bnumber: u32\b', text):
        if m.group(0).startswith('number') or name == 'crates/words/src/lib.rt':
            add(KEYS[2], f'{name}: {m.group(0)}')
    for m in re.finditer(r'const (LF|LH|LI|RI|OPENS|NAMES|CLOSES): u16', text):
        add(KEYS[4], f'{name}: {m.group(1)}')
    for m in re.finditer(r'struct (\w+)(?:<[^>]*>)? \{\n(.*?)\n\}', text, re.S):
        if re.search(r'\b(taken|failed|large|unread): bool', m.group(2)):
            add(KEYS[5], f'{name}: {m.group(1)}')
    fns = functions(text)
    for fn, params, result, head, body in fns:
        if re.search(r'\bstrict: bool', params):
            add(KEYS[5], f'{name}: {fn}')
        if re.fullmatch(r'(u8|u16|u32|u64|usize)', result) and re.search(r'\n\s*(return 0;|0)\n', '\n' + body + '\n') and re.search(r'(fault|size|left_in|bin_size|match_)', fn):
            add(KEYS[3], f'{name}: {fn}')
        if re.fullmatch(r'usize', result) and fn in ('first',):
            add(KEYS[3], f'{name}: {fn}')
        for m in re.finditer(r'\bwhile (\w+) < [^{]*\{|\bwhile 0 < (\w+) \{', body):
            v = m.group(1) or m.group(2)
            if re.search(r'\b%s (\+= 1;|= %s \+ 1;|-= 1;)' % (v, v), body[m.end():]):
                add(KEYS[8], f'{name}: {fn}')
        if re.match(r'(same_\w+|file_type|file_format|join\d|signed_of|magnitude|above_zero|lower|is|smaller|less|add|times_37|digit_of|starts|bytes_from|next_bytes)$', fn):
            # one that only calls the library's method is none by hand
            if not re.search(r'from_le_bytes|unsigned_abs|saturating_|to_ascii|wrapping_|\.min\(', body):
                add(KEYS[9], f'{name}: {fn}')
        for m in re.finditer(r'requires (?:\w+ )?\{ (.*?) \}\n', head):
            clauses[(name.split('/')[1], re.sub(r'\s+', ' ', m.group(1)))].append(fn)
        ps = [re.sub(r'\s+', ' ', p).strip() for p in params.split(',') if ':' in p]
        for i in range(len(ps) - 3):
            groups[(name.split('/')[1], ', '.join(ps[i:i + 4]))].append(fn)
        for m in re.finditer(r'(\w+): &(?:mut )?\[\w+\], (\w+): (?:u16|u32|usize)', re.sub(r'\s+', ' ', params)):
            if re.match(r'(count|n|room|len|left)$', m.group(2)):
                add(KEYS[12], f'{name}: {fn}')
        if len(re.findall(r'\bif tag == ', body)) >= 3 or re.search(r'\b(units|large|whole|listed): bool', params):
            add(KEYS[13], f'{name}: {fn}')
        norm = re.sub(r'\b(?!let\b|mut\b|if\b|else\b|while\b|for\b|in\b|match\b|return\b|as\b)\w+\b', 'x', re.sub(r'\s+', ' ', body))
        if len(body.split('\n')) > 4:
            bodies[norm].append(f'{name}: {fn}')
for h, names in sums.items():
    for n in names[1:]:
        add(KEYS[6], n + ' = ' + names[0])
copied = {n for names in sums.values() for n in names[1:]}
for norm, names in bodies.items():
    own = [n for n in names if n.split(': ')[0] not in copied]
    for n in own[1:]:
        add(KEYS[7], n + ' ~ ' + own[0])
for (crate, clause), fns in clauses.items():
    if len(set(fns)) >= 3:
        add(KEYS[10], f'{crate}: {clause} ({len(set(fns))})')
for (crate, group), fns in groups.items():
    if len(set(fns)) >= 3:
        add(KEYS[11], f'{crate}: {group} ({len(set(fns))})')
for k in KEYS:
    print(f'{count[k]:4}  {k}')
    if listing:
        for p in sorted(places[k]):
            print('        ' + p)
