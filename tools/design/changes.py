#!/usr/bin/env python3
"""What differs in public functions and types, in specs/ and in the names of lemmas between two commits: python3 tools/design/changes.py OLD [NEW].

Prints Markdown: each public function and type of a library whose text changed, each definition of specs/ that changed, old and new
one under the other, and what is gone and new; then the lemmas of proofs/ that are gone or no longer public, by crate and file. The page is
docs/DESIGN-PASS-CHANGES.md; what states the promise of a lemma that is gone is written there by hand.
"""
import re
import subprocess
import sys

OLD = sys.argv[1]
NEW = sys.argv[2] if len(sys.argv) > 2 else 'HEAD'
PROGRAMS = set('''base_block_cases bin_cases bins_listing buffer_cases deleted_listing hive_listing hive_names hive_tour listing_cases record_cases replay_listings
replay_paper replay_parts replay_rust sub_key_cases supplier_listing console hive_console root_listing replay_stream'''.split())


def show(commit, path):
    return subprocess.run(['git', 'show', f'{commit}:{path}'], capture_output=True, text=True).stdout


def paths(commit, pattern):
    names = subprocess.run(['git', 'ls-tree', '-r', '--name-only', commit, 'crates'], capture_output=True, text=True).stdout.split()
    return [n for n in names if re.match(pattern, n)]


def publics(commit):
    found = {}
    for path in paths(commit, r'crates/\w+/src/.*\.rt$'):
        crate = path.split('/')[1]
        if crate in PROGRAMS:
            continue
        text = show(commit, path)
        for m in re.finditer(r'^( *)pub fn (\w+).*?(?=^\1\{)', text, re.S | re.M):
            owner = ''
            if m.group(1):
                head = re.findall(r'^impl(?:<[^>]*>)? (\w+)', text[:m.start()], re.M)
                owner = (head[-1] + '::') if head else ''
            found[f'{crate}::{owner}{m.group(2)}'] = re.sub(r'\s+', ' ', m.group(0)).strip()
        for m in re.finditer(r'^impl From<(\w+)> for (\w+) \{.*?^\}', text, re.S | re.M):  # public with its types, and promises by its law
            law = re.search(r'ghost from_gives = (\{.*?\});', m.group(0), re.S)
            found[f'{crate}::{m.group(2)}::from({m.group(1)})'] = re.sub(r'\s+', ' ', f'impl From<{m.group(1)}> for {m.group(2)} from_gives {law.group(1) if law else "none"}')
    return found


def types(commit):
    """Public types, traits and constants of the libraries, each with its derives and fields."""
    found = {}
    for path in paths(commit, r'crates/\w+/src/.*\.rt$'):
        crate = path.split('/')[1]
        if crate in PROGRAMS:
            continue
        text = re.sub(r'//.*', '', show(commit, path))
        for m in re.finditer(r'^((?:#\[[^\n]*\]\n)*)pub (?:(?:struct|enum|trait) (\w+)[^\n]*?(?:;|\{.*?^\}|\{\})|const (\w+): [^\n]*)', text, re.S | re.M):
            found[f'{crate}::{m.group(2) or m.group(3)}'] = re.sub(r'\s+', ' ', m.group(0)).replace(', }', ' }').strip()
    return found


def blocks(commit, pattern):
    """Declarations by crate, file and name, each with whether it is public and its text: those of a file and of the modules in it, however deep.

    What stands deeper than a declaration is its own: a record's fields, a lemma's `where`. The parameters of the modules around a declaration are part of its text.
    """
    found = {}
    for path in paths(commit, pattern):
        crate, module = path.split('/')[1], path.split('/')[-1][:-5]
        if crate in PROGRAMS:
            continue
        around, current, lines = [], None, []  # around: the lines that this one stands under, each with its indent and, for a module, its header

        def done():
            if current and lines:
                text = ' '.join([h for _, h in current[2] if h] + lines)
                found[current[0]] = (current[1], re.sub(r'\s+', ' ', text).strip())
        for line in show(commit, path).split('\n'):
            bare = line.split('--')[0].rstrip()
            if not bare.strip() or re.match(r'(pub )?(use|mod) ', bare):
                continue
            indent = len(bare) - len(bare.lstrip())
            while around and indent <= around[-1][0]:
                around.pop()
            if around and around[-1][1] and not around[-1][1].endswith(' where'):  # a header of more than one line
                around[-1] = (around[-1][0], around[-1][1] + ' ' + bare.strip())
                continue
            inside = all(header for _, header in around)
            if inside and re.match(r'\s*module ', bare):
                done()
                current, lines = None, []
                around.append((indent, bare.strip()))
                continue
            m = re.match(r'\s*((?:(?:pub|abbrev|unfoldable|pattern) )*)(?:(record|data) )?([^\s:={}()]+)( [^:=]*)?(?: :(?:\s|$))?', bare) if inside else None
            if m and m.group(3) != 'unfolding' and (m.group(1) or m.group(2) or re.match(r'\s*[^\s:={}()]+( [^:=]*)? :(\s|$)', bare)):
                done()
                current, lines = (f'{crate} {module} {m.group(3)}', 'pub ' in m.group(1), list(around)), []
            if current:
                lines.append(bare)
            around.append((indent, None))
        done()
    return found


def side_by_side(title, old, new, note=None):
    print(f'\n## {title}\n')
    if note:
        print(note + '\n')
    changed = [k for k in sorted(old) if k in new and old[k] != new[k]]
    for k in changed:
        print(f'- `{k}`\n  - then: `{old[k]}`\n  - now: `{new[k]}`')
    print(f'\n{len(changed)} changed.')
    print('\nGone: ' + (', '.join(f'`{k}`' for k in sorted(old) if k not in new) or 'none') + '.')
    print('\nNew: ' + (', '.join(f'`{k}`' for k in sorted(new) if k not in old) or 'none') + '.')


print(f'''# What the design pass changed, old and new

Written by `python3 tools/design/changes.py {OLD[:7]}`. Programs are left out, and the crates that they alone stand on: docs/DESIGN-PASS.md has the clauses
of these, and says what the changes have in common. In the last sections what stands beside the lists of names is written by hand.''')
side_by_side('Public functions of the libraries', publics(OLD), publics(NEW), 'A conversion `From` is among them, with its law.')
side_by_side('Public types, traits and constants of the libraries', types(OLD), types(NEW))
spec = r'crates/\w+/specs/.*\.antt$'
old_specs, new_specs = blocks(OLD, spec), blocks(NEW, spec)
side_by_side('Definitions and statements of specs/', {k: t for k, (_, t) in old_specs.items()}, {k: t for k, (_, t) in new_specs.items()},
             'A record of specs/ that is proved in proofs/ is a theorem. Fields are part of the text of their record, and the parameters of a module of the text of what it holds.')
law = r'crates/\w+/proofs/[A-Z]\w+\.antt$'
old_laws, new_laws = blocks(OLD, law), blocks(NEW, law)
stands = {}  # crate and name, to whether one of that name is public: a lemma that moved to another file of its crate is not gone
for k, (public, _) in [*new_laws.items(), *new_specs.items()]:
    short = (k.split()[0], k.split()[2])
    stands[short] = stands.get(short, False) or public
gone, hidden, private = {}, {}, {}
for k, (public, _) in sorted(old_laws.items()):
    crate, module, name = k.split()
    if (crate, name) not in stands:
        (gone if public else private).setdefault((crate, module), []).append(name)
    elif public and not stands[crate, name]:
        hidden.setdefault((crate, module), []).append(name)
for title, those in (('Lemmas of proofs/ that are gone', gone), ('Lemmas of proofs/ that stand and are no longer public', hidden), ('Private lemmas of proofs/ that are gone', private)):
    print(f'\n## {title}\n')
    for (crate, module), names in sorted(those.items()):
        print(f'- {crate} `{module}`: ' + ', '.join(f'`{name}`' for name in names))
    print(f'\n{sum(len(names) for names in those.values())} in all.')
