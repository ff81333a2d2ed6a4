#!/usr/bin/env python3
"""Counts the lines of definitions that a reader has to believe, and keeps the counts of docs/READING.md current.

    tools/reading.py            write the counts
    tools/reading.py --check    fail where they are not current: a step of the gate
    tools/reading.py --names    print the definitions to believe, file by file
    tools/reading.py --untried  print those of them that no must-fail edit changes and that no contract of a file with a wrong program cites

They are the closure by name of what the contracts of the C boundary and the pages of claims cite: each definition's lines in crates/*/specs, and once those of
the module that it stands in, without blank lines, comments, imports and `unfolding` lines. Structs and enums of src/ are not counted.
"""
import glob
import os
import re
import sys

from definitions import ROOT, file, imports, read, words
from pages import PAGES, WORDS

READING = os.path.join(ROOT, 'docs', 'READING.md')
BOUNDARY = ('field256', 'field257', 'images', 'checksums', 'sixteen')
LISTED = re.compile(r'^\| (\S+/specs/\S+\.antt) \| (.*) \| \d+ \| \d+ \|$')

# the calls of the boundary by request: the first whose pattern a function's name has
CALLS = [('batch', r'^gesarumbo_\w+_batch$'), ('records', r'^gesarumbo_(recover_correcting|test_kept|states|gather|gather_rack|checksum)$'), ('W11', r'_box_'), ('W10', r'257'), ('W12', r'correct'), ('W13', r'card'), ('W9', r'')]
# rows of READING.md in their order: what is added to the rows before, the calls' request, and the records of the pages with the field that they are read over
ROWS = [
    ('contracts', 'document 01 and W1 to W9', 'W9'),
    ('contracts', 'W12, the correcting repair', 'W12'),
    ('contracts', 'W13, cards', 'W13'),
    ('contracts', 'from trays to records', 'records'),
    ('contracts', 'many codewords a call', 'batch'),
    ('contracts', 'W10, all of these over the second field', 'W10'),
    ('contracts', 'W11, the box', 'W11'),
    ('claims', 'document 01 and W1 to W9', 'Demand1 Demand2 EachRepair Demand3 Document01 Requests'),
    ('claims', 'W12, the correcting repair', 'Correcting'),
    ('claims', 'W13, cards', 'Cards'),
    ('claims', 'W14, the least', 'Least'),
    ('claims', 'W10, what a call looks at', 'Looks'),
    ('claims', 'what C is handed', 'Handed Handed256'),
    ('claims', 'from trays to records', 'TraysToRecords'),
    ('claims', 'many codewords a call', 'BatchStoring BatchRepairs'),
    ('claims', 'one lost tray and one share by themselves, which follow', 'OneTray'),
    ('claims', 'the field of 256 and the bench book', 'Claims256'),
    ('claims', 'W10, the second field', 'Claims257'),
    ('claims', 'W11, the box', 'Box'),
]
FIRST_FIELD = {('crates/symbol/specs/Elem.antt', 'gf256'), ('crates/image/specs/Image.antt', 'edition1')}


def contracts():
    """For each request what the contracts of its calls cite."""
    out = {}
    for name in BOUNDARY:
        text = read('crates/gesarumbo_c/src/%s.rt' % name)
        known = imports(text)
        for call in re.finditer(r'pub extern "C" fn (\w+)(.*?)\n\{', text, re.S):
            request = next(r for r, pattern in CALLS if re.search(pattern, call.group(1)))
            out.setdefault(request, set()).update(known[word] for word in words(call.group(2).split('\n')) if word in known)
    return out


def starts(kind, what):
    """Where a row's closure begins."""
    return contracts()[what] if kind == 'contracts' else {(path, name) for path in PAGES for name in what.split() if name in file(path).lines} | FIRST_FIELD


def close(found, new):
    """Adds to the definitions found the new ones and all that they cite. Types declared in src/ are no definitions."""
    new = [at for at in new if '/declared/' not in at[0] and at not in found]
    while new:
        path, name = new.pop()
        if (path, name) in found or name not in file(path).lines:
            continue
        found.add((path, name))
        here, there = file(path).cites(name)
        new += [(path, other) for other in here] + [at for at in there if '/declared/' not in at[0]]


def counted(found):
    """The lines of these definitions, file by file."""
    out, frames = {}, set()
    for path, name in found:
        out[path] = out.get(path, 0) + len(file(path).lines[name])
        frames.add((path, file(path).frames[name]))
    for path, frame in frames:
        out[path] += len(frame)
    return out


def rows():
    """The rows of the two tables of closures, each with the lines that it adds and the sum; and all definitions found."""
    out, found, everything = {}, {}, set()
    for kind, title, what in ROWS:
        seen = found.setdefault(kind, set())
        before = counted(seen)
        close(seen, starts(kind, what))
        now = counted(seen)
        page, was = (sum(counts.pop(path, 0) for path in PAGES + [WORDS]) for counts in (now, before))
        lines = [sum(now.values()) - sum(before.values()), sum(now.values())] + ([page - was, page] if kind == 'claims' else [])
        out[kind, title] = ' | '.join('{:,}'.format(n) for n in lines)
        everything |= seen
    return out, everything


def long(path):
    """The lines of a file that say something."""
    return sum(1 for line in map(str.strip, read(path).split('\n')) if line and not line.startswith(('--', 'use ', 'pub mod ')))


def written(page):
    """The page with every count as it is now. A table of closures stands under a heading that has its kind in it."""
    closures, found = rows()
    lines, kind, out = counted(found), None, []
    missing = set(lines) - set(PAGES) - {WORDS}
    for line in page.splitlines():
        if line.startswith('#'):
            kind = next((k for k in ('contracts', 'claims') if k in line), None)
        listed = LISTED.match(line)
        title = line.split(' | ')[0][2:]
        if listed:
            path = 'crates/' + listed.group(1)
            missing.discard(path)
            line = '| %s | %s | %d | %d |' % (listed.group(1), listed.group(2), lines.get(path, 0), long(path))
        elif (kind, title) in closures:
            line = '| %s | %s |' % (title, closures.pop((kind, title)))
        elif line.startswith('| | in all'):
            line = re.sub(r'[\d,]+ \| \|$', '{:,} | |'.format(sum(lines.values())), line)
        out.append(line)
    for path in sorted(missing):
        print('docs/READING.md: %s has definitions to believe and is not listed' % path)
    for row in closures:
        print('docs/READING.md: no row for %s' % (row,))
    return '\n'.join(out) + '\n', not missing and not closures


def tried():
    """The definitions that a must-fail edit changes, and those that the contracts of a file cite in which an edit makes a wrong program."""
    changed, cited, programs, name = set(), set(), set(), None
    for path in glob.glob(os.path.join(ROOT, 'crates', '*', 'must-fail', '*.edit')):
        crate = os.path.relpath(path, ROOT).split(os.sep)[1]
        for key, _, rest in (line.partition(': ') for line in read(path).split('\n')):
            name = 'crates/%s/%s' % (crate, rest) if key == 'file' else name
            if key == 'old' and '/specs/' in name:
                changed.update((name, at) for at, lines in file(name).lines.items() if any(rest.strip() in line for line in lines))
            elif key == 'old' and '/src/' in name:
                programs.update(imports(read(name)).values())
    close(cited, programs)
    return changed | cited


def main():
    if '--names' in sys.argv or '--untried' in sys.argv:
        found = rows()[1] - (tried() if '--untried' in sys.argv else set())
        for path in sorted({path for path, _ in found}):
            print(path + ': ' + ' '.join(sorted(name for at, name in found if at == path)))
        return
    with open(READING) as text:
        page = text.read()
    now, whole = written(page)
    if now != page and '--check' not in sys.argv:
        with open(READING, 'w') as text:
            text.write(now)
    elif now != page:
        print('docs/READING.md: the counts are not current')
    sys.exit(not whole or (now != page and '--check' in sys.argv))


main()
