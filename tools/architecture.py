#!/usr/bin/env python3
"""Draws docs/architecture.svg, the crates in their levels, and keeps the table of crates in docs/ARCHITECTURE.md current, both from crates.txt.

    tools/architecture.py            write both
    tools/architecture.py --check    fail where they are not current: a step of the gate

A crate stands one level above the highest that it may use. What it is for is the first sentence of its src/lib.rt or src/main.rt. Twins, which are made, are drawn
with the crates that they are made from.
"""
import os
import re
import sys

ROOT = os.path.join(os.path.dirname(os.path.abspath(__file__)), '..')
PAGE, PICTURE = 'docs/ARCHITECTURE.md', 'docs/architecture.svg'
HEAD = '| Level | Crate | Twin | What it is for |'
WIDTH, BOX, HIGH, GAP, LEFT = 1180, 132, 30, 10, 70


def read(path):
    with open(os.path.join(ROOT, path)) as text:
        return text.read()


def listed():
    """Each crate and those that it may use; the kit's libraries left out."""
    lines = [line.split(':') for line in read('crates.txt').splitlines() if ':' in line and not line.startswith('#')]
    lines = [(head.split()[0], uses) for head, uses in lines]
    names = {name for name, _ in lines}
    return {name: [used for used in uses.split() if used in names] for name, uses in lines}


def levels(crates):
    """How far each crate stands above those that use nothing."""
    out = {}

    def level(name):
        if name not in out:
            out[name] = 1 + max((level(used) for used in crates[name]), default=-1)
        return out[name]

    for name in crates:
        level(name)
    return out


def sentence(name):
    """The first sentence of a crate's code."""
    for part in ('lib.rt', 'main.rt'):
        path = os.path.join('crates', name, 'src', part)
        if os.path.exists(os.path.join(ROOT, path)):
            comment = []
            for line in read(path).splitlines():
                if not line.startswith('// '):
                    break
                comment.append(line[3:])
            text = ' '.join(comment)
            return re.split(r'(?<=\.) ', text, maxsplit=1)[0].rstrip('.').replace('|', '/')
    return ''


def rows():
    """The crates that are no twins, from the lowest level up."""
    crates = listed()
    at = levels({name: uses for name, uses in crates.items()})
    for name in sorted((n for n in crates if not (n.endswith('257') and n[:-3] in crates)), key=lambda n: (at[n], list(crates).index(n))):
        yield at[name], name, name + '257' in crates


def table():
    return [HEAD, '|---|---|---|---|'] + ['| %d | `%s` | %s | %s |' % (level, name, 'yes' if twin else '', sentence(name)) for level, name, twin in rows()]


def page():
    """The page with its table as it is now."""
    lines = read(PAGE).splitlines()
    start = lines.index(HEAD)
    end = next((i for i in range(start, len(lines)) if not lines[i].startswith('|')), len(lines))
    return '\n'.join(lines[:start] + table() + lines[end:]) + '\n'


def picture():
    """A band for each level, a box for each crate; a twin is the shadow behind its crate."""
    bands = {}
    for level, name, twin in rows():
        bands.setdefault(level, []).append((name, twin))
    across = (WIDTH - LEFT) // (BOX + GAP)
    out, y = [], GAP
    for level in sorted(bands, reverse=True):
        deep = -(-len(bands[level]) // across)
        tall = deep * (HIGH + GAP) + GAP
        out.append('<rect x="0" y="%d" width="%d" height="%d" fill="%s"/>' % (y, WIDTH, tall, '#f4f1ea' if level % 2 else '#e9eef2'))
        out.append('<text x="12" y="%d" fill="#555">%d</text>' % (y + tall // 2 + 5, level))
        for k, (name, twin) in enumerate(bands[level]):
            x, top = LEFT + k % across * (BOX + GAP), y + GAP + k // across * (HIGH + GAP)
            if twin:
                out.append('<rect x="%d" y="%d" width="%d" height="%d" rx="4" fill="#cfd8dc" stroke="#78909c"/>' % (x + 4, top + 4, BOX - 4, HIGH - 2))
            out.append('<rect x="%d" y="%d" width="%d" height="%d" rx="4" fill="#fff" stroke="#37474f"/>' % (x, top, BOX - 4, HIGH - 2))
            out.append('<text x="%d" y="%d" text-anchor="middle">%s</text>' % (x + (BOX - 4) // 2, top + 19, name))
        y += tall
    head = '<svg xmlns="http://www.w3.org/2000/svg" viewBox="0 0 %d %d" font-family="sans-serif" font-size="13">' % (WIDTH, y + GAP)
    return '\n'.join([head, '<title>The crates, each above those that it uses</title>'] + out + ['</svg>']) + '\n'


def main():
    stale = []
    for path, text in ((PAGE, page()), (PICTURE, picture())):
        old = read(path) if os.path.exists(os.path.join(ROOT, path)) else None
        if old != text:
            stale.append(path)
            if '--check' not in sys.argv:
                with open(os.path.join(ROOT, path), 'w') as out:
                    out.write(text)
    for path in stale:
        print(path + (': not current' if '--check' in sys.argv else ': written'))
    sys.exit('--check' in sys.argv and bool(stale))


main()
