#!/usr/bin/env python3
"""Holds the tables of docs/PROMISES.md against the pages of claims.

    tools/promises.py --check    fail where they differ: a step of the gate
    tools/promises.py --names    print the claims of the pages, record by record

A row of a table that has the column "On the page" names there the claims that say its sentence, as `Record.field`, or says in brackets why there is none: "– (..)".
Each name has to be a field of a record on the pages, and each claim of the pages has to be named in some row; a field that is another record of the pages is none.
Every other name in backticks of these rows has to occur in the crates.
"""
import os
import re
import sys

from definitions import ROOT, below, file, read, words
from pages import PAGES, TERMS

TABLES = 'docs/PROMISES.md'
COLUMN = 'On the page'
QUOTED = re.compile(r'`([^`]+)`')
FIELD = re.compile(r'^  pub (\S+) : (.*)$')
NAME = re.compile(r"[A-Za-z][\w'-]*")


def claims():
    """The records of the pages, each with its fields and whether each is a claim: not a record of the pages itself."""
    records = ((name, lines) for path in PAGES for name, lines in file(path).lines.items() if lines[0].startswith('pub record '))
    texts = {name: lines for name, lines in records if name not in TERMS}
    out = {}
    for name, lines in texts.items():
        heads = [number for number, line in enumerate(lines) if FIELD.match(line)]
        for number, end in zip(heads, heads[1:] + [len(lines)]):
            field, rest = FIELD.match(lines[number]).groups()
            out[name, field] = not words([rest] + lines[number + 1:end]) & set(texts)
    return out


def rows():
    """The rows of the tables with the column, each as its line's number, the column's cell and the row's other cells."""
    place = None
    for number, line in enumerate(read(TABLES).split('\n'), 1):
        if not line.startswith('|'):
            place = None
            continue
        cells = [cell.strip() for cell in line.strip('|').split(' | ')]
        if COLUMN in cells:
            place = cells.index(COLUMN)
        elif place is not None and not line.startswith('|---'):
            yield number, cells[place], cells[:place] + cells[place + 1:]


def known():
    """Every word of the crates' code, definitions and proofs, and the names of crates."""
    out = set(os.listdir(os.path.join(ROOT, 'crates')))
    for path in below('crates', '.antt', '.rt'):
        out.update(NAME.findall(read(path)))
    return out


def check():
    """What is wrong, line by line."""
    fields, named, there = claims(), set(), known()
    for number, cell, others in rows():
        names = [tuple(name.split('.')) for name in QUOTED.findall(cell) if '.' in name]
        named.update(names)
        if not names and not cell.startswith('– ('):
            yield '%s:%d: names no claim of the pages and no reason' % (TABLES, number)
        for name in names:
            if name not in fields:
                yield '%s:%d: the pages have no `%s`' % (TABLES, number, '.'.join(name))
        for name in QUOTED.findall(' '.join(others)):
            if NAME.fullmatch(name) and name not in there:
                yield '%s:%d: no crate has `%s`' % (TABLES, number, name)
    for record, field in sorted(at for at, is_claim in fields.items() if is_claim and at not in named):
        yield '%s: no row names `%s.%s`' % (TABLES, record, field)


def main():
    if '--names' in sys.argv:
        for record in dict.fromkeys(record for record, _ in claims()):
            print(record + ': ' + ' '.join(field for (of, field), is_claim in claims().items() if of == record and is_claim))
        return
    wrong = list(check())
    print('\n'.join(wrong) if wrong else '%d claims, each named in %s' % (sum(claims().values()), TABLES))
    sys.exit(bool(wrong))


main()
