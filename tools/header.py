#!/usr/bin/env python3
"""Reads c/gesarumbo.h: its calls, structs, refusals and version, so that what is made from it needs no second list.

    tools/header.py names              the calls' names, sorted, a line each
    tools/header.py version            the version
    tools/header.py export-map         a linker's version script that exports the calls and nothing else
"""
import collections
import os
import re
import sys

ROOT = os.path.dirname(os.path.dirname(os.path.abspath(__file__)))

# A call of the header: what it gives, its name, and its parameters as pairs of type and name.
Call = collections.namedtuple('Call', 'gives name parameters')


def read(path):
    with open(os.path.join(ROOT, path), encoding='utf-8') as opened:
        return opened.read()


def text():
    return read('c/gesarumbo.h')


def bare():
    """The header without its comments."""
    return re.sub(r'/\*.*?\*/', ' ', text(), flags=re.S)


def parameter(said):
    """'const uint8_t *data' as ('const uint8_t *', 'data')."""
    found = re.fullmatch(r'(.*?)(\w+)', ' '.join(said.split()))
    return found.group(1).strip(), found.group(2)


def calls():
    """The calls in the header's order: functions that are declared and have no body."""
    found = re.findall(r'(?:^|[;}])\s*(uint32_t|uint64_t|gesarumbo\w+)\s+(gesarumbo\w+)\(([^(){};]*)\)\s*;', bare(), flags=re.M)
    return [Call(gives, name, [parameter(said) for said in given.split(',')]) for gives, name, given in found]


def structs():
    """The structs: for each name the pairs of type and name of its parts."""
    out = {}
    for body, name in re.findall(r'typedef struct \{([^{}]*)\} (\w+);', bare()):
        out[name] = []
        for line in filter(None, (' '.join(part.split()) for part in body.split(';'))):
            kind, names = line.split(' ', 1)
            out[name] += [(kind, part.strip()) for part in names.split(',')]
    return out


def words():
    """The words of the refusals by their numbers; strings side by side are joined as C joins them."""
    table = re.search(r'words\[\] = \{(.*?)\};', text(), flags=re.S).group(1)
    return [''.join(re.findall(r'"([^"]*)"', entry)) for entry in re.findall(r'(?:"[^"]*"\s*)+', table)]


def version():
    return re.search(r'#define GESARUMBO_VERSION "([^"]*)"', text()).group(1)


def export_map():
    names = ''.join('    %s;\n' % call.name for call in sorted(calls(), key=lambda call: call.name))
    return 'GESARUMBO_%s {\n  global:\n%s  local:\n    *;\n};\n' % (version().split('.')[0], names)


def main():
    asked = sys.argv[1:]
    if asked == ['names']:
        print('\n'.join(sorted(call.name for call in calls())))
    elif asked == ['version']:
        print(version())
    elif asked == ['export-map']:
        print(export_map(), end='')
    else:
        sys.exit(__doc__)


if __name__ == '__main__':
    main()
