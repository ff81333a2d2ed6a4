#!/usr/bin/env python3
"""Lists the public theorems that nothing cites and no document names, and fails if there is any: a step of the gate.

A theorem is cited where another file takes it, or where its own file uses it. A document names it in backquotes, as does a comment of code or of definitions.
"""
import re
import sys

from definitions import below, file, imports, read, said

# the files of a function's own proof
PROOF = re.compile(r'/proofs/.+/(Invariants|Answers|Proof)\.antt$')


def taken():
    """What files take of others."""
    out = set()
    for path in below('crates', '.antt', '.rt'):
        out.update(imports(read(path)).values())
    return out


def named():
    """The names in backquotes."""
    texts = [read('README.md')] + [read(path) for path in below('docs', '.md')]
    for path in filter(lambda at: '/proofs/' not in at, below('crates', '.antt', '.rt')):
        texts += [line for line in read(path).split('\n') if '-- ' in line or '// ' in line]
    names = {name for text in texts for name in re.findall(r'`([^`\s]+)`', text)}
    # the landing notes have the spelling of their time
    return names | {re.sub(r'(?<=[a-z0-9])[A-Z]', lambda at: '_' + at[0].lower(), name).replace('-', '_') for name in names}


def used(path, name):
    """Whether a file uses a name of its own outside its own statement and proof: a lemma that only cites itself is used by nothing."""
    depth = file(path).depths[name]
    head = re.compile(r'^ {%d}(?:(?:unfoldable )?pub )?%s(?=[\s:])' % (depth, re.escape(name)))
    use = re.compile(r'(?<![^\s(){}\[\];,])%s(?![^\s(){}\[\];,.])' % re.escape(name))
    own = False
    for line in read(path).split('\n'):
        text = said(line)
        if not text.strip() or line.startswith('use '):
            continue
        indent = len(line) - len(line.lstrip())
        if head.match(text):
            own = True
        elif indent <= depth and not line.lstrip().startswith('unfolding '):
            own = False
        if not own and use.search(text):
            return True
    return False


def main():
    known, cited = named(), taken()
    orphans = [
        (path, name)
        for path in sorted(below('crates', '.antt'))
        if '/proofs/' in path and not PROOF.search(path)
        for name in file(path).public
        if (path, name) not in cited and name not in known and not used(path, name)
    ]
    for path, name in orphans:
        print('%s: %s is cited by nothing and named by no document' % (path, name))
    sys.exit(bool(orphans))


main()
