#!/usr/bin/env python3
"""Finds lemmas that are stated more than once: statements of crates/*/proofs that are the same up to the names of their variables and the order of
what they assume. Made twins and the functions' own proof files are left out.

    tools/copies.py            name each group of the same statements that may not stay, and fail if there is any: a step of the gate
    tools/copies.py --all      those that may stay too, with the reason

What may stay: what each field has of its own, where the same words speak of other definitions (FIELDS); statements that are only the type of some data, or of a
short name within a module (DATA); and what is left to merge (OPEN), whose lemmas stand in crates that nearly all others rest on.
"""
import collections
import glob
import os
import re
import sys

ROOT = os.path.join(os.path.dirname(os.path.abspath(__file__)), '..', 'crates', '')
# a statement whose conclusion is shorter than this says too little to be compared
SHORTEST = 6
# a field that is read is a token of its own
TOKEN = re.compile(r'[(){}]|\.?[^\s(){}.]+|\.+')
# the files of a function's own proof
PROOF = re.compile(r'/proofs/.+/(Invariants|Answers|Proof)\.antt$')
MODULE = re.compile(r'\s*(?:pub )?module\s+\S+\s*(.*)$')
HEAD = re.compile(r'\s*(?:unfoldable |abbrev )?(?:pub )?([^\s(){};:=|]+) : (.*)$')
# the crates that have elements, operations and tables of their own under the same names
FIELDS = {'symbol', 'symbol257', 'nibble'}
DATA = {'List ℕ', '(ℕ → A) → ℕ → List A', 'Signature', 'Param n', 'Turn n', 'Recoverable f l es c', 'Usable f l', 'p < digits l ^ (l.racks - 1)'}
# a lemma of each group that is left to merge
OPEN = {
    'algebra/Points digits_same',
    'batch_parts/Parts part_place',
    'batch_parts/Parts positive',
    'batch_restore/Known free_high',
    'batch_restore/Known free_next',
    'batch_restore/Layers place_is',
    'batch_restore/Rows basis_congr',
    'box_recover/Steps free_none',
    'cards/Grounds cabinet_so',
    'checksum/Unique bit_lt',
    'columns/Rows divisor_row',
    'columns/Rows row_fits',
    'columns/Rows spread_fits',
    'columns/Rows spread_in',
    'least/Same cells',
    'rack_solving/Points row_next',
    'rack_solving/Points sampled_in',
    'records/Racks inner_part',
    'records/Racks none_lost',
    'seen/Groups same_test',
}


def indent(line):
    return len(line) - len(line.lstrip())


def gathered(lines, at, text, goes_on):
    """A text and the lines after it that go on with it, and where it ends."""
    while at + 1 < len(lines) and goes_on(text, lines[at + 1]):
        at += 1
        text += ' ' + lines[at].strip()
    return text, at + 1


def statements(path):
    """The statements of a file: name, line, and the text with what the modules around it are told."""
    lines = [re.sub(r'(^|\s)--(\s.*)?$', '', line) for line in open(path, encoding='utf8').read().split('\n')]
    at, modules = 0, []
    while at < len(lines):
        line, start = lines[at], at
        if line.strip():
            modules = [m for m in modules if m[0] < indent(line)]
        module, head = MODULE.match(line), HEAD.match(line)
        if module:
            told, at = gathered(lines, at, module.group(1), lambda text, _: not re.search(r'\bwhere\s*$', text))
            modules.append((indent(line), re.sub(r'\bwhere\s*$', '', told)))
        elif head and indent(line) == 2 * len(modules) and not line.lstrip().startswith(('use ', 'record ', 'open ')):
            text, at = gathered(lines, at, head.group(2), lambda _, more: more.strip() and indent(more) > indent(line))
            yield head.group(1), start + 1, [told for _, told in modules], text
        else:
            at += 1


def closing(tokens, at):
    """Where the bracket that opens at a place is closed."""
    depth = 0
    for end in range(at, len(tokens)):
        depth += (tokens[end] in '({') - (tokens[end] in ')}')
        if depth == 0:
            return end
    raise ValueError('a bracket is not closed')


def binders(tokens):
    """The variables that a run of brackets binds, with their types; None where it is no such run."""
    found, at = [], 0
    while at < len(tokens):
        end = closing(tokens, at) if tokens[at] in '({' else at
        inner = tokens[at + 1:end]
        colon = inner.index(':') if ':' in inner else 0
        if colon == 0 or any(token in '(){}→' for token in inner[:colon]):
            return None
        found += [(name, inner[colon + 1:]) for name in inner[:colon]]
        at = end + 1
    return found


def premises(tokens):
    """The parts of a type between its arrows."""
    parts, depth = [[]], 0
    for token in tokens:
        depth += (token in '({') - (token in ')}')
        if token == '→' and depth == 0:
            parts.append([])
        else:
            parts[-1].append(token)
    return parts


def canonical(told, text):
    """A statement with its variables numbered: the conclusion, and what it assumes in order."""
    variables, assumed = [], []
    for tokens in [TOKEN.findall(part) for part in told]:
        variables += binders(tokens) or []
    *parts, conclusion = premises(TOKEN.findall(text))
    for part in parts:
        bound = binders(part) if part else None
        variables += bound or []
        assumed += [] if bound else [part]
    said = [token for part in assumed + [conclusion] + [kind for _, kind in variables] for token in part]
    assumed += [kind for name, kind in variables if name not in said]
    names, numbers = {name for name, _ in variables if name in said}, {}

    def numbered(tokens):
        return ' '.join(numbers.setdefault(token, 'v%d' % len(numbers)) if token in names else token for token in tokens)

    def order(tokens):
        return ' '.join(numbers.get(token, '?') if token in names else token for token in tokens)

    goal, out = numbered(conclusion), []
    while assumed:
        assumed.sort(key=order)
        out.append(numbered(assumed.pop(0)))
    return goal, tuple(sorted(out))


def groups():
    """The statements that stand more than once, as lists of crate, file, line, name and text."""
    found = collections.defaultdict(list)
    for path in sorted(glob.glob(ROOT + '*/proofs/**/*.antt', recursive=True)):
        if PROOF.search(path) or open(path, encoding='utf8').readline().startswith('-- Made'):
            continue
        crate, _, file = os.path.relpath(path, ROOT).partition('/proofs/')
        for name, line, told, text in statements(path):
            goal, assumed = canonical(told, text)
            if len(goal) >= SHORTEST and not re.search(r'\bType \d', goal):
                found[goal, assumed].append((crate, file, line, name, text))
    return [group for group in found.values() if len(group) > 1]


def names(group):
    """The lemmas of a group, as OPEN names them."""
    return {'%s/%s %s' % (crate, file.replace('.antt', ''), name) for crate, file, _, name, _ in group}


def stays(group):
    """Why a group may stay, empty where it may not."""
    if {crate for crate, *_ in group} <= FIELDS:
        return 'of each field'
    if group[0][4] in DATA:
        return 'data'
    return 'open' if names(group) & OPEN else ''


def main():
    left, found = 0, groups()
    if '--all' in sys.argv:
        for name in sorted(OPEN - {name for group in found for name in names(group)}):
            print('left to merge, but stated once: ' + name)
    for group in sorted(found, key=lambda group: -len(group)):
        why = stays(group)
        left += not why
        if not why or '--all' in sys.argv:
            print('%s%s' % (why and '(%s) ' % why, group[0][4][:160]))
            for crate, file, line, name, _ in group:
                print('    %s/proofs/%s:%d %s' % (crate, file, line, name))
    if left:
        sys.exit('%d to look at' % left)


if __name__ == '__main__':
    main()
