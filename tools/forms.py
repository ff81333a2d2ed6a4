#!/usr/bin/env python3
"""Counts the older language's forms in src/ and the walks in proofs/, by the points of docs/DESIGN-PASS.md.

    tools/forms.py                 the counts of this tree
    tools/forms.py --commit C      the counts at a commit
    tools/forms.py --list POINT    the places of a point, as file:line

Made twins (files whose first line says that tools/twin.py made them) are counted apart, since they go with what they are made from.
"""
import os
import re
import subprocess
import sys

ROOT = os.path.join(os.path.dirname(os.path.abspath(__file__)), '..')
FN = re.compile(r'^ *(?:pub )?fn (\w+)(?:<[^(]*>)?\(', re.M)


def git(*args):
    return subprocess.run(('git', '-C', ROOT) + args, check=True, capture_output=True, text=True).stdout


def texts(commit, kind):
    """The files of a kind below crates/, by path."""
    if commit:
        names = [n for n in git('ls-tree', '-r', '--name-only', commit, 'crates').split('\n') if n.endswith(kind)]
        for name in names:
            yield name, git('show', commit + ':' + name)
        return
    for name in git('ls-files', 'crates').split('\n'):
        path = os.path.join(ROOT, name)
        if name.endswith(kind) and os.path.exists(path):
            yield name, open(path).read()


def functions(text):
    """Each function: its line, name, parameters, result, clauses and body."""
    for at in FN.finditer(text):
        depth, i = 1, at.end()
        while depth:
            depth += {'(': 1, ')': -1}.get(text[i], 0)
            i += 1
        params = [p for p in re.split(r',\s*(?![^<(]*[>)])', text[at.end():i - 1].strip()) if p.strip()]
        rest = text[i:]
        body = re.search(r'^( *)\{\n|;\n', rest, re.M)
        head = rest[:body.start()] if body else rest[:400]
        close = re.search(r'^%s\}' % (body.group(1) or '') if body and body.group(1) is not None else r'^\}', rest[body.end():] if body else '', re.M)
        inside = rest[body.end():body.end() + close.start()] if body and close else ''
        result = re.match(r'\s*->\s*([^\n{]+)', head)
        yield text.count('\n', 0, at.start()) + 1, at.group(1), params, result.group(1).strip() if result else '', head, inside


def places(name, text):
    """The places of each point in a file."""
    out = []
    for n, line in enumerate(text.split('\n'), 1):
        if re.match(r'\s*while .*\{$', line):
            out.append(('3', n))
        if re.match(r'\s*Refused\((u8|u32)\),', line):
            out.append(('1 enums', n))
        if re.match(r'\s*(pub )?const (LIVE|DEMONSTRATION|STATES)\b', line):
            out.append(('1 kinds', n))
        if re.match(r'\s*(pub )?fn (of|number)\(', line) or re.match(r'pub fn \w+_numbers\(', line):
            out.append(('4', n))
    for n, f, params, result, head, body in functions(text):
        if re.match(r'u(8|32)$', result) and re.search(r'_?(refusal|ground|reason|Answer|states_refusal)\b', head) and 'gesarumbo' not in name:
            out.append(('1 numbers', n))
        if len(params) > 10:
            out.append(('5 over 10', n))
        elif len(params) > 8:
            out.append(('5 over 8', n))
        names = [p.split(':')[0].replace('mut ', '').strip() for p in params]
        if 'len' in names and any(p.startswith('to') for p in names):
            out.append(('6 runs', n))
        if len(re.findall(r'^ +if (\w+) == \d+ \{', body, re.M)) > 1:
            out.append(('7 switches', n))
    return out


def main(args):
    commit = args[args.index('--commit') + 1] if '--commit' in args else None
    wanted = args[args.index('--list') + 1] if '--list' in args else None
    counts, made, total = {}, {}, [0, 0]
    for name, text in texts(commit, '.rt'):
        twin = text.startswith('// Made by tools/twin.py')
        total[twin] += len(FN.findall(text))
        for point, n in places(name, text):
            where = made if twin else counts
            where[point] = where.get(point, 0) + 1
            if wanted == point:
                print('%s:%d%s' % (name, n, ' made' if twin else ''))
    walks = [name for name, text in texts(commit, 'Proof.antt')]
    answers = [name for name, text in texts(commit, 'Answers.antt')]
    crates = sorted({name.split('/')[1] for name, text in texts(commit, '.rt')})
    if wanted == '8 walks':
        print('\n'.join(walks))
    if wanted:
        return
    print('crates %d, of them twins %d; functions %d, in made files %d more' % (len(crates), sum(c.endswith('257') for c in crates), total[0], total[1]))
    for point in sorted(set(counts) | set(made)):
        print('%-12s %4d, in made files %4d more' % (point, counts.get(point, 0), made.get(point, 0)))
    print('%-12s %4d, of them in twins %4d; files of answers %d' % ('8 walks', len(walks), sum('257/' in w for w in walks), len(answers)))


if __name__ == '__main__':
    main(sys.argv[1:])
