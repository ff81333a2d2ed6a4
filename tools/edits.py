#!/usr/bin/env python3
"""The must-fail edits: that each finds its text, that each is refused for a fact, and their table at the end of docs/PROMISES.md.

    tools/edits.py [FILE]           write the table; what fails is taken from what `rt ci` or `rt must-fail` printed, and stays as it
                                    is written for an edit of which it says nothing
    tools/edits.py --check          name the edits whose texts do not stand exactly once in their files, those without a row of
                                    their own, and names of edits in PROMISES.md that are none, and fail if there is any: the first
                                    step of the gate, since an edit whose text has moved would otherwise fail only after all proofs
    tools/edits.py --logs [FILE]    read what was printed of all edits by `rt ci`: fail where an edit was not tried or not refused,
                                    broke only the shape of a proof, by rt's words was refused only by a limit of the prover, or where no fact is
                                    found; rows of the table that are not current are named

FILE is what rt printed, target/log/ci if none is named: the gate keeps there what `rt ci` printed. It has one line for each edit,
also for one that an earlier run tried, with the beginning of the first error that is not only a name that the edit took away. So
what fails is that error's lemma, or the function whose contract is not met; the difference is taken where the line has it whole,
and else stays as it is written, if the same fact fails.
"""
import glob
import os
import re
import sys

ROOT = os.path.join(os.path.dirname(os.path.abspath(__file__)), '..')
PROMISES = os.path.join(ROOT, 'docs', 'PROMISES.md')
HEAD = '| Edit | Changes | Fails first |'
PRINTED = os.path.join(ROOT, 'target', 'log', 'ci')
LINE = re.compile(r'^rt: must-fail (\w+)/(\S+)\.edit: (.*)$')
REFUSED = 'refused, as it must be'
# an edit that only broke the shape of a proof, or that the prover gave no verdict on, is refused in these words
FAULTS = ('only because a proof file names what the edit took away', 'only by a limit of the prover')
# the words in which an error names two terms that differ
DIFFERENCES = (
    r'(?:computed as far as they go|as printed), the two types (?:first )?differ(?: only)? where one has `([^`]*)`\s+\(expected\)'
    r'[^`]*and the other has `([^`]*)`',
    r'expected type `([^`]*)`,?\s+but this has type `([^`]*)`',
)
# a term longer than this is left out of the table
SHORT = 60


def edits():
    """The edits in the order of crates.txt, as crate and label."""
    with open(os.path.join(ROOT, 'crates.txt')) as text:
        crates = [line.split(':')[0].split()[0] for line in text if ':' in line and not line.startswith('#')]
    for crate in crates:
        for path in sorted(glob.glob(os.path.join(ROOT, 'crates', crate, 'must-fail', '*.edit'))):
            yield crate, os.path.basename(path)[:-len('.edit')]


def read(crate, label):
    """The lines of an edit as keys and texts."""
    with open(os.path.join(ROOT, 'crates', crate, 'must-fail', label + '.edit')) as text:
        return [line.partition(': ')[::2] for line in text.read().splitlines()]


def edited(crate, label):
    """The files that an edit changes, with their new texts, and what is wrong with it, None for nothing. Its pairs are applied
    one after another, as the gate does."""
    texts, name, old = {}, None, None
    for key, rest in read(crate, label):
        if key == 'file':
            name = rest
            path = os.path.join(ROOT, 'crates', crate, name)
            if not os.path.isfile(path):
                return texts, 'names no file: ' + name
            texts.setdefault(name, open(path).read())
        elif key == 'old':
            old = rest
            if name is None or texts[name].count(old) != 1:
                return texts, '%d times in %s: %s' % (texts.get(name, '').count(old), name, old)
        elif key == 'new':
            if old is None or old == rest:
                return texts, 'changes nothing: ' + rest
            texts[name] = texts[name].replace(old, rest)
            old = None
    return texts, None if texts and old is None else 'has no pair of lines'


def fault(crate, label):
    """What is wrong with an edit's texts, None for nothing."""
    return edited(crate, label)[1]


def plain(term):
    """A term without the modules of its names, and without the way from a place of a proof to an argument."""
    term = re.sub(r'(?<![\w.])(?:\w+\.)*[A-Z]\w*\.(?=\S)', '', term)
    return re.sub(r'\bc\.(?:before\.)*(?:args\.)?', '', term)


def difference(message):
    """The difference that an error names, where it is short."""
    for pattern in DIFFERENCES:
        found = re.search(pattern, message)
        terms = tuple(plain(term) for term in found.groups()) if found else ()
        if found and all(len(term) <= SHORT and '…' not in term and '?' not in term for term in terms):
            return ': `%s` asked, `%s` there' % terms
    return ''


def function(text, path, line):
    """The function of a file of src/ in which a line stands: the last that begins there or above, its attributes with it."""
    lines = text.split('\n')
    while line < len(lines) and lines[line - 1].lstrip().startswith('#['):
        line += 1
    names = re.findall(r'^ *(?:pub )?(?:extern "C" )?fn (\w+)', '\n'.join(lines[:line]), re.M)
    module = re.sub(r'^src/|(/mod)?\.rt$', '', path)
    return '::'.join(([] if module in ('lib', 'main') else module.split('/')) + names[-1:])


def fact(crate, label, said):
    """What fails first, None where the line names nothing, or where a definition is refused and not what is proved of it."""
    said = said.partition(': ')[2]
    found = re.match(r'(?:note: )?(?:\./)?((proofs|src)/(\S*?)):(\d+):\d+: (?:error: `([^`]*)`: )?(.*)', said)
    if not found or 'was not admitted' in said:
        return None
    path, folder, rest, line, name, message = found.groups()
    if folder == 'src':
        # what is left open where no answer is written
        goal = re.search(r'\(`([^`]+)`\)', message)
        if name or not goal:
            return None
        text = edited(crate, label)[0].get(path) or open(os.path.join(ROOT, 'crates', crate, path)).read()
        where, name = '`%s`' % function(text, path, int(line)), goal.group(1)
    elif not name:
        return None
    elif not re.match(r'proofs/.+/(Invariants|Answers|Proof)\.antt$', path):
        return '`%s` (%s)' % (name, rest[:-len('.antt')]) + difference(message)
    else:
        where = '`%s`' % os.path.dirname(rest).replace('/', '::')
    kept = name == 'returns' or name.startswith('returns-') or re.search(r'(?:no proof of|expected type) `\S*Reads\.Post ', message)
    where += ', what it ensures' if kept else '' if name.endswith('_spec') else ', `%s`' % name
    return where + difference(message)


def printed():
    """What rt printed of each edit, by crate/label."""
    named = [word for word in sys.argv[1:] if not word.startswith('--')]
    path = named[0] if named else PRINTED
    lines = open(path).read().split('\n') if os.path.exists(path) else []
    return {'%s/%s' % found.group(1, 2): found.group(3) for found in map(LINE.match, lines) if found}


def rows(page):
    """The rows of the table as they stand: an edit, and what is written behind it."""
    at = page.find(HEAD)
    lines = page[at:].splitlines()[2:] if at >= 0 else []
    return dict(re.match(r'\| (\S+) \| (.*) \|$', line).groups() for line in lines if line.startswith('| '))


def changed(crate, label):
    """The files that an edit changes, those of proofs left out."""
    names = [rest for key, rest in read(crate, label) if key == 'file']
    return ', '.join(dict.fromkeys(name for name in names if not name.startswith('proofs/')))


def written(page):
    """The page with its table as it has to be, and what is wrong in what was printed."""
    old, told, out, faults = rows(page), printed(), [], []
    for crate, label in edits():
        name = '%s/%s' % (crate, label)
        said = told.get(name)
        failing = old.get(name, ' | –').split(' | ', 1)[1]
        if said is not None:
            wrong = [words for words in FAULTS if words in said]
            found = fact(crate, label, said) if said.startswith(REFUSED) and not wrong else None
            if said.startswith(REFUSED):
                now = (found or '–').replace('|', '\\|')
                failing = failing if failing.startswith(now + ': ') else now
            if found is None:
                faults.append('%s: %s' % (name, wrong[0] if wrong else 'no fact: ' + said[:120] if said.startswith(REFUSED) else said[:200]))
        out.append('| %s | %s | %s |' % (name, changed(crate, label), failing))
    at = page.find(HEAD)
    before = page[:at] if at >= 0 else page
    return before.rstrip('\n') + '\n\n' + HEAD + '\n|---|---|---|\n' + '\n'.join(out) + '\n', faults


def cited(page):
    """The edits that the page names, as crate/label: a label has a hyphen, which no folder of a crate has."""
    return set(re.findall(r'(?<![\w/])([a-z]\w*/[a-z0-9]+(?:-[a-z0-9]+)+)', page))


def check():
    """The first step of the gate."""
    with open(PROMISES) as text:
        page = text.read()
    listed = rows(page)
    there = {'%s/%s' % edit: fault(*edit) for edit in edits()}
    faults = ['%s: %s' % (name, wrong) for name, wrong in there.items() if wrong]
    faults += ['%s: no row in docs/PROMISES.md' % name for name in there if name not in listed]
    faults += ['%s: named in docs/PROMISES.md and no edit' % name for name in sorted(cited(page) | set(listed)) if name not in there]
    return faults


def logs():
    """The step after `rt ci`."""
    with open(PROMISES) as text:
        page = text.read()
    now, faults = written(page)
    told = printed()
    faults += ['%s/%s: nothing was printed of it' % edit for edit in edits() if '%s/%s' % edit not in told]
    was = page.splitlines()
    for line in now.splitlines():
        if line not in was:
            print('docs/PROMISES.md has not: ' + line)
    return faults


def main():
    if '--check' in sys.argv or '--logs' in sys.argv:
        faults = check() if '--check' in sys.argv else logs()
        print('\n'.join(faults) if faults else '%d edits' % len(list(edits())))
        sys.exit(bool(faults))
    with open(PROMISES) as text:
        now, faults = written(text.read())
    with open(PROMISES, 'w') as text:
        text.write(now)
    print('\n'.join(faults) if faults else '%d edits' % len(list(edits())))


main()
