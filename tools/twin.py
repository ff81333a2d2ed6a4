#!/usr/bin/env python3
"""Makes the code of the second field, the one modulo 257, from that of the first, by a table of renames.

    tools/twin.py            write what is not current, in the layout of `rt fmt`
    tools/twin.py --check    name what is not current, and fail if there is any: a step of the gate

What is made is laid out by `rt fmt` in a temporary folder and compared byte for byte. A file that stands where only made files
belong (in a made crate, or among the boundary's made files) and is not made is named too, and removed where files are written.
.gitattributes marks these places as generated, from the same list.

A twin crate X257 has the code of X over 16-bit numbers, and the answers of its proofs (Invariants.antt and Answers.antt
in proofs/F/). Definitions and lemmas are not copied: they are stated in X over any field, and the twin cites them there.
A place and a part of 16-bit numbers ask one fact more than those of bytes: its answer stands in the first field's proof in a comment
that begins with `twin:`, which is opened here. Images and states stay bytes, and the edition of images is exchanged with the field.
Where a crate calls one that has no twin, the twin calls the plain crate whose contract that one repeats (PLAIN).
In the crates of the C boundary, the calls and their exports, the module field257 is made from field256 in the same way.
"""
import os
import re
import subprocess
import sys
import tempfile

ROOT = os.path.join(os.path.dirname(os.path.abspath(__file__)), '..', 'crates')

# the crates that have a twin, and those of their functions that return a symbol
TWINS = {
    'solving': [],
    'restore': [],
    'sums': ['digit_point'],
    'group': [],
    'multipliers': [],
    'cards': ['card_sum'],
    'pieces': [],
    'locating': [],
    'correcting': [],
    'share': [],
    'batch_share': [],
    'repair': [],
    'batch_repair': [],
    'reading': [],
    'recover': [],
    'recover_correcting': [],
    'test_kept': [],
    'gather': [],
    'store': [],
    'batch_factors': [],
    'batch_restore': [],
    'batch_store': [],
    'scrub': [],
}
# crates without a twin, and those whose functions a twin calls in their place: the names and the contracts are the same
PLAIN = {'rack_checks': 'syndrome', 'rack_solving': 'solving'}
# crates that the other field has its own of, written by hand
OWN = ['symbol', 'image']
# what both fields take from the first field's crate: types, and of images the header and the grounds
TAKEN = {
    'repair': ['Repaired', 'RepairNumbers'],
    'correcting': ['Corrected', 'CorrectedNumbers'],
    'recover_correcting': ['Recovered', 'RecoveredNumbers'],
    'test_kept': ['Kept', 'KeptNumbers'],
    'gather': ['Gathered'],
    'scrub': ['Report', 'Scrubbed', 'Walk'],
    'image': ['FIRST', 'grounds', 'header'],
}
# the crates of the boundary, their module over the first field, and the one that is made from it
BOUNDARY, FIRST, SECOND = ['gesarumbo', 'gesarumbo_c'], 'field256', 'field257'
# the files of a proof
PROOF = re.compile(r'proofs/.+/(Invariants|Answers|Proof)\.antt$')
# where only made files belong, below crates/
MADE = ['%s257/' % name for name in TWINS]
MADE += ['%s/%s' % (name, at) for name in BOUNDARY for at in ('src/%s.rt' % SECOND, 'proofs/%s/' % SECOND, 'proofs/images/gesarumbo257_write_image/')]


def symbols(text, returning):
    """Symbols as 16-bit numbers. A tray's state and what an image holds stay bytes."""
    text = re.sub(r'(?<!states: &)(?<!states: &mut )(?<!image: &)(?<!images: &)\[u8\]', '[u16]', text)
    text = re.sub(r'(\d)u8\b', r'\1u16', text)
    text = re.sub(r': u8\b', ': u16', text)
    text = re.sub(r'\bu8::', 'u16::', text)
    for crate, plain in PLAIN.items():
        text = re.sub(r'(?<![\w:])%s::' % crate, plain + '::', text)
    for f in returning:
        text = re.sub(r'(fn %s\([^{]*?-> )u8\b' % f, r'\1u16', text, flags=re.S)
    for crate in list(TWINS) + OWN:
        kinds = ''.join(r'(?!%s\b)' % kind for kind in TAKEN.get(crate, []))
        text = re.sub(r'(?<![\w:])%s::%s' % (crate, kinds), crate + '257::', text)
    return text


def field(text):
    """The definitions of the other field, and the edition of its images."""
    text = text.replace('gf256', 'gf257').replace('Rattle.symbol.', 'Rattle.symbol257.').replace('Rattle.batch_kernel.specs.Ready.', 'Rattle.batch_kernel.specs.Wide.')
    return re.sub(r'\bFIRST\b', 'SECOND', text).replace('edition1', 'edition2').replace('proper1', 'proper2')


def code(name, text):
    """The code of the twin of a crate."""
    text = symbols(text, TWINS[name])
    for kind in TAKEN.get(name, []):
        text, named = re.subn(r'use crate::%s;\n|(// [^\n]*\n|#\[[^\n]*\n)*pub (enum|struct) %s \{.*?\n\}\n\n' % (kind, kind), '', text, flags=re.S)
        if named and re.search(r'\b%s\b' % kind, text):
            text = text.replace('\nuse ', '\nuse %s::%s;\nuse ' % (name, kind), 1)
    return cited(name, text)


def cited(name, text):
    """The modules that a file of the twin of a crate cites."""
    return re.sub(r'\bRattle\.%s\.proofs\.(?=[a-z+])' % name, 'Rattle.%s257.proofs.' % name, field(text))


def proof(name, text):
    """The answers, those for 16-bit numbers with them. A walk of the code by hand names the kind of symbols and the functions called."""
    text = re.sub(r'\b([uw])8\b', r'\g<1>16', text.replace('-- twin: ', ''))
    return cited(name, text.replace('calls-%s::' % name, 'calls-%s257::' % name))


def exported(text):
    """The names at the boundary."""
    return re.sub(r'\bgesarumbo(?!_c\b)([_-])', r'gesarumbo257\1', field(text)).replace(FIRST, SECOND).replace('the field of 256', 'the field modulo 257')


def files(base):
    """Every file below a folder, and its path there. What checks keep in a crate's out/ is no part of it."""
    for folder, below, names in os.walk(base):
        below[:] = [name for name in below if name != 'out']
        for name in sorted(names):
            path = os.path.join(folder, name)
            yield path, os.path.relpath(path, base)


def made():
    """Every file that is made: the one it is made from, its own path and its text."""
    for name in TWINS:
        for path, rel in files(os.path.join(ROOT, name)):
            target = os.path.join(ROOT, name + '257', rel)
            text = open(path).read()
            if rel.startswith('src'):
                yield path, target, code(name, text)
            elif PROOF.match(rel):
                yield path, target, proof(name, text)
    for name in BOUNDARY:
        base = os.path.join(ROOT, name)
        for path, rel in files(base):
            target = os.path.join(base, rel.replace(FIRST, SECOND).replace('/gesarumbo_', '/gesarumbo257_'))
            text = open(path).read()
            if rel == 'src/%s.rt' % FIRST:
                yield path, target, exported(symbols(text, []))
            elif PROOF.match(rel) and rel.startswith(('proofs/%s/' % FIRST, 'proofs/images/gesarumbo_write_image/')):
                yield path, target, exported(re.sub(r'\bw8\b', 'w16', text.replace('-- twin: ', '')))


def headed(source, text):
    """A made file says first what it is made from."""
    return '%s Made by tools/twin.py from %s.\n%s' % ('//' if source.endswith('.rt') else '--', 'crates/' + os.path.relpath(source, ROOT), text)


def laid_out(texts):
    """Texts by their paths below crates/, as `rt fmt` lays them out: it breaks longer lines and sorts the uses."""
    with tempfile.TemporaryDirectory() as folder:
        # one folder in the place of a crate, since the layout of a file does not depend on where it stands
        for rel, text in texts.items():
            path = os.path.join(folder, 'src', rel)
            os.makedirs(os.path.dirname(path), exist_ok=True)
            with open(path, 'w') as file:
                file.write(text)
        subprocess.run(['rt', 'fmt'], cwd=folder, check=True, stdout=subprocess.DEVNULL)
        return {rel: open(os.path.join(folder, 'src', rel)).read() for rel in texts}


def left_over(kept):
    """Files that stand where only made files belong, and are not made."""
    for path, rel in files(ROOT):
        if rel.startswith(tuple(MADE)) and rel not in kept:
            yield rel


def attributes():
    """The text of .gitattributes."""
    places = ['crates/%s%s linguist-generated' % (place, '**' if place.endswith('/') else '') for place in MADE]
    return '# Written by tools/twin.py: what it makes.\n' + '\n'.join(sorted(places)) + '\n'


def main():
    check = '--check' in sys.argv
    texts = laid_out({os.path.relpath(path, ROOT): headed(source, text) for source, path, text in made()})
    texts[os.path.join('..', '.gitattributes')] = attributes()
    stale = []
    for rel, text in texts.items():
        path = os.path.join(ROOT, rel)
        old = open(path).read() if os.path.exists(path) else None
        if old != text:
            stale.append(rel)
            if not check:
                os.makedirs(os.path.dirname(path), exist_ok=True)
                with open(path, 'w') as file:
                    file.write(text)
    for rel in left_over(texts):
        stale.append(rel + ' (not made)')
        if not check:
            os.remove(os.path.join(ROOT, rel))
    for line in stale:
        print(os.path.normpath(os.path.join('crates', line)))
    if check and stale:
        sys.exit(1)


main()
