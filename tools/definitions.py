"""The definitions of the .antt files under crates/ and the names that they cite, for reading.py and orphans.py."""
import os
import re

ROOT = os.path.join(os.path.dirname(os.path.abspath(__file__)), '..')
USE = re.compile(r'(?:ghost )?use Rattle\.(\w+)\.(specs|proofs)\.(\S+?)\.\{(.*)\};?$')
CRATES = set(os.listdir(os.path.join(ROOT, 'crates')))
HEAD = re.compile(r'(?:unfoldable |abbrev )?(pub )?(record |data |ruleset )?([^\s:({]+)')
WORD = re.compile(r'[^\s(){}\[\];,.]+')


def read(path):
    with open(os.path.join(ROOT, path)) as text:
        return text.read()


def below(folder, *ends):
    """The files below a folder with these endings; what checks keep in a crate's out/ left out."""
    for at, folders, names in os.walk(os.path.join(ROOT, folder)):
        folders[:] = [name for name in folders if name != 'out']
        for name in names:
            if name.endswith(ends):
                yield os.path.relpath(os.path.join(at, name), ROOT)


def said(line):
    """A line without its comment."""
    return re.sub(r'(^|\s)--(\s.*)?$', '', line)


def imports(text):
    """The names that a file takes from others of the repository: its own name for each, and the file and the name there."""
    out = {}
    for line in text.split('\n'):
        use = USE.match(line)
        for item in use.group(4).split(', ') if use and use.group(1) in CRATES else []:
            there, _, here = item.partition(' as ')
            out[here or there] = ('crates/%s/%s/%s.antt' % (use.group(1), use.group(2), use.group(3).replace('.', '/')), there)
    return out


def words(lines):
    """The names in some lines: no field of a record, where one is read, given or declared."""
    out = set()
    for number, line in enumerate(lines):
        line = re.sub(r'\.[^\s(){}\[\];,.]+', ' ', line)
        line = re.sub(r'(?<=[{;])\s*[^\s(){}\[\];,.=]+ =(?=\s)', ' ', line)
        if number:
            line = re.sub(r'^\s+pub [^:]+ :', ' ', line)
        out.update(WORD.findall(line))
    return out


class File:
    """A file's definitions: their lines, how far they are indented, and the lines of the module that each stands in."""

    def __init__(self, path):
        text = read(path)
        self.imports, self.lines, self.depths, self.frames, self.public = imports(text), {}, {}, {}, []
        self.name, self.depth, frame = None, 0, ()
        for line in map(said, text.split('\n')):
            if not line.strip() or re.match(r'use |infix|pub mod |mod |\s*unfolding ', line):
                continue
            depth = len(line) - len(line.lstrip())
            if depth == 0:
                frame = ()
            if line.lstrip().startswith('module _'):
                frame, self.name = (line,), None
            elif line.lstrip().startswith('open ') and self.name is None:
                frame += (line,)
            else:
                self.add(line, depth, frame)

    def add(self, line, depth, frame):
        """A line that begins a definition or goes on with one."""
        starts = re.match(r'\s*(unfoldable|abbrev|pub|record|data|[^\s:({]+ :) ', line) and (self.name is None or depth <= self.depth)
        if starts:
            head = HEAD.match(line.lstrip())
            self.name, self.depth = head.group(3), depth
            self.lines[self.name], self.depths[self.name], self.frames[self.name] = [], depth, frame
            if head.group(1) and not head.group(2):
                self.public.append(self.name)
        if self.name is not None:
            self.lines[self.name].append(line)

    def cites(self, name):
        """The names of this file and of others that a definition cites, operators with their places."""
        found = words(self.lines[name]) | words(('',) + self.frames[name])
        found |= {'◌%s◌' % word for word in found}
        here = {other for other in found & set(self.lines) if other != name}
        return here, {self.imports[word] for word in found & set(self.imports) if word not in here}


FILES = {}


def file(path):
    if path not in FILES:
        FILES[path] = File(path)
    return FILES[path]
