#!/usr/bin/env python3
"""Prints the tables of docs/PERFORMANCE.md on other processors: instructions of a call, stack and code, for each target.

    tools/cost.py TARGET..      as x86_64 aarch64 riscv64 armv7 armv7-neon; the libraries are those of target/staticlib and target/port
                                (tools/port-test TARGET makes the latter and installs what is needed)

Instructions: qemu-user counts them (tools/count.c), of a program that makes the call twice less those of one that makes it once,
memcpy and memset of Debian's C library included. Stack: by painting (c/stack.c, in a few small layouts). Code: of a
program that links these calls alone with --gc-sections, without what it takes from the C library.
"""
import os
import subprocess
import sys
import tempfile

import header
import needs

ARM = 'arm-linux-gnueabihf-'
GNU = {'x86_64': '', 'aarch64': 'aarch64-linux-gnu-', 'riscv64': 'riscv64-linux-gnu-', 'armv7': ARM, 'armv7-neon': ARM}
QEMU = {'armv7': 'qemu-arm', 'armv7-neon': 'qemu-arm'}
ROWS = [
    ('256', layout, call)
    for layout, calls in (
        ((10, 3, 24, 9, 0), ('store', 'test', 'recover-1', 'recover-r', 'share', 'repair')),
        ((4, 3, 8, 3, 0), ('store', 'test', 'recover-1', 'share', 'repair')),
        ((10, 3, 18, 9, 1), ('store', 'correct')),
    )
    for call in calls
] + [
    ('257', layout, call)
    for layout, calls in (
        ((10, 4, 32, 9, 0), ('store', 'test', 'recover-1', 'recover-r', 'share', 'repair')),
        ((5, 4, 15, 4, 0), ('store', 'test', 'recover-1', 'share', 'repair')),
        ((10, 4, 24, 9, 1), ('store', 'correct')),
    )
    for call in calls
]
STACKS = (
    'store', 'test', 'recover', 'recover_correcting', 'test_kept', 'share', 'repair', 'repair_correcting', 'card', 'scrub', 'gather',
    'read_image',
)


def archive(target):
    return os.path.join(header.ROOT, 'target/staticlib/libgesarumbo.a' if target == 'x86_64' else 'target/port/%s/libgesarumbo.a' % target)


class Target:
    """A processor: its compiler, qemu and the program, built in a folder."""

    def __init__(self, name, folder):
        self.name, self.folder = name, folder
        self.qemu = QEMU.get(name, 'qemu-' + name)
        self.program = os.path.join(folder, 'stack-' + name)
        self.plugin = os.path.join(folder, 'count.so')
        c = os.path.join(header.ROOT, 'c')
        needs.run(GNU[name] + 'gcc', '-O2', '-std=c11', '-I' + c, os.path.join(c, 'stack.c'), archive(name), '-static', '-o', self.program)

    def executed(self, field, call, times, layout):
        words = [self.qemu, '-plugin', self.plugin, self.program, field, call, str(times), *map(str, layout)]
        return int(subprocess.run(words, check=True, stderr=subprocess.PIPE, text=True).stderr)

    def instructions(self, field, layout, call):
        return self.executed(field, call, 2, layout) - self.executed(field, call, 1, layout)

    def stacks(self):
        lines = needs.run(*([] if self.name == 'x86_64' else [self.qemu]), self.program, 'few').splitlines()
        return {name: int(most) for name, most in (line.split() for line in lines)}

    def code(self, names):
        return needs.code(names, self.folder, GNU[self.name] + 'ld', archive(self.name), GNU[self.name] + 'size')


def table(heads, rows):
    print('| ' + ' | '.join(heads) + ' |')
    print('|---|' + '---:|' * (len(heads) - 1))
    for row in rows:
        print('| ' + ' | '.join(row) + ' |')
    print(flush=True)


def main():
    chosen = sys.argv[1:]
    if not chosen or not set(chosen) <= set(GNU):
        sys.exit(__doc__)
    comma = '{:,}'.format
    with tempfile.TemporaryDirectory() as folder:
        needs.run('cc', '-shared', '-fPIC', '-O2', os.path.join(header.ROOT, 'tools/count.c'), '-o', os.path.join(folder, 'count.so'))
        targets = [Target(name, folder) for name in chosen]
        shown = lambda layout: '(%s)' % ', '.join(map(str, layout if layout[4] else layout[:4]))
        table(['field, layout, call'] + chosen,
              (['%s, %s, %s' % (field, shown(layout), call)] + [comma(target.instructions(field, layout, call)) for target in targets]
               for field, layout, call in ROWS))
        stacks = [target.stacks() for target in targets]
        table(['stack, 256 / 257'] + chosen,
              ([call] + ['%s / %s' % (comma(stack['gesarumbo_' + call]), comma(stack['gesarumbo257_' + call])) for stack in stacks]
               for call in STACKS))
        kinds = needs.kinds()
        some = lambda prefix: [prefix + call for call in ('store', 'recover', 'share', 'repair', 'read_image', 'write_image')]
        table(['code'] + chosen,
              ([name] + [comma(target.code(names)) for target in targets] for name, names in (
                  ('field of 256', kinds['256']), ('field of 257', kinds['257']), ('the box', kinds['box']),
                  ('of 256: store, recover, share, repair, images', some('gesarumbo_')),
                  ('of 257: the same', some('gesarumbo257_')))))


if __name__ == '__main__':
    main()
