#!/usr/bin/env python3
"""The stack and code that each call takes on x86-64: the table in c/gesarumbo.h, and what is measured.

    tools/needs.py            writes the table as the archive at hand has it
    tools/needs.py --check    a step of the gate: fails where a call takes more than its line says, by the compiled code or by
                              painting, where a line says more than the code takes, and where painting stays far below it

Stack, by the compiled code: of each function what its prologue pushes and takes, of each call its deepest path, with the
128 bytes below the stack's end that a function may use without taking them. No function calls by a pointer or itself, so this
holds for all inputs; it is refused where one does. By painting: c/stack.c runs the calls. Code: what of the library is in a
program that links one call with --gc-sections, its constants included.
"""
import os
import re
import subprocess
import sys
import tempfile

import header

ARCHIVE = os.path.join(header.ROOT, 'target/staticlib/libgesarumbo.a')
BEGIN, END = ' * Stack and code.', ' *\n * From trays to records.'
# Below the stack's end, and what the caller puts on the stack for the call: the return address, a layout, other parameters.
RED_ZONE, CALLER, STEP = 128, 192, 64


def run(*words):
    return subprocess.run(words, check=True, stdout=subprocess.PIPE, text=True).stdout


class Function:
    """A function of the archive: the bytes of stack that it takes itself, and the functions that it calls."""

    def __init__(self):
        self.pushed, self.taken, self.in_loop, self.calls, self.before = 8, 0, False, set(), ''

    def line(self, said):
        found = re.search(r'\t(\w+) +(.*?)(?:\s+<.*)?$', said)
        operation, given = found.groups() if found else ('', '')
        # a large frame is taken step by step, in a loop that ends at r11: what it takes is what r11 is lowered by
        loop = operation == 'sub' and given.endswith(',%r11') and self.before == 'mov %rsp,%r11'
        self.before = operation + ' ' + given
        if operation == 'push':
            self.pushed += 8
        elif operation == 'and' and given.endswith(',%rsp'):
            sys.exit('a function aligns its stack, which is not reckoned with: ' + said)
        elif operation == 'call' and '*' in given:
            sys.exit('a function calls by a pointer: ' + said)
        elif operation == 'sub' and given.endswith(',%rsp') and self.in_loop:
            self.in_loop = False
        elif operation == 'sub' and given.endswith(',%rsp') or loop:
            taken = re.match(r'\$0x([0-9a-f]+),', given)
            if taken is None:
                sys.exit('a function takes stack by a number that is not constant: ' + said)
            self.taken += int(taken.group(1), 16)
            self.in_loop = loop
        called = re.search(r'R_X86_64_PLT32\s+(.+?)(?:[-+]0x[0-9a-f]+)?$', said)
        if called:
            self.calls.add(called.group(1).replace('.text.', '', 1) if called.group(1).startswith('.text.') else called.group(1))

    def own(self):
        return self.pushed + self.taken


def functions():
    out, at = {}, None
    for said in run('objdump', '-dr', '--no-show-raw-insn', ARCHIVE).split('\n'):
        begun = re.match(r'[0-9a-f]+ <(.*)>:$', said)
        if begun:
            at = out[begun.group(1)] = Function()
        elif at is not None:
            at.line(said)
    return out


def deepest(known, name, above=()):
    """The deepest path from a function on."""
    if name in ('memcpy', 'memmove', 'memset'):
        return 0
    if name in above:
        sys.exit('a function calls itself: ' + ', '.join(above))
    found = known[name]
    if not hasattr(found, 'deep'):
        found.deep = found.own() + max([deepest(known, called, above + (name,)) for called in found.calls], default=0)
    return found.deep


def stacks():
    known = functions()
    up = lambda number: -(-number // STEP) * STEP
    return {call.name: up(deepest(known, call.name) + RED_ZONE) for call in header.calls()}


def code(names, folder, linker='ld', archive=ARCHIVE, size='size'):
    """The bytes of code and constants in a program that has these calls alone."""
    out = os.path.join(folder, 'linked')
    wanted = [word for name in names for word in ('-u', name)]
    run(linker, '--gc-sections', '-e', names[0], *wanted, '--unresolved-symbols=ignore-all', archive, '-o', out)
    sizes = re.findall(r'^\.(?:text|rodata)\S*\s+(\d+)', run(size, '-A', out), flags=re.M)
    return sum(map(int, sizes))


def codes():
    with tempfile.TemporaryDirectory() as folder:
        out = {call.name: code([call.name], folder) for call in header.calls()}
        for kind, names in kinds().items():
            out[kind] = code(names, folder)
    return out


def kinds():
    """The names of each field's calls, and of the box's."""
    names = [call.name for call in header.calls()]
    box = [name for name in names if name.startswith('gesarumbo_box_')]
    second = [name for name in names if name.startswith('gesarumbo257_')]
    return {'256': [name for name in names if name not in box + second], '257': second, 'box': box}


def painted():
    with tempfile.TemporaryDirectory() as folder:
        program = os.path.join(folder, 'stack')
        sources = os.path.join(header.ROOT, 'c')
        words = ['-O2', '-std=c11', '-Wall', '-Wextra', '-Werror', '-I' + sources, os.path.join(sources, 'stack.c'), ARCHIVE]
        run('cc', *words, '-o', program)
        return {name: int(most) for name, most in (line.split() for line in run(program).splitlines())}


def table(stack, bytes_of_code):
    """The lines of the header."""
    row = '    %-28s%9s%9s%9s%9s\n'
    comma = '{:,}'.format
    shared, alone = [], []
    for call in header.calls():
        plain = call.name.partition('_')[2]
        twin = 'gesarumbo257_' + plain
        if call.name == twin:
            continue
        first = (comma(stack[call.name]), comma(bytes_of_code[call.name]))
        if twin in stack:
            shared.append(row % ((plain,) + first + (comma(stack[twin]), comma(bytes_of_code[twin]))))
        else:
            alone.append(row % ((plain,) + first + ('', '')))
    both = row % ('all calls', comma(max(stack[name] for name in kinds()['256'])), comma(bytes_of_code['256']),
                  comma(max(stack[name] for name in kinds()['257'])), comma(bytes_of_code['257']))
    text = '''Stack and code. What each call takes at most on x86-64, in bytes. Stack: below the caller's own
frame, whatever the call is given, by the compiled code; each call was also run on a painted stack.
Code: of a program that links this call alone with --gc-sections, constants included. What other
processors take is in docs/PERFORMANCE.md.

'''
    text += '    %-28s%18s%18s\n' % ('', 'field of 256', 'field of 257') + row % ('call', 'stack', 'code', 'stack', 'code')
    text += ''.join(shared) + both + '\n' + ''.join(alone)
    return ''.join(' *' + (' ' + line if line else '').rstrip() + '\n' for line in text.rstrip('\n').split('\n'))


def placed(lines):
    """The header with these lines in their place."""
    text = header.text()
    end = text.index(END)
    begin = text.find(BEGIN)
    if begin < 0:
        return text[:end] + ' *\n' + lines + text[end:]
    return text[:begin] + lines + text[end:]


def main():
    stack = stacks()
    wanted = placed(table(stack, codes()))
    if sys.argv[1:] == []:
        with open(os.path.join(header.ROOT, 'c/gesarumbo.h'), 'w', encoding='utf-8') as opened:
            opened.write(wanted)
        return
    if sys.argv[1:] != ['--check']:
        sys.exit(__doc__)
    faults = [] if header.text() == wanted else ['the table in c/gesarumbo.h is not what the archive takes: run tools/needs.py']
    found = painted()
    for name in stack:
        deep = found.get(name)
        if deep is None:
            faults.append('%s is not run by c/stack.c' % name)
        elif deep > stack[name] + CALLER:
            faults.append('%s: painted %d, more than its %d' % (name, deep, stack[name]))
        elif deep < stack[name] * 3 // 4 - RED_ZONE - STEP:
            faults.append('%s: painted %d, far below its %d: c/stack.c misses its deepest path' % (name, deep, stack[name]))
    if faults:
        sys.exit('\n'.join(faults))
    worst = max(stack, key=stack.get)
    print('stack: %d calls painted, the most is %d by %s' % (len(found), stack[worst], worst))


if __name__ == '__main__':
    main()
