#!/usr/bin/env python3
"""Makes target/port/TARGET/libgesarumbo.a, the library for another processor, from the LLVM module of the proved one.

    tools/port.py aarch64|riscv64|armv7|armv7-neon|x86_64

The module, target/port/module.bc, is what the kit hands to its compiler after the proof (tools/module, which is run where
the module is missing or older than a source). It was made for x86-64, and its exported functions take and give structs by
that processor's convention. So three things are put together, in one way for all targets:

1. The module as text, changed in three places only: the target's name and layout of data, the name of the processor in the
   functions' attributes, and the `define` lines of the exported functions, which become internal ones of another name.
2. For each of these a function over pointers and numbers alone, as gesarumbo_plain_store: a layout and a record come by their
   address, and the answer goes to one. It is some lines of LLVM, made from the header and the `define` line, which
   have to agree, and added to the module's text.
3. For each call of the header a C function of its name, which calls the plain one: shim.c, made from the header. What the
   target's convention for structs is, the C compiler knows.

The kit's clang compiles both, at the module's own level (-O3); its llvm-ar makes the archive. x86_64 is for trying this way
beside the library that is linked there.
"""
import os
import re
import shutil
import subprocess
import sys

import header
from definitions import below

PORT = os.path.join(header.ROOT, 'target/port')
MODULE = os.path.join(PORT, 'module.bc')

ARM = 'e-m:e-p:32:32-Fi8-i64:64-v128:64:128-a:0:32-n32-S64'
# For each target its LLVM name, layout of data and flags of the compiler.
TARGETS = {
    'aarch64': (
        'aarch64-unknown-linux-gnu',
        'e-m:e-p270:32:32-p271:32:32-p272:64:64-i8:8:32-i16:16:32-i64:64-i128:128-n32:64-S128-Fn32',
        ['-march=armv8-a', '-mllvm', '-aarch64-load-store-renaming=false'],
    ),
    'riscv64': ('riscv64-unknown-linux-gnu', 'e-m:e-p:64:64-i64:64-i128:128-n32:64-S128', ['-march=rv64gc', '-mabi=lp64d']),
    'armv7': ('armv7-unknown-linux-gnueabihf', ARM, ['-march=armv7-a', '-mfpu=vfpv3-d16', '-mfloat-abi=hard']),
    'armv7-neon': ('armv7-unknown-linux-gnueabihf', ARM, ['-march=armv7-a', '-mfpu=neon', '-mfloat-abi=hard']),
    'x86_64': ('x86_64-unknown-linux-gnu', None, ['-march=x86-64', '-mllvm', '-no-x86-call-frame-opt']),
}
# As the kit compiles the module, some passes of LLVM left out for their faults; TARGETS has what goes by the processor.
FLAGS = [
    '-mllvm', '-no-trap-after-noreturn', '-ffunction-sections', '-fdata-sections', '-mllvm', '-trap-unreachable',
    '-mllvm', '-disable-machine-licm', '-mllvm', '-disable-postra-machine-licm', '-mllvm', '-sink-common-insts=false',
    '--no-default-config', '-no-canonical-prefixes', '-fintegrated-cc1', '-fno-crash-diagnostics', '-Werror', '-fPIC', '-O3',
]
# What the attributes of functions say of the processor.
PROCESSOR = r' "probe-stack"="inline-asm" "stack-probe-size"="\d+" "target-cpu"="x86-64"'
STDDEF = 'typedef __SIZE_TYPE__ size_t;\n#define NULL ((void *)0)\n'
STDINT = ''.join('typedef __%s_TYPE__ %s_t;\n' % (name.upper(), name) for name in ('uint8', 'uint16', 'uint32', 'int32', 'uint64'))


def run(*words):
    subprocess.run(words, check=True, cwd=header.ROOT)


def stale():
    """Whether the module is missing, or older than a source; what checks keep in out/ is none."""
    if not os.path.exists(MODULE):
        return True
    made = os.path.getmtime(MODULE)
    sources = [os.path.join(header.ROOT, path) for path in below('crates', '')]
    return any(os.path.getmtime(source) > made for source in sources + [os.path.join(header.ROOT, 'crates.txt')])


def only(pattern, with_what, text):
    """The text with the one place that fits the pattern replaced."""
    changed, count = re.subn(pattern, with_what, text, flags=re.M)
    if count != 1:
        sys.exit('the module has %d places like %s, not one' % (count, pattern))
    return changed


def size(struct):
    """The bytes of a struct as the module has it: 32-bit numbers, and 64-bit ones at multiples of 8."""
    at = 0
    for kind, _ in header.structs()[struct]:
        width = 12 if kind == 'gesarumbo_scrub_record' else 4 if kind in ('uint32_t', 'int32_t') else 8
        at = -(-at // 8) * 8 + 8 if width == 8 else at + width
    return -(-at // 8) * 8 if any(kind in ('uint64_t', 'size_t') for kind, _ in header.structs()[struct]) else at


def given(gives):
    """What an exported function gives by x86-64's convention, in LLVM's types; ptr where it writes to an address."""
    if gives in ('uint32_t', 'uint64_t'):
        return {'uint32_t': 'i32', 'uint64_t': 'i64'}[gives]
    return {8: 'i64', 12: '{ i64, i32 }', 16: '{ i64, i64 }'}.get(size(gives), 'ptr')


def taken(kind):
    """What a parameter of the header is for the exported function: LLVM's types, with their attributes."""
    if kind == 'gesarumbo_layout':
        return ['ptr byval([20 x i8]) align 4']
    if kind == 'gesarumbo_scrub_record':
        return ['i64', 'i32']
    return ['ptr'] if kind.endswith('*') else [{'uint32_t': 'i32', 'uint64_t': 'i64', 'size_t': 'i64'}[kind]]


def plain_name(call):
    """As gesarumbo257_plain_store for gesarumbo257_store."""
    return call.name.replace('_', '_plain_', 1)


def plain(call):
    """The function over pointers and numbers, and what the exported one's `define` line has to be."""
    gives = given(call.gives)
    wanted = ['ptr'] if gives == 'ptr' else []
    words = ['ptr %answer'] if gives == 'ptr' else []
    own, loads = ['ptr %answer'], []
    for kind, name in call.parameters:
        types = taken(kind)
        wanted += types
        if kind == 'gesarumbo_scrub_record':
            own.append('ptr %' + name)
            loads += [
                '  %%%s.low = load i64, ptr %%%s, align 4' % (name, name),
                '  %%%s.next = getelementptr i8, ptr %%%s, i32 8' % (name, name),
                '  %%%s.high = load i32, ptr %%%s.next, align 4' % (name, name),
            ]
            words += ['i64 %%%s.low' % name, 'i32 %%%s.high' % name]
        else:
            own.append('%s %%%s' % (types[0].split(' ')[0], name))
            words.append('%s %%%s' % (types[0], name))
    call_it = '  %%given = call %s @"boundary %s"(%s)' % (gives, call.name, ', '.join(words))
    body = '\n'.join(loads + [call_it] + stores(gives))
    text = 'define void @%s(%s) #0 {\n%s\n  ret void\n}\n' % (plain_name(call), ', '.join(own), body)
    return text, gives, wanted


def stores(gives):
    """The lines that put what was given to the answer's address."""
    if gives == 'ptr':
        return []
    if gives in ('i32', 'i64'):
        return ['  store %s %%given, ptr %%answer, align 4' % gives]
    first, second = gives.strip('{ }').split(', ')
    return [
        '  %%low = extractvalue %s %%given, 0' % gives,
        '  %%high = extractvalue %s %%given, 1' % gives,
        '  %next = getelementptr i8, ptr %answer, i32 8',
        '  store %s %%low, ptr %%answer, align 4' % first,
        '  store %s %%high, ptr %%next, align 4' % second,
    ]


def nameless(text):
    """The module's text without the processor's name, which each group of attributes of functions that are there has in one place, and nothing else."""
    groups = re.findall(r'^attributes #\d+ = \{.*"target-cpu".*\}$', text, flags=re.M)
    if not groups:
        sys.exit('the module names no processor')
    for group in groups:
        text = only('^%s$' % re.escape(group), only(PROCESSOR, '', group), text)
    left = re.search(r'"(probe-stack|stack-probe-size|target-cpu|target-features|tune-cpu)"|x86', text)
    if left:
        sys.exit('the module names a processor in another place too: %s' % left.group(0))
    return text


def ported(text, target):
    """The module's text for a target, with the plain functions."""
    triple, layout, _ = TARGETS[target]
    text = only(r'^target triple = ".*"$', 'target triple = "%s"' % triple, text)
    if layout is not None:
        text = only(r'^target datalayout = ".*"$', 'target datalayout = "%s"' % layout, text)
        text = nameless(text)
    exported = set(re.findall(r'^define (?!internal)[^@]*@(\w+)\(', text, flags=re.M))
    if exported != {call.name for call in header.calls()}:
        sys.exit('the header and the module differ: %s' % ', '.join(sorted(exported ^ {call.name for call in header.calls()})))
    out = []
    for call in header.calls():
        said, gives, wanted = plain(call)
        found = re.search(r'^define ([^@]*)@%s\((.*)\) #0 \{$' % call.name, text, flags=re.M)
        has = [re.sub(r' %a\d+$', '', word).replace(' noundef', '') for word in found.group(2).split(', ')]
        if found.group(1).replace('noundef', '').strip() != gives or has != wanted:
            sys.exit('%s is not in the module as the header has it:\n%s' % (call.name, found.group(0)))
        if len(re.findall(r'@%s\b' % call.name, text)) != 1:
            sys.exit('%s is used in the module itself' % call.name)
        text = text.replace(found.group(0), 'define internal %s@"boundary %s"(%s) #0 {' % (found.group(1), call.name, found.group(2)))
        out.append(said)
    return text + '\n' + '\n'.join(out)


def spaced(kind, name):
    return kind + ('' if kind.endswith('*') else ' ') + name


def shim():
    """The C functions of the header's names."""
    out = ['/* Made by tools/port.py from gesarumbo.h: its calls over functions that take pointers and numbers alone. */']
    out += ['#include "gesarumbo.h"', '']
    for call in header.calls():
        number = call.gives in ('uint32_t', 'uint64_t')
        parts = [] if number else header.structs()[call.gives]
        fields = ' '.join('%s %s;' % ('uint64_t' if kind == 'size_t' else kind, name) for kind, name in parts)
        answer = call.gives + ' answer;' if number else 'struct { %s } answer;' % fields
        declared, words = ['void *answer'], ['&answer']
        for kind, name in call.parameters:
            by_address = kind in ('gesarumbo_layout', 'gesarumbo_scrub_record')
            declared.append('const %s *%s' % (kind, name) if by_address else spaced(kind.replace('size_t', 'uint64_t'), name))
            words.append('&' + name if by_address else name)
        own = ', '.join(spaced(*parameter) for parameter in call.parameters)
        values = ', '.join('(size_t)answer.' + name if kind == 'size_t' else 'answer.' + name for kind, name in parts)
        back = ['    return answer;'] if number else ['    %s given = { %s };' % (call.gives, values), '    return given;']
        out += [
            'void %s(%s);' % (plain_name(call), ', '.join(declared)),
            '%s %s(%s)' % (call.gives, call.name, own),
            '{',
            '    ' + answer,
            '    %s(%s);' % (plain_name(call), ', '.join(words)),
            *back,
            '}',
            '',
        ]
    return '\n'.join(out)


def write(path, text):
    os.makedirs(os.path.dirname(path), exist_ok=True)
    with open(path, 'w', encoding='utf-8') as opened:
        opened.write(text)


def main():
    if len(sys.argv) != 2 or sys.argv[1] not in TARGETS:
        sys.exit(__doc__)
    target = sys.argv[1]
    triple, _, flags = TARGETS[target]
    if stale():
        run('tools/module')
    kit = subprocess.run([os.path.join(header.ROOT, 'tools/kit')], check=True, stdout=subprocess.PIPE, text=True).stdout.strip()
    bin_folder = os.path.join(kit, 'toolchain/bin')
    clang, folder = os.path.join(bin_folder, 'clang'), os.path.join(PORT, target)
    shutil.rmtree(folder, ignore_errors=True)
    os.makedirs(folder)
    at = lambda name: os.path.join(folder, name)
    run(clang, '-S', '-emit-llvm', '-x', 'ir', MODULE, '-Xclang', '-disable-llvm-passes', '-o', at('proved.ll'))
    with open(at('proved.ll'), encoding='utf-8') as opened:
        write(at('gesarumbo.ll'), ported(opened.read(), target))
    os.remove(at('proved.ll'))
    write(at('shim.c'), shim())
    write(at('include/stddef.h'), STDDEF)
    write(at('include/stdint.h'), STDINT)
    compiler = [clang, '--target=' + triple, *flags, *FLAGS, '-c']
    run(*compiler, '-x', 'ir', at('gesarumbo.ll'), '-o', at('gesarumbo.o'))
    includes = ['-nostdinc', '-I' + at('include'), '-I' + os.path.join(header.ROOT, 'c')]
    run(*compiler, '-ffreestanding', '-std=c99', '-Wall', '-Wextra', *includes, at('shim.c'), '-o', at('shim.o'))
    run(os.path.join(bin_folder, 'llvm-ar'), 'rcsD', at('libgesarumbo.a'), at('gesarumbo.o'), at('shim.o'))


if __name__ == '__main__':
    main()
