#!/usr/bin/env python3
"""Calls for a library of another processor, so that it can be held against this one's.

    tools/remote.py source      the text of a C program, made from the header, that reads a call a line and answers it
    tools/remote.py requests    such lines: every call that the tests of python/test_gesarumbo.py make, and with them every
                                vector, and calls in large cabinets. The tests are run, over the library of this machine that
                                GESARUMBO_LIBRARY names, and have to pass

A line is a call's name and its parameters: numbers, and buffers as the bytes in memory in hex, '-' for none. The answer has the
numbers that come back and then each buffer that may be written. Around each buffer are guard bytes, and the program ends with
an error where one is changed. All targets have their low byte first.
"""
import ctypes
import os
import sys

import header

WIDTH = {'uint8_t': 1, 'uint16_t': 2, 'uint32_t': 4}

HEAD = r'''/* Made by tools/remote.py from gesarumbo.h. */
#include <stdio.h>
#include <stdlib.h>
#include <string.h>
#include "gesarumbo.h"

enum { ROOM = 1 << 24, GUARD = 64, BUFFERS = 8 };
static char line[ROOM];
static struct { unsigned char *all; size_t bytes; } lent[BUFFERS];
static int count;

static unsigned long long number(void)
{
    return strtoull(strtok(NULL, " \n"), NULL, 10);
}

static int digit(char c)
{
    return c <= '9' ? c - '0' : c - 'a' + 10;
}

static void *buffer(size_t width, size_t *length)
{
    const char *word = strtok(NULL, " \n");
    size_t bytes = *word == '-' ? 0 : strlen(word) / 2;
    unsigned char *all = malloc(bytes + 2 * GUARD);
    memset(all, 0xA5, bytes + 2 * GUARD);
    for (size_t i = 0; i < bytes; i++)
        all[GUARD + i] = (unsigned char)(16 * digit(word[2 * i]) + digit(word[2 * i + 1]));
    lent[count].all = all;
    lent[count++].bytes = bytes;
    *length = bytes / width;
    return all + GUARD;
}

static void show(int which)
{
    putchar(' ');
    if (lent[which].bytes == 0)
        putchar('-');
    for (size_t i = 0; i < lent[which].bytes; i++)
        printf("%02x", lent[which].all[GUARD + i]);
}

static void give_back(void)
{
    for (int i = 0; i < count; i++) {
        for (size_t j = 0; j < GUARD; j++)
            if (lent[i].all[j] != 0xA5 || lent[i].all[GUARD + lent[i].bytes + j] != 0xA5)
                exit(3);
        free(lent[i].all);
    }
    count = 0;
    putchar('\n');
    fflush(stdout);
}

'''


def record_lines(name):
    parts = ['    %s.%s = (uint32_t)number();' % (name, part) for part in ('next', 'bad', 'first')]
    return ['    gesarumbo_scrub_record %s;' % name] + parts


def function(call):
    """The C function that reads a call's parameters, calls and prints."""
    out, words, after, buffers = ['static void do_%s(void)' % call.name, '{'], [], [], 0
    for kind, name in call.parameters:
        if kind == 'gesarumbo_layout':
            parts = [part for _, part in header.structs()[kind]]
            out += ['    gesarumbo_layout %s;' % name] + ['    %s.%s = (uint32_t)number();' % (name, part) for part in parts]
            words.append(name)
        elif kind == 'gesarumbo_scrub_record':
            out += record_lines(name)
            words.append(name)
        elif kind == 'gesarumbo_scrub_record *':
            out += record_lines(name)
            words.append('&' + name)
            after += ['    printf(" %%u %%u %%u", (unsigned)%s.next, (unsigned)%s.bad, (unsigned)%s.first);' % (name, name, name)]
        elif kind.endswith('*'):
            element = kind.replace('const ', '').replace(' *', '')
            out += ['    size_t %s_of;' % name, '    %s *%s = buffer(sizeof(%s), &%s_of);' % (element, name, element, name)]
            words += [name, name + '_of']
            if not kind.startswith('const '):
                after.append('    show(%d);' % buffers)
            buffers += 1
        elif kind != 'size_t' or name == 'many':
            out.append('    %s %s = (%s)number();' % (kind, name, kind))
            words.append(name)
    out.append('    %s answer = %s(%s);' % (call.gives, call.name, ', '.join(words)))
    if call.gives in ('uint32_t', 'uint64_t'):
        out.append('    printf("%llu", (unsigned long long)answer);')
    else:
        for place, (kind, part) in enumerate(header.structs()[call.gives]):
            space = ' ' if place else ''
            if kind == 'gesarumbo_scrub_record':
                out += ['    printf(" %%u", (unsigned)answer.%s.%s);' % (part, inner) for _, inner in header.structs()[kind]]
            else:
                out.append('    printf("%s%%lld", (long long)answer.%s);' % (space, part))
    return '\n'.join(out + after + ['}', ''])


def source():
    calls = header.calls()
    one = '    %sif (strcmp(name, "%s") == 0)\n            do_%s();'
    lines = [one % ('    else ' if i else '    ', call.name, call.name) for i, call in enumerate(calls)]
    main = ['int main(void)', '{', '    while (fgets(line, ROOM, stdin) != NULL) {',
            '        const char *name = strtok(line, " \\n");', *lines,
            '        else\n            return 2;', '        give_back();', '    }', '    return 0;', '}', '']
    return HEAD + '\n'.join(map(function, calls)) + '\n' + '\n'.join(main)


class Recorder:
    """gesarumbo.raw, which writes each call as a line first."""

    def __init__(self, gesarumbo, out):
        self.gesarumbo, self.call, self.out = gesarumbo, gesarumbo.raw, out

    def words(self, name, given):
        module = self.gesarumbo
        for letter, value in zip(module._CALLS[name][1], given):
            if letter == 'L':
                yield from (str(module._number(number, ctypes.c_uint32)) for number in module.Layout(*value))
            elif letter in 'nNz':
                yield str(module._number(value, module._SINGLE[letter]))
            elif letter in 'sS':
                yield from map(str, value.numbers())
            else:
                kind = module._element(name, letter)
                numbers = (module._number(number, kind) for number in value)
                yield bytes((kind * len(value))(*numbers) if letter == 'l' else module._lent(value, kind, letter in 'wBm')).hex() or '-'

    def raw(self, name, *given):
        line = ' '.join([name, *self.words(name, given)])
        try:
            return self.call(name, *given)
        finally:
            # not what Python refuses before the library is asked, nor more codewords than a processor of 32 bits can be asked for
            letters = self.gesarumbo._CALLS[name][1]
            fits = all(value < 2**32 for letter, value in zip(letters, given) if letter == 'z')
            if fits and not isinstance(sys.exc_info()[1], (TypeError, ValueError, OverflowError)):
                self.out.write(line + '\n')


def large(gesarumbo):
    """Calls in large cabinets of both fields: storing, tests, wrong trays, shares, repairs, cards and images."""
    for field, layouts in (
        (gesarumbo.field256, [(10, 3, 24, 9), (7, 5, 24, 6), (10, 3, 18, 9, 1), (12, 5, 50, 11), (4, 3, 8, 3)]),
        (gesarumbo.field257, [(10, 4, 32, 9), (5, 4, 15, 4), (10, 4, 24, 9, 1), (6, 8, 24, 5)]),
    ):
        for layout in map(lambda numbers: gesarumbo.Layout(*numbers), layouts):
            sizes = field.sizes(layout)
            data = field.symbols(sizes.data)
            for i in range(sizes.data):
                data[i] = (i * i + 7 * i + i // 13) % 256
            codeword = field.store(layout, data)
            assert field.test(layout, codeword).sound
            worn = codeword[:]
            for tray in (0, sizes.trays - 1):
                worn[tray * sizes.layers : (tray + 1) * sizes.layers] = field.symbols(sizes.layers)
            worn[3 * sizes.layers] = (worn[3 * sizes.layers] + 1) % 251
            assert not field.test_kept(layout, worn, [0, sizes.trays - 1]).sound
            assert field.recover_correcting(layout, worn, [0, sizes.trays - 1]).tray == 3 and worn == codeword
            field.recover(layout, worn, list(range(sizes.checks)))
            assert field.scrub(layout, worn, field.scrub_reset(layout), 100).report in (1, 2)
            rack = lambda i: codeword[i * sizes.rack : (i + 1) * sizes.rack]
            helpers = list(range(1, layout.helpers + 1))
            shares = field.symbols(0)
            for helper in helpers:
                shares += field.share(layout, 0, helper, rack(helper))
            spare = field.symbols(sizes.layers)
            if layout.errors:
                shares[0] = (shares[0] + 1) % 251
                assert field.repair_correcting(layout, 1, helpers, shares, rack(0), spare).rack == 1
            else:
                field.repair(layout, 1, helpers, shares, rack(0), spare, 0, sizes.groups // 2)
                field.repair(layout, 1, helpers, shares, rack(0), spare, sizes.groups // 2)
                field.card_repair(layout, 1, helpers, field.card(layout, 1, helpers, 1), shares, rack(0), spare, 1)
            assert spare == codeword[sizes.layers : 2 * sizes.layers]
            images = bytearray()
            for tray in range(sizes.trays):
                images += field.write_image(layout, tray, 1 + (tray == 2), 9, codeword[tray * sizes.layers : (tray + 1) * sizes.layers])
            gathered = field.gather(layout, 9, images)
            assert gathered.missing == [2] and field.margin(layout, field.states(layout, 9, images)) == sizes.checks - 1


def requests():
    import io
    import unittest

    sys.path.insert(0, os.path.join(header.ROOT, 'python'))
    import gesarumbo
    import test_gesarumbo

    # the lines are the output, and what the tests print is not
    out, sys.stdout = sys.stdout, sys.stderr
    gesarumbo.raw = Recorder(gesarumbo, out).raw
    # calls side by side have no order
    del test_gesarumbo.Manners.test_many_calls_side_by_side
    result = unittest.TextTestRunner(stream=io.StringIO()).run(unittest.defaultTestLoader.loadTestsFromModule(test_gesarumbo))
    if not result.wasSuccessful():
        sys.exit('the tests failed: %s' % (result.failures + result.errors))
    large(gesarumbo)


def main():
    if sys.argv[1:] == ['source']:
        print(source(), end='')
    elif sys.argv[1:] == ['requests']:
        requests()
    else:
        sys.exit(__doc__)


if __name__ == '__main__':
    main()
