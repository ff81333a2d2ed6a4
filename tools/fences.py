#!/usr/bin/env python3
"""Tries what documents show.

    tools/fences.py compile FILE.. -- WORDS..   compiles each block of C in the files as it stands, with these words after it
                                                (flags, libraries), for C and C++, and runs it: it must end with 0
    tools/fences.py python FILE..               runs each block of Python in the files
    tools/fences.py links FILE..                each link to a file leads to one, and none out of the folder
"""
import os
import re
import subprocess
import sys
import tempfile

STRICT = ['-Wall', '-Wextra', '-Werror', '-pedantic']


def blocks(path, language):
    """The fenced blocks of a language, each with the number of its first line."""
    with open(path, encoding='utf-8') as opened:
        lines = opened.read().split('\n')
    starts = [i for i, line in enumerate(lines) if line == '```' + language]
    return [(i + 2, '\n'.join(lines[i + 1 : lines.index('```', i)]) + '\n') for i in starts]


def compile_all(files, words):
    count = 0
    for path in files:
        for line, text in blocks(path, 'c'):
            count += 1
            with tempfile.TemporaryDirectory() as folder:
                source, program = os.path.join(folder, 'block.c'), os.path.join(folder, 'block')
                with open(source, 'w', encoding='utf-8') as opened:
                    opened.write(text)
                for compiler in (['cc', '-std=c99'], ['c++', '-x', 'c++', '-std=c++11']):
                    plain = ['-x', 'none'] if compiler[0] == 'c++' else []
                    print('%s:%d: %s' % (path, line, ' '.join(compiler)), flush=True)
                    subprocess.run(compiler + STRICT + [source] + plain + words + ['-o', program], check=True)
                    subprocess.run([program], check=True)
    if count == 0:
        sys.exit('there is no block of C in %s' % ' '.join(files))


def run_python(files):
    found = [(path, line, text) for path in files for line, text in blocks(path, 'python')]
    for path, line, text in found:
        print('%s:%d: python' % (path, line), flush=True)
        subprocess.run([sys.executable, '-W', 'error', '-c', text], check=True)
    if not found:
        sys.exit('there is no block of Python in %s' % ' '.join(files))


def links(files):
    dead = []
    for path in files:
        with open(path, encoding='utf-8') as opened:
            text = re.sub(r'```.*?```', '', opened.read(), flags=re.S)
        for to in re.findall(r'\]\(([^)#\s]+)(?:#[^)]*)?\)', text):
            place = os.path.normpath(os.path.join(os.path.dirname(path), to))
            if not to.startswith(('http:', 'https:')) and (place.startswith('..') or not os.path.exists(place)):
                dead.append('%s: %s' % (path, to))
    if dead:
        sys.exit('links that lead nowhere:\n' + '\n'.join(dead))


def main():
    asked = sys.argv[1:]
    if asked[:1] == ['compile'] and '--' in asked:
        end = asked.index('--')
        compile_all(asked[1:end], asked[end + 1 :])
    elif asked[:1] == ['python']:
        run_python(asked[1:])
    elif asked[:1] == ['links']:
        links(asked[1:])
    else:
        sys.exit(__doc__)


main()
