#!/usr/bin/env python3
"""Spells the repository's own definitions and lemmas in snake case, once, after the kit's port.py has turned the rest.

usage: tools/respell.py [--list]      at the top of the repository; rewrites files in place (commit first); --list prints old and new names and writes nothing

A name is turned where a file of specs/ or proofs/ of some crate declares it: `groupSum` and `group-sum` become `group_sum`. Where a definition and a lemma would meet
in one name, the lemma gets `_lem`. A name that a file imports from the kit stays in that file. Names that Rattle makes for proofs (goals, loops, steps) are no
names of ours and stay, as do types, functions of src/, strings and the words of comments; a comment's definitions, which no English word looks like, are turned.
The edits of must-fail/ and the code spans of the pages are turned too.
"""

import glob
import os
import re
import sys

NAME = r"[^\s(){}.;,@\"«»\[\]`]+"
TOKEN = re.compile(r"(?P<comment>--[^\n]*)|(?P<string>\"[^\"\n]*\")|(?P<use>(?m:^[ ]*(?:pub )?use [^\n]*))|(?P<name>" + NAME + r")")
DECLARED = re.compile(
    r"(?m)^[ \t]*(?:(?:unfoldable|abbrev|pub|opaque|instance|private|irrelevant|data|record)\s+)*([^\s(){}.;,@\"«»\[\]:=]+)(?:\s+(?:\{[^{}\n]*\}|\([^()\n]*\)))* :(?=\s)"
)
MADE = re.compile(r"^(invariant|decreases|Need|calls|In|At|After|Then|Else)-")
KIT = re.compile(r"^(Rattle\.(std|core|io|libc|os)\b|(?!Rattle\b))")


def antt_files():
    return sorted(p for p in glob.glob("crates/*/specs/**/*.antt", recursive=True) + glob.glob("crates/*/proofs/**/*.antt", recursive=True))


def is_odd(name):
    """Whether a name is not in snake case, and no type."""
    return bool(re.match(r"[a-zα-ω]", name)) and ("-" in name.strip("-") or bool(re.search(r"[a-z0-9][A-Z]", name))) and "◌" not in name and not MADE.match(name)


def snake(name):
    words = re.sub(r"(?<=[a-z0-9])[A-Z]", lambda m: "_" + m[0].lower(), name)
    return words.replace("-", "_")


def imports(text):
    """The names that a file imports from the kit."""
    found = set()
    for m in re.finditer(r"(?m)^[ ]*(?:pub )?use ([^\s;{]+?)\.\{([^}]*)\}", text):
        if KIT.match(m[1]):
            found |= {it.strip().split(" as ")[0] for it in m[2].split(",")}
    return found


def declared(texts):
    names = set()
    for text in texts.values():
        names |= {m[1] for m in DECLARED.finditer(text) if is_odd(m[1])}
    return names


def table(texts):
    names = declared(texts)
    plain = set()
    for path, text in texts.items():
        plain |= {m[1] for m in DECLARED.finditer(text)}
    new = {}
    for name in sorted(names):
        to = snake(name)
        meets = (to in plain and "-" in name) or any(snake(other) == to and other != name and re.search(r"[a-z0-9][A-Z]", other) and "-" not in other for other in names)
        new[name] = to + "_lem" if "-" in name and meets else to
    return new


def turned_use(text, new):
    m = re.match(r"(\s*(?:pub )?use )([^\s;{]+?)((?:\.\{[^}]*\})?)((?:\s+as\s+\S+)?\s*)$", text, re.S)
    if not m or KIT.match(m[2]):
        return text
    path = ".".join(new.get(it, it) if it.islower() is False or "-" in it else it for it in m[2].split("."))
    inside = re.sub(NAME, lambda n: new.get(n[0], n[0]), m[3])
    return m[1] + path + inside + m[4]


def turned_comment(text, new):
    return re.sub(r"[A-Za-z0-9_']+", lambda m: new[m[0]] if m[0] in new and "-" not in m[0] else m[0], re.sub(r"(?<=`)" + NAME + "(?=`)", lambda m: new.get(m[0], m[0]), text))


def turned_antt(text, new, of_a_function=False):
    kept = imports(text)
    out, at = [], 0
    for m in TOKEN.finditer(text):
        out.append(text[at : m.start()])
        at = m.end()
        word = m[0]
        if m["comment"]:
            word = turned_comment(word, new)
        elif m["use"]:
            word = turned_use(word, new)
        elif m["name"] and word in new:
            after_dot = m.start() and text[m.start() - 1] == "."
            field = re.match(r"[^\n;{}]*? = ", text[m.end() :]) and re.search(r"(record \{|;|\n)\s*$", text[: m.start()][-200:])
            if after_dot or word not in kept or (field and not re.match(r"\s*:", text[m.end() :])):
                # a step of a function's proof has the name of what it calls
                word = snake(word) if of_a_function and after_dot else new[word]
        out.append(word)
    return "".join(out) + text[at:]


def turned_rt(text, new):
    """Code has no dashes in names; clauses cite definitions, which are in camel case or have a dash."""
    lines = []
    for line in text.split("\n"):
        code, mark, comment = line.partition("//")
        if not re.search(r"\"", code):
            code = re.sub(r"(?<![\w-])[A-Za-z][\w'-]*", lambda m: new.get(m[0], m[0]), code)
        lines.append(code + mark + turned_comment(comment, new))
    return "\n".join(lines)


def turned_edit(text, new):
    return "\n".join(
        line if not re.match(r"(old|new):", line) else re.sub(r"(?<![\w-])[A-Za-z][\w'-]*", lambda m: new.get(m[0], m[0]), line) for line in text.split("\n")
    )


def turned_page(text, new):
    return re.sub(r"(?<=`)[^`\n]+(?=`)", lambda m: re.sub(r"(?<![\w-])[A-Za-z][\w'-]*", lambda n: new.get(n[0], n[0]), m[0]), text)


def main(argv):
    texts = {p: open(p, encoding="utf-8").read() for p in antt_files()}
    new = table(texts)
    if argv == ["--list"]:
        for name, to in new.items():
            print(name, to)
        return 0
    work = [(p, lambda text, new, p=p: turned_antt(text, new, p.endswith("/Proof.antt"))) for p in texts]
    work += [(p, turned_rt) for p in sorted(glob.glob("crates/*/src/**/*.rt", recursive=True))]
    work += [(p, turned_edit) for p in sorted(glob.glob("crates/*/must-fail/*.edit"))]
    work += [(p, turned_page) for p in sorted(glob.glob("docs/*.md")) + ["README.md"]]
    changed = 0
    for path, turn in work:
        with open(path, encoding="utf-8") as f:
            text = f.read()
        to = turn(text, new)
        if to != text:
            with open(path, "w", encoding="utf-8") as f:
                f.write(to)
            changed += 1
    print(f"{len(new)} names, {changed} files")
    return 0


if __name__ == "__main__":
    sys.exit(main(sys.argv[1:]))
