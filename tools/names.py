#!/usr/bin/env python3
"""Spells the repository's own definitions and lemmas as today's Rattle does: words in snake case.

usage: tools/names.py [FOLDER]     (the repository's top, if none is given)

It was run once, right after the toolchain's own script had turned the spelling. tools/names.tsv has a row for each name: old, a tab, new.
Names turn as whole words: in .antt files everywhere but in quoted text and in a comment's bare words, in .rt files outside quoted text and comments,
in edits on their lines old: and new:, in comments and in .md files inside of backquotes.
"""

import os
import re
import sys

HERE = os.path.dirname(os.path.realpath(__file__))
WORD = re.compile(r"[^\s(){}.;,@\"«»]+")
SPAN = re.compile(r"`[^`\n]*`")


def table():
    with open(os.path.join(HERE, "names.tsv"), encoding="utf-8") as f:
        return dict(line.rstrip("\n").split("\t") for line in f if line.strip())


def words(text, names):
    return WORD.sub(lambda m: names.get(m[0], m[0]), text)


def parts(text, names):
    """The same in a span of prose or of Rust, where a word may stand beside signs."""
    return re.sub(r"[A-Za-z][\w'-]*", lambda m: names.get(m[0], m[0]), text)


def spans(text, names):
    return SPAN.sub(lambda m: parts(m[0], names), text)


def in_code(text, names, mark, turn):
    out = []
    for line in text.split("\n"):
        at = re.search(r'(?:^|(?<=\s))' + mark, line)
        code, comment = (line[: at.start()], line[at.start() :]) if at else (line, "")
        quoted = re.split(r'("(?:[^"\\]|\\.)*")', code)
        code = "".join(q if i % 2 else turn(q, names) for i, q in enumerate(quoted))
        out.append(code + spans(comment, names))
    return "\n".join(out)


def in_edit(text, names):
    return "\n".join(parts(line, names) if line.startswith(("old:", "new:")) else spans(line, names) for line in text.split("\n"))


def turned(path, names):
    with open(path, encoding="utf-8") as f:
        text = f.read()
    if path.endswith(".antt"):
        new = in_code(text, names, "--", words)
    elif path.endswith(".rt"):
        camel = {k: v for k, v in names.items() if "-" not in k and "_" not in k}
        new = in_code(text, camel, "//", parts)
        new = "\n".join(spans(l, names) if l.lstrip().startswith("//") else l for l in new.split("\n"))
    elif path.endswith(".edit"):
        new = in_edit(text, names)
    else:
        new = spans(text, names)
    if new != text:
        with open(path, "w", encoding="utf-8") as f:
            f.write(new)
        return 1
    return 0


def main(argv):
    root = argv[0] if argv else os.path.dirname(HERE)
    names = table()
    changed = 0
    for top in ("crates", "docs", "README.md"):
        top = os.path.join(root, top)
        files = [top] if os.path.isfile(top) else []
        for folder, dirs, found in os.walk(top):
            dirs[:] = [d for d in dirs if d != "out"]
            files += [os.path.join(folder, f) for f in found]
        for path in sorted(files):
            if path.endswith((".antt", ".rt", ".edit", ".md")) and "PORT" not in os.path.basename(path):
                changed += turned(path, names)
    print(f"names: {changed} files turned")
    return 0


if __name__ == "__main__":
    raise SystemExit(main(sys.argv[1:]))
