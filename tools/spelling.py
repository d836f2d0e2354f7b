#!/usr/bin/env python3
"""Brings this repository's own definitions and lemmas to the spelling of today's Rattle: words in snake case, types in upper camel case.

usage: tools/spelling.py      at the top of the repository, once, right after the kit's port.py

tools/spelling.tsv beside this script has a row for each name: old, a tab, new. The rows follow four rules:
 - a capital inside a name that begins with a small letter is `_` and a small letter: onScale is on_scale;
 - a dash stays where it joins two names that the repository or std declares, as in winding-backwards, and is `_` where it joins plain words;
 - record fields and constructors have no dash;
 - a lemma that would get the name of its definition has `_lem` behind it.
Whole words turn, in specs/ and proofs/, in the clauses and `ghost use` items of src/, in what a must-fail edit changes of those, and in the code spans of comments and
pages. What the code of src/ declares keeps its name, and so do strings.
"""
import glob
import os
import re

WORD = re.compile(r'[^\s(){}.;,@"«»`]+')
CLAUSE = re.compile(r"^\s*(?:requires|ensures|ghost|invariant)\b")
SPAN = re.compile(r"`[^`\n]*`")
ANTT_LINE = re.compile(r"^((?:[^-\n]|-(?!- )|(?<=\S)--)*?)((?:^|(?<=\s))-- |$)(.*)$")
RT_LINE = re.compile(r"^((?:\"(?:\\.|[^\"\\])*\"|(?!//).)*)(//|$)(.*)$")


def rows():
    path = os.path.join(os.path.dirname(os.path.abspath(__file__)), "spelling.tsv")
    with open(path, encoding="utf-8") as table:
        return dict(line.rstrip("\n").split("\t") for line in table)


def turn_words(text, new):
    return WORD.sub(lambda m: new.get(m[0], m[0]), text)


def turn_spans(text, new):
    return SPAN.sub(lambda m: turn_words(m[0], new), text)


def turn_antt(text, new):
    lines = []
    for line in text.split("\n"):
        code, dashes, prose = ANTT_LINE.match(line).groups()
        lines.append(turn_words(code, new) + dashes + turn_spans(prose, new))
    return "\n".join(lines)


def turn_rt(text, new):
    lines, depth = [], 0
    for line in text.split("\n"):
        code, slashes, prose = RT_LINE.match(line).groups()
        if depth or CLAUSE.match(code):
            depth = max(0, depth + code.count("{") - code.count("}"))
            code = turn_words(code, new)
        lines.append(code + slashes + turn_spans(prose, new))
    return "\n".join(lines)


def turn_edit(text, new):
    lines, of_specs = [], False
    for line in text.split("\n"):
        if line.startswith("file:"):
            of_specs = "specs/" in line
        elif line.startswith(("old:", "new:")) and (of_specs or CLAUSE.match(line[4:])):
            line = line[:4] + turn_antt(line[4:], new)
        lines.append(line)
    return "\n".join(lines)


def main():
    new = rows()
    for pattern, turn in (
        ("crates/*/specs/**/*.antt", turn_antt),
        ("crates/*/proofs/**/*.antt", turn_antt),
        ("crates/*/src/**/*.rt", turn_rt),
        ("crates/*/must-fail/*.edit", turn_edit),
        ("docs/**/*.md", turn_spans),
        ("*.md", turn_spans),
    ):
        for path in sorted(glob.glob(pattern, recursive=True)):
            with open(path, encoding="utf-8") as file:
                text = file.read()
            turned = turn(text, new)
            if turned != text:
                with open(path, "w", encoding="utf-8") as file:
                    file.write(turned)


if __name__ == "__main__":
    main()
