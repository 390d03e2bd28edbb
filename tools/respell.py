#!/usr/bin/env python3
"""Brings this repository's own definitions and lemmas to the spelling of today's Rattle: words in snake case.

usage: python3 tools/respell.py     at the top of the repository, once, after the toolchain's own script

The names stand in tools/respelled.txt. Changed are specs/, proofs/ and, in src/, clauses and the lines that import their words. Code, texts and
comments keep what they say; goals that the check names keep their names. Must-fail edits of specs/ are changed as specs/ are.
"""

import os
import re

SEPARATORS = re.compile(r"([\s(){}\[\],;\"⌜⌝]+|\.|--.*)")


def names():
    everywhere, within = {}, []
    for line in open("tools/respelled.txt", encoding="utf-8"):
        words = line.split()
        if line.startswith("#") or not words:
            continue
        if len(words) == 3:
            within.append(tuple(words))
        else:
            everywhere[words[0]] = words[1]
    return everywhere, within


def turned(text, table, answers):
    """The text with its words respelled. In answers a field that says what a variable is (`x-is`) is the check's own."""
    out = []
    for line in text.split("\n"):
        if re.search(r"\.(Goals|Given)(\.\{| as )", line) and line.startswith("use "):
            out.append(line)
            continue
        parts = SEPARATORS.split(line)
        for i, word in enumerate(parts):
            if word not in table:
                continue
            field = i >= 2 and parts[i - 1] == "." and parts[i - 2] != ""
            if answers and field and word.endswith("-is"):
                continue
            if answers and i >= 2 and parts[i - 2] in ("goal", "need", "given"):
                continue
            parts[i] = table[word]
        out.append("".join(parts))
    return "\n".join(out)


def clauses(text, table):
    """Rust code with its clauses respelled: `ghost use` lines, and what stands in the braces of a requires, an ensures or a ghost item."""
    out, at = [], 0
    for m in re.finditer(r"(?m)^\s*(?:pub )?ghost use [^;]*;|^\s*(?:requires|ensures)\*?\s*\w*\s*\{|^\s*(?:pub )?ghost \w+\s*[:=]\s*\{", text):
        if m.start() < at:
            continue
        end = m.end()
        if not m.group(0).endswith(";"):
            depth = 1
            while depth:
                depth += {"{": 1, "}": -1}.get(text[end], 0)
                end += 1
        out += [text[at : m.start()], turned(text[m.start() : end], table, False)]
        at = end
    return "".join(out) + text[at:]


def main():
    everywhere, within = names()
    for folder, dirs, files in os.walk("crates"):
        dirs[:] = [d for d in dirs if d != "out"]
        for f in files:
            path = os.path.join(folder, f)
            if not f.endswith((".rt", ".antt", ".edit")):
                continue
            table = dict(everywhere)
            first = {old: new for place, old, new in within if path.startswith(place)}
            old = text = open(path, encoding="utf-8").read()
            if f.endswith(".rt"):
                text = clauses(text, table)
            elif f.endswith(".antt"):
                answers = f in ("Answers.antt", "Invariants.antt")
                text = turned(turned(text, first, answers), table, answers)
            elif "file: specs/" in text:
                text = turned(text, table, False)
            if text != old:
                open(path, "w", encoding="utf-8").write(text)


main()
