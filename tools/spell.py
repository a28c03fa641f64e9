#!/usr/bin/env python3
"""Spells the repository's own definitions and lemmas as today's Rattle does: words in snake case.

usage: tools/spell.py            once, at the top of a checkout, after the kit's own script has turned it

What turns: each word of crates/ that begins small and has a capital inside, in .antt, .rt and .edit files, and in code spans
of the pages. Quoted texts stay, and so do functions of src/, which were in snake case before. A proof's closing
line is named NAME_spec. Two names would meet another one: a lemma of the conversation, and the fields of the wrong
answers, which are named after the function that they speak of. These get a name of their own first.
"""

import os
import re

TOP = os.path.join(os.path.dirname(os.path.realpath(__file__)), "..")
CRATES = os.path.join(TOP, "crates")
WORD = re.compile(r'[^\s(){}.;,@"«»:=`\'/|&*!?<>\[\]]+')
QUOTED = re.compile(r'"(?:[^"\\\n]|\\.)*"')
FIELD = re.compile(r"(?m)(?<=^  pub )«?(\w+)»?(?= :)")
SPAN = re.compile(r"`[^`\n]+`")


def snake(word):
    """The word in snake case; a dash goes on joining names, and a part that begins with a capital is a type's."""
    parts = []
    for part in word.split("-"):
        if re.match(r"[a-z]", part):
            part = re.sub(r"(?<=[a-z0-9])[A-Z]", lambda m: "_" + m[0].lower(), part)
        parts.append(part)
    return "-".join(parts)


def files(endings):
    for folder, dirs, names in os.walk(CRATES):
        dirs[:] = sorted(d for d in dirs if d != "out")
        for name in sorted(names):
            if name.endswith(endings):
                yield os.path.join(folder, name)


def outside(pattern, turn, text):
    """The text, turned but for what the pattern finds."""
    out, at = [], 0
    for m in pattern.finditer(text):
        out += [turn(text[at : m.start()]), m[0]]
        at = m.end()
    return "".join([*out, turn(text[at:])])


def apart(path, text, taken, fields):
    """The text, with names of their own for what would meet one of the names taken."""
    inside = os.path.relpath(path, CRATES)
    if inside.startswith("conversation/proofs/"):
        text = re.sub(r"(?<![\w.-])read_at(?![\w-])|(?<=\ba\.)read_at(?![\w-])", "answered_at", text)
    if inside.startswith("mistakes/"):
        met = lambda m: "wrong_" + m[1] if m[1] in taken and m[1] in fields else m[0]
        text = re.sub(FIELD, met, text)
        text = re.sub(r"(?m)(?:(?<=^ {6})|(?<=^ {4})|(?<=[{;] ))«?(\w+)»?(?= = )", met, text)
    if inside == "post/proofs/Lines.antt":
        text = re.sub(r"(?m)^(?! *--)(.*)", lambda m: re.sub(r"(?<![\w-])among(?![\w-])", "Among", m[1]), text)
    if inside.endswith("/Proof.antt"):
        name = re.search(r"(?m)^pub ([\w+-]+)-spec :", text)
        if name:
            text = re.sub(rf"(?<![\w-]){re.escape(name[1])}-spec(?![\w-])", name[1].replace("-", "_") + "_spec", text)
    return text


def main():
    texts = {p: open(p, encoding="utf-8").read() for p in files((".antt", ".rt", ".edit"))}
    words = {w for p, t in texts.items() if not p.endswith(".edit") for w in WORD.findall(QUOTED.sub('""', t))}
    table = {w: snake(w) for w in words if snake(w) != w}
    fields = {f for p, t in texts.items() if "/mistakes/specs/" in p for f in FIELD.findall(t)}
    texts = {p: apart(p, t, set(table.values()), fields) for p, t in texts.items()}
    turn = lambda text: WORD.sub(lambda m: table.get(m[0], m[0]), text)
    # what the kit's script spelled itself, it did not spell in edits and pages
    known = lambda m: snake(m[0]) if snake(m[0]) in words or m[0] in table else m[0]
    turn_all = lambda text: WORD.sub(known, text)
    for path, text in texts.items():
        new = outside(QUOTED, turn_all if path.endswith(".edit") else turn, text)
        if new != open(path, encoding="utf-8").read():
            open(path, "w", encoding="utf-8").write(new)
    pages = [os.path.join(TOP, p) for p in ("README.md", "CONTRIBUTING.md")]
    pages += [os.path.join(d, f) for d, _, fs in os.walk(os.path.join(TOP, "docs")) for f in fs if f.endswith(".md")]
    for path in pages:
        text = open(path, encoding="utf-8").read()
        new = SPAN.sub(lambda m: turn_all(m[0]), text)
        if new != text:
            open(path, "w", encoding="utf-8").write(new)
    print(f"{len(table)} names")


if __name__ == "__main__":
    main()
