#!/usr/bin/env python3
"""Respells the repository's own names in definitions, lemmas, clauses and pages.

usage: tools/respell.py [--list]      at the top of the repository; --list prints the new names and changes nothing

Definitions, constructors and fields are spelled in snake case: `spellOperand` is `spell_operand`, `first-kept` is `first_kept`. A lemma keeps the dashes that join
its parts, and its parts are spelled so too: `spellOperand-sound` is `spell_operand-sound`. Names that begin with a capital, functions of src/, strings, exported
names, inputs and outputs stay. Names that would fall together with another get another spelling, in APART.
"""
import os
import re
import sys

BREAK = ' \t\n(){}.,;"`'
TOKEN = re.compile(r'[^\s(){}.,;"`\[\]]+')
DECLARED = re.compile(r"^(\s*)(abbrev |unfoldable )?(pub )?(abbrev |unfoldable )?([a-z][^\s(){}.,;:\"`]*) :(\s|$)")
BLOCK = re.compile(r"^(\s*)(pub )?(record|data)\b")
STEPS = ("Proof.antt", "Invariants.antt", "Answers.antt")
# new names that would fall together with others
APART = {
    "answerLine": "line_of_answer",
    "priceText": "text_of_prices",
    "refusalLine": "line_of_refusal",
    "code-words": "code_word_count",
    "lineCount": "count_of_lines",
    "lineRoom": "room_of_line",
}


def files(*kinds):
    for folder, dirs, names in os.walk("crates"):
        dirs[:] = sorted(d for d in dirs if d != "out")
        for name in sorted(names):
            if name.endswith(kinds):
                yield os.path.join(folder, name)


def snake(name, dashes):
    new = re.sub(r"(?<=[a-z0-9])([A-Z])", lambda m: "_" + m.group(1).lower(), name)
    new = new[0] + re.sub(r"(?<=_)([A-Z])", lambda m: m.group(1).lower(), new[1:])
    return new if dashes else new.replace("-", "_")


def camel(part):
    """Whether a part of a name is in camel case from a small letter on."""
    return re.match(r"[a-z][a-z0-9]*[A-Z]", part) is not None


def lemma(name):
    return "-".join(snake(p, True) if camel(p) else p for p in name.split("-"))


def collect():
    words, lemmas = set(), set()
    for path in files(".antt"):
        if os.path.basename(path) in STEPS:
            continue
        block = None
        for line in open(path, encoding="utf-8"):
            if line.strip() and block is not None and len(line) - len(line.lstrip()) <= block:
                block = None
            found = BLOCK.match(line)
            if found:
                block = len(found.group(1))
                continue
            found = DECLARED.match(line)
            if not found:
                continue
            name = found.group(5)
            if found.group(2) or found.group(4) or block is not None:
                words.add(name)
            else:
                lemmas.add(name)
    table = {}
    for name in lemmas:
        new = lemma(name)
        if new != name:
            table[name] = new
    for name in words:
        new = snake(name, False)
        if new != name:
            table[name] = new
    return table


def turned(text, table, comments):
    """The text with the names respelled, outside of strings; comments: the mark that begins one."""
    out = []
    for line in text.split("\n"):
        pieces = re.split(r'("(?:[^"\\]|\\.)*")', line)
        said = False
        for k, piece in enumerate(pieces):
            if k % 2 and not said:
                continue
            if comments in piece and not said:
                at = piece.index(comments)
                head, tail = piece[:at], piece[at:]
                said = True
            elif said:
                head, tail = "", piece
            else:
                head, tail = piece, ""
            head = TOKEN.sub(lambda m: table.get(m.group(0), m.group(0)), head)
            tail = words_of_page(tail, table)
            pieces[k] = head + tail
        out.append("".join(pieces))
    return "\n".join(out)


def words_of_page(text, table):
    """In prose a name with a dash is one only between back quotes."""
    text = re.sub(r"`[^`\n]*`", lambda q: TOKEN.sub(lambda m: table.get(m.group(0), m.group(0)), q.group(0)), text)
    return re.sub(r"(?<![\w-])[a-z][a-z0-9]*[A-Z][\w']*(?:-[\w']+)*", lambda m: table.get(m.group(0), m.group(0)), text)


def main():
    table = collect()
    table.update({a: b for a, b in APART.items()})
    if "--list" in sys.argv[1:]:
        for name in sorted(table):
            print(name, table[name])
        return
    pages = ["README.md"] + [os.path.join("docs", n) for n in sorted(os.listdir("docs")) if n.endswith(".md") and n != "PORT.md"]
    for path in [*files(".antt", ".rt", ".edit"), *pages]:
        text = open(path, encoding="utf-8").read()
        if path.endswith(".md"):
            new = words_of_page(text, table)
        else:
            new = turned(text, table, "-- " if path.endswith(".antt") else "// " if path.endswith(".rt") else "# ")
        if new != text:
            with open(path, "w", encoding="utf-8") as f:
                f.write(new)


main()
