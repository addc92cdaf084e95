#!/usr/bin/env python3
"""Spells the names of a repository's own definitions and lemmas as Rattle's library does.

usage: python3 tools/snake_names.py [ROOT]     run once, after the toolchain's own script port.py, on the tree that it left

Words, lemmas, fields and locals in snake case (`size-of` becomes `size_of`, `isDigit` becomes `is_digit`), facts, records
and data in camel case (`In-line` becomes `InLine`). Names of the library and names that Rattle makes from source (`returns-in_ok`, what stands
behind `goal.` and `c.`) stay. It prints names that fall together and proves nothing.
"""
import collections
import os
import re
import sys

ROOT = sys.argv[1] if len(sys.argv) > 1 else "."
NAME = r"[A-Za-z_][\w']*(?:-[\w']+)*"
TOKEN = re.compile(NAME)
HEAD = re.compile(r"^(\s*)((?:abbrev |unfoldable |pub |data |record )*)(" + NAME + r")(?:(?: \([^=]*\)| \{[^=]*\})*) :(?: |$)(.*)")
USE = re.compile(r"use ([\w.]+)\.\{([^}]*)\}")
# a lemma that would else be called as the word it is about
BY_HAND = {"is-parameter": "digit_is_parameter"}
IN_RT = r"//[^\n]*|\"(?:\\.|[^\"\\])*\"|'(?:\\.|[^'\\\n])'"
IN_ANTT = r"--(?!\w)[^\n]*|\{-.*?-\}"


def files(ending):
    crates = os.path.join(ROOT, "crates")
    for folder, dirs, names in os.walk(crates):
        # what a check keeps stands in the folder out of each crate
        kept = os.path.dirname(folder) == crates
        dirs[:] = sorted(d for d in dirs if not (kept and d == "out"))
        for name in sorted(names):
            if name.endswith(ending):
                yield os.path.join(folder, name)


def read(path):
    with open(path, encoding="utf-8") as f:
        return f.read()


def write(path, text):
    with open(path, "w", encoding="utf-8") as f:
        f.write(text)


def camel(name):
    return "".join(part[:1].upper() + part[1:] for part in name.split("-"))


def snake(name):
    name = re.sub(r"^getD(?=[-_])", "get_or", name.replace("-", "_"))
    return re.sub(r"(?<=[a-z])[A-Z]", lambda m: "_" + m.group(0).lower(), name)


def is_older(name):
    """Whether a name has a dash, or capitals within a word."""
    return "-" in name or bool(re.match(r"[a-z]+[A-Z]", name))


def is_answer(name, of):
    """Whether a line of a file answers a goal: its name is Rattle's own."""
    return bool(re.match(r"goal\b", of.strip()))


def declared():
    """The new spelling of each dashed name that the repository declares, those of them that are fields, and the plain names."""
    table, fields, plain = {}, set(), set()
    for path in files(".antt"):
        inside = None
        for line in read(path).split("\n"):
            if inside is not None and line.strip() and len(line) - len(line.lstrip()) <= inside:
                inside = None
            m = HEAD.match(line)
            if not m:
                continue
            indent, words, name, of = m.groups()
            of = of.strip()
            if not is_older(name):
                plain.add(name)
            elif not is_answer(name, of):
                fact = of in ("Type 0", "Type 0 where") or of.endswith(("→ Type 0", "→ Type 0 where"))
                table[name] = BY_HAND.get(name) or (camel(name) if fact else snake(name))
                if inside is not None:
                    fields.add(name)
            if {"record", "data"} & set(words.split()):
                inside = len(indent)
    return table, fields, plain


def not_ours(text, own):
    """Names that a file takes from a library or from the goals that Rattle makes, and those of the goals that it answers."""
    out = set()
    for m in USE.finditer(text):
        path = m.group(1).split(".")
        if path[0] != "Rattle" or path[1] not in own or path[-1] in ("Goals", "Given"):
            for item in m.group(2).split(","):
                for name in item.split():
                    out.update(name.split("+"))
    for line in text.split("\n"):
        m = HEAD.match(line)
        if m and is_answer(m.group(3), m.group(4)):
            out.add(m.group(3))
    return out


def turn(path, table, fields, own, said):
    text = read(path)
    rust = path.endswith(".rt")
    stays = not_ours(text, own)

    def one(m):
        name = m.group(0)
        if not is_older(name) or name in stays:
            return name
        before = m.string[: m.start()]
        if before.endswith("."):
            return snake(name) if name in fields and not before.endswith("goal.") else name
        if name in table:
            return table[name]
        if "-" not in name:
            return name
        said[name].add(path)
        return snake(name)

    out, at = [], 0
    for m in re.finditer(IN_RT if rust else IN_ANTT, text, re.S):
        out.append(TOKEN.sub(one, text[at:m.start()]))
        out.append(m.group(0))
        at = m.end()
    out.append(TOKEN.sub(one, text[at:]))
    new = in_backticks("".join(out), table)
    if new != text:
        write(path, new)


def in_backticks(text, table):
    return re.sub(r"`(" + NAME + r")`", lambda m: "`" + table.get(m.group(1), m.group(1)) + "`", text)


def main():
    table, fields, plain = declared()
    # words that the toolchain's script has spelled already stand in the pages as before
    pages = dict(table)
    own = set(os.listdir(os.path.join(ROOT, "crates")))
    olds = collections.defaultdict(set)
    for old, new in table.items():
        olds[new].add(old)
        if new in plain:
            olds[new].add(new)
    for new, those in sorted(olds.items()):
        if len(those) > 1:
            print(f"fall together: {sorted(those)}")
    said = collections.defaultdict(set)
    for ending in (".antt", ".rt"):
        for path in list(files(ending)):
            turn(path, table, fields, own, said)
    for folder in (ROOT, os.path.join(ROOT, "docs")):
        for name in sorted(os.listdir(folder)):
            if name.endswith(".md") and name != "PORT.md":
                path = os.path.join(folder, name)
                text = read(path)
                for m in re.finditer(r"`(" + NAME + r")`", text):
                    if "-" in m.group(1) and snake(m.group(1)) in plain:
                        pages.setdefault(m.group(1), snake(m.group(1)))
                write(path, in_backticks(text, pages))
    for name, where in sorted(said.items()):
        print(f"local: {name} in {len(where)} files, as {sorted(where)[0]}")


main()
