#!/usr/bin/env python3
"""Respells the repository's own definitions and lemmas: words in snake case, types in camel case.

usage: python3 tools/respell.py        at the top of the repository, once, after Rattle's own porting script

What is renamed: names with a dash, and types with an underscore, that specs/ and proofs/ of a crate define (definitions, records, their fields,
constructors, lemmas, bound variables), in these files, in clauses of src/ and, between backticks, in README and docs/.
What stays: names of the library, and the names that Rattle makes (of goals, and of steps of the code), in answers and
invariants. It prints names that fall together.
"""

import collections
import os
import re
import sys

WORD = re.compile(r"[^\W\d][\w'₀-₉-]*(?<!-)")
USE = re.compile(r"(?:ghost )?use ([^\s{;]+)\.\{([^}]*)\}")
COMMENT = re.compile(r"^(\s*)(--|//)")


def files(top, ending):
    for folder, dirs, names in os.walk(top):
        dirs[:] = sorted(d for d in dirs if d != "out")
        for name in sorted(names):
            if name.endswith(ending):
                yield os.path.join(folder, name)


def is_old(name):
    """Whether a name is in the older spelling: with a dash, or a type with an underscore."""
    return "-" in name or (name[0].isupper() and "_" in name and not name.isupper())


def respelled(name):
    if not is_old(name):
        return name
    if name[0].isupper():
        return "".join(part[:1].upper() + part[1:] for part in re.split("[-_]", name))
    return name.replace("-", "_")


def about_code(path):
    """Whether a proof file is about a function: it then names goals and steps of the code."""
    parts = path.split(os.sep)
    return "proofs" in parts and parts.index("proofs") < len(parts) - 2


def borrowed(text, crates):
    """The names that a file brings in from elsewhere than the repository, and those from the repository."""
    foreign, own = set(), set()
    for path, names in USE.findall(text):
        found = re.match(r"Rattle\.(\w+)\.", path)
        ours = found and found.group(1) in crates and not path.endswith((".Goals", ".Given"))
        for word in re.split(r"[,\s]+", names):
            (own if ours else foreign).add(word)
    return foreign, own


def words_of(line):
    return [] if COMMENT.match(line) else WORD.finditer(line)


def own_names(crates):
    names = set()
    for path in files("crates", ".antt"):
        if about_code(path):
            continue
        text = open(path, encoding="utf-8").read()
        foreign, _ = borrowed(text, crates)
        for line in text.split("\n"):
            if re.match(r"(pub )?use ", line):
                continue
            names.update(w.group() for w in words_of(line) if is_old(w.group()) and w.group() not in foreign)
    return names


def turned(line, foreign, names, code):
    if re.match(r"use |\s*pub use |ghost use ", line) and not re.search(r"use Rattle\.", line):
        return line
    if COMMENT.match(line):
        return line
    head = re.match(r"(?:abbrev |pub |unfoldable )*(\S+) : goal\.", line)
    made = set()
    if code and head:
        made.add(head.group(1))

    def change(found):
        word, before = found.group(), line[: found.start()]
        if not is_old(word) or word in foreign or word in made:
            return word
        if code and re.search(r"(?:^|[^\w.'])(?:goal|[a-z])\.$", before):
            return word
        return respelled(word) if word in names else word

    return WORD.sub(change, line)


def main():
    crates = set(os.listdir("crates"))
    names = own_names(crates)
    together = collections.defaultdict(set)
    for name in names:
        together[respelled(name)].add(name)
    for ending in (".antt", ".rt"):
        for path in files("crates", ending):
            text = open(path, encoding="utf-8").read()
            foreign, own = borrowed(text, crates)
            code = about_code(path)
            here = names
            if code:
                goals = set(re.findall(r"(?m)^(?:abbrev |pub |unfoldable )*(\S+) : goal\.", text))
                mine = set(re.findall(r"(?m)^(?:abbrev |pub |unfoldable )*([\w'-]+) :", text)) - goals
                here = (names - goals) | {w for w in mine if is_old(w)}
            lines = text.split("\n")
            made = {w.group() for line in lines for w in words_of(line) if w.group() not in foreign}
            goals_here = set(re.findall(r"(?m)^(?:abbrev |pub |unfoldable )*(\S+) : goal\.", text)) if code else set()
            out = []
            for line in lines:
                head = re.match(r"(\S+)", line)
                if code and head and head.group(1) in goals_here:
                    rest = line[len(head.group(1)) :]
                    out.append(head.group(1) + turned(" " + rest, foreign, here, code)[1:])
                else:
                    out.append(turned(line, foreign, here, code))
            for word in made:
                if is_old(word) and word in here and respelled(word) in made:
                    print(f"falls together: {path}: {word} and {respelled(word)}")
            new = "\n".join(out)
            if new != text:
                with open(path, "w", encoding="utf-8") as f:
                    f.write(new)
    pages = ["README.md"] + list(files("docs", ".md")) + list(files("examples", ".md"))
    for path in pages:
        text = open(path, encoding="utf-8").read()
        new = re.sub(r"`[^`\n]*`", lambda m: WORD.sub(lambda w: respelled(w.group()) if w.group() in names else w.group(), m.group()), text)
        if new != text:
            with open(path, "w", encoding="utf-8") as f:
                f.write(new)
    for new, olds in sorted(together.items()):
        if len(olds) > 1:
            print(f"falls together: {', '.join(sorted(olds))} as {new}")
    print(f"{len(names)} names respelled")


if __name__ == "__main__":
    sys.exit(main())
