#!/usr/bin/env python3
"""Brings this repository's own definitions and lemmas to the kit's spelling.

usage: python3 tools/respell.py [--write]        at the top, once, after the kit's port.py

A word is in snake case, a type or a fact in camel case. In proofs/, names of goals and of their
facts get the spelling in which the check makes them. Functions of src/ and names of the library
stay. Without --write it only prints what would change, and which names would fall together.
"""

import os
import re
import sys

NAME = r"[^\W\d_][\w'·]*(?:-[\w'·]+)+|[a-z]+(?:[A-Z][a-z]*)+"
PART = r"(?<![\w'·◌+-])(" + NAME + r")(?![\w'·◌+-])"
TOKEN = re.compile(PART)
MADE_TOKEN = re.compile(r"(?<![\w'·◌+-])([A-Za-z][\w'·]*(?:[-+][\w'·]+)+)(?![\w'·◌+-])")
MODIFIERS = r"(?:(?:abbrev|unfoldable|pub|private|open)\s+)*"
SIGNATURE = re.compile(r"^\s*" + MODIFIERS + r"(?:record\s+|data\s+)?(" + NAME + r")\s*(?:[({:]|$)", re.M)
EQUATION = re.compile(r"^\s*(" + NAME + r")(?=\s[^\n]*=)", re.M)
ALIAS = re.compile(r"\bas\s+(" + NAME + r")\s*[,};]")
LET = re.compile(r"\blet\s+(" + NAME + r")\s*[:=]")
BINDER = re.compile(r"[({]\s*((?:[\w'·-]+\s+)*[\w'·-]+)\s*:")
LAMBDA = re.compile(r"λ\s+([^.]*?)\.\s")
GOAL = re.compile(r":\s*(?:goal|need|given)\s*\.")
FACT = re.compile(r"\b(?:goal|need|given|[cwlg])\s*((?:\.[\w'·+-]+)+)")

# Names with a spelling of their own, since the plain one is taken.
CHOSEN = {"All-drawn": "IsAllDrawn", "workedRows": "the_rows"}
# Fields of our records that stand behind a fact of a goal.
OWN_FIELDS = {"goal-below", "list-is", "rest-is", "sort-of"}
# Words in which the check now writes an underscore.
MADE_WORDS = [
    (r"^(overflow|nonzero|offset|slice)-(add|sub|mul|shl|shr|cast|step|neg|div|rem|bounds)\b", r"\1_\2"),
    (r"(?<![a-z])(in|In)-(ok|err|default)(?![a-z])", r"\1_\2"),
    (r"^type-inv$", "type_inv"),
    (r"^invariant-of-", "invariant_of-"),
    (r"\bfrom-residual\b", "from_residual"),
]


def texts():
    for folder, dirs, files in os.walk("crates"):
        dirs[:] = sorted(d for d in dirs if d != "out")
        for name in sorted(files):
            if name.endswith((".antt", ".rt")):
                path = os.path.join(folder, name)
                with open(path, encoding="utf-8") as file:
                    yield path, file.read()


def plain(text):
    """The text without comments."""
    return re.sub(r"--[^\n]*", "", text)


def answered(text):
    """The names that an answer file answers: the check makes them."""
    if not re.search(r"\bas (?:goal|need|given)\b", text):
        return set()
    return {m.group(1) for m in SIGNATURE.finditer(text) if GOAL.match(text[m.end() - 1 :].lstrip())}


def foreign(text):
    """The names that a file imports from the library."""
    for path, names in re.findall(r"\buse\s+([\w.'·+-]+)\.\{([^}]*)\}", text):
        parts = path.split(".")
        if parts[0] != "Rattle" or not os.path.isdir(os.path.join("crates", parts[1])):
            for item in names.split(","):
                yield item.split(" as ")[0].strip()


def named(text):
    """The names that a file gives to definitions, lemmas, fields and local values."""
    for pattern in (SIGNATURE, EQUATION, ALIAS, LET):
        yield from (m.group(1) for m in pattern.finditer(text))
    for pattern in (BINDER, LAMBDA):
        for m in pattern.finditer(text):
            yield from TOKEN.findall(m.group(1))


def respelled(name):
    if name in CHOSEN:
        return CHOSEN[name]
    parts = name.split("-")
    if name[0].isupper():
        return "".join(part[:1].upper() + part[1:] for part in parts)
    if len(parts) > 1:
        return "_".join(parts)
    return re.sub(r"(?<=[a-z])[A-Z]", lambda m: "_" + m.group(0).lower(), name)


def own_names(contents):
    own, made, library = set(), set(), set()
    for path, text in contents.items():
        library |= set(foreign(text))
        for m in FACT.finditer(text):
            made |= set(m.group(1).split(".")[1:])
        if path.endswith(".antt"):
            bare = plain(text)
            goals = answered(bare)
            made |= goals
            own |= {n for n in named(bare) if n not in goals}
        else:
            for line in re.findall(r"ghost use [^;]*;", text):
                own |= {m.group(1) for m in ALIAS.finditer(line)}
    return own - library - (made - OWN_FIELDS), library


def source_names(contents):
    """The names of src/ that have an underscore, the longest first, by the dashed form."""
    found = set()
    for path, text in contents.items():
        if path.endswith(".rt"):
            found |= set(re.findall(r"\b[A-Za-z]\w*_\w*[A-Za-z0-9]\b", re.sub(r"//[^\n]*", "", text)))
    return sorted(((n.replace("_", "-"), n) for n in found if "__" not in n), key=lambda p: -len(p[0]))


def made_name(name, sources):
    for pattern, new in MADE_WORDS:
        name = re.sub(pattern, new, name)
    for dashed, source in sources:
        if dashed in name:
            name = re.sub(r"(?<![\w])" + re.escape(dashed) + r"(?![\w])", source, name)
    return name


def turned(text, changes, keep, sources):
    def own(m):
        if m.group(1) == "rest-is" and text[max(0, m.start() - 2) : m.start()] in ("w.", "c."):
            return m.group(1)
        return changes.get(m.group(1), m.group(1))

    def made(m):
        return m.group(1) if m.group(1) in keep else made_name(m.group(1), sources)

    text = TOKEN.sub(own, text)
    return MADE_TOKEN.sub(made, text) if sources else text


def main():
    contents = dict(texts())
    own, library = own_names(contents)
    changes = {name: respelled(name) for name in own}
    sources = source_names(contents)
    everything = set(re.findall(r"[\w'·-]+", "\n".join(contents.values())))
    news = list(changes.values())
    for name, new in sorted(changes.items()):
        together = new in everything or news.count(new) > 1
        print(name, "->", new, " stands elsewhere too" if together else "")
    for path, text in contents.items():
        in_proofs = path.endswith(".antt") and "/proofs/" in path
        new = turned(text, changes, library, sources if in_proofs else [])
        if "--write" in sys.argv and new != text:
            with open(path, "w", encoding="utf-8") as file:
                file.write(new)


if __name__ == "__main__":
    main()
