#!/usr/bin/env python3
"""Brings the repository's own ghost names to today's spelling: words in snake case, facts and constructors in camel case.

usage: python3 tools/respell_names.py [--look]      at the top of the repository, once, after the kit's port.py

It renames each name with a dash that stands in the files of specs/ and in the lemma files of proofs/ (definitions, lemmas, fields,
constructors and bound variables), there and where contracts, edits and pages name it. Names of the kit's library and names that the
check makes keep their dashes. With --look it writes nothing and lists the names that would fall together in one file.
"""

import collections
import os
import re
import sys

TOKEN = re.compile(r"[^\s(){}\[\].,;|@\"`]+")
USE = re.compile(r"^\s*(?:pub |ghost )*use ([^\s{]+?)(?:\.\{(.*)\})?(?: as (\S+?))?;?\s*$")
# Functions whose names begin with a capital letter, and names that the rule would make equal to another of their file.
OWN = {"Ref-bytes": "capital_ref_bytes", "REF-VALUE": "REF_VALUE"}


def files(top, ends):
    for folder, dirs, names in os.walk(top):
        dirs[:] = sorted(d for d in dirs if d not in ("out", "target", ".git"))
        for name in sorted(names):
            if name.endswith(ends):
                yield os.path.join(folder, name)


def is_walk(path):
    """Is it the proof of a function? Those stand in a folder of proofs/."""
    folder = os.path.dirname(path)
    return "/proofs/" in folder and os.path.basename(folder) != "proofs"


def uses(text):
    """The use lines of a file, those that are broken over lines too: module, names, alias."""
    for line in re.sub(r"\{[^{}]*\}", lambda m: " ".join(m[0].split()), text).splitlines():
        m = USE.match(line)
        if m:
            yield m[1], [it.strip() for it in (m[2] or "").split(",") if it.strip()], m[3]


def library(crates):
    """Names that files bring in from the kit's library, or from what the check makes."""
    own = re.compile(r"Rattle\.(\w+)\.(specs|proofs)\.[A-Z]\w*$")
    found = set()
    for path in files("crates", (".antt", ".rt")):
        with open(path, encoding="utf-8") as f:
            text = f.read()
        for module, names, _ in uses(text):
            m = own.match(module)
            if not (m and m[1] in crates and m[2] + module.split(".")[-1] != "proofsLib"):
                found |= {it.split(" as ")[0] for it in names}
    return found


def code(line):
    """The line without its comment, and the comment."""
    m = re.search(r"(^|\s)(--|//)(\s|$)", line)
    return (line, "") if not m else (line[: m.start()], line[m.start() :])


def spelled(name):
    if name in OWN:
        return OWN[name]
    if name[0].isupper() and not name.isupper():
        return "".join(part[:1].upper() + part[1:] for part in name.split("-"))
    return name.replace("-", "_")


def is_name(token):
    return "-" in token.strip("-") and re.search(r"[A-Za-z]", token) and not token.startswith(("-", "+")) and "--" not in token


def turned(text, names):
    return TOKEN.sub(lambda m: names.get(m[0], m[0]), text)


def ticked(text, names):
    return re.sub(r"`[^`\n]*`", lambda m: turned_inside(m[0], names), text)


def turned_inside(text, names):
    return "`" + turned(text[1:-1], names) + "`"


def turned_file(path, text, names):
    if path.endswith(".md"):
        return ticked(text, names)
    out = []
    for line in text.split("\n"):
        if path.endswith(".edit"):
            out.append(turned(line, names))
            continue
        before, after = code(line)
        # The text of a Rust string stays.
        parts = re.split(r'(b?"(?:[^"\\]|\\.)*")', before) if path.endswith(".rt") else [before]
        out.append("".join(it if k % 2 else turned(it, names) for k, it in enumerate(parts)) + ticked(after, names))
    return "\n".join(out)


def main():
    look = "--look" in sys.argv
    crates = sorted(os.listdir("crates"))
    kept = library(crates)
    names, tokens = {}, collections.defaultdict(set)
    for path in files("crates", (".antt", ".rt")):
        with open(path, encoding="utf-8") as f:
            for line in f.read().split("\n"):
                tokens[path] |= set(TOKEN.findall(code(line)[0])) | set(re.findall(r"(?<![\w-])\w+(?![\w-])", code(line)[0]))
        if path.endswith(".antt") and not is_walk(path):
            names |= {it: spelled(it) for it in tokens[path] if is_name(it) and it not in kept}
        elif path.endswith(".rt"):
            with open(path, encoding="utf-8") as f:
                aliases = {it.split(" as ")[1] for _, given, _ in uses(f.read()) for it in given if " as " in it}
            names |= {it: spelled(it) for it in aliases if is_name(it)}
    if look:
        new = collections.defaultdict(set)
        for old, it in names.items():
            new[it].add(old)
        for it, olds in sorted(new.items()):
            if len(olds) > 1:
                print("two become one:", it, sorted(olds))
        for path in sorted(tokens):
            for old in sorted(tokens[path] & set(names)):
                if names[old] in tokens[path]:
                    print(f"{path}: {old} -> {names[old]}, which stands there")
        return
    for path in [*files("crates", (".antt", ".rt", ".edit")), *files("docs", ".md"), *files("host", ".md"), "README.md"]:
        with open(path, encoding="utf-8") as f:
            text = f.read()
        done = turned_file(path, text, names)
        if done != text:
            with open(path, "w", encoding="utf-8") as f:
                f.write(done)


main()
