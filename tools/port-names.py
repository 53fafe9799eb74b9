#!/usr/bin/env python3
"""Brings the repository's own antt names to today's spelling, after port.py: run once, at the top of the repository.

- words in snake case: factorOf -> factor_of, length-putFloat -> length-put_float; types and modules keep their capitals;
- the modules specs/Contracts become specs/Promises, since Rattle makes a module of that name itself.
Functions of src/, exported names, strings, inputs and outputs keep their names.
"""
import glob
import os
import re
import subprocess

ANTT = glob.glob("crates/*/specs/*.antt") + glob.glob("crates/*/proofs/**/*.antt", recursive=True)
TOKEN = re.compile(r"[^\s(){}\[\].,;«»|]+")


def snake_part(part):
    if not re.match(r"[a-z]", part) or not re.search(r"[A-Z]", part):
        return part
    part = re.sub(r"([a-z0-9])([A-Z])", r"\1_\2", part)
    part = re.sub(r"([A-Z]+)([A-Z][a-z])", r"\1_\2", part)
    return part.lower()


def snake(token):
    return re.sub(r"[A-Za-z0-9_']+", lambda m: snake_part(m.group(0)), token)


def words():
    """The parts in camel case of the names that specs/ and proofs/ use, outside comments."""
    found = set()
    for path in ANTT:
        for line in open(path, encoding="utf-8"):
            code = re.split(r"(?:^|\s)--(?:\s|$)", line)[0]
            for token in TOKEN.findall(code):
                for part in re.findall(r"[A-Za-z0-9_']+", token):
                    if snake_part(part) != part:
                        found.add(part)
    return found


def turned(text, names):
    def put(match):
        return snake_part(match.group(0)) if match.group(0) in names else match.group(0)

    return re.sub(r"(?<![A-Za-z0-9_'])[A-Za-z][A-Za-z0-9_']*", put, text)


def turned_source(text, names):
    """A .rt file or an edit: all but what stands in quotes."""
    pieces = re.split(r'(b?"(?:[^"\\\n]|\\.)*")', text)
    return "".join(p if i % 2 else turned(p, names) for i, p in enumerate(pieces))


def rewrite(path, by):
    old = open(path, encoding="utf-8").read()
    new = by(old)
    if new != old:
        open(path, "w", encoding="utf-8").write(new)


def main():
    names = words()

    def contracts(text):
        text = text.replace("specs.Contracts", "specs.Promises")
        text = text.replace("specs/Contracts.antt", "specs/Promises.antt")
        return re.sub(r"^pub mod Contracts$", "pub mod Promises", text, flags=re.M)

    for path in ANTT:
        rewrite(path, lambda t: contracts(turned(t, names)))
    for path in glob.glob("crates/*/src/**/*.rt", recursive=True) + glob.glob("crates/*/must-fail/*"):
        rewrite(path, lambda t: contracts(turned_source(t, names)))
    for path in ["README.md"] + glob.glob("docs/**/*.md", recursive=True):
        rewrite(path, lambda t: contracts(turned(t, names)))
    for path in glob.glob("crates/*/specs/Contracts.antt"):
        subprocess.run(["git", "mv", path, os.path.join(os.path.dirname(path), "Promises.antt")], check=True)


main()
