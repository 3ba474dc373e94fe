#!/usr/bin/env python3
"""Respell the repository's own definitions and lemmas in snake case: `wordAt` as `word_at`, `getD-zeros` as `get_or-zeros`.

Usage: tools/respell.py      at the top of the repository, once, after /opt/rattle/port/port.py

It reads every .antt file, every clause and comment of a .rt file and every must-fail edit below crates/. A name turns where it begins in
lower case and has a letter in upper case behind one in lower case. Types, modules, paths of files and quoted text stay.
"""
import os
import re

NAME = re.compile(r"(?<![A-Za-z0-9_'/·-])[a-z][A-Za-z0-9_'₀-₉-]*(?!/)")
HUMP = re.compile(r"(?<=[a-z0-9])([A-Z])(?=[a-z0-9]|$|-)")
QUOTED = re.compile(r'("(?:[^"\\\n]|\\.)*")')


def spelled(found):
    name = found.group(0)
    name = re.sub(r"(?<![A-Za-z0-9])getD(?![A-Za-z0-9])", "get_or", name)
    return HUMP.sub(lambda hump: "_" + hump.group(1).lower(), name)


def turned(text):
    return "".join(part if i % 2 else NAME.sub(spelled, part) for i, part in enumerate(QUOTED.split(text)))


def main():
    for folder, folders, files in os.walk("crates"):
        folders[:] = [f for f in folders if f != "out"]
        for file in files:
            path = os.path.join(folder, file)
            if not file.endswith((".antt", ".rt", ".edit")):
                continue
            with open(path, encoding="utf-8") as source:
                text = source.read()
            new = turned(text)
            if new != text:
                with open(path, "w", encoding="utf-8") as target:
                    target.write(new)


main()
