#!/usr/bin/env python3
"""Places of src/ in forms that today's Rattle writes otherwise, as docs/DESIGN-PASS.md counts them.

Usage: tools/places.py [POINT..]      at the top of the repository: a line for each place, and a count for each point

1  enums shaped as Option or Result, structs with a refusal or a fault beside a value, functions that answer a number for a kind or
   a refusal, constants that number kinds or refusals
2  functions whose bodies are the same but for names and numbers, in one crate or in two
3  loops by `while`
4  conversions, comparisons and predicates by variant written by hand
5  clauses of `requires` that three or more functions state of their arguments, and four or more parameters that three or more take
6  parameters that say how much of a slice is meant, beside the slice
7  functions that choose the next step by a number or an enum that is handed on
8  folders of proofs/ that belong to functions, and their lines
"""
import collections
import glob
import re
import sys

FUNCTION = re.compile(r"^( *)(?:pub(?:\(crate\))? )?(?:const )?(?:extern \"C\" )?fn (\w+)", re.M)


def sources():
    for path in sorted(glob.glob("crates/*/src/**/*.rt", recursive=True)):
        yield path, open(path, encoding="utf-8").read()


def bare(text):
    """The text with comments blanked, lines kept."""
    return re.sub(r"//[^\n]*", "", text)


def line_of(text, at):
    return text.count("\n", 0, at) + 1


def functions(text):
    """Each function: its name, where it starts, its signature with clauses, its body."""
    text = bare(text)
    for found in FUNCTION.finditer(text):
        indent = found.group(1)
        end = text.find("\n" + indent + "}\n", found.start())
        head = text.find("\n" + indent + "{\n", found.start())
        if end < 0 or head < 0 or head > end:
            continue
        yield found.group(2), line_of(text, found.start()), text[found.start():head], text[head + len(indent) + 2:end]


def point1():
    for path, text in sources():
        plain = bare(text)
        for found in re.finditer(r"enum (\w+) \{\n(.*?)\n\}", plain, re.S):
            variants = re.findall(r"^ +(\w+)(\([^)]*\))?", found.group(2), re.M)
            if any(v == "Refused" or v == "Unknown" or v == "Done" for v, _ in variants):
                yield path, line_of(plain, found.start()), "enum " + found.group(1)
        for found in re.finditer(r"struct (\w+) \{\n(.*?)\n\}", plain, re.S):
            if re.search(r"^ +(?:pub )?(refusal: Refusal|fault: u8)", found.group(2), re.M):
                yield path, line_of(plain, found.start()), "struct " + found.group(1)
        for name, line, head, _ in functions(text):
            if re.search(r"\) -> (\w*Answer|Refusal)\b", head) and name not in ("none", "refuse", "refuse_at", "refuse_in_row", "from") \
                    and "extern" not in head:
                yield path, line, "fn " + name + ": an answer with a refusal in it"
            if re.search(r"\) -> u8\b", head) and re.search(r"fault|refusal|kind_of|number", name + head):
                yield path, line, "fn " + name + ": a number"
        for found in re.finditer(r"^pub const ([A-Z0-9_]+): u8 = \d+;", plain, re.M):
            if path.startswith("crates/outcome/") or re.match(r"(KIND|FORM|LIST|RECORD)_", found.group(1)):
                yield path, line_of(plain, found.start()), "const " + found.group(1)


def shape(body):
    """A body with names numbered in order of appearance and every literal the same."""
    seen = {}
    words = re.findall(r"\"[^\"]*\"|\w+|[^\s\w]", body)
    out = []
    for word in words:
        if re.fullmatch(r"\d\w*", word):
            out.append("0")
        elif re.fullmatch(r"[A-Za-z_]\w*", word) and word not in ("let", "mut", "while", "for", "in", "if", "else", "return", "match", "as"):
            out.append("n%d" % seen.setdefault(word, len(seen)))
        else:
            out.append(word)
    return " ".join(out)


def point2():
    groups = collections.defaultdict(list)
    for path, text in sources():
        if path.startswith(("crates/capi/", "crates/examples/")):
            continue
        for name, line, head, body in functions(text):
            if body.count("\n") >= 2:
                groups[shape(body)].append((path, line, name))
    for members in groups.values():
        if len(members) > 1:
            for path, line, name in members:
                yield path, line, "fn " + name + ": as " + ", ".join(n for p, l, n in members if (p, l) != (path, line))


def point3():
    for path, text in sources():
        for name, line, _, body in functions(text):
            for _ in re.finditer(r"\bwhile\b", body):
                yield path, line, "fn " + name


def point4():
    for path, text in sources():
        for name, line, head, body in functions(text):
            if re.match(r"from_\w+$", name) and "self" not in head:
                yield path, line, "fn " + name + ": a conversion"
            if name == "number" and "match self" in body:
                yield path, line, "fn " + name + ": a number by match"
            if re.search(r"\) -> bool", head) and re.search(r"=> (true|false),", body):
                yield path, line, "fn " + name + ": a comparison by match"
            if re.search(r"\w+_(done|refused)$", name) and "Answer {" in body:
                yield path, line, "fn " + name + ": an answer put together"
            if re.match(r"(show|print|put)_(item|number|digits|text)", name):
                yield path, line, "fn " + name + ": printing"


def point5():
    clauses = collections.defaultdict(set)
    groups = collections.defaultdict(set)
    for path, text in sources():
        crate = path.split("/")[1]
        for name, line, head, _ in functions(text):
            for clause in re.findall(r"requires(?: \w+)? \{(.*?)\}\n", head + "\n", re.S):
                for part in re.split(r" × ", " ".join(clause.split())):
                    clauses[crate, part.strip("() ")].add((path, line, name))
            parameters = re.findall(r"(\w+): [^,()]+", head.split("->")[0].split("requires")[0])
            if len(parameters) >= 4:
                groups[crate, tuple(parameters[:4])].add((path, line, name))
    for (crate, clause), places in sorted(clauses.items()):
        if len(places) >= 3:
            path, line, _ = min(places)
            yield path, line, "%d functions require %s" % (len(places), clause)
    for (crate, parameters), places in sorted(groups.items()):
        if len(places) >= 3:
            path, line, _ = min(places)
            yield path, line, "%d functions take %s" % (len(places), ", ".join(parameters))


def point6():
    for path, text in sources():
        for name, line, head, _ in functions(text):
            signature = head.split("->")[0].split("requires")[0]
            asked = " ".join(head.split())
            for found in re.finditer(r"\b(\w+): usize", signature):
                if re.search(r"[{(] ?(\w+ \* )?" + found.group(1) + r"( \* \w+)? ≤ length (\w+)\.", asked) and re.search(r": &(?:mut )?\[", signature):
                    yield path, line, "fn %s: %s" % (name, found.group(1))


def point7():
    for path, text in sources():
        for name, line, _, body in functions(text):
            if len(re.findall(r"if (\w+) == [A-Z][A-Z_0-9]+ \{\s*return \w+::", body)) >= 2:
                yield path, line, "fn " + name + ": steps by number"


def point8():
    for path in sorted(glob.glob("crates/*/proofs/**/", recursive=True)):
        files = [f for f in glob.glob(path + "*.antt") if f.rsplit("/", 1)[1] in ("Proof.antt", "Answers.antt", "Invariants.antt")]
        if files:
            yield path, sum(open(f, encoding="utf-8").read().count("\n") for f in files), "lines of a function's proof"


def main():
    points = {"1": point1, "2": point2, "3": point3, "4": point4, "5": point5, "6": point6, "7": point7, "8": point8}
    for key in sys.argv[1:] or points:
        places = list(points[key]())
        for path, line, what in places:
            print("%s:%d: %s" % (path, line, what))
        extra = ", %d lines" % sum(line for _, line, _ in places) if key == "8" else ""
        print("point %s: %d places%s" % (key, len(places), extra))


if __name__ == "__main__":
    main()
