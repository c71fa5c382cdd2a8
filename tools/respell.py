#!/usr/bin/env python3
"""Gives the repository's own definitions and lemmas the kit's spelling, once, after port.py.

usage: python3 tools/respell.py [--check]      at the top of the repository

A word of a name that is in camel case and begins small becomes snake case: sumFrom -> sum_from, and getD -> get_or,
as the library has it. A dash stays between two words that are themselves definitions, and is otherwise an underscore:
length-tab stays, sumFrom-more -> sum_from_more. A lemma that would have its function's name gets _lem. Types, modules, constants and functions of src/ keep their names, and
so do the names that Rattle generates. --check writes nothing. Either way it prints each name that, in a file, would
fall together with another one.
"""

import collections
import os
import re
import sys

NAME = re.compile(r"(?:[^\s(){}.;,@\"«»\[\]]|«[^»]*»)+")
DECLARED = re.compile(r"^(\s*)(?:(?:abbrev|unfoldable) )?(?:pub )?([^\s:(){}.,;=]+) :(?:\s|$)")
MARKED = re.compile(r"^\s*(?:pub )?(?:abbrev|unfoldable) (?:pub )?([^\s:(){}.,;=]+) :(?:\s|$)")
RECORD = re.compile(r"^\s*(?:pub )?(?:record|data) ([^\s:(){}]+)")
USE = re.compile(r"^\s*(?:ghost )?(?:pub )?use ([^\s{};]+?)\.\{([^}]*)\}", re.M)
ALIAS = re.compile(r"^\s*(?:ghost )?(?:pub )?use ([^\s{};]+) as ([^\s;]+)", re.M)
CRATES = sorted(c for c in os.listdir("crates") if os.path.isdir(os.path.join("crates", c, "src")))
WORDS = set(
    "length take drop append set get_or map replicate reverse zero suc add mul sub neg div sum nil cons nan inf fin "
    "le lt eq not and or cond true false leb ltb eqb round sqrt pow abs".split()
)
OTHERS = {"getD": "get_or"}
# In a comment these are IEEE 754's own names.
STANDARD = {"squareRoot", "totalOrder"}
# Parameters of definitions.
BOUND = {"outFixed": "out_fixed", "outFrames": "out_frames", "segmentsIn": "segments_in"}
# Lemmas that port.py had spelled as a definition of their crate is spelled now.
LEMMAS = {"call_lists": ["all_apart"], "normal_list": ["all_apart"], "exact_moments": ["one_way", "other_way"]}


def texts(suffixes):
    for folder, dirs, files in os.walk("crates"):
        dirs[:] = sorted(d for d in dirs if d not in ("out", "must-fail"))
        for f in sorted(files):
            if f.endswith(suffixes):
                yield os.path.join(folder, f)


def read(path):
    with open(path, encoding="utf-8") as f:
        return f.read()


def snake(word):
    if word in OTHERS:
        return OTHERS[word]
    if not re.match(r"[a-z]", word):
        return word
    return re.sub(r"(?<!^)(?=[A-Z])", "_", word).lower()


def respelled(name, words):
    parts = [snake(p) for p in name.split("-")]
    if not all(parts):
        return name
    out = parts[0]
    for a, b in zip(parts, parts[1:]):
        out += ("-" if a in words and b in words else "_") + b
    return out


def gather():
    """The names that are declared, those of definitions, and those of record fields."""
    declared, words, fields = set(), set(WORDS), set()
    for path in texts((".antt",)):
        inside = False
        for line in read(path).split("\n"):
            code = line.split("--")[0] if line.lstrip().startswith("--") else line
            if RECORD.match(code):
                inside = code.rstrip().endswith("where") and "record" in code
                continue
            if code and not code[0].isspace():
                inside = False
            m = DECLARED.match(code)
            if not m or re.match(r"\s*(let|λ|use|module|where)\b", code):
                continue
            name = m.group(2)
            if re.search(r": (?:tie|given|goal)\.", code) or "statement M" in code or name.startswith(("invariant-", "decreases-")):
                continue
            declared.add(name)
            if inside:
                fields.add(name)
            if MARKED.match(code) and "-" not in name:
                words.add(snake(name))
    return declared, words, fields


def imported(text):
    """The names that a file takes from elsewhere than this repository."""
    own = re.compile(r"Rattle\.(?:%s)\." % "|".join(CRATES))
    out = set()
    for path, names in USE.findall(text):
        if not own.match(path + "."):
            out |= {n.split(" as ")[-1].strip() for n in names.split(",")} | {n.split(" as ")[0].strip() for n in names.split(",")}
    return out


def modules(text):
    """Names that a module of this repository has in this file."""
    return {a for p, a in ALIAS.findall(text)}


def turn(text, table, fields, antt):
    kept = imported(text)
    named = modules(text)

    def one(m):
        name = m.group(0)
        if name not in table or name in kept:
            return name
        before = text[: m.start()]
        if name in STANDARD and re.match(r"\s*(--|//)", before.rsplit("\n", 1)[-1]):
            return name
        if before.endswith("."):
            owner = re.search(r"([^\s(){}.;,\[\]]+)\.$", before)
            is_module = owner and (owner.group(1)[0].isupper() or owner.group(1) in named)
            if name not in fields and not is_module:
                return name
        return table[name]

    if antt:
        return NAME.sub(one, text)
    return re.sub(r"(?<![\w'])[a-z]\w*[A-Z]\w*(?![\w'])", one, text)


def main():
    check = "--check" in sys.argv[1:]
    declared, words, fields = gather()
    table = dict(BOUND)
    taken = {n for n in declared if "-" not in n and respelled(n, words) == n} | {respelled(n, words) for n in declared if "-" not in n}
    for name in sorted(declared):
        new = respelled(name, words)
        if "-" in name and new in taken:
            new += "_lem"
        if new != name:
            table[name] = new
    back = collections.defaultdict(set)
    for name, new in table.items():
        back[new].add(name)
    changed = 0
    for path in texts((".antt", ".rt")):
        text = read(path)
        names = set(NAME.findall(text)) if path.endswith(".antt") else set(re.findall(r"[\w']+", text))
        for name in sorted(names & set(table)):
            others = (names & (back[table[name]] | {table[name]})) - {name}
            if others:
                print(f"together: {path}: {name} and {', '.join(sorted(others))} as {table[name]}")
        lemmas = {n: n + "_lem" for n in LEMMAS.get(path.split(os.sep)[1], [])}
        new = turn(text, table | lemmas, fields, path.endswith(".antt"))
        if new != text:
            changed += 1
            if not check:
                with open(path, "w", encoding="utf-8") as f:
                    f.write(new)
    print(f"respell: {len(table)} names, {changed} files")
    if "--table" in sys.argv[1:]:
        for name in sorted(table):
            print(name, table[name])


if __name__ == "__main__":
    main()
