#!/usr/bin/env python3
"""Turns the spelling of this repository's own definitions and lemmas to snake case, as its names in source code are.

usage: python3 tools/respell.py KIT      at the top, once, after KIT/port/port.py; KIT is the folder of the toolchain

What has a capital inside or a dash (asEncoded, count-rows) gets underscores (as_encoded, count_rows); types, modules, names of the
toolchain's library and names that it makes for goals stay. Names of functions, strings, inputs and outputs stay as they are. Where two
names would fall together, a lemma gets `_lem`, and a definition that has a function's or a parameter's name in a source file that cites
it gets `_of`. Each of these is printed.
"""

import glob
import os
import re
import sys

TOKEN = re.compile(r"[^\s(){}\[\];,.\"|`]+")
OLD = re.compile(r"^(?=.*[\w′']-[\w′'₀-₉]|[a-z][a-z0-9_]*[A-Z])[a-z][\w₀-₉'′∙*-]*$")

# Names that stand in other modules than those that would have them too.
APART = set("bch_check bch_encode correct_samples export_blocks import_blocks write_unit exported_octets imported_octets unit_octets one_more other_length".split())

# Fields that would have a function's name.
NAMED = {"wordOctets": "octets_of_word", "informationOctets": "octets_of_information"}


def code(line):
    """A line without its comment."""
    at = re.search(r"(^|\s)--(\s|$)", line)
    return (line[: at.start()], line[at.start() :]) if at else (line, "")


def words(path):
    found = set()
    with open(path, encoding="utf-8") as f:
        for line in f:
            found.update(TOKEN.findall(code(line)[0]))
    return found


def snake(word):
    word = re.sub(r"([a-z0-9])([A-Z])", lambda m: m[1] + "_" + m[2].lower(), word)
    word = re.sub(r"[A-Z]", lambda m: m[0].lower(), word)
    return word.replace("-", "_")


def library(kit):
    """Every word of the toolchain's library."""
    found = set()
    for folder, dirs, files in os.walk(os.path.join(kit, "rattle")):
        dirs[:] = [d for d in dirs if d not in ("tests", "examples")]
        for f in files:
            if f.endswith(".antt"):
                found |= words(os.path.join(folder, f))
    return found


def main(kit):
    kits = library(kit)
    believed = sorted(glob.glob("crates/*/specs/**/*.antt", recursive=True))
    lemmas, answers = [], []
    functions = {}
    for lib in sorted(glob.glob("crates/*/proofs/")):
        for path in sorted(glob.glob(lib + "**/*.antt", recursive=True)):
            # The folder of a function has a Proof.antt, that of a module lemmas.
            (answers if os.path.basename(path) == "Proof.antt" else lemmas).append(path)
    own = set()
    for path in believed + lemmas:
        own |= words(path)
    wanted = {w: snake(w) for w in own if OLD.match(w) and w not in kits and not w.endswith("-")}
    by_new = {}
    for w, s in wanted.items():
        by_new.setdefault(s, set()).add(w)
    turned = {}
    for w, s in sorted(wanted.items()):
        if "-" in w and (len(by_new[s]) > 1 or s in own and s not in APART):
            print("falls together:", w, "->", s + "_lem")
            s += "_lem"
        if re.match(r"^[^\W\d]", s):
            turned[w] = s
    for path in glob.glob("crates/*/src/**/*.rt", recursive=True):
        with open(path, encoding="utf-8") as f:
            text = "\n".join(l.split("//")[0] for l in f.read().splitlines())
        named = set(re.findall(r"[A-Za-z_]\w*", text))
        for w in sorted(set(TOKEN.findall(text))):
            if turned.get(w) in named and w not in NAMED:
                print("falls together:", w, "->", turned[w] + "_of", "for", path)
                turned[w] += "_of"
    turned |= {w: s for w, s in NAMED.items() if w in turned}
    taken = {}
    for w, s in sorted(turned.items()):
        if s in taken or s in own and s not in APART:
            print("still together:", w, s, taken.get(s, ""))
        taken[s] = w
    print(len(turned), "names turned")
    top = set()
    for path in believed + lemmas:
        with open(path, encoding="utf-8") as f:
            for line in f:
                m = re.match(r"^\s*(?:(?:abbrev|unfoldable|pub|abstract|private|record|data|ruleset)\s+)*([^\s(){}]+)\s+:", code(line)[0])
                if m:
                    top.add(m[1])

    def sub(text, names):
        return TOKEN.sub(lambda m: names.get(m[0], m[0]), text)

    camel = {w: s for w, s in turned.items() if "-" not in w}
    quoted = {w: s for w, s in turned.items()}
    for path in believed + lemmas + answers:
        names = {w: s for w, s in turned.items() if w in top or "-" not in w} if path in answers else turned
        out = []
        with open(path, encoding="utf-8") as f:
            for line in f:
                a, b = code(line)
                if path in answers:
                    a = re.sub(r"(?<![\w.])" + TOKEN.pattern, lambda m: names.get(m[0], m[0]), a)
                    a = re.sub(r"\.([^\s(){}\[\];,.\"|`]+)", lambda m: "." + camel.get(m[1], m[1]), a)
                else:
                    a = sub(a, names)
                b = sub(b, camel)
                b = re.sub(r"`[^`]*`", lambda m: sub(m[0], quoted), b)
                out.append(a + b)
        with open(path, "w", encoding="utf-8") as f:
            f.write("".join(out))
    for path in glob.glob("crates/*/src/**/*.rt", recursive=True):
        with open(path, encoding="utf-8") as f:
            text = f.read()
        parts = re.split(r'("(?:[^"\\\n]|\\.)*")', text)
        for i in range(0, len(parts), 2):
            parts[i] = "".join(sub(l, camel if l.lstrip().startswith("//") else turned) for l in parts[i].splitlines(keepends=True))
        with open(path, "w", encoding="utf-8") as f:
            f.write("".join(parts))
    with open("tools/respelled.txt", "w", encoding="utf-8") as f:
        f.write("".join(f"{w} {s}\n" for w, s in sorted(turned.items())))


if __name__ == "__main__":
    if len(sys.argv) != 2:
        raise SystemExit(__doc__)
    main(sys.argv[1])
