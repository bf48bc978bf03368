#!/usr/bin/env python3
"""Respells the repository's own definitions and lemmas: words in snake case, no dash between plain words.

usage: python3 tools/respell.py        at the top of a repository, once, after port.py

A name that is defined in a file of specs/, or in a lemma file right in proofs/, and is written in camel case or with dashes
(channelAt, paths-are-all), is written in snake case (channel_at, paths_are_all), in every .antt file, in the clauses and imports of
every .rt file, and in the must-fail edits. A name given by `as` in an import is respelled alike. Types keep their capitals, names from
src/ their spelling. Names that would fall together are told, and get `_lem` at the one that was written with dashes.
"""

import glob
import re
import sys

TOKEN = re.compile(r"[^\s(){}\[\],;.:λ|\"`«»@]+")
# A letter of mathematics at the end of a word, as in maxℤ, is a word of its own.
SIGNS = "ℤℕᶠ"
# Words that Rattle makes or that the language has.
KEPT = {"if◌then◌else◌"}
# Lemmas that would fall together with a definition or a word of the library.
LEMMAS = {"is_digit": "is_digit_lem", "spread_at": "spread_at_lem", "of-bits": "of_bits_lem", "of-fields": "of_fields_lem"}


def respelled(name):
    if name.startswith(("tie", "goal")):
        return name
    out = name.replace("·", "_")
    out = re.sub(r"(?<=[a-z0-9])([A-Z])", lambda m: "_" + m[1].lower(), out) if not out[:1].isupper() else out
    out = re.sub(r"(?<=[a-z])([" + SIGNS + "])", r"_\1", out)
    out = re.sub(r"(?<=[^\W_]|[←→≤≥<>⊑+*])-(?=\w)", "_", out)
    return out


def kind(line):
    m = re.match(r"(?:(?:abbrev|unfoldable|pub|data|record|ruleset)\s+)*([^\s:({=]+)\s*(?::(?!=)|=|\()", line)
    return m and m[1]


def files(pattern):
    return sorted(p for p in glob.glob(pattern, recursive=True) if "/out/" not in p)


def defined(paths):
    names = set()
    for p in paths:
        in_record = False
        for line in open(p, encoding="utf-8"):
            if re.match(r"(use|pub use|--|unfolding|mod|pub mod|module|infix)\b|--", line):
                for m in re.finditer(r" as ([^\s,}]+)", line):
                    names.add(m[1])
                continue
            m = re.match(r"(?:(?:abbrev|unfoldable|pub|data|record|ruleset)\s+)*([^\s:({=|]+)\s*(?::(?!=)|=|\(|\{)", line)
            if m and line[0] not in " \t":
                names.add(m[1])
            m = re.match(r"\s+(?:(?:abbrev|unfoldable|pub)\s+)*([^\s:({=|]+(?: [^\s:({=|]+)*)\s*:(?!=)\s", line)
            if m:
                names.update(m[1].split())
    return names


def main():
    specs = files("crates/*/specs/**/*.antt")
    lemmas = files("crates/*/proofs/*.antt")
    names = defined(specs + lemmas)
    for p in files("crates/*/src/**/*.rt"):
        for line in open(p, encoding="utf-8"):
            if line.startswith("ghost use"):
                names.update(re.findall(r" as ([^\s,}]+)", line))
    table = {}
    for n in sorted(names):
        if n in KEPT or not re.search(r"\w", n):
            continue
        new = respelled(n)
        if new != n:
            table[n] = new
    table.update((n, new) for n, new in LEMMAS.items() if n in names)
    by_new = {}
    for n in names:
        by_new.setdefault(table.get(n, n), []).append(n)
    for new, olds in sorted(by_new.items()):
        if len(olds) > 1:
            for n in olds:
                if "-" in n and n in table:
                    table[n] = new + "_lem"
                    print(f"respell: {sorted(olds)} fall together: {n} is {new}_lem")
    # functions of src/ with the name of a definition
    fns = set()
    for p in files("crates/*/src/**/*.rt"):
        fns.update(re.findall(r"\bfn ([a-z0-9_]+)", open(p, encoding="utf-8").read()))
    for n, new in sorted(table.items()):
        if new in fns:
            print(f"respell: {n} becomes {new}, as a function of src/ is called")

    def words(text):
        return TOKEN.sub(lambda m: table.get(m[0], m[0]), text)

    def antt(text):
        out = []
        for line in text.split("\n"):
            code, mark, comment = line.partition("-- ") if re.match(r"\s*-- ", line) else (line, "", "")
            if mark:
                comment = TOKEN.sub(lambda m: table.get(m[0], m[0]) if "-" not in m[0] else m[0], comment)
            out.append(words(code) + mark + comment)
        return "\n".join(out)

    def rt(text):
        out, depth = [], 0
        for line in text.split("\n"):
            if line.startswith("ghost use"):
                out.append(words(line))
                continue
            s = line.strip()
            if s.startswith("//"):
                out.append(TOKEN.sub(lambda m: table.get(m[0], m[0]) if "-" not in m[0] else m[0], line))
                continue
            if depth == 0 and re.match(r"(ghost|requires|ensures)\b", s):
                depth = s.count("{") - s.count("}")
                out.append(words(line))
                continue
            if depth > 0:
                depth += s.count("{") - s.count("}")
                out.append(words(line))
                continue
            out.append(line)
        return "\n".join(out)

    changed = 0
    for p in files("crates/**/*.antt") + files("crates/*/src/**/*.rt") + files("crates/*/must-fail/*.edit"):
        text = open(p, encoding="utf-8").read()
        if p.endswith(".edit"):
            lines, inside = [], ""
            for line in text.split("\n"):
                if line.startswith("file: "):
                    inside = line
                if line.startswith(("old: ", "new: ")):
                    if inside.endswith(".antt") or "≡" in line:
                        line = line[:5] + words(line[5:])
                lines.append(line)
            new = "\n".join(lines)
        else:
            new = (rt if p.endswith(".rt") else antt)(text)
        if new != text:
            open(p, "w", encoding="utf-8").write(new)
            changed += 1
    print(f"respell: {len(table)} names, {changed} files")
    if "--table" in sys.argv:
        for n, new in sorted(table.items()):
            print(n, new)


main()
