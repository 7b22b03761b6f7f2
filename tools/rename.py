#!/usr/bin/env python3
"""Brings the repository's own definitions and lemmas to snake case, and facts to upper camel case.

usage: python3 tools/rename.py [--dry]      at the top of the repository, once

Names of the sources, goal names of proofs, strings, inputs and outputs stay as they are. A prime becomes an apostrophe.
"""
import collections
import glob
import re
import sys

TOKEN = re.compile(r"[A-Za-z_][A-Za-z0-9_'′]*(?:[-→≡][A-Za-z0-9_'′]+)*")
STAY = {"is_prop→PathP"}
# a lemma that would get its function's name ends in _lem; a binder that would get a field's name gets another
MORE = {
    "is15": "is_15",
    "writes15": "writes_15",
    "block-bytes": "block_bytes_lem",
    "block-count": "block_count_lem",
    "handed-on": "handed_on_lem",
    "put-in": "put_in_lem",
    "data-words": "beside_words",
}
HERE = {
    "crates/refinement/proofs/Counting.antt": {"but_last": "but_last_lem"},
    "crates/image/proofs/Exact.antt": {"size_fits": "size_fits_lem"},
}
LEMMAS = [f for k in ("specs", "proofs") for f in sorted(glob.glob(f"crates/*/{k}/**/*.antt", recursive=True))]
SOURCES = sorted(glob.glob("crates/*/src/**/*.rt", recursive=True))
PAGES = ["README.md"] + sorted(glob.glob("docs/*.md"))


def goal_file(path):
    return re.search(r"/(Answers|Invariants|Proof)\.antt$", path) is not None


def odd(name):
    return bool(re.search(r"[a-z0-9][A-Z]|-|′", name)) or name in MORE


def defined(path):
    """The odd names that a file gives a meaning: definitions, fields, binders."""
    found = set()
    for line in open(path, encoding="utf-8"):
        if line.lstrip().startswith(("--", "use ", "pub use ")):
            continue
        for m in re.finditer(r"(?:^\s*|[({]|let |∧ )((?:(?:pub|abbrev|unfoldable|opaque|record|data|\.)\s+)*)((?:%s\s+)+):\s" % TOKEN.pattern, line):
            found |= {n for n in m.group(2).split() if odd(n)}
        for m in re.finditer(r"(?:record|data) (%s)" % TOKEN.pattern, line):
            found |= {n for n in [m.group(1)] if odd(n)}
        for m in re.finditer(r"λ ((?:%s[ ,]*)+)\." % TOKEN.pattern, line):
            found |= {n for n in re.split(r"[ ,]+", m.group(1)) if n and odd(n)}
    return found


def snake(name):
    if name in MORE:
        return MORE[name]
    name = name.replace("′", "'")
    if name[0].isupper():
        if "-" not in name:
            return name
        return "".join(p[0].upper() + p[1:] for p in name.split("-"))
    name = re.sub(r"(?<=.)([A-Z])", lambda m: "_" + m.group(1).lower(), name)
    name = re.sub(r"([a-z])(15)\b", r"\1_\2", name)
    return name.replace("-", "_").replace("→", "_to_")


def main():
    dry = "--dry" in sys.argv
    names = set(MORE)
    for path in LEMMAS:
        got = defined(path)
        if goal_file(path):
            # a goal's own name is Rattle's; a lemma that stands beside the answers is ours
            text = open(path, encoding="utf-8").read()
            got = {n for n in got if f"goal.{n}" not in text}
        names |= got
    for path in SOURCES:
        names |= {m.group(1) for m in re.finditer(r"ghost (\w+):", open(path, encoding="utf-8").read()) if odd(m.group(1))}
    table = {n: snake(n) for n in names if n not in STAY and snake(n) != n}
    back = collections.defaultdict(set)
    for a, b in table.items():
        back[b].add(a)
    for b, olds in sorted(back.items()):
        if len(olds) > 1:
            print(f"fall together: {sorted(olds)} -> {b}")
    for path in LEMMAS + SOURCES + PAGES:
        text = open(path, encoding="utf-8").read()
        new = []
        seen = set(TOKEN.findall(text))
        for line in text.split("\n"):
            source = path.endswith(".rt")
            page = path.endswith(".md")

            def turn(m):
                word = m.group(0)
                if word in HERE.get(path, {}):
                    return HERE[path][word]
                if word not in table:
                    return word
                if source and "-" in word and not re.search(r"ghost|ensures|requires", line):
                    return word
                to = table[word]
                if dry and to in seen:
                    clashes[(word, to)].add(path)
                return to

            stdimport = re.match(r"\s*(?:pub |ghost )*use Rattle\.(std|core|std_alloc|io)\.", line)
            if stdimport:
                new.append(line)
            elif page:
                new.append(re.sub(r"`[^`]+`", lambda m: TOKEN.sub(turn, m.group(0)), line))
            elif line.lstrip().startswith("--") or (source and line.lstrip().startswith("//")):
                new.append(line)
            else:
                new.append(TOKEN.sub(turn, line))
        done = "\n".join(new)
        if done != text and not dry:
            open(path, "w", encoding="utf-8").write(done)
    if dry:
        for a, b in sorted(table.items()):
            print(a, "->", b)
        for (a, b), paths in sorted(clashes.items()):
            print("clash:", a, "->", b, "in", " ".join(sorted(paths)))


clashes = collections.defaultdict(set)
main()
