#!/usr/bin/env python3
"""Spells the repository's own definitions and lemmas as today's Rattle does: words in snake case, so `find-ext` is `find_ext` and `goodImage` is `good_image`.

usage: python3 tools/respell.py        at the top, once, right after port.py

It turns each name that the texts of specs/ and the lemma files of proofs/ declare, wherever it stands: in those texts, in proofs of functions, in the clauses and `ghost use`
items of src/, in the words of must-fail edits, and in code spans of comments and pages. Types, constructors and modules keep theirs, and so does all of Rust's. Two names that
would fall together in a file are told apart by APART. It stops, and writes nothing, where others would.
"""
import collections
import os
import re
import sys

TOKEN = re.compile(r"[^\s(){}.;,@\"«»\[\]`]+")
# Names of the library, and variables of one letter and a side.
STAYS = re.compile(r".*_(T|Lawful|Tells|Makes|Meets)$|^[a-z]\d?[A-Z]$|^x3C$|.*ℤ.*")
APART = {
    "at-least": "when_at_least",
    "by-dots": "by_dots_holds",
    "clock-at": "listed_clock_at",
    "clock-in": "clock_in_dots",
    "first-spent": "first_spent_is",
    "gap-said": "gap_said_is",
    "is-lt": "is_lt_so",
    "in-turn": "in_turn_of",
    "keepOne": "kept_one",
    "next-clock": "next_clock_is",
    "row-end": "row_end_is",
    "wait-end": "wait_end_is",
    "rowsEnd": "rows_end_at",
    "waitsEnd": "waits_end_at",
    "waitsStart": "waits_start_at",
    "waits-count": "waits_count_is",
    "well-formed": "is_well_formed",
}
# Fields of two records, each known by its record.
TOGETHER = {"add_clock", "rm_clock"}


def snake(name):
    if name in APART:
        return APART[name]
    if not name[:1].isupper():
        name = re.sub(r"(?<=[a-z0-9])[A-Z]", lambda m: "_" + m[0].lower(), name)
    return re.sub(r"(?<=[\w'?])-(?=\w)", "_", name)


def bare(text):
    return re.sub(r"(?m)(^|(?<=\s))--.*", "", text)


def files(*ends):
    for folder, inner, names in os.walk("crates"):
        inner[:] = sorted(d for d in inner if d != "out")
        for name in sorted(names):
            if name.endswith(ends):
                yield os.path.join(folder, name)


def lent():
    """What the texts name of libraries: it keeps its spelling."""
    own = {d for d in os.listdir("crates")}
    found = set()
    for path in files(".antt"):
        text = bare(open(path, encoding="utf-8").read())
        behind = set()
        for m in re.finditer(r"(?m)^\s*use ([^\s;{]+?)(?:\.\{([^}]*)\})?(?: as (\S+))?$", text):
            steps = m[1].split(".")
            if steps[0] == "Rattle" and len(steps) > 1 and steps[1] in own:
                continue
            for it in (m[2] or "").split(","):
                found.update(it.split(" as ")[0].split())
            if m[2] is None:
                behind.add(m[3] or steps[-1])
        for name in behind:
            found.update(re.findall(r"(?<![\w.])" + re.escape(name) + r"\.([^\s(){}.;,]+)", text))
    return found


def declared():
    """What specs/ and the lemma files of proofs/ declare or bind, of the names that are spelled anew."""
    found = set()
    library = lent()
    for path in files(".antt"):
        if os.path.basename(path) in ("Proof.antt", "Answers.antt", "Invariants.antt") and not path.endswith("/proofs/" + os.path.basename(path)):
            continue
        text = bare(open(path, encoding="utf-8").read())
        spec = "/specs/" in path
        binds = set()
        if not spec:
            for line in text.splitlines():
                m = re.match(r"\s*(?:pub |abbrev |unfoldable |let )*(\S+)(?:\s.*)?\s[:=]\s", line)
                if m:
                    binds.add(m[1])
                binds.update(re.findall(r"(?:[({;]|let )\s*([^\s(){};:]+) :", line))
                binds.update(re.findall(r"[{;]\s*([^\s(){};:=]+) =", line))
        for word in TOKEN.findall(text):
            if word in library or STAYS.match(word) or not re.search(r"\w", word) or snake(word) == word:
                continue
            if spec or word in binds:
                found.add(word)
    return found


def turned(text, names):
    return TOKEN.sub(lambda m: names.get(m[0], m[0]), text)


def spans(text, names):
    return re.sub(r"`[^`\n]+`", lambda m: turned(m[0], names), text)


def by_lines(text, names, comment):
    out = []
    for line in text.split("\n"):
        m = re.search(comment, line)
        code, said = (line[: m.start()], line[m.start():]) if m else (line, "")
        out.append(turned(code, names) + spans(said, names))
    return "\n".join(out)


def of_edit(text, names):
    return "".join(turned(line, names) if line.startswith(("old:", "new:")) else spans(line, names) for line in text.splitlines(keepends=True))


def of_rust(text, names):
    """Clauses and ghost items: no word of Rust's own code is spelled with a dash or as `goodImage`."""
    return by_lines(text, names, r"//")


def main():
    names = {w: snake(w) for w in declared()}
    texts = {p: open(p, encoding="utf-8").read() for p in files(".antt", ".rt", ".edit")}
    met = collections.defaultdict(set)
    for path, text in texts.items():
        if not path.endswith(".antt") or os.path.basename(path) == "Proof.antt":
            continue
        here = collections.defaultdict(set)
        for word in set(TOKEN.findall(bare(text))):
            here[names.get(word, word)].add(word)
        for new, olds in here.items():
            if len(olds) > 1 and new not in TOGETHER:
                met[tuple(sorted(olds))].add(path)
    for olds, paths in sorted(met.items()):
        print("falls together:", *olds, "in", *sorted(paths))
    if met:
        return 1
    for path, text in texts.items():
        new = of_rust(text, names) if path.endswith(".rt") else of_edit(text, names) if path.endswith(".edit") else by_lines(text, names, r"(?:^|(?<=\s))--")
        if new != text:
            open(path, "w", encoding="utf-8").write(new)
    for folder in (".", "docs"):
        for name in sorted(os.listdir(folder)):
            if name.endswith(".md"):
                path = os.path.join(folder, name)
                text = open(path, encoding="utf-8").read()
                new = spans(text, names)
                if new != text:
                    open(path, "w", encoding="utf-8").write(new)
    print(len(names), "names")
    return 0


if __name__ == "__main__":
    sys.exit(main())
