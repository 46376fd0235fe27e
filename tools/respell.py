#!/usr/bin/env python3
"""Brings the repository's own definitions and lemmas to the spelling of today's Rattle: words in snake case, types, facts and
modules in camel case.

    tools/respell.py           rewrite crates/ and the names in backticks of README.md and docs/
    tools/respell.py --look    say what would be renamed, and which names fall together

port.py of the toolchain respells the words of the language's own library, and those of the repository that a library spelled alike.
This is the rest: each name that specs/ or proofs/ of a crate declares. It ran once, after port.py and before any edit by hand.
Functions of src/, exported names of C, strings, inputs and outputs keep their names.
"""
import collections
import os
import re
import sys

WORD = r"[^\s(){}\[\];,.:]+"
DECLARED = re.compile(r"^\s*(?:(?:abbrev|unfoldable|private|pub)\s+)*(?:(?:record|data)\s+)?((?:" + WORD + r"\s+)*?" + WORD + r")\s*(?:\([^()]*\)\s*)*:(?:\s|$)")
KEYWORDS = {"abbrev", "unfoldable", "private", "pub", "record", "data", "let", "where", "module", "use", "λ", "in", "elim", "rw", "ruleset", "infixl", "infixr"}
TOKEN = re.compile(r"(\.?)(" + WORD + r")")


def files():
    for folder, dirs, names in os.walk("crates"):
        dirs[:] = sorted(d for d in dirs if d != "out")
        for name in sorted(names):
            yield os.path.join(folder, name)


def read(path):
    with open(path, encoding="utf-8") as f:
        return f.read()


def code_of(line):
    """The line's code and its comment."""
    m = re.search(r"(^|\s)--(\s|-|$)", line)
    return (line[: m.start()], line[m.start() :]) if m else (line, "")


def declared(path, text):
    for line in text.split("\n"):
        code, _ = code_of(line)
        m = DECLARED.match(code)
        if not m:
            continue
        if path.endswith("/Proof.antt") and re.search(r":\s+tie\.", code):
            continue
        words = m.group(1).split()
        while words and words[0] in KEYWORDS:
            words.pop(0)
        if any(w in ("=", "↦", "→", "|", "with") for w in words):
            continue
        for w in words:
            yield w


def respelled(name):
    if not re.fullmatch(r"[A-Za-z0-9_'-]+", name):
        return name
    if name[0].isupper():
        return name
    parts = [re.sub(r"(?<=[a-z0-9])([A-Z])", lambda m: "_" + m.group(1).lower(), p) for p in name.split("-")]
    return "_".join(parts)


def imported(text):
    """The names that a file takes from elsewhere than the repository's own crates."""
    own = {d for d in os.listdir("crates")}
    names = set()
    for m in re.finditer(r"use\s+([^\s{}]+)\.\{([^}]*)\}", text):
        parts = m.group(1).split(".")
        if parts[0] == "Rattle" and len(parts) > 1 and parts[1] in own:
            continue
        names |= {w.strip() for w in m.group(2).split(",")}
    return names


def main():
    look = "--look" in sys.argv
    paths = [p for p in files() if p.endswith((".antt", ".rt", ".edit"))]
    texts = {p: read(p) for p in paths}
    own = collections.defaultdict(set)
    for p in paths:
        if p.endswith(".antt"):
            for n in declared(p, texts[p]):
                own[n].add(p)
    table = {n: respelled(n) for n in own if respelled(n) != n and not n.endswith("-spec")}
    # a lemma that would have a definition's name gets `_lem`
    olds = collections.defaultdict(set)
    for n in own:
        olds[table.get(n, n)].add(n)
    for new, group in olds.items():
        if len(group) > 1:
            keeps = sorted(group, key=lambda n: (not any("/specs/" in p for p in own[n]), "-" in n, n))[0]
            for n in group - {keeps}:
                table[n] = new + "_lem"
    if look:
        print(len(own), "names declared,", len(table), "to respell")
        back = collections.defaultdict(set)
        for n in own:
            back[table.get(n, n)].add(n)
        for new, olds in sorted(back.items()):
            if len(olds) > 1:
                print("fall together:", new, "of", sorted(olds), {o: sorted(own[o])[:2] for o in olds})
        for n, new in sorted(table.items()):
            for p in paths:
                if p.endswith(".antt") and new in imported(texts[p]) and re.search(r"(?<![\w'-])" + re.escape(n) + r"(?![\w'-])", texts[p]):
                    print("beside a library's:", n, new, p)

    said = collections.Counter()

    def snake(name):
        return "-" not in name and not re.search("[a-z][A-Z]", name)

    def cites(path, text, name):
        """Whether a file means the lemma by a name in snake case, which a function of src/ may have too."""
        if path in own[name]:
            return True
        homes = {os.path.basename(p)[: -len(".antt")] for p in own[name]}
        return any(m.group(1) in homes and name in re.split(r",\s*", m.group(2)) for m in re.finditer(r"use\s+[^\s{}]*\.([^\s{}.]+)\.\{([^}]*)\}", text))

    def turned_code(code, taken, inner):
        def one(m):
            dot, word = m.group(1), m.group(2)
            new = table.get(word)
            if new is None or word in taken:
                return m.group(0)
            if dot and snake(word):
                return m.group(0)
            if dot and inner and "-" in word:
                return m.group(0)
            return dot + new

        return TOKEN.sub(one, code)

    def turned_comment(text):
        def one(m):
            word = m.group(0)
            new = table.get(word)
            if new is None or snake(word):
                return word
            if "-" not in word:
                return new
            said["comment: " + word] += 1
            return new

        return re.sub(r"[A-Za-z0-9_'-]+", one, text)

    def turned_names(text):
        """Camel case alone, as it stands in the clauses and comments of a source file."""
        return re.sub(r"(?<![A-Za-z0-9_'-])[a-z][A-Za-z0-9_']*(?![A-Za-z0-9_'-])", lambda m: m.group(0) if snake(m.group(0)) else table.get(m.group(0), m.group(0)), text)

    for p in paths:
        text = texts[p]
        if p.endswith(".antt"):
            taken = imported(text) | {n for n in table if snake(n) and not cites(p, text, n)}
            inner = p.endswith("/Proof.antt")
            lines = []
            for line in text.split("\n"):
                code, comment = code_of(line)
                lines.append(turned_code(code, taken, inner) + turned_comment(comment))
            new = "\n".join(lines)
        elif p.endswith(".edit") and "specs/" in text.split("\n")[0] or p.endswith(".edit") and "proofs/" in text.split("\n")[0]:
            new = "\n".join(l if l.startswith("file:") else turned_code(l, set(), False) for l in text.split("\n"))
        else:
            new = turned_names(text)
        if new != text and not look:
            with open(p, "w", encoding="utf-8") as f:
                f.write(new)
    pages = ["README.md"] + [os.path.join("docs", f) for f in sorted(os.listdir("docs")) if f.endswith(".md")]
    for p in pages:
        text = read(p)
        new = re.sub(r"`[^`\n]+`", lambda m: re.sub(r"[A-Za-z0-9_'-]+", lambda w: w.group(0) if snake(w.group(0)) else table.get(w.group(0), w.group(0)), m.group(0)), text)
        if new != text and not look:
            with open(p, "w", encoding="utf-8") as f:
                f.write(new)
    if look:
        for k, v in sorted(said.items()):
            print(v, k)


if __name__ == "__main__":
    main()
