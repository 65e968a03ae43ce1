#!/usr/bin/env python3
"""Brings the repository's own definitions and lemmas to snake case: holdsDigit and count-more become holds_digit and
count_more; types and modules keep their capital; a prime is an apostrophe.

usage: tools/respell.py [--look]     at the top of the repository, once, right after port.py

It renames what specs/ and proofs/ declare at their own level (functions of proofs/F/ keep the names that the checker
makes), in .antt files, in the clauses and ghost uses of .rt files, in must-fail edits, and in backticks of the papers.
--look writes nothing and prints names that fall together.
"""
import collections
import glob
import os
import re
import sys

LOOK = "--look" in sys.argv
WORD = r"[^\s(){}.;,@\"«»\[\]\\:⌜⌝`]+"
TOKEN = re.compile(r"(?P<comment>--(?=\s|$)[^\n]*|//[^\n]*)|(?P<string>\"(?:[^\"\\\n]|\\.)*\")|(?P<dot>\.)?(?P<word>" + WORD + ")")
DECLARED = re.compile(r"^(?P<pad> *)(?:(?:abbrev|unfoldable|pub|ruleset|data|record|module) +)*(?P<name>[^\s(){}:=.,;]+)(?: *[({][^\n]*)? +: ", re.M)
RULES = re.compile(r"^(?:pub )?ruleset (?P<name>\S+) ", re.M)
# A lemma that would get the name of a definition, or of another lemma that stands, ends in _lem.
INSTEAD = {}
# Lemmas that port.py had renamed already, each with the files that speak of it and of the definition of that name.
MEANT = [
    ("taken_back", "taken_back_lem", ["crates/journal/proofs/Moves.antt", "crates/demands/proofs/Steps.antt"]),
    ("digit_at", "digit_at_lem", ["crates/puzzle/proofs/Givens.antt", "crates/record/proofs/Givens.antt"]),
]
ALIAS = re.compile(r"^(?:pub |ghost )*use [^;\n]*", re.M)

def read(path):
    with open(path, encoding="utf-8") as f:
        return f.read()


def snake(name):
    if name in INSTEAD:
        return INSTEAD[name]
    name = name.replace("′", "'").replace("-", "_")
    if re.match(r"[A-Z]", name):
        return name
    name = re.sub(r"(?<=[a-z0-9])(?=[A-Z])", "_", name)
    return re.sub(r"_[A-Z](?=[a-z_]|$|\d)", lambda m: m[0].lower(), name)


def own_files():
    for f in sorted(glob.glob("crates/*/specs/**/*.antt", recursive=True)):
        yield f
    for f in sorted(glob.glob("crates/*/proofs/*.antt")):
        yield f


def declared():
    out = collections.defaultdict(set)
    for path in own_files():
        text = re.sub(r"--(?=\s)[^\n]*", "", read(path))
        for m in list(DECLARED.finditer(text)) + list(RULES.finditer(text)):
            name = m["name"]
            if name in ("use", "where", "let", "in", "|") or "◌" in name:
                continue
            out[name].add(path)
    return out


def apart(names):
    """Fills INSTEAD for names that would fall together."""
    groups = collections.defaultdict(list)
    for n in names:
        groups[snake(n)].append(n)
    for new, olds in groups.items():
        if len(olds) == 1:
            continue
        rank = lambda n: (not any("/specs/" in p for p in names[n]), n != new, "-" in n)
        for n in sorted(olds, key=rank)[1:]:
            if n != new:
                INSTEAD[n] = new + "_lem"


def aliases(files):
    out = set()
    for path in files:
        for line in ALIAS.findall(read(path)):
            out.update(re.findall(r"\bas ([a-z]\w*(?:[-A-Z][\w-]*)+)", line))
    return out


def main():
    names = declared()
    for old, new, paths in MEANT:
        for path in paths if not LOOK else []:
            text = re.sub(r"(?<![\w.'-])" + old + r"(?![\w'-])", new, read(path))
            with open(path, "w", encoding="utf-8") as f:
                f.write(text)
    apart(names)
    turn = {}
    for n in names:
        if re.search(r"[-′]|[a-z0-9][A-Z]", n) and re.match(r"[A-Za-zα-ω]", n):
            if re.match(r"[A-Z]", n) and not re.search("[-′]", n):
                continue
            new = snake(n)
            if new != n:
                turn[n] = new
    sources = glob.glob("crates/*/s*/**/*.*t*", recursive=True) + glob.glob("crates/*/proofs/*.antt")
    for n in aliases([p for p in sources if p.endswith((".rt", ".antt"))]):
        turn.setdefault(n, snake(n))
    files = sorted(glob.glob("crates/*/specs/**/*.antt", recursive=True) + glob.glob("crates/*/proofs/**/*.antt", recursive=True))
    rts = sorted(glob.glob("crates/*/src/**/*.rt", recursive=True))
    edits = sorted(glob.glob("crates/*/must-fail/*.edit"))
    # names that fall together: two old names of one file with one new name
    by_new = collections.defaultdict(set)
    for path in files + rts:
        text = read(path)
        words = {m["word"] for m in TOKEN.finditer(text) if m["word"]}
        seen = collections.defaultdict(set)
        for w in words:
            seen[turn.get(w, w)].add(w)
        for new, olds in seen.items():
            if len(olds) > 1:
                by_new[(new, tuple(sorted(olds)))].add(path)
    for (new, olds), where in sorted(by_new.items()):
        print("falls together:", new, olds, len(where), sorted(where)[:3])
    if LOOK:
        print(len(turn), "names")
        return

    def turned(text, comments):
        def one(m):
            if m["comment"]:
                if comments:
                    return re.sub(r"`([^`\n]+)`", lambda q: "`" + re.sub(WORD, lambda w: turn.get(w[0], w[0]), q[1]) + "`", m[0])
                return m[0]
            if m["string"]:
                return m[0]
            w = m["word"]
            return (m["dot"] or "") + turn.get(w, w) if w else m[0]
        return TOKEN.sub(one, text)

    def written(path, new):
        if new != read(path):
            with open(path, "w", encoding="utf-8") as f:
                f.write(new)

    generated = re.compile(r"(?<![\w.-])[cwl](?:\.[^\s(){};,\[\]]+)+")
    for path in files:
        text = read(path)
        if re.search(r"/proofs/[^/]+/", path):
            # what begins at c, w or l is a name that the checker makes
            held = []

            def hold(m):
                held.append(m[0])
                return f"\x00{len(held) - 1}\x00"

            text2 = generated.sub(hold, text)
            text2 = re.sub(r"\btie\.[^\s(){}]+|\bgoal\.[^\s(){}]+", hold, text2)
            text2 = turned(text2, True)
            text2 = re.sub("\x00(\\d+)\x00", lambda m: held[int(m[1])], text2)
            written(path, text2)
        else:
            written(path, turned(text, True))
    for path in rts:
        written(path, turned(read(path), True))
    for path in edits:
        text = read(path)
        written(path, "\n".join(turned(l, True) if re.match(r"(old|new):", l) else l for l in text.split("\n")))
    for path in glob.glob("*.md") + glob.glob("docs/*.md"):
        text = read(path)
        written(path, re.sub(r"`([^`\n]+)`", lambda q: "`" + re.sub(WORD, lambda w: turn.get(w[0], w[0]), q[1]) + "`", text))


main()
