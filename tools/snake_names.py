#!/usr/bin/env python3
"""Brings this repository's definitions and lemmas to today's spelling: words in snake case. Run once, at the top, after port.py.

A name that specs/ or proofs/ declare and of which a part begins with a small letter and has a capital after a small letter or a digit (arenaWords, arenaWords-set)
gets its words apart (arena_words, arena_words-set). Types, modules and Rust's own names stay: they have no such part. It is turned wherever it stands: in .antt
and .rt files, in must-fail edits, in README.md and docs/. Names that would fall together with another are listed and end the script before it writes.
"""
import os
import re
import sys

PART = re.compile(r"^[a-z][A-Za-z0-9]*$")
TOKEN = re.compile(r"[^\s(){}\[\];.,:\"`⌜⌝⟨⟩⦃⦄|/]+")
DECLARED = re.compile(r"(?m)^[ \t]*(?:(?:pub|abbrev|unfoldable|irrelevant|private|const)\s+)*((?:[^\s:(){}=→λ]+\s+)+?)(?:\{[^}]*\}\s*)*: ")


def texts():
    for top in ("crates", "docs"):
        for folder, dirs, files in os.walk(top):
            dirs[:] = sorted(d for d in dirs if d not in ("out", ".git"))
            for f in sorted(files):
                if f.endswith((".rt", ".antt", ".edit")) or (top == "docs" and f.endswith(".md") and not f.startswith("PORT")):
                    yield os.path.join(folder, f)
    yield "README.md"


# port.py had turned these lemmas' hyphens, as those of library names; beside a definition of the same words they keep them.
APART = ["bin_at", "digits_from", "joined_by", "key_in", "last_line", "size_word", "take_out", "turn_at"]
APART_IN = {"heap_of": "heap_from_parts"}


def part(p):
    bare = p.rstrip("?'0123456789")
    if not PART.match(p.rstrip("?'")) or not re.search(r"[a-z0-9][A-Z]", p):
        return p
    return re.sub(r"(?<=[a-z0-9])([A-Z])", lambda m: "_" + m.group(1), p).lower() if bare else p


def snake(name):
    return "-".join(part(p) for p in name.split("-"))


def main():
    said = {p: open(p, encoding="utf-8").read() for p in texts()}
    before = dict(said)
    for w in APART + sorted(APART_IN):
        lemma = re.compile(r"(?<![\w.'-])" + w + r"(?![\w'.-])")
        own = {p for p, t in said.items() if p.endswith(".antt") and re.search(r"(?m)^\s*(pub )?" + w + r" : ", t)}
        homes = [p.replace("crates/", "Rattle.").replace("/", ".")[: -len(".antt")] for p in own]
        for p, t in said.items():
            if p in own or any(h + ".{" in t and p.endswith(".antt") for h in homes):
                said[p] = lemma.sub(APART_IN[w] if w in APART_IN and p.startswith("crates/history/") else w.replace("_", "-"), t)
    declared = set()
    for p, t in said.items():
        if p.endswith(".antt"):
            for m in DECLARED.finditer(t):
                declared.update(m.group(1).split())
    turned = {n: snake(n) for n in declared if snake(n) != n}
    there = declared
    clash = sorted((n, s) for n, s in turned.items() if s in there)
    both = sorted(s for s in set(turned.values()) if sum(1 for x in turned.values() if x == s) > 1)
    for n, s in clash:
        print(f"falls together: {n} -> {s}")
    for s in both:
        print(f"two names become {s}")
    if (clash or both) and "--all-the-same" not in sys.argv:
        return 1
    # a page may use a name that the first script turned already: its new form is declared
    now = declared | set(turned.values())
    for p, t in said.items():
        page = p.endswith(".md")
        new = TOKEN.sub(lambda m: turned.get(m.group(0)) or (snake(m.group(0)) if page and snake(m.group(0)) in now else m.group(0)), t)
        if new != before[p]:
            with open(p, "w", encoding="utf-8") as f:
                f.write(new)
    print(f"{len(turned)} names turned")
    return 0


if __name__ == "__main__":
    raise SystemExit(main())
