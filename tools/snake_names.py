#!/usr/bin/env python3
"""Spells the repository's own antt names as today's Rattle does: words in snake case, facts and types in camel case.

usage: python3 tools/snake_names.py        at the top, once, over the tree that the kit's port.py has just turned

It renames what specs/ and proofs/ of our crates define (definitions, lemmas, fields, constructors) and the names that they bind, in every
.antt and .rt file, in the must-fail edits, and in backticks in README.md and docs/. A name that a file imports from the library keeps its
spelling there. It stops, with nothing written, where two names of one file would fall together; a contract's word may have the name of its function.
"""

import collections
import os
import re
import sys

TOKEN = re.compile(r"[^\s(){}\[\],;.`\"]+")
WORDS = r"(?:(?:abbrev|unfoldable|pub|private|data|record|module|ruleset|instance|unfolding) +)*"
DEFINED = re.compile(r"^\s*" + WORDS + r"((?:[^\s(){}\[\],;.:]+ +)*[^\s(){}\[\],;.:]+) +:(?!:)")
HEADED = re.compile(r"^\s*" + WORDS + r"(?:record|data|ruleset) +([^\s(){}\[\],;.:]+)")
CAMEL = {"isLine": "is_line", "isThrough": "is_through", "isBlank": "is_blank", "isClue": "is_clue", "isHole": "is_hole", "isPad": "is_pad", "isUndecided": "is_undecided", "sameEdge": "same_edge", "sameState": "same_state", "bareU": "bare_undecided"}
SPECIAL = CAMEL | {"A-not-through": "a_not_through", "B-not-through": "b_not_through", "getD-from-zero": "get_or_from_zero"}
KEEP = {"GRID-FILE"}
# What a test says when it holds: `isLine` is `is_line` now, and the lemma that was `is-line` is `is_line-true`. A name that was a fact's, as
# `is-hole`, is turned round, so that it does not hide the test.
BESIDE_TESTS = [
    ("", {"is-line": "is_line-true", "is-pad": "is_pad-true", "is-undecided": "is_undecided-true", "is-blank": "blank_is", "is-hole": "hole_is"}),
    ("crates/propagation/", {"same-edge": "same_edge-true", "same-state": "same_state-true"}),
    ("crates/boardbare/", {"is-clue": "is_clue_at"}),
    ("crates/alike/specs/AlikeJudge.antt", {"is-through": "through_is"}),
    ("", {"is-clue": "clue_is", "is-through": "is_through-true"}),
]


def turned(name, path=""):
    for under, table in BESIDE_TESTS:
        if path.startswith(under) and name in table:
            return table[name]
    if name in SPECIAL:
        return SPECIAL[name]
    if name[0].isupper():
        return "".join(p[:1].upper() + p[1:] for p in name.split("-"))
    return "_".join(p.lower() if re.fullmatch(r"[A-Z]'?", p) else p for p in name.split("-"))


def dashed(t):
    return t not in KEEP and (t in SPECIAL or (re.fullmatch(r"[A-Za-z][\w']*(?:-[\w']+)+", t) is not None))


def files(ends):
    for folder, dirs, names in os.walk("crates"):
        dirs[:] = sorted(d for d in dirs if d != "out")
        for n in sorted(names):
            if n.endswith(ends):
                yield os.path.join(folder, n)


def read(p):
    with open(p, encoding="utf-8") as f:
        return f.read()


def imported(text, crates):
    """The names that a file imports from modules that are not of our crates, by their last word; with the names of a made module too."""
    found = set()
    for m in re.finditer(r"^\s*(?:pub )?(?:ghost )?use ([^\s{;]+?)(?:\.\{([^}]*)\})?(?: as ([^\s;]+))?;?$", text, re.M):
        path = m.group(1).split(".")
        ours = path[0] == "Rattle" and len(path) > 1 and path[1] in crates
        made = ours and len(path) > 2 and path[2] == "proofs" and len(path) > 4
        if not ours or made:
            for n in (m.group(2) or "").replace("\n", " ").split(","):
                n = n.strip().split(" as ")[-1].strip()
                found.add(n)
    return found


def main():
    crates = set(os.listdir("crates"))
    texts = {p: read(p) for p in files((".antt", ".rt"))}
    functions = {f for p, text in texts.items() if p.endswith(".rt") for f in re.findall(r"\bfn (\w+)", text)} | {f for p, text in texts.items() if p.endswith(".rt") for f in re.findall(r"\bmod (\w+)", text)}
    own = set(SPECIAL)
    for p, text in texts.items():
        if p.endswith(".antt"):
            for line in text.split("\n"):
                m = DEFINED.match(line)
                if m:
                    own |= set(m.group(1).split())
                m = HEADED.match(line)
                if m:
                    own.add(m.group(1))
    own = {n for n in own if dashed(n)}
    names = collections.Counter()
    out, bad = {}, []
    for p, text in texts.items():
        keep = imported(text, crates) if p.endswith(".antt") else set()
        walked = p.endswith("/Proof.antt")
        present = set(TOKEN.findall(text))
        made = {}
        lines = []
        for line in text.split("\n"):
            comment = line.lstrip().startswith(("--", "//"))
            def turn(m):
                t = m.group(0)
                if not dashed(t) or t in keep:
                    return t
                before = line[: m.start()]
                if comment:
                    ticks = before.count("`") % 2 == 1
                    if not (ticks and t in own):
                        return t
                elif t not in own and (walked or p.endswith(".rt") or before.endswith(".") or t[0].isupper()):
                    return t
                new = turned(t, p)
                names[(t, new)] += 1
                if made.setdefault(new, t) != t:
                    bad.append(f"{p}: {t} and {made[new]} would both be {new}")
                if new in present and new not in functions:
                    bad.append(f"{p}: {t} would be {new}, which is there already")
                return new

            lines.append(TOKEN.sub(turn, line))
        out[p] = "\n".join(lines)
    for p in files((".edit",)):
        lines = []
        for line in read(p).split("\n"):
            head = re.match(r"(old|new): ?", line)
            if head and ("specs/" in read(p) or re.search(r"requires|ensures|ghost", line)):
                line = line[: head.end()] + TOKEN.sub(lambda m: turned(m.group(0), p) if dashed(m.group(0)) and m.group(0) in own else m.group(0), line[head.end() :])
            lines.append(line)
        out[p] = "\n".join(lines)
    pages = ["README.md"] + [os.path.join(d, n) for d in ("docs", "docs/orders") for n in sorted(os.listdir(d)) if n.endswith(".md")]
    for p in pages:
        text = read(p)
        out[p] = re.sub(r"`[^`\n]+`", lambda s: TOKEN.sub(lambda m: turned(m.group(0)) if dashed(m.group(0)) and m.group(0) in own else m.group(0), s.group(0)), text)
    if bad and "--anyway" not in sys.argv:
        print("\n".join(sorted(set(bad))))
        print(f"{len(set(bad))} names fall together; nothing is written")
        return 1
    fell = collections.defaultdict(set)
    for old, new in names:
        fell[new].add(old)
    for new, olds in sorted(fell.items()):
        if len(olds) > 1:
            print(f"note: {sorted(olds)} are all {new} now, in files of their own")
    for p, text in out.items():
        if text != read(p):
            with open(p, "w", encoding="utf-8") as f:
                f.write(text)
    print(f"{len(names)} names turned in {len(out)} files")
    return 0


if __name__ == "__main__":
    raise SystemExit(main())
