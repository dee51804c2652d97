#!/usr/bin/env python3
"""Turns a crate's proofs that name each goal by hand (proofs/F/Proof.antt, closed by `tie.spec`) to Invariants.antt and Answers.antt.

usage: python3 tools/answers.py NAMES CRATE..     at the top; NAMES/CRATE/names.json is what the crate's
                                                   `rt check --generated NAMES/CRATE --old-names` wrote

An answer that only says `search rules` is left out: the check tries that and more. What it can't place is printed, and its Proof.antt stays.
"""

import json
import os
import re
import sys

IDENT = r"[^\s(){}\[\],;.`\"]+"
HEAD = re.compile(r"((?:abbrev |unfoldable |pub )*)(" + IDENT + r") : (.*)$", re.S)
MADE = re.compile(r"\.proofs\.\S*\.(Statement|Tie|Reads|Kinds)(\.|$| )|\.Lts(-|\.|$| )|^borrow\.Fn\.|\.\+[^.]*$|borrow\.Author\.Rules")


def norm(s):
    return s.replace("_", "-")


def blocks(text):
    """The items of a file: head comment, uses, and the rest, each with its comment."""
    out, cur = [], []
    for line in text.split("\n") + [""]:
        if not line.strip():
            if cur and not cur[-1].strip():
                continue
            if cur:
                cur.append(line)
            continue
        starts = line[0] not in " \t)" and (not cur or not cur[-1].strip())
        if starts and cur and any(l and not l.startswith("--") for l in cur):
            out.append("\n".join(cur).rstrip("\n"))
            cur = []
        cur.append(line)
    if any(l.strip() for l in cur):
        out.append("\n".join(cur).rstrip("\n"))
    return out


def uses(text):
    """(path, names or None, alias) of each `use`, and the text without them."""
    found = []

    def one(m):
        found.append((m.group(1), [n.strip() for n in m.group(2).replace("\n", " ").split(",") if n.strip()] if m.group(2) is not None else None, m.group(3)))
        return ""

    rest = re.sub(r"^use ([^\s{]+?)(?:\.\{([^}]*)\})?(?: as (\S+))?\n", one, text, flags=re.M)
    return found, rest


def tokens(s):
    return set(re.findall(IDENT, "\n".join(l for l in s.split("\n") if not l.lstrip().startswith("--"))))


def word_sub(body, table):
    """Puts new names for old ones where they stand alone or at the head of a path."""
    return re.sub(r"(?<![\w.'₀-])([^\W\d]['\w₀-]*)(?!['\w₀-])(?! = )", lambda m: table.get(m.group(1), m.group(1)), body)


class Function:
    def __init__(self, data):
        self.needs = {}
        self.stem = data["stem"]
        for (old, new), at in zip(data["needs"], data["asked_at"]):
            self.needs[norm(old)] = (self.stem + new, at[0])
        self.places = {p[0]: p for p in data["places"]}
        self.arms = {p[0]: a for p, a in zip(data["places"], data["arms"]) if a}
        self.loops = {norm(l[0][0]): (l, c) for l, c in zip(data["loops"], data["changed"])}

    def steps(self, place):
        table = {}
        while place:
            p = self.places.get(place)
            if not p:
                break
            for field, step, prefix in (self.arms.get(place) or [None, 0, []])[2]:
                table.setdefault((norm(step), tuple(prefix)), (self.arms[place][0], field))
            if p[2] and p[2][0]:
                table.setdefault(norm(p[2][0]), p[2][1])
                if p[4]:
                    table.setdefault(("raw", p[2][1]), [q[0] for q in p[4]])
            place = p[1]
        return table


def paths(body, var, table, lost):
    """Turns the paths from `var`, and from names that a `let` gives to it."""
    names = {var}
    for _ in range(9):
        for m in re.finditer(r"let (" + IDENT + r") = (" + "|".join(map(re.escape, names)) + r")((?:\.before)*) in", body):
            names.add(m.group(1))
    pat = re.compile(r"(?<![\w.'-])(" + "|".join(sorted(map(re.escape, names), key=len, reverse=True)) + r")((?:\.[\w'-]+)*)(?![\w'-])")

    def one(m):
        parts = [p.replace("type-inv", "type_inv") for p in m.group(2).split(".")[1:] if p != "before"]
        if parts:
            new = table.get(norm(parts[0]))
            arm = [(k, v) for k, v in table.items() if isinstance(k, tuple) and k[0] == norm(parts[0]) and tuple(parts[1 : 1 + len(k[1])]) == k[1]]
            if arm:
                k, v = max(arm, key=lambda kv: len(kv[0][1]))
                parts = list(v) + parts[1 + len(k[1]) :]
            elif new:
                parts[0] = new
            elif parts[0] not in ("args", "requires", "ranges", "lifetimes", "type_inv", "utf8"):
                lost.append(m.group(0))
        whole = ".".join([m.group(1)] + parts)
        # of `!t` a step says what `t` is now, and not what `!t` is
        if len(parts) > 1 and parts[1] in table.get(("raw", parts[0]), []) and re.search(r"(^|-)not-", parts[0]):
            head = ".".join([m.group(1)] + parts[:2])
            return f"(ap not {head})" + whole[len(head) :]
        return whole

    return pat.sub(one, body)


def signature(item):
    """(comment, words, name, type, rest) of a declaration."""
    lines = item.split("\n")
    i = 0
    while i < len(lines) and lines[i].startswith("--"):
        i += 1
    comment, lines = lines[:i], lines[i:]
    m = HEAD.match(lines[0]) if lines else None
    if not m:
        return None
    words, name = m.group(1), m.group(2)
    j = 1
    while j < len(lines) and not lines[j].startswith("unfolding ") and not re.match(re.escape(name) + r"(\s|$)", lines[j]):
        j += 1
    typ = " ".join([m.group(3)] + [l.strip() for l in lines[1:j]])
    return comment, words, name, typ, lines[j:]


def clause_params(name, rest):
    for l in rest:
        m = re.match(re.escape(name) + r"((?: [^=]*)?) =", l)
        if m:
            return m.group(1).split()
    return []


def turn(crate, folder, names, said):
    where = os.path.join("crates", crate, "proofs", folder, "Proof.antt")
    text = open(where, encoding="utf-8").read()
    head = []
    for l in text.split("\n"):
        if not l.startswith("--"):
            break
        head.append(l)
    imports, rest = uses(text)
    rest = rest[len("\n".join(head)) :] if head else rest
    path = folder.replace("/", ".")
    members = {}
    for key, data in names.items():
        m = re.fullmatch(r"Rattle-" + crate + r"-proofs\." + re.escape(path) + r"\.Lts(?:-(.*))?", key)
        if m:
            members[norm(m.group(1) or "")] = Function(data)
    if not members:
        said.append(f"{where}: no names for it")
        return
    invs, answers, helpers, lost = [], [], [], []
    inv_uses = []
    for item in blocks(rest):
        sig = signature(item)
        if not sig and re.match(r"(--[^\n]*\n)*pub \+" + IDENT + r"(\s|$)", item):
            continue  # the closing of a cycle
        if not sig:
            said.append(f"{where}: not read: {item[:80]!r}")
            return
        comment, words, name, typ, body = sig
        if re.search(r"(^|\.| )statement M$", typ):
            continue
        if re.match(r"ℕ → (" + IDENT + r"\.Claims|In \d)", typ):
            continue
        m = re.match(r"Measures \d+ (" + IDENT + r")-kinds\.ps", typ)
        if m:
            params = clause_params(name, body)
            fn = m.group(1)
            data = names.get(next((k for k in names if re.fullmatch(r"Rattle-" + crate + r"-proofs\." + re.escape(path) + r"\.Lts-" + fn.replace("-", "[-_]"), k)), ""), None)
            args = said_args(crate, fn)
            b = "\n".join(body)
            b = b[b.index("=") + 1 :].strip()

            def arg(mm):
                k = mm.group(1).count(".1") if mm.group(1) else 0
                return "l." + args[k] + (mm.group(2) or "")

            b = re.sub(r"(?<![\w.])" + re.escape(params[-1]) + r"((?:\.1)*)\.0((?:\.now)?)", arg, b)
            new = f"decreases-{fn.replace('-', '_')}"
            invs.append(("\n".join(comment), new, f"{new} l = {b}"))
            continue
        m = re.match(r"(?:tie|(" + IDENT + r")-lts)\.(invariant|decreases)[-_](\S+)", typ)
        if m:
            f = members.get(norm(m.group(1) or ""))
            loop = f.loops.get(norm(m.group(3))) if f else None
            if not loop:
                said.append(f"{where}: no loop {m.group(3)} (loops: {list(f.loops) if f else None})")
                return
            ((old, new), live), changed = loop
            params = clause_params(name, body)
            want = len(live) + sum(changed)
            table, k = {}, len(live)
            if len(params) != want:  # other locals live now: by their names
                for q in params:
                    v = q.rstrip("₀").replace("-", "_")
                    if v in live:
                        table[q] = ("l.initial." if q.endswith("₀") and changed[live.index(v)] else "l.") + v
                used = tokens("\n".join(body)[len(name) + sum(len(q) + 1 for q in params) :])
                if any(q in used and q not in table for q in params):
                    said.append(f"{where}: {name} takes {params}, but live are {live}")
                    return
            for j, v in enumerate(live if len(params) == want else []):
                if changed[j]:
                    table[params[j]] = "l.initial." + v
                    table[params[k]] = "l." + v
                    k += 1
                else:
                    table[params[j]] = "l." + v
            b = "\n".join(body)
            at = b.index(" =", b.index(name)) + 2
            made = f"{m.group(2)}-{f.stem}{new}"
            pre = b[: b.index(name)]
            invs.append(("\n".join(comment), made, pre + made + " l =" + word_sub(b[at:], table)))
            continue
        m = re.search(r"(?:^|→ )(?:tie|(" + IDENT + r")-lts)\.Need-(" + IDENT + r")", typ)
        if m:
            f = members.get(norm(m.group(1) or ""))
            old = norm(m.group(2))
            got = None
            for o in (old, re.sub(r"^(overflow|nonzero|index)-", "", old), re.sub(r"^slice-bounds-", "part-", old), norm(name), norm(name).removeprefix(norm(f.stem) if f else "")):
                got = got or (f and f.needs.get(o))
            b = "\n".join(body)
            if not got and re.search(r"= search rules\s*$", b):
                continue
            if not got:
                said.append(f"{where}: goal {m.group(2)} is gone: {b[:200]!r}")
                continue
            params = clause_params(name, body)
            cyc = typ.startswith("(t : ")
            keep = params[:2] if cyc else params[:1]
            var = keep[-1] if keep else "c"
            gone = params[len(keep) :]
            b = re.sub(r"(?m)^" + re.escape(name) + r"(?: [^=\n]*)? =", lambda _: " ".join([got[0]] + keep) + " =", b)
            mylost = []
            b = paths(b, var, f.steps(got[1]), mylost)
            if cyc:  # the measure has a field of its own now
                b = re.sub(r"(?<![\w'-])requires\.0(?![\w'-])", "decreases", b)
                b = re.sub(r"(?<![\w'-])requires\.1(?![\w'-])", "requires", b)
            if any(re.search(r"(?<![\w.'-])" + re.escape(g) + r"(?![\w'-])", b[b.index(" =") :]) for g in gone):
                mylost.append("uses " + " ".join(gone))
            lost += [f"{got[0]}: {x}" for x in mylost]
            if re.fullmatch(re.escape(" ".join([got[0]] + keep)) + r" =\s*search rules", b.strip()):
                continue
            answers.append(("\n".join(comment), (m.group(1) or "", got[0]), b, name))
            continue
        helpers.append((name, item))
    write(crate, folder, head, imports, invs, answers, helpers)
    for x in lost:
        said.append(f"{where}: step {x}")
    os.remove(where)


def said_args(crate, fn):
    for p in [os.path.join(d, n) for d, _, ns in os.walk(os.path.join("crates", crate, "src")) for n in ns]:
        t = open(p, encoding="utf-8").read()
        m = re.search(r"\bfn " + fn.replace("-", "_") + r"(?:<[^>]*>)?\(([^)]*)\)", t)
        if m:
            return [a.split(":")[0].replace("mut ", "").strip() for a in m.group(1).split(",") if ":" in a]
    return []


def import_lines(imports, text):
    used, lines = tokens(text), []
    heads = used | {t for t in used}
    for path, ns, alias in imports:
        if MADE.search(path + (" " if ns is None else ".")) and not path.startswith("borrow.Author.Rules"):
            continue
        if ns is None:
            name = alias or path.split(".")[-1]
            if name in heads:
                lines.append(f"use {path}" + (f" as {alias}" if alias else ""))
            continue
        kept = [n for n in ns if n.split(" as ")[-1].strip() in used or (any(ch == "◌" for ch in n) and all(w in used or w == "" for w in n.split("◌")))]
        if kept:
            lines.append(f"use {path}.{{{', '.join(kept)}}}")
    return lines


def write(crate, folder, head, imports, invs, answers, helpers):
    base = os.path.join("crates", crate, "proofs", folder)
    path = f"Rattle.{crate}.proofs." + folder.replace("/", ".")
    inv_text = "\n".join(b for _, _, b in invs)
    need = tokens(inv_text)
    low = []
    grew = True
    while grew:
        grew = False
        for n, item in helpers:
            if n in need and (n, item) not in low:
                low.append((n, item))
                need |= tokens(item)
                grew = True
    low = [h for h in helpers if h in low]
    high = [h for h in helpers if h not in low]
    if invs:
        body = []
        for n, item in low:
            body.append(re.sub(r"(?m)^((?:abbrev |unfoldable )*)(?=" + re.escape(n) + r" : )", r"\1pub ", item, count=1))
        for comment, made, b in invs:
            body.append((comment + "\n" if comment else "") + f"abbrev pub {made} : goal.{made}\n{b}")
        text = "\n\n".join(body)
        lines = import_lines(imports, text) + [f"use {path}.Given as goal"]
        with open(os.path.join(base, "Invariants.antt"), "w", encoding="utf-8") as f:
            f.write("\n".join(head) + "\n" + "\n".join(lines) + "\n\n" + text + "\n")
    if any("(ap not " in b for _, _, b, _ in answers):
        if not any(ns and "ap" in ns for _, ns, _ in imports):
            imports = imports + [("mathlib.Core.Path", ["ap"], None)]
        if not any(ns and "not" in ns for _, ns, _ in imports):
            imports = imports + [("mathlib.Core.Bool", ["not"], None)]
    if answers:
        ans_text = "\n".join(b for _, _, b, _ in answers)
        need = tokens(ans_text)
        grew, kept = True, []
        while grew:
            grew = False
            for h in high + low:
                if h[0] in need and h not in kept:
                    kept.append(h)
                    need |= tokens(h[1])
                    grew = True
        body = [h[1] for h in high if h in kept]
        for comment, (fn, made), b, _ in answers:
            body.append((comment + "\n" if comment else "") + f"pub {made} : goal.{made}\n{b}")
        text = "\n\n".join(body)
        lines = import_lines(imports, text)
        cited = [n for n, _ in low if n in need]
        if cited:
            lines.append(f"use {path}.Invariants.{{{', '.join(cited)}}}")
        lines.append(f"use {path}.Goals as goal")
        with open(os.path.join(base, "Answers.antt"), "w", encoding="utf-8") as f:
            f.write("\n".join(head) + "\n" + "\n".join(lines) + "\n\n" + text + "\n")


def main(argv):
    names_at, crates = argv[0], argv[1:]
    said = []
    for crate in crates:
        with open(os.path.join(names_at, crate, "names.json"), encoding="utf-8") as f:
            names = json.load(f)
        top = os.path.join("crates", crate, "proofs")
        for d, _, ns in sorted(os.walk(top)):
            if "Proof.antt" in ns:
                turn(crate, os.path.relpath(d, top), names, said)
    print("\n".join(said))
    return 0


if __name__ == "__main__":
    raise SystemExit(main(sys.argv[1:]))
