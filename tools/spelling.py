#!/usr/bin/env python3
"""Turns this repository's own words of specs/ and proofs/ to today's spelling: words in snake case.

usage: python3 tools/spelling.py [--list]     at the top of the repository, once, after port.py

A capital inside a word that begins small becomes `_` and a small letter. A dash stays where it joins two words that are
functions, as in `length-take`; elsewhere it becomes `_`. Names that the prover makes for a function's goals are left alone.
Two names that would fall together: the one of the lemma gets `_lem`.
"""

import glob
import os
import re
import sys

# the library's functions that names of lemmas begin with or join
LIBRARY = set("length take drop map get_or set count mul add sub div mod max min append flat zip sum nil cons".split())
# names of `src/` are never respelled, and neither is what the library declares with a capital inside
KEEP = set("lacks_Less shr_slice_Tells walk_Meets scaled_Fits shr_slice_Lawful uint_Tells uint_Makes".split())
# a definition whose new name some proofs give a step of their own: no file has both
APART = {"oneMore"}
TOKEN = r"[^\s(){}\[\],;.@\"`:|\\]+"


def files():
    found = sorted(glob.glob("crates/*/specs/**/*.antt", recursive=True) + glob.glob("crates/*/proofs/**/*.antt", recursive=True))
    return [p for p in found if "/out/" not in p]


def in_function(path):
    """Whether a file stands in the folder of a function's proof."""
    return "/proofs/" in path and path.split("/proofs/")[1].count("/") > 0


def without_comment(line):
    return re.sub(r"(^|\s)--(\s.*|$)", r"\1", line)


def declared():
    """The names that the files declare: those of definitions, those of lemmas, and those of answers to goals."""
    definitions, lemmas, answers, local, shared = set(), set(), set(), set(), set()
    head = re.compile(r"^\s*((?:(?:pub|abbrev|unfoldable|unfold)\s+)*)(" + TOKEN + r")\s+:\s+(.*)$")
    for p in files():
        for line in open(p, encoding="utf-8"):
            m = head.match(without_comment(line))
            if not m:
                continue
            mods, name, type_ = m.groups()
            (local if in_function(p) and "pub" not in mods else shared).add(name)
            if in_function(p) and (re.match(r"tie\b|[\w-]+\.Need-", type_) or "/proofs/+" in p or name.endswith("-spec") or re.match(r"(invariant|decreases)-", name)):
                answers.add(name)
            elif "abbrev" in mods or "unfold" in mods:
                definitions.add(name)
            else:
                lemmas.add(name)
    # a name that only the proof of one function has falls together with nothing
    return definitions, lemmas, answers, local - shared


def small(name):
    name = re.sub(r"(?<=[a-z0-9])([A-Z])(?=[A-Z][a-z])", lambda m: "_" + m.group(0).lower() + "_", name)
    name = re.sub(r"(?<=_)([A-Z])", lambda m: m.group(0).lower(), name)
    return re.sub(r"(?<=[a-z0-9])([A-Z])(?![A-Z]|$)|(?<=[a-z0-9])([A-Z])$", lambda m: "_" + m.group(0).lower(), name)


def joined(parts, functions):
    """The parts of a name, put together: a dash between two functions, and `_` elsewhere."""
    words, i = [], 0
    while i < len(parts):
        for j in range(len(parts), i, -1):
            word = "_".join(parts[i:j])
            if word in functions:
                words.append((word, True))
                i = j
                break
        else:
            words.append((parts[i], False))
            i += 1
    out = words[0][0]
    for (_, f), (w, g) in zip(words, words[1:]):
        out += ("-" if f and g else "_") + w
    return out


def mapping():
    definitions, lemmas, answers, local = declared()
    tokens = set()
    for p in files():
        for line in open(p, encoding="utf-8"):
            tokens |= set(re.findall(TOKEN, without_comment(line)))
    functions = LIBRARY | {small(d) for d in definitions if "-" not in d and "_" in small(d)}
    names = {}
    for t in sorted(tokens):
        capital = re.match(r"^[a-z][\w'₀-₉]*$", t) and re.search(r"[A-Z]", t)
        dashed = "-" in t and t in definitions | lemmas and t not in answers and re.match(r"^[\w'₀-₉ℕ-]+$", t)
        if t in KEEP or not (capital or dashed):
            continue
        parts = [q for q in small(re.sub(r"\bgetD\b", "get_or", t)).split("-")]
        if t in definitions or not t[0].islower():
            new = "_".join(parts)
        else:
            new = joined(parts, functions)
        if new != t:
            names[t] = new
    groups = {}
    for t in sorted(definitions | lemmas | set(names)):
        if t not in answers and t not in local and t not in APART:
            groups.setdefault(names.get(t, t), []).append(t)
    for new, olds in sorted(groups.items()):
        # a definition comes first, then a name that stands as it is
        olds.sort(key=lambda t: (t not in definitions, t in names, t))
        for n, t in enumerate(olds[1:]):
            print("falls together:", new, olds[0], t)
            names[t] = new + "_lem" + (str(n + 1) if n else "")
    return names


def turn_line(line, names, dotted):
    def one(m):
        before = line[: m.start()]
        t = m.group(0)
        if before.endswith(".") and t in names and "-" in t and not dotted(before, t):
            return t
        return names.get(t, t)

    return re.sub(TOKEN, one, line)


def main():
    names = mapping()
    if "--list" in sys.argv:
        for a, b in sorted(names.items()):
            print(a, b)
        return
    fields = set()
    for p in files():
        inside = False
        for line in open(p, encoding="utf-8"):
            if re.match(r"^(abbrev |pub |unfoldable )*(record|data) ", line):
                inside = True
            elif line.strip() and not line.startswith(" "):
                inside = False
            m = re.match(r"^  (?:pub )?(" + TOKEN + r") :", line)
            if inside and m:
                fields.add(m.group(1))
    seen = {}
    for p in files() + sorted(glob.glob("crates/*/src/**/*.rt", recursive=True)):
        text = open(p, encoding="utf-8").read()
        aliases = set(re.findall(r"\bas (" + TOKEN + r")", text))

        def dotted(before, t):
            last = re.search(r"(" + TOKEN + r")\.$", before)
            ok = t in fields or (last and (last.group(1) in aliases - {"tie"} or last.group(1)[0].isupper() and not last.group(1).startswith("Need")))
            seen.setdefault((t, bool(ok)), []).append(p + ": " + before[-30:] + t)
            return ok

        if p.endswith(".rt"):
            new = "\n".join(turn_line(l, names, dotted) if "//" not in l else turn_line(l.split("//")[0], names, dotted) + "//" + l.split("//", 1)[1] for l in text.split("\n"))
        else:
            new = "\n".join(turn_line(l, names, dotted) for l in text.split("\n"))
        if new != text:
            open(p, "w", encoding="utf-8").write(new)
    for (t, ok), places in sorted(seen.items()):
        print("turned" if ok else "left", t, len(places), places[0])


if __name__ == "__main__":
    main()
