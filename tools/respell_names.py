#!/usr/bin/env python3
"""Spells this repository's own definitions, fields, constructors and lemmas as today's Rattle spells names: words in snake case.

usage: respell_names.py [--check] ROOT

It runs once, after the kit's port.py, which spells anew only the names that the kit's libraries have too.
A name that the files of specs/ and proofs/ declare, and that begins with a small letter, gets underscores for its dashes and humps.
Where two names would fall together in one place, the definition keeps the plain name and the lemma gets the ending _law (LAWS, by the names found so).
Names that Rattle makes, the labels of goals, stay, and so do functions of src/, strings, inputs and outputs.
Edits of must-fail/ follow; README.md and docs/ are turned by hand.
--check says which names fall together and writes nothing."""

import collections
import os
import re
import sys

NAME = r"[^\s(){}.;,@\"«»⟨⟩\[\]|`]+"
DECLARES = re.compile(r"(?m)^ *(?:(?:abbrev|unfoldable|pub|shut|mutual|private)\s+)*((?:" + NAME + r" +)*?" + NAME + r") *:(?= |$)")
TOKEN = re.compile(r"(?<![^\s(){}.;,@\"«»⟨⟩\[\]|`])" + NAME)
PROOFS = ("Proof.antt", "Answers.antt", "Invariants.antt")
NEED = re.compile(r"(?m)^ *(?:abbrev +)?(?:pub +)?(" + NAME + r") : (?:\(.*?\) → )?(?:tie|goal)\.")


def spelled(name):
    return re.sub(r"(?<=[a-z0-9′'])[A-Z]", lambda m: "_" + m[0].lower(), name).replace("-", "_")


def is_old(name):
    return re.match(r"[a-z]", name) and (re.search(r"[a-z0-9][A-Z]", name) or re.search(r"(?<=.)-(?=.)", name)) and "→" not in name


def files(root, *endings):
    for folder, dirs, names in os.walk(os.path.join(root, "crates")):
        dirs[:] = sorted(d for d in dirs if d != "out")
        for n in sorted(names):
            if n.endswith(endings):
                yield os.path.join(folder, n)


def read(path):
    with open(path, encoding="utf-8") as f:
        return f.read()


def bare(text):
    return re.sub(r"--[^\n]*", "", text)


def declared(root):
    """Each name to be spelled anew, with the files that declare it."""
    found = collections.defaultdict(set)
    for p in files(root, ".antt"):
        t = bare(read(p))
        made = set(NEED.findall(t)) if p.endswith(PROOFS) else set()
        for m in DECLARES.finditer(t):
            for n in m[1].split():
                if is_old(n) and n not in made and not (p.endswith(PROOFS) and n.endswith("-spec")):
                    found[n].add(p)
    return found


OWN = re.compile(r"Rattle\.(?!std\b|core\b|io\b|check\b|libc\b)\w+\.")


def made_names(path, text):
    """The names that a file has from the kit's libraries and, where it walks one function, those that Rattle makes: they stay."""
    lent = set()
    for m in re.finditer(r"(?m)^ *(?:ghost )?(?:pub )?use ([^\s{]+?)\.?\{([^}]*)\}", text):
        if not OWN.match(m[1] + "."):
            lent |= {w.strip().split(" as ")[0].strip() for w in m[2].split(",")}
    return lent | walk_names(path, text)


def walk_names(path, text):
    if not path.endswith(PROOFS):
        return set()
    return set(NEED.findall(text)) | set(re.findall(r"(?<![^\s(){};,])(?:tie|goal|c|l|w)\.(" + NAME + ")", text))


# Names of specs/ that would fall together with a definition beside them, by the crate that declares the name (None: everywhere).
BY_HAND = {
    (None, "rank-if"): "rank_if_set",
    (None, "chunk-of"): "chunk_id",
    ("sums", "any-in-range"): "any_in_range_law",
    ("scan", "any-in-range"): "any_in_range",
    (None, "any-in-range"): "range_test",
    (None, "rows-from"): "rows_full_to",
    (None, "pages-from"): "pages_full_to",
    ("merge_plan", "rowsFull"): "rows_are_full",
    ("merge_plan", "pagesFull"): "pages_are_full",
    ("insert_plan", "head-is"): "head_is_law",
}


def crate_of(path):
    return re.search(r"crates/(\w+)/", path)[1]


def table(root):
    """How each crate's files spell each name."""
    found = declared(root)
    new = {n: spelled(n) for n in found}
    heads = {p: set(re.findall(r"(?<![^\s(){};,])" + NAME, bare(read(p)))) for p in files(root, ".antt")}
    by_hand = lambda p, n: BY_HAND.get((crate_of(p), n)) or BY_HAND.get((None, n))
    clash = set()
    for p, ts in heads.items():
        seen = collections.defaultdict(set)
        for t in ts:
            seen[by_hand(p, t) or new.get(t, t)].add(t)
        for s, olds in seen.items():
            if len(olds) > 1:
                clash |= olds
    # the definition, which has a hump, keeps the plain name
    laws = {n for n in clash if n in new and "-" in n and not re.search(r"[a-z0-9][A-Z]", n) and (None, n) not in BY_HAND}
    out = {}
    for c in {crate_of(p) for p in heads}:
        out[c] = {n: BY_HAND.get((c, n)) or BY_HAND.get((None, n)) or (s + "_law" if n in laws else s) for n, s in new.items()}
    return found, new, out, laws, heads


def respell(text, out, stay=()):
    return TOKEN.sub(lambda m: m[0] if m[0] in stay else out.get(m[0], m[0]), text)


# Lemmas that port.py spelled anew before the definition that they are about was: they get the ending too.
AHEAD = ("put_word", "filled_at", "any_entry", "any_at", "after_first", "rank_split", "is_digit")
# Aliases of modules in ties that are called as a definition is from now on.
ALIASES = {"range_meets": "meeting", "slots_for_budget": "budgeting", "file_bounded_max_id": "bounding"}


def ahead(path, text, root):
    """The lemmas of AHEAD that the file declares or brings in from a file of laws, under their new name."""
    rel, names = os.path.relpath(path, root), set()
    for n in AHEAD:
        if re.search(r"(?m)^ *(?:pub )?" + n + r" :", text) or re.search(r"use Rattle\.\w+\.proofs\.[A-Z]\w*\.\{[^}]*(?<![\w-])" + n + r"(?![\w-])", text):
            names.add(n)
    text = re.sub(r"(?<![^\s(){};,])(" + "|".join(AHEAD) + r")(?![\w'-])", lambda m: m[1] + "_law" if m[1] in names else m[1], text)
    if rel.endswith("ties/proofs/Contracts.antt"):
        for a, b in ALIASES.items():
            text = re.sub(r"(?<![^\s(){};,])" + a + r"(?=-at\b|-met\b|\.|$)", b, text, flags=re.M)
    return text


STRING = re.compile(r'"(?:\\.|[^"\\\n])*"|//[^\n]*')


def respell_rt(text, out, stay):
    at, parts = 0, []
    for m in STRING.finditer(text):
        parts += [respell(text[at : m.start()], out, stay), m[0]]
        at = m.end()
    return "".join(parts) + respell(text[at:], out, stay)


def main(argv):
    check = "--check" in argv
    root = [a for a in argv if a != "--check"][0]
    for p in [] if check else files(root, ".antt"):
        t = read(p)
        u = ahead(p, t, root)
        if u != t:
            with open(p, "w", encoding="utf-8") as f:
                f.write(u)
    found, new, out, laws, heads = table(root)
    print(f"{len(new)} names, {len(laws)} with the ending _law: {' '.join(sorted(laws))}")
    # what still falls together
    for p in sorted(heads):
        made = made_names(p, bare(read(p)))
        seen = collections.defaultdict(set)
        for t in heads[p]:
            seen[t if t in made else out[crate_of(p)].get(t, t)].add(t)
        for s, olds in seen.items():
            if len(olds) > 1:
                print("together:", os.path.relpath(p, root), s, sorted(olds))
        for t in made & set(new):
            print("made:", os.path.relpath(p, root), t)
    if check:
        return
    n = 0
    for p in files(root, ".antt", ".rt", ".edit"):
        t = read(p)
        if p.endswith(".rt"):
            u = respell_rt(t, out[crate_of(p)], made_names(p, t))
        else:
            u = respell(t, out[crate_of(p)], made_names(p, bare(t)))
        if u != t:
            n += 1
            with open(p, "w", encoding="utf-8") as f:
                f.write(u)
    print(f"{n} files")


main(sys.argv[1:])
