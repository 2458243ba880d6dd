#!/usr/bin/env python3
"""Brings the repository's own definitions and lemmas to the spelling of today's Rattle: words in snake case, types and modules in camel case.
Run once, at the top, after port.py. A name is the repository's own where it is declared in specs/ or proofs/ (not in a function's folder, whose
names are made from the code). Functions of src/, strings and files keep their names. Prints each renaming, and what would fall together.
  respell.py [--dry]"""
import pathlib
import re
import subprocess
import sys

ROOT = pathlib.Path(".")
DECLARED = re.compile(r"^(\s*)(?:(?:abbrev|unfoldable|pub|ruleset)\s+)*([A-Za-z_][\w'\-]*)\s*(?:\{[^}]*\}\s*)?:(?=\s)")
OWN = [p for p in sorted(ROOT.glob("crates/*/specs/*.antt")) + sorted(ROOT.glob("crates/*/proofs/*.antt"))]
TEXTS = sorted(p for p in ROOT.glob("crates/**/*") if p.suffix in (".rt", ".antt", ".edit") and "out" not in p.parts)
PAGES = sorted(ROOT.glob("docs/**/*.md")) + [ROOT / "README.md", ROOT / "oracle/README.md"]
SCRIPTS = [p for p in sorted(ROOT.glob("scripts/*")) if p.is_file()]
# What port.py itself respells in crates/, since a library has the same words: edits and pages follow.
TURNED = """
    after-last afterOf alike-all all-placed and-assoc and-left and-right as-rows asks-nothing atMost back-typed bit-below bit-high both-true
    by-call by-itself byte-of byte-past call-rows callAt choose-spec codeOf cutAt each-row enter-spec fill-spec fits-by flag-small four-
    bytes from-byte given-back given-by givenOf goes-on goes-to half-spec inputs-on isKey isTaken isValue key-spec kindOf knownAt late-of
    length-both length-over linked-on main-spec ne-same nextOf no-frames no-record no-store none-spec not-first not-there number-more
    number-past numberAt numberOf only-wrote other-key out-of-range plain-other put-spec ran-on reads-only resultOf same-refl sends-step
    start-back start-small startOf stepOf takenOf test-at too-short two-bytes typed-spec upFrom value-spec wrote-as zOf zero-same
""".split()
PROTECT = r"[\w'\-₀-₉]"


def snake(name):
    name = name.replace("-", "_")
    return re.sub(r"(?<=[a-z0-9_])([A-Z])(?=[a-z0-9_]|$)", lambda m: ("_" if not name[m.start() - 1] == "_" else "") + m[1].lower(), name)


def respelled(name):
    if name[0].isupper():
        return name
    return snake(name)


def main():
    dry = "--dry" in sys.argv
    if not any("allZero" in p.read_text() for p in OWN):
        sys.exit("the names are respelled already")
    names = {}
    for p in OWN:
        for line in p.read_text().splitlines():
            m = DECLARED.match(line)
            if m and respelled(m[2]) != m[2]:
                names.setdefault(m[2], respelled(m[2]))
    # Where a lemma's name would be its definition's, the lemma gets `_lem`.
    for old in list(names):
        if "-" in old and (any("-" not in o and n == names[old] for o, n in names.items()) or old == "address-of"):
            names[old] += "_lem"
    names["call_rows"] = "call_rows_lem"  # port.py turned call-rows; callRows is the definition
    words = {}
    for p in TEXTS:
        for w in re.findall(r"[A-Za-z_][\w'\-]*", p.read_text()):
            words.setdefault(w, set()).add(str(p))
    targets = {}
    for old, new in names.items():
        targets.setdefault(new, []).append(old)
    for new, olds in sorted(targets.items()):
        if len(olds) > 1 or new in words:
            print("falls together:", olds, "->", new, sorted(words.get(new, ()))[:4])
    for old, new in sorted(names.items()):
        print(old, "->", new)
    if dry:
        return
    for old in ("pairingConfirm", "pairingRandom", "shownAs"):  # constructors that share a line, and an alias
        names[old] = respelled(old)
    for old in TURNED:
        names.setdefault(old, "call_rows_lem" if old == "call-rows" else respelled(old))
    pattern = re.compile("(?<!" + PROTECT + ")(" + "|".join(sorted(map(re.escape, names), key=len, reverse=True)) + ")(?!" + PROTECT + ")")
    for p in TEXTS + PAGES + SCRIPTS:
        text = p.read_text()
        if p.suffix == ".md" or p in SCRIPTS:  # names stand in backquotes, or as a word of a table of wrong definitions
            new = re.sub(r"`[^`\n]*`", lambda m: pattern.sub(lambda k: names[k[1]], m[0]), text)
        else:
            new = pattern.sub(lambda k: names[k[1]], text)
        if new != text:
            p.write_text(new)


main()
