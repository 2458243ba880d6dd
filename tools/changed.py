#!/usr/bin/env python3
"""What changed since a commit of what this repository says, old and new, one below the other, as Markdown.

    tools/changed.py COMMIT        all of it
    tools/changed.py COMMIT -c     how many of each kind

Public types and functions with their clauses (src/), definitions (specs/), and the statements of theorems and the records and cases that they are
made of (proofs/, but for the folders of functions). Names are told apart by crate, file and the impl or module that they stand in; a name that moved
to another file of its crate is found there. Compared without regard to line breaks. Reads COMMIT from git, and the folder as it stands.
"""
import re
import subprocess
import sys
from collections import defaultdict

KINDS = ["types", "functions", "definitions", "theorems"]


def texts(commit):
    """{path: text} of the files under crates/ at a commit, or, for None, as git follows them here."""
    at = ["ls-tree", "-r", "--name-only", commit] if commit else ["ls-files"]
    names = subprocess.run(["git", *at, "--", "crates"] if commit else ["git", *at, "crates"], capture_output=True, text=True, check=True).stdout.split("\n")
    found = {}
    for name in names:
        if re.fullmatch(r"crates/\w+/(src/.*\.rt|specs/.*\.antt|proofs/\w+\.antt)", name):
            if commit:
                found[name] = subprocess.run(["git", "show", f"{commit}:{name}"], capture_output=True, text=True, check=True).stdout
            else:
                with open(name, encoding="utf-8") as file:
                    found[name] = file.read()
    return found


def plain(text):
    return re.sub(r"\s+", " ", text).strip()


def source(crate, text, add):
    """Public types, constants and functions of a source file."""
    lines = re.sub(r"//.*", "", text).split("\n")
    block, i = "", 0
    while i < len(lines):
        line = lines[i]
        if m := re.match(r"impl(<[^>]*>)? (.+?) \{", line):
            block = m[2]
        if line == "}":
            block = ""
        public = re.match(r"\s*pub (const )?(struct|enum|fn|const) ?(\w*)", line)
        trait = re.match(r"(\w+) for|(Try)?From<", block)
        if public and public[2] in ("struct", "enum"):
            j = i
            while lines[j] != "}" and not lines[j].endswith(";"):
                j += 1
            add("types", crate, public[3], plain(" ".join(lines[i : j + 1])))
        elif re.match(r"\s*ghost \w+_gives = ", line) and trait:
            add("functions", crate, f"impl {block}", plain(line))
        elif public and public[2] == "fn":
            j = i
            while not (lines[j].strip() == "{" or (lines[j].rstrip().endswith("{") and not re.search(r"(ensures|requires)[^{}]*\{$", lines[j]))):
                j += 1
            name = public[3] if not block else f"{block}::{public[3]}"
            add("functions", crate, name, plain(" ".join(lines[i : j + 1]).rstrip("{ ")))
        i += 1


def chunks(text):
    """Declarations of an antt file: a line, and those below it that are indented further or go on with its equations."""
    lines = [line for line in text.split("\n") if not re.match(r"\s*--", line)]
    lines = [re.sub(r"\s+-- .*", "", line) for line in lines]
    start = re.compile(r"(\s*)((?:unfoldable |abbrev )?(?:pub )?(?:data |record )?)((?:◌[^ ]*|[\w'≢-]+))((?: ?[({].*)?) :(?: |$)")
    i = 0
    while i < len(lines):
        m = start.match(lines[i])
        if not m or lines[i].lstrip().startswith(("use ", "module ", "where", "let ")):
            i += 1
            continue
        depth, j = len(m[1]), i + 1
        while j < len(lines) and lines[j].strip() and (len(lines[j]) - len(lines[j].lstrip()) > depth):
            j += 1
        said = lines[i:j]  # the signature, or a record or data whole
        body = []
        while j < len(lines) and lines[j].strip() and re.match(rf"\s{{{depth}}}(unfolding |{re.escape(m[3])}( |$)|\s)", lines[j]):
            body.append(lines[j])
            j += 1
        yield m[3], m[2], said, body
        i = j


def gather(commit):
    found = defaultdict(dict)

    def add(kind, crate, name, text):
        key, n = (crate, name), 2
        while key in found[kind]:
            key, n = (crate, f"{name} ({n})"), n + 1
        found[kind][key] = text

    for path, text in sorted(texts(commit).items()):
        crate, part = path.split("/")[1:3]
        if part == "src":
            source(crate, text, add)
        for name, mark, said, body in [] if part == "src" else chunks(text):
            if part == "specs":
                add("definitions", crate, name, plain(" ".join(said + [line for line in body if not line.strip().startswith("unfolding")])))
            elif "pub " in mark:
                add("theorems", crate, name, plain(" ".join(said)))
    return found


def main():
    commit, count = sys.argv[1], sys.argv[2:] == ["-c"]
    old, new = gather(commit), gather(None)
    for kind in KINDS:
        a, b = old[kind], new[kind]
        changed = [k for k in a if k in b and a[k] != b[k]]
        gone, made = [k for k in a if k not in b], [k for k in b if k not in a]
        if count:
            print(f"{kind}: {len(a)} before, {len(b)} now; {len(changed)} changed, {len(gone)} gone, {len(made)} new")
            continue
        print(f"### {kind.capitalize()}: {len(changed)} changed, {len(gone)} gone, {len(made)} new\n")
        for crate in sorted({k[0] for k in changed + gone + made}):
            print(f"`{crate}`\n\n```text")
            for key in [k for k in a if k[0] == crate and k in changed]:
                print(f"  {key[1]}\n- {a[key]}\n+ {b[key]}")
            for key in [k for k in gone if k[0] == crate]:
                print(f"  {key[1]}, gone\n- {a[key]}")
            for key in [k for k in made if k[0] == crate]:
                print(f"  {key[1]}, new\n+ {b[key]}")
            print("```\n")


main()
