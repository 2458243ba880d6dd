#!/usr/bin/env python3
"""Turns a function's Proof.antt of the older Rattle into Invariants.antt and Answers.antt, by the names that
`rt check --generated DIR --old-names` gives. What it can't turn is left with a line `-- LEFT`.
  answers.py CRATE NAMES.json"""
import json
import pathlib
import re
import sys

ID = r"[A-Za-z_#][\w'\-₀-₉]*"
# The laws in proofs/Other.antt on what the last arm of a match takes, with the facts that they take today, one for each variant that it does not.
LAWS = {
    "passkey/typing_other": ["not-PassKeyCancel", "not-PassKeyInput"],
    "states/waiting_other": ["not-Success", "not-Error"],
    "oob/oob_other": ["not-OobDataReceived"],
    "questions/command_other": ["not-WaitingPublicKey", "not-WaitingNumericComparisonRandom", "not-WaitingPassKeyEntryConfirm", "not-WaitingPassKeyEntryRandom", "not-WaitingDHKeyEa"],
    "questions/event_other": ["not-WaitingNumericComparisonResult", "not-WaitingPassKeyInput", "not-WaitingOobData"],
    "questions/comparison_other": ["not-PassKeyConfirm"],
    "questions/typing_other": ["not-PassKeyInput"],
    "questions/received_other": ["not-OobDataReceived"],
    "questions/key_other": ["not-JustWorks", "not-NumericComparison"],
    "questions/compare_other": ["not-JustWorks"],
    "front/event_other": ["not-WaitingPairingRequest", "not-WaitingNumericComparisonResult", "not-WaitingPassKeyInput", "not-WaitingOobData", "not-WaitingLinkEncrypted", "not-Success", "not-Error"],
    "keys/bonded_other": ["not-LinkEncryptedResult"],
    "keys/encrypted_other": ["not-LinkEncryptedResult"],
    "numeric/comparison_other": ["not-PassKeyConfirm", "not-PassKeyCancel"],
    "numeric/compares_other": ["not-JustWorks"],
    "queries/plain_other": ["not-WaitingIdentitityInformation", "not-WaitingIdentitityAddressInformation", "not-Success"],
    "queries/waiting_other": ["not-Success", "not-Error"],
}
USED = re.compile(r"[^\s(){}\[\].,;:`]+")


def blocks(text):
    """The comment at the head, the use lines, and the declarations: (name, signature, body)."""
    lines = text.split("\n")
    head, uses, rest, i = [], [], [], 0
    while i < len(lines) and lines[i].startswith("--"):
        head.append(lines[i])
        i += 1
    while i < len(lines):
        line = lines[i]
        if line.startswith("use "):
            whole = line
            while whole.count("{") > whole.count("}"):
                i += 1
                whole += " " + lines[i].strip()
            uses.append(re.sub(r"\{\s*", "{", re.sub(r",?\s*\}", "}", whole)))
        else:
            rest.append(line)
        i += 1
    parts = []
    for line in rest:
        if re.match(r"(?:abbrev |unfoldable |pub )*" + ID + r"\s*(?:\{.*?\}\s*)?:\s", line + " ") and not line.startswith(" "):
            parts.append([line])
        elif parts:
            parts[-1].append(line)
    out = []
    for part in parts:
        while part and not part[-1].strip():
            part.pop()
        name = re.match(r"(?:abbrev |unfoldable |pub )*(" + ID + ")", part[0])[1]
        n = 1
        while n < len(part) and (part[n].startswith("    →") or part[n].startswith("      ")) and not re.match(re.escape(name) + r"\b", part[n]):
            n += 1
        out.append((name, part[:n], part[n:]))
    return head, uses, out


class Names:
    def __init__(self, d):
        self.needs = {}
        for old, new in d["needs"]:
            self.needs.setdefault(old, new)
        self.steps = {}
        for place, parent, (old, new), callee, _ in d["places"]:
            if old:
                self.steps.setdefault(old, []).append(new)
        for loop, _ in d["loops"]:
            self.steps.setdefault(loop[0], []).append(loop[1])
        # what a match's arm reads: `STEP.given.1` is `in-V.is` today
        at = {place: step[1] for place, _, step, _, _ in d["places"]}
        self.at, self.given, self.excluded = at, {}, []
        for place, parent, (old, new), callee, _ in d["places"]:
            if parent in at and at[parent].startswith("in"):
                self.given.setdefault(old, at[parent])
        self.args = {a[0].replace(" ", ""): a[1].replace(" ", "") for a in d["args"]}
        self.loops = {l[0][0]: (l[0][1], l[1], c) for l, c in zip(d["loops"], d["changed"])}

    def step(self, old):
        for key in (old, old.replace("-", "_"), old.removesuffix("_lem")):
            if key in self.steps:
                return self.steps[key][0]
        return None

    def need(self, old):
        return self.needs.get(old) or self.needs.get(old.replace("-", "_"))


def paths(text, names):
    roots = {"c"}
    for m in re.finditer(r"let (" + ID + r") = c((?:\.before)+) in", text):
        roots.add(m[1])

    def turn(m):
        head, tail = m[1], m[2]
        if head not in roots:
            return m[0]
        parts = [p for p in tail[1:].split(".") if p != "before"]
        keys = re.fullmatch(r"keys\d+", parts[1]) if len(parts) == 2 else None
        if keys and f"At-{parts[0]}-{parts[1]}" in names.at:  # what the last arm takes: a fact for each variant that it doesn't
            step = names.at[f"At-{parts[0]}-{parts[1]}"]
            return " ".join(f"{head}.{step}.{n}" for n in names.excluded)
        if not parts:
            return head if head != "c" else "c"
        new = names.step(parts[0])
        arm = names.given.get(parts[0]) or names.given.get(parts[0].replace("-", "_"))
        if arm and parts[1:3] == ["given", "1"]:
            parts = [arm, "is"] + parts[3:]
        elif new is not None:
            parts[0] = new
        path = head + "." + ".".join(parts)
        for old, now in names.args.items():
            if ("." + ".".join(parts) + ".").startswith(old + "."):
                path = head + now + ("." + ".".join(parts) + ".")[len(old):].rstrip(".")
                break
        return path

    return re.sub(r"(?<![\w'\-.₀-₉])(" + ID + r")((?:\.[\w'\-₀-₉]+)+)", turn, text)


def uses_for(uses, text):
    words = set(USED.findall(text))
    dotted = set(re.findall(ID, text))
    kept = []
    for u in uses:
        m = re.match(r"use (\S+)\.\{(.*)\}$", u)
        if m:
            some = []
            for it in m[2].split(","):
                it = it.strip()
                n = it.split(" as ")[-1].strip()
                plain = n.replace("◌", "")
                if n in words or n in dotted or n in ("[]",) and "[]" in text or (plain != n and plain and plain in text):
                    some.append(it)
            if some:
                kept.append(f"use {m[1]}.{{{', '.join(some)}}}")
            continue
        m = re.match(r"use (\S+) as (\S+)$", u)
        if m and m[2] in words | dotted:
            kept.append(u)
    return kept


def main():
    crate = pathlib.Path(sys.argv[1])
    data = json.load(open(sys.argv[2]))
    name = crate.resolve().name
    for proof in sorted(crate.glob("proofs/**/Proof.antt")):
        path = ".".join(proof.relative_to(crate / "proofs").parts[:-1])
        key = f"Rattle-{name}-proofs.{path}.Lts"
        if key not in data:
            print(path, "has no names")
            continue
        names = Names(data[key])
        for law, excluded in LAWS.items():
            if law.startswith(name + "/") and re.search(r"\b" + law.split("/")[1] + r"\b", proof.read_text().split("\nreturns", 1)[-1]):
                names.excluded = excluded
        head, uses, decls = blocks(proof.read_text())
        uses = [u for u in uses if not u.endswith(" as tie") and ".Statement." not in u]
        answers, invariants = [], []
        for decl, sig, body in decls:
            s = " ".join(x.strip() for x in sig)
            if ".Statement" in s or "statement M" in s or decl.endswith(("-spec", "_spec")) and "statement" in s:
                continue
            m = re.search(r":\s*tie\.(Need-|invariant-|decreases-)(\S+)", s)
            text = "\n".join(body)
            if not m:
                answers.append("\n".join(sig) + "\n" + paths(text, names))
            elif m[1] == "Need-":
                new = names.need(m[2])
                if new is None:
                    print(f"{path}: no goal is called {m[2]} today")
                    continue
                text = re.sub(r"(?m)^" + re.escape(decl) + r"(?=\s)", new, text)
                answers.append(f"pub {new} : goal.{new}\n" + paths(text, names))
            else:
                loop = names.loops.get(m[2]) or names.loops.get(m[2].replace("-", "_"))
                if loop is None:
                    invariants.append(f"-- LEFT {decl}\n" + text)
                    continue
                new, vars_, changed = loop
                old_names = [(v, f"l.initial.{v}" if c else f"l.{v}") for v, c in zip(vars_, changed)] + [(v, f"l.{v}") for v, c in zip(vars_, changed) if c]
                first, rest = text.split("=", 1)
                params = first.split()[1:]
                if len(params) != len(old_names):
                    invariants.append(f"-- LEFT {decl}: {vars_} {changed}\n" + text)
                    continue
                table = dict(zip(params, [n for _, n in old_names]))
                rest = re.sub(r"(?<![\w'\-.₀-₉])(" + ID + r")(?![\w'\-₀-₉])", lambda k: table.get(k[1], k[1]), rest)
                kind = m[1] + new
                invariants.append(f"abbrev pub {kind} : goal.{kind}\n{kind} l ={rest}")
        module = f"Rattle.{name}.proofs.{path}"
        for file, parts, gen in (("Answers", answers, "Goals"), ("Invariants", invariants, "Given")):
            if parts:
                text = "\n\n".join(parts) + "\n"
                lines = head + uses_for(uses, text) + [f"use {module}.{gen} as goal", "", text]
                (proof.parent / f"{file}.antt").write_text("\n".join(lines))
        proof.unlink()
        if not answers and not invariants and not any(proof.parent.iterdir()):
            proof.parent.rmdir()


main()
