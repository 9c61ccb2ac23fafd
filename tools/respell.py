#!/usr/bin/env python3
"""Brings the names of definitions and lemmas to one spelling: words in snake case, types in camel case.

usage: python3 tools/respell.py [FOLDER]      rewrites crates/ below FOLDER (default: here) in place

A name is respelled if a file of specs/ or a lemma file of proofs/ defines it (as a definition, a lemma, a field, a constructor or a
module), wherever it stands in .antt files, in ghost lines, clauses and comments of .rt files, and in must-fail edits. A dash becomes `_`,
an inner capital of a name that begins small becomes `_` and a small letter, but a part that is capitals alone stays; `Classified-in` is a
type, `ClassifiedIn`. Names that end in a sign (`x-`), operators, and names of src/ stay. The names of goals and of local proofs in a Proof.antt stay, but where they are names of
lemmas too. Two names that would fall together stop the script before it writes anything.
"""
import glob
import os
import re
import sys

TYPES = {"Classified-in": "ClassifiedIn", "ground": "grounds"}  # `ground` is a tactic's name now
PROSE = {"half-space", "half-spaces", "ground"}  # English in comments
IDENT = r"[^\s(){}\[\];,.\"`⌜⌝λ]+"
WORD = re.compile(r"(?<![\w'?+*-])([A-Za-z_][\w'?+-]*)")


def files(root):
    for kind in ("specs", "proofs"):
        yield from glob.glob(os.path.join(root, "crates", "*", kind, "**", "*.antt"), recursive=True)


def defined(root):
    """Every name that specs/ and lemma files define."""
    names = set()
    for path in files(root):
        if re.search(r"/proofs/.+/[A-Z]\w*\.antt$", path) and "/proofs/" in path:
            inner = path.split("/proofs/")[1]
            if os.path.basename(inner).startswith("Proof") or os.path.basename(inner) in ("Answers.antt", "Invariants.antt"):
                continue
        for line in open(path, encoding="utf-8"):
            text = line.strip()
            if not text or text.startswith("--"):
                continue
            m = re.match(r"(?:(?:pub|abbrev|unfoldable|open|mutual|package) )*(?:record|data|module|ruleset)\s+(" + IDENT + ")", text)
            if m:
                names.add(m.group(1))
                continue
            m = re.match(r"(?:(?:pub|abbrev|unfoldable) )*(" + IDENT + r"(?: " + IDENT + r")*)\s+:\s", text + " ")
            if m:
                words = m.group(1).split()
                if not any(w in ("=", "→", "let", "in") for w in words):
                    names.update(words)
    return names


def snake(name):
    if name in TYPES:
        return TYPES[name]
    if "◌" in name or not re.match(r"[A-Za-z_*]", name) or name[-1] in "+-":
        return name
    new = re.sub(r"(?<=[\w'?])-(?=[\w])", "_", name)
    if new[0].islower():
        new = "_".join(w if w.isupper() else "_".join(p.lower() for p in re.findall(r"[A-Z]+(?![a-z])|[A-Z]?[^A-Z]+", w)) for w in new.split("_"))
    return new


def table(root):
    names = defined(root)
    turn = {n: snake(n) for n in names if snake(n) != n}
    made = {}
    for old, new in turn.items():
        made.setdefault(new, []).append(old)
    bad = {new: olds for new, olds in made.items() if len(olds) > 1 or new in names}
    return turn, bad, names


def respell(text, turn, comment):
    def one(m):
        w = m.group(1)
        if comment and w in PROSE:
            return w
        return turn.get(w, w)
    return WORD.sub(one, text)


def split_comment(line, mark):
    at = line.find(mark)
    while at > 0 and line[:at].count('"') % 2:
        at = line.find(mark, at + 1)
    return (line, "") if at < 0 else (line[:at], line[at:])


USE = re.compile(r"^\s*(?:pub |unfoldable |ghost )*use ([\w.+'-]+?)\.\{([^}]*)\}", re.M)


def own(text, turn, crates):
    """The table without the names that this file takes from a library."""
    taken = set()
    for path, words in USE.findall(text):
        parts = path.split(".")
        if not (parts[0] == "Rattle" and len(parts) > 1 and parts[1] in crates):
            taken.update(re.split(r"[,\s]+", words))
    return {k: v for k, v in turn.items() if k not in taken}


def turn_antt(text, turn):
    out = []
    for line in text.split("\n"):
        code, note = split_comment(line, "-- ") if not line.strip().startswith("--") else ("", line)
        out.append(respell(code, turn, False) + respell(note, turn, True))
    return "\n".join(out)


GHOST = re.compile(r"^\s*(?:ghost\b|requires\b|ensures\b|invariant\b|decreases\b)")


def turn_rt(text, turn):
    dashed = {k: v for k, v in turn.items() if "-" in k}
    out, ghost = [], False
    for line in text.split("\n"):
        code, note = split_comment(line, "//")
        if GHOST.match(code):
            ghost = True
        code = respell(code, turn if ghost else {}, False)
        if ghost and (code.rstrip().endswith("}") or code.rstrip().endswith("},") or code.rstrip().endswith(";")):
            ghost = False
        out.append(code + respell(note, dashed, True))
    return "\n".join(out)


def main():
    root = sys.argv[1] if len(sys.argv) > 1 else "."
    turn, bad, names = table(root)
    if bad:
        for new, olds in sorted(bad.items()):
            print(f"fall together: {' '.join(sorted(olds))} -> {new}", file=sys.stderr)
        raise SystemExit(2)
    crates = set(os.listdir(os.path.join(root, "crates")))
    changed = 0
    for path in sorted(files(root)):
        old = open(path, encoding="utf-8").read()
        new = turn_antt(old, own(old, turn, crates))
        if new != old:
            open(path, "w", encoding="utf-8").write(new)
            changed += 1
    for path in sorted(glob.glob(os.path.join(root, "crates", "*", "src", "**", "*.rt"), recursive=True)):
        old = open(path, encoding="utf-8").read()
        new = turn_rt(old, own(old, turn, crates))
        if new != old:
            open(path, "w", encoding="utf-8").write(new)
            changed += 1
    print(f"{len(turn)} names, {changed} files")


if __name__ == "__main__":
    main()
