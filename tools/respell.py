#!/usr/bin/env python3
"""Brings the repository's own definitions and lemmas to the spelling of the kit that it is proved with.

usage: python3 tools/respell.py        at the top of the repository, once, after the kit's own script

Words are in snake case. A dash stays only where it joins a name to a fact or to another name. A lemma that
would have the name of a function of src/ ends in _lem. Functions of src/, types, modules, file names, strings,
inputs and outputs keep their names. Names that would fall together are listed, and nothing is written then.
"""

import pathlib
import re
import subprocess
import sys

# a string, or a name's characters in specs and proofs; a path's dots separate names
TOKEN = re.compile(r"\"(?:[^\"\\]|\\.)*\"|[^\s(){}\[\],;.:=λ→×⊎¬≡≢≤<>+/|&\"`⌜⌝∷]+")
DECLARED = re.compile(r"^(?:abbrev |unfoldable )?(?:pub )?(?:record |data |ruleset )?([^\s:({]+)")
FIELD = re.compile(r"^ {2,}(?:let )?(?:pub )?((?:[^\s:(){}]+ )+):")

# what a dash joins here are two names, or a name and a fact
KEPT = {"length-unpacked", "unpacked-drop"}
FACTS = {"lawful": "Lawful"}
# generated names: goals, invariants and measures
MADE = re.compile(r"^(returns|loop|invariant|decreases|overflow|nonzero|bounds|slice|offset|prove|ghost)(_[a-z]+)?(-|$)|-requires(-|$)")
# words that the kit's own script respells in code but not in edits
KIT = {"natAbs": "unsigned_abs", "ltb": "nat_lt", "leb": "nat_le"}


def spelled(name):
    """The new spelling of a name."""
    if name in KEPT or MADE.search(name) or name.endswith(tuple("-" + fact for fact in FACTS.values())):
        return name
    tail = ""
    for word, fact in FACTS.items():
        if name.endswith("-" + word):
            name, tail = name[: -len(word) - 1], "-" + fact
    if name[:1].islower():
        name = re.sub(r"(?<=[a-z0-9])([A-Z])", lambda m: "_" + m.group(1).lower(), name)
    return name.replace("′", "'").replace("-", "_") + tail


def functions(top):
    """The names of the functions of src/."""
    found = set()
    for path in top.glob("crates/*/src/**/*.rt"):
        found |= set(re.findall(r"\bfn (\w+)", path.read_text(encoding="utf-8")))
    return found


def texts(top):
    for folder in ("specs", "proofs"):
        yield from sorted(top.glob(f"crates/*/{folder}/**/*.antt"))


def declared(top):
    """Every name that specs/ and proofs/ declare, with the files."""
    names = {}
    for path in texts(top):
        for line in path.read_text(encoding="utf-8").splitlines():
            if line.startswith(("use ", "pub use ", "mod ", "pub mod ", "--", "unfolding ", "import ")):
                continue
            found = FIELD.match(line) if line.startswith("  ") else DECLARED.match(line)
            if found:
                for name in found.group(1).split():
                    names.setdefault(name, set()).add(path)
    return names


def table(top):
    """Old to new spelling of what specs/ and proofs/ declare."""
    names = declared(top)
    code = functions(top)
    stated = {spelled(n) for n, where in names.items() if any("/specs/" in str(p) for p in where)}
    turned = {}
    for name, where in names.items():
        if name[:1].isupper() or not re.search(r"[a-z0-9][A-Z]|-|′", name):
            continue
        new = spelled(name)
        if new != name and new in code | stated and all("/proofs/" in str(p) for p in where):
            new += "_lem"
        if new != name:
            turned[name] = new
    return turned


def clashes(top, turned):
    """Where two names of one file would have one spelling."""
    found = set()
    for path in list(texts(top)) + list(top.glob("crates/*/src/**/*.rt")):
        text = path.read_text(encoding="utf-8")
        if path.suffix == ".rt":
            text = "".join(l for l, ghost in clauses(text) if ghost)
        # a path names modules and functions, and hides no word
        text = re.sub(r"(?m)^(ghost )?use [^\s{]*", "", text)
        seen = {}
        for word in set(TOKEN.findall(text)):
            seen.setdefault(turned.get(word, word), set()).add(word)
        found |= {(str(path), *sorted(words)) for words in seen.values() if len(words) > 1}
    return found


def respell(text, turned):
    return TOKEN.sub(lambda m: turned.get(m.group(0), m.group(0)), text)


def clauses(text):
    """The lines of a source file, each with whether it is of a ghost item or a clause."""
    depth = 0
    for line in text.splitlines(keepends=True):
        ghost = depth > 0 or bool(re.match(r"(pub )?(ghost|requires|ensures|invariant)\b", line.strip()))
        if ghost:
            depth += line.count("{") - line.count("}")
        yield line, ghost


def main():
    top = pathlib.Path(".")
    turned = table(top)
    together = clashes(top, turned)
    if together:
        for path, *words in sorted(together):
            print(f"{path}: {' and '.join(words)} would fall together")
        return 1
    for path in texts(top):
        old = path.read_text(encoding="utf-8")
        path.write_text(respell(old, turned), encoding="utf-8")
    for path in sorted(top.glob("crates/*/src/**/*.rt")):
        old = path.read_text(encoding="utf-8")
        path.write_text("".join(respell(l, turned) if ghost else l for l, ghost in clauses(old)), encoding="utf-8")
    for path in sorted(top.glob("crates/*/must-fail/*.edit")):
        old = path.read_text(encoding="utf-8")
        if "file: src/" not in old:
            path.write_text(respell(old, turned | KIT), encoding="utf-8")
    for crate in sorted(p.parent for p in top.glob("crates/*/src")):
        subprocess.run(["rt", "fmt"], cwd=crate, check=True, stdout=subprocess.DEVNULL)
    for old, new in sorted(turned.items()):
        print(f"{old} -> {new}")
    return 0


if __name__ == "__main__":
    sys.exit(main())
