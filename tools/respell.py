#!/usr/bin/env python3
"""Spells this repository's own definitions, lemmas and record fields in snake case.

Usage, once, at the top of the repository, after the kit's port.py:  python3 tools/respell.py --over
A name is the repository's own if a file of specs/ or proofs/ declares it; names that the toolchain gives to goals, and
names of the library, stay as they are. Prints each pair of names. With --look it writes nothing and tells which names
fall together with one that is there; without --over it stops at them. It was run over them once they had been looked at:
each is a word of specs/ and the function whose meaning it says.
"""
import re
import sys
from pathlib import Path

NAME = r"[^\W\d_][\w'-]*"
WORD = re.compile(r"(?<![\w'-])" + NAME + r"(?![\w'-])")
DECLARED = re.compile(r"^\s*(?:(?:abbrev|unfoldable)\s+)?(?:pub\s+)?(" + NAME + r")\s+:\s+(\S+)", re.M)
ALIAS = re.compile(r"\bas\s+(" + NAME + r")\b")
LET = re.compile(r"\blet\s+(" + NAME + r")\s*[:=]")
IMPORTED = re.compile(r"^(?:ghost |pub )?use (\S+?)\.\{([^}]*)\}", re.M)
# a fact is spelled as a type, so Decides-below_and and their like are the library's
HYPHEN = re.compile(r"[a-z0-9']-[a-z]")


# a step of a proof, as c.if-not-is_some, and the goal of one
STEP = re.compile(r"(?<![\w'-])(?:[cwl]\.(?:fn\.|initial\.)?|goal\.|then-|else-)[\w'-]+|^(?:pub |abbrev pub )?(?:returns|if|loop|invariant|decreases|in)-[\w'-]+", re.M)


def step_words(files):
    """The names of the source with underscores, each beside its spelling with dashes, the longest first."""
    names = {"in_ok", "in_err", "unwrap_or", "in_default"}
    for path, text in files.items():
        if path.suffix == ".rt":
            names.update(re.findall(r"\b[A-Za-z]\w*_\w+\b", text))
    return sorted(((n.replace("_", "-"), n) for n in names), key=lambda p: -len(p[0]))


def respelled_step(step, words):
    """A step's name with the source's own spelling of the functions and variables in it."""
    for dashed, name in words:
        step = re.sub(r"(?<![A-Za-z0-9])" + re.escape(dashed) + r"(?![A-Za-z0-9])", name, step)
    return step


def main():
    files = {p: p.read_text(encoding="utf-8") for p in sorted(Path("crates").rglob("*"))
             if p.suffix in (".antt", ".rt") and "out" not in p.parts}
    own, every, library = set(), set(), set()
    for path, text in files.items():
        every.update(WORD.findall(text))
        for module, names in IMPORTED.findall(text):
            if not module.startswith("Rattle.") or module.startswith("Rattle.std."):
                library.update(re.split(r"[,\s]+", names))
        for module, names in IMPORTED.findall(text):
            own.update(n for n in ALIAS.findall(names) if HYPHEN.search(n))
        if path.suffix == ".antt":
            own.update(n for n in LET.findall(text) if HYPHEN.search(n))
            for name, kind in DECLARED.findall(text):
                if not kind.startswith("goal.") and HYPHEN.search(name):
                    own.add(name)
    mixed = sorted(own & library)
    if mixed:
        print("the library's too, so they stay:", ", ".join(mixed))
    turned = {name: name.replace("-", "_") for name in sorted(own - library)}
    fallen = sorted(name for name, new in turned.items() if new in every)
    for name in fallen:
        print(f"falls together with a name that is there: {name}")
    if "--look" in sys.argv:
        print(len(turned), "names")
        return 0
    if fallen and "--over" not in sys.argv:
        return 1
    steps = step_words(files)
    for path, text in files.items():
        if "proofs" in path.parts:
            text = STEP.sub(lambda m: respelled_step(m.group(0), steps), text)
        new = WORD.sub(lambda m: turned.get(m.group(0), m.group(0)), text)
        if new != files[path]:
            path.write_text(new, encoding="utf-8")
    for name, new in turned.items():
        print(f"{name} -> {new}")
    return 0


if __name__ == "__main__":
    raise SystemExit(main())
