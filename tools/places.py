#!/usr/bin/env python3
"""Counts and lists the places in crates/*/src that the design pass looks at (docs/DESIGN-PASS.md).

    python3 tools/places.py          a line for each point
    python3 tools/places.py POINT    the places of one point (enums, twins, loops, conversions, facts, buffers, switches, proofs)

It goes by text, so a place listed is one to look at and not a fault.
"""
import collections
import pathlib
import re
import sys

ROOT = pathlib.Path(__file__).resolve().parent.parent / "crates"
WORD = re.compile(r"[A-Za-z_][A-Za-z_0-9]*|\d[\d_]*|\S")
KEYWORDS = set("if else for in while loop match return let mut break continue as ref move".split())
EMPTY = {"None", "Neither", "Unknown", "Absent", "Nothing", "Missing", "Err", "Error", "Refused", "Failed"}


class Function:
    def __init__(self, path, line, head, clauses, body):
        self.path, self.line, self.clauses, self.body = path, line, clauses, body
        self.name = re.search(r"fn (\w+)", head).group(1)
        self.head = head

    def at(self):
        return f"{self.path}:{self.line} {self.name}"

    def parameters(self):
        inside = re.search(r"fn \w+(?:<.*?>)?\((.*)\)", self.head, re.S)
        text = inside.group(1) if inside else ""
        return [p.strip() for p in re.split(r",(?![^<(\[]*[>)\]])", text) if ":" in p]

    def shape(self):
        """The body with every name and number made one."""
        words = WORD.findall(re.sub(r"//.*", "", self.body))
        return tuple("n" if w[0].isdigit() else w if w in KEYWORDS or not (w[0].isalpha() or w[0] == "_") else "x" for w in words)


def sources():
    for path in sorted(ROOT.glob("*/src/**/*.rt")):
        yield path.relative_to(ROOT), path.read_text()


def block_end(text, start):
    depth = 0
    for i in range(start, len(text)):
        depth += {"{": 1, "}": -1}.get(text[i], 0)
        if depth == 0:
            return i + 1
    return len(text)


def functions():
    for path, text in sources():
        for found in re.finditer(r"^[ \t]*(?:pub(?:\(crate\))? )?(?:final )?fn \w+", text, re.M):
            line = text.count("\n", 0, found.start() + 1) + 1
            head_end = re.compile(r"\n\s*(requires|ensures)\b|\{|;").search(text, found.end()).start()
            head, at, clauses = text[found.start():head_end], head_end, []
            while True:
                clause = re.compile(r"\s*(requires|ensures)\s*(\w+ )?\{").match(text, at)
                if not clause:
                    break
                end = block_end(text, clause.end() - 1)
                clauses.append((clause.group(1), text[clause.end():end - 1].strip()))
                at = end
            opening = re.compile(r"\s*\{").match(text, at)
            body = text[opening.end() - 1:block_end(text, opening.end() - 1)] if opening else ""
            yield Function(path, line, head, clauses, body)


def lines(pattern, where=None):
    for path, text in sources():
        for number, line in enumerate(text.split("\n"), 1):
            if not line.strip().startswith("//") and re.search(pattern, line):
                yield f"{path}:{number} {line.strip()}"


def enums():
    for path, text in sources():
        for found in re.finditer(r"enum (\w+)(?:<[^>]*>)? \{", text):
            body = re.sub(r"//.*", "", text[found.end():block_end(text, found.end() - 1) - 1])
            names = set(re.findall(r"^\s*(\w+)", body, re.M))
            if names & EMPTY:
                line = text.count("\n", 0, found.start()) + 1
                yield f"{path}:{line} enum {found.group(1)} with {', '.join(sorted(names & EMPTY))}"
    for f in functions():
        if "&mut self" in f.head and "-> bool" in f.head:
            yield f"{f.at()} answers a flag"
        if re.search(r"\(self\) -> u(8|16|32)$", f.head.strip()) and "=>" in f.body:
            yield f"{f.at()} a number for each kind"


def twins():
    groups = collections.defaultdict(list)
    for f in functions():
        if len(f.shape()) >= 14:
            groups[f.shape()].append(f.at())
    types = collections.defaultdict(list)
    for path, text in sources():
        for found in re.finditer(r"struct (\w+)(?:<[^>]*>)? \{", text):
            body = re.sub(r"//.*|ghost .*|pub(\(crate\))? ", "", text[found.end():block_end(text, found.end() - 1) - 1])
            fields = tuple(sorted(re.sub(r"\d+", "n", t.strip()) if "[" not in t else "[T; N]" for t in re.findall(r"\w+: ([^,]+)", body)))
            if len(fields) >= 2:
                types[fields].append(f"{path} {found.group(1)}")
    for group in list(groups.values()) + list(types.values()):
        if len(group) > 1:
            yield " = ".join(group)


def loops():
    for f in functions():
        for found in re.finditer(r"(?:for .+? in [^\n]+\{|while [^\n]+\{|loop \{)", f.body):
            head = found.group(0)
            steps = re.search(r"\b(\w+) \+= 1;|\b(place|next|i) = ", f.body)
            if ".." in head or "enumerate()" in head or head.startswith(("while", "loop")) or steps:
                yield f"{f.at()} {head.strip()[:-1].strip()}"


def conversions():
    yield from lines(r"^\s*impl.* (From<.*>|TryFrom<.*>|Into<.*>|PartialEq|Eq|PartialOrd|Ord|Clone|Copy|Default|(fmt::)?Display|(fmt::)?Debug|Hash) for ")
    for f in functions():
        if re.match(r"(from_(?!le_bytes|slice)|to_|into_|as_u|of$|fault_of$|eq$|cmp$|clone$)", f.name) and "&mut" not in f.head:
            yield f.at()
    yield from lines(r"(Err|None)\(?_?\)? => Err\(|Ok\(.*\) => Ok\(|Some\(\w+\) => Ok\(")


def facts():
    seen, travel = collections.defaultdict(set), collections.defaultdict(set)
    for f in functions():
        for kind, text in f.clauses:
            for fact in re.split(r"\) × \(|^\(|\)$| → ", text):
                fact = re.sub(r"\b(self|row|table|transaction|register|c)\.(now|old|new)\b", "VALUE", " ".join(fact.split()))
                if re.search(r"[≡≤<]", fact) and "result" not in fact:
                    seen[(kind, fact)].add(f.at())
        names = sorted({" ".join(p.split()) for p in f.parameters()})
        for i, a in enumerate(names):
            for b in names[i + 1:]:
                travel[(str(f.path).split("/")[0], a, b)].add(f.at())
    for (kind, fact), where in sorted(seen.items()):
        if len(where) >= 3:
            yield f"{kind} {fact}: " + ", ".join(sorted(where))
    for (crate, a, b), where in sorted(travel.items()):
        if len(where) >= 3:
            yield f"{crate}: ({a}, {b}): " + ", ".join(sorted(where))


def buffers():
    for path, text in sources():
        for found in re.finditer(r"struct (\w+)(?:<[^>]*>)? \{", text):
            body = re.sub(r"//.*", "", text[found.end():block_end(text, found.end() - 1) - 1])
            line = text.count("\n", 0, found.start()) + 1
            if re.search(r": \[", body) and re.search(r"\b(count|len|length|used): u", body):
                yield f"{path}:{line} {found.group(1)} an array with a length beside it"
            elif len(re.findall(r": (?:Vec<|\[)", body)) > 1:
                yield f"{path}:{line} {found.group(1)} more than one array or vector"
    yield from lines(r"\bif \w+(\.object)? == \*?\w+(\.\w+)? \{$|\.binary_search")


def switches():
    for f in functions():
        for found in re.finditer(r"match [^\n]+\{", f.body):
            arms = f.body[found.end():block_end(f.body, found.end() - 1)]
            calls = re.findall(r"=> [^\n]*\w+\(", arms)
            if len(calls) >= 3:
                yield f"{f.at()} {found.group(0)[:-1].strip()} with {len(calls)} calls"
    yield from lines(r": (&?dyn |Box<dyn |fn\()|\[fn\(")


def proofs():
    for path in sorted(ROOT.glob("*/proofs/**/*.antt")):
        text, name = path.read_text(), path.relative_to(ROOT)
        for found in re.finditer(r"^(?:abbrev )?(?:unfoldable )?pub ([^ ]+) :", text, re.M):
            kind = "answer" if path.stem in ("Answers", "Invariants") else "lemma"
            yield f"{name} {kind} {found.group(1)}"


POINTS = [enums, twins, loops, conversions, facts, buffers, switches, proofs]


def main():
    wanted = sys.argv[1:]
    for point in POINTS:
        places = list(point())
        if not wanted:
            extra = ""
            if point is proofs:
                extra = f" ({sum(' answer ' in p for p in places)} answers and invariants, {sum(' lemma ' in p for p in places)} lemmas)"
            print(f"{point.__name__}: {len(places)}{extra}")
        elif point.__name__ in wanted:
            print("\n".join(places))


if __name__ == "__main__":
    main()
