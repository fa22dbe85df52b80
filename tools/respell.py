#!/usr/bin/env python3
"""Brings the names of this repository's own definitions and lemmas to snake case, once, after the toolchain's port script.

Run it at the top of the checkout. In every crate it takes the names with a dash that specs/ and proofs/ declare and
writes them with underscores, wherever they stand in clauses, specs, proofs and must-fail edits. Names that the checker
makes of the code (goals and steps of a proof), names of the library, comments of the code and program text stay. A name
that would fall together with another one is listed and left alone.
"""
import pathlib
import re
import sys

CRATES = pathlib.Path("crates")
# what a name may hold besides letters: antt's names are runs of anything but blanks, brackets and a few signs
NAME = r"[^\s(){}\[\]:;,.@«»⌜⌝\"λ=]+"
DECLARED = re.compile(r"^[ \t]*(?:(?:abbrev|unfoldable|pattern|axiom|pub)[ \t]+)*(" + NAME + r")(?:[ \t]+\{[^}]*\})?[ \t]+:[ \t\n]", re.M)
RECORD = re.compile(r"^(?:pub[ \t]+)?(?:record|data)[ \t]+(" + NAME + ")", re.M)
LET = re.compile(r"\blet[ \t]+(" + NAME + r")[ \t]*[:=]")
WORD = re.compile(NAME)
DASHED = re.compile(r"(?<=[\w'₀-₉ℤℕ*])-(?=[\w'₀-₉ℤℕ*])")


def files(pattern):
    return sorted(p for p in CRATES.glob(pattern) if "out" not in p.parts[2:3])


def own_names():
    """The names with a dash that our files declare, but for those that the checker makes."""
    declared, made = set(), set()
    for path in files("*/specs/**/*.antt") + files("*/proofs/**/*.antt"):
        text = path.read_text()
        for found in DECLARED.findall(text) + LET.findall(text):
            if "-" in found:
                declared.add(found)
        made.update(re.findall(r"\bgoal\.(" + NAME + ")", text))
        for group in re.findall(r"\.(?:Goals|Given)\.\{([^}]*)\}", text):
            made.update(x.strip().split(" as ")[0] for x in group.split(","))
    return declared, made


def library_names():
    """The names that our files bring in from the toolchain's library."""
    found = set()
    for path in files("*/specs/**/*.antt") + files("*/proofs/**/*.antt") + files("*/src/**/*.rt"):
        ours = {p.name for p in CRATES.iterdir()}
        for module, group in re.findall(r"^(?:ghost )?use ([\w.·]+)\.\{([^}]*)\}", path.read_text(), re.M):
            parts = module.split(".")
            if parts[0] != "Rattle" or parts[1] not in ours:
                found.update(x.strip().split(" as ")[0] for x in group.split(","))
    return found


def taken():
    """Every name without a dash that is declared in specs/ and proofs/ or stands in the code."""
    found = set()
    for path in files("*/specs/**/*.antt") + files("*/proofs/**/*.antt"):
        found.update(x for x in DECLARED.findall(path.read_text()) if "-" not in x)
    return found


def code_names():
    found = set()
    for path in files("*/src/**/*.rt"):
        text = re.sub(r"//.*", "", path.read_text())
        found.update(re.findall(r"\bfn (\w+)", text))
        found.update(re.findall(r"\b(\w+):", text))
        found.update(re.findall(r"(?:ensures|requires) (\w+) \{", text))
    return found


def camel(name):
    """A type's name in upper camel case."""
    return "".join(part[:1].upper() + part[1:] for part in name.split("-"))


def main():
    declared, made = own_names()
    library = library_names()
    ours = {x for x in declared if x not in made and x not in library and DASHED.search(x)}
    before = taken()
    to = {x: DASHED.sub("_", x) for x in ours}
    clash = {x for x in ours if to[x] in before or to[x] in library}
    by_target = {}
    for x in ours:
        by_target.setdefault(to[x], []).append(x)
    clash |= {x for group in by_target.values() if len(group) > 1 for x in group}
    for x in sorted(clash):
        print(f"falls together, left alone: {x} -> {to[x]}")
    for x in sorted((ours - clash)):
        if to[x] in code_names():
            print(f"also a name of the code: {to[x]}")
    for x in sorted(declared & library):
        print(f"also a name of the library, left alone: {x}")
    names = {x: to[x] for x in ours - clash}
    for path in files("*/specs/**/*.antt") + files("*/proofs/**/*.antt"):
        names.update((x, camel(x)) for x in RECORD.findall(path.read_text()) if "-" in x)

    def word(match):
        return names.get(match.group(0), match.group(0))

    for path in files("*/specs/**/*.antt") + files("*/proofs/**/*.antt"):
        text = path.read_text()
        new = WORD.sub(word, text).replace("′", "'")
        if new != text:
            path.write_text(new)
    for path in files("*/src/**/*.rt") + files("*/must-fail/*.edit"):
        text = path.read_text()
        lines = text.split("\n")
        new = "\n".join(x if x.lstrip().startswith("//") else WORD.sub(word, x) for x in lines)
        if new != text:
            path.write_text(new)
    print(f"{len(names)} names in snake case")


if __name__ == "__main__":
    main()
