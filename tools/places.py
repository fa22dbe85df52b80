#!/usr/bin/env python3
"""Counts the places where code is written in an older form than the language has.

    python3 tools/places.py [--list] [ROOT]

ROOT is a checkout, by default the one that this file stands in. Each line of the answer is one kind of place, with how many there
are; --list prints every place too. Nothing here decides whether a place should change: docs/DESIGN-PASS.md does.
"""
import re
import sys
from collections import defaultdict
from pathlib import Path

LIST = "--list" in sys.argv
ARGS = [a for a in sys.argv[1:] if not a.startswith("--")]
ROOT = Path(ARGS[0]) if ARGS else Path(__file__).resolve().parent.parent


def sources():
    for path in sorted(ROOT.glob("crates/*/src/**/*.rt")):
        yield path, path.read_text()


def code(text):
    """The text with comments and ghost imports blanked, line for line."""
    out = []
    for line in text.split("\n"):
        bare = line.strip()
        out.append("" if bare.startswith("//") or bare.startswith("ghost use") else line)
    return "\n".join(out)


FILES = [(path, code(text)) for path, text in sources()]
# A clause is no code: `ensures { .. }` and `requires { .. }` lines are left out where code is counted.
BODIES = [(path, "\n".join("" if re.match(r"\s*(ensures|requires|ghost)\b", l) else l for l in text.split("\n"))) for path, text in FILES]


def short(path):
    return str(path.relative_to(ROOT / "crates")).replace("/src/", " ")


def found(pattern, texts=BODIES, flags=re.M):
    places = []
    for path, text in texts:
        for m in re.finditer(pattern, text, flags):
            line = text.count("\n", 0, m.start() + len(m.group(0)) - len(m.group(0).lstrip())) + 1
            places.append(f"{short(path)}:{line}: {' '.join(m.group(0).split())[:110]}")
    return places


def tell(point, what, places):
    print(f"{point}  {len(places):4}  {what}")
    if LIST:
        for place in places:
            print(f"            {place}")


# 1. Options and results
tell(1, "arms and tests that only hand a None or an Err on",
     found(r"None => (?:return )?(?:None|Err\([^)]*\)+|Ok\(None\)|0|999|\[999; 4\]|Hulls\.zero\(\)|return Hulls\.zero\(\))[,;]")
     + found(r"Err\((\w+)\) => (?:return )?Err\(\1\)[,;]?$")
     + found(r"if let Err\((\w+)\) = [^{]*\{\s*return Err\(\1\);")
     + found(r"_ => (?:return )?None,"))
tell(1, "numbers in place of a missing value, a kind or a refusal",
     found(r"\b999\b|\[999; 4\]") + found(r"\.number\(\) ==|fault\.number\(\)(?! as)|Err\(fault\) => fault\.number\(\)[^,]*,|Ok\(\(\)\) => 0,") + found(r"match numbers\[0\]"))
tell(1, "flags: a truth value passed in, or answered beside a write", found(r"\bfn \w+[^{;]*?\b\w+: bool[^{;]*", flags=re.M | re.S) + found(r"\bfn \w+(?:<[^>]*>)?\(\s*(?:&mut self|\w+: &mut \[)[^{;]*?-> bool", flags=re.M | re.S))
tell(1, "own enums", found(r"^\s*pub(?:\([a-z]+\))? enum \w+"))

# 2. Twins
names = defaultdict(list)
for path, text in BODIES:
    for m in re.finditer(r"^(?:pub(?:\([a-z]+\))? )?(?:fn|struct|enum) (\w+)", text, re.M):
        if m.group(1) not in ("main", "answer"):
            names[m.group(1)].append(f"{short(path)}: {m.group(1)}")
tell(2, "free functions and types whose name stands in more than one file", [p for ps in names.values() if len(ps) > 1 for p in ps])
clauses = defaultdict(list)
for path, text in FILES:
    for m in re.finditer(r"fn (\w+)([^{;]*?)((?:\s*(?:requires|ensures)\s*\w*\s*\{[^\n]*\}\s*\n)+)", text):
        clauses[(path.parts[-3], " ".join(m.group(3).split()))].append(f"{short(path)}: {m.group(1)}")
tell(2, "functions of one crate with the same contract", [p for ps in clauses.values() if len(ps) > 1 for p in ps])
tell(2, "range tests of a number from both sides, written out", found(r"(?:< -[\d_]+|>= -[\d_]+)"))

# 3. Loops
tell(3, "loops over a range of numbers", found(r"\bfor \w+ in [^{]*\.\.[^{]*\{"))
tell(3, "loops that go over elements and only test or look for one", found(r"for \w+ in [^{.]*\{\s*if [^{]*\{\s*return (?:true|false|None|Some[^;]*);\s*\}\s*\}"))
tell(3, "while loops", found(r"\bwhile\b[^{]*"))

# 4. Equality, order, copying, conversion and printing
tell(4, "equality by fields", found(r"\.price == [^&]*&& [^{}]*\.pressure == |cost\.price != "))
tell(4, "least and greatest by hand", found(r"if \w+(?:\.\w+)? < \w+(?:\.\w+)? \{"))
tell(4, "conversions of a number by `as`", found(r"\b[\w.)\]]+ as (?:u|i)(?:8|16|32|64|size)\b"))
tell(4, "values made of zeros, field by field", found(r"(?:price: 0,\s*pressure: 0|segment: 0,\s*choice: 0|Weight \{ a: 0, b: 0 \}|Ray \{ a: 0, b: 0 \}|Tally \{ count: 0 \}|tail: 0,\s*head: 0,\s*count: 0)"))
tell(4, "values printed part by part by their user", found(r"let (\w+) = (?!self\b)\w+\.\1;|Pair \{\s*first:|let (\w+) = self\.\w+\.\w+;"))
tell(4, "types without equality or a text for tests", found(r"#\[derive\((?![^)]*Debug)[^)]*\)\]\s*pub(?:\([a-z]+\))? (?:struct|enum) \w+"))

# 5. Facts and parameters that repeat
parts = defaultdict(set)
for path, text in FILES:
    for m in re.finditer(r"fn (\w+)[^{;]*?((?:\s*(?:requires|ensures)\s*\w*\s*\{[^\n]*\}\s*\n)+)", text):
        for line in m.group(2).split("\n"):
            body = re.match(r"\s*(?:requires|ensures)\s*\w*\s*\{(.*)\}\s*$", line)
            if body:
                for part in body.group(1).split(" → ") if "λ" not in body.group(1) else [body.group(1)]:
                    parts[" ".join(part.split())].add(f"{short(path)}: {m.group(1)}")
tell(5, "facts that stand in three contracts or more", [f"{len(fs)} times: {part[:90]}" for part, fs in parts.items() if len(fs) >= 3 and "≡" in part or len(fs) >= 3 and "Stands" in part])
groups = defaultdict(set)
for path, text in BODIES:
    for m in re.finditer(r"fn (\w+)(?:<[^>]*>)?\(([^)]*)\)", text):
        params = [p.strip() for p in m.group(2).split(",") if ":" in p]
        for size in range(3, len(params) + 1):
            for at in range(len(params) - size + 1):
                groups[tuple(params[at:at + size])].add(f"{short(path)}: {m.group(1)}")
wide = {g: fs for g, fs in groups.items() if len(fs) >= 3}
tell(5, "parameters, three or more, that travel together through three functions or more",
     [f"{len(fs)} times: {', '.join(g)}" for g, fs in wide.items() if not any(set(g) < set(h) and len(wide[h]) >= len(fs) for h in wide)])

# 6. Buffers
tell(6, "fields that count what is used of an array beside them", found(r"(?:pub(?:\([a-z]+\))? )?(?:count|corners|weights|segments): usize,"))
tell(6, "arrays filled in a function", found(r"let mut \w+ = \[[^\n]*; \d+\];|let mut \w+ = \[\w+ \{[^\]]*\}; \d+\];", flags=re.M | re.S))

# 7. Switches
tell(7, "switches on which step to run", found(r"match (?:call|item|tag|reply|\*answer|numbers\[0\]|\*op)\b[^{]*\{"))

# 8. Proofs
answers = sorted(ROOT.glob("crates/*/proofs/**/Answers.antt"))
lemmas = sorted(p for p in ROOT.glob("crates/*/proofs/**/*.antt") if p.name not in ("Answers.antt", "Invariants.antt", "Lib.antt"))
given = sum(len(re.findall(r"^pub [\w-]+ : goal\.", p.read_text(), re.M)) for p in answers)
print(f"8  {len(answers):4}  files of answers, with {given} answers")
print(f"8  {len(lemmas):4}  files of lemmas; {sum(len(p.read_text().splitlines()) for p in ROOT.glob('crates/*/proofs/**/*.antt'))} lines of proofs in all")
