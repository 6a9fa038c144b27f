#!/usr/bin/env python3
"""Holds the house to its order; the gate fails where it does not hold.

1. What must be believed rests on definitions alone: no file of specs/ and no contract cites a module of proofs/, of any crate, by a `use`
   or by a name written out. The library's own proofs/ pass some of its definitions on, and these few may be cited there.
2. Nothing is kept that serves nobody: what no source, specification or proof cites outside its own definition is a result for a reader, and
   docs/GUIDE.md names it, or it is to go. A public function that no other source calls is for a caller, and docs/GUIDE.md names it.
3. README.md says how many lines there are to believe: the specs/ of all crates, imports, `mod` and blank lines aside, but for Code.antt,
   which only private contracts cite, for the listed numbers, and for the cases of `edges`, on which nothing rests.
"""

import pathlib
import re
import sys

ROOT = pathlib.Path(__file__).resolve().parent.parent
MARKS = {"abbrev", "unfoldable", "pub"}
NOT_NAMES = {"use", "mod", "module", "open", "unfolding", "infix", "infixl", "infixr", "where", "let", "in"}
LISTED = {"Numbers48.antt"}
# What a function's proof answers and states stands under the names of its goals.
OF_GOALS = {"Answers.antt", "Invariants.antt", "Proof.antt"}
# Definitions of the library that stand in none of its specs/, by the module of its proofs/ that passes them on.
PASSED_ON = {
    "Common": {"Fits", "SFits", "to_z"},
    "Math.Seq": {"slice"},
    "lemmas.List.Edits": {"sets"},
}


def read(path):
    return path.read_text(encoding="utf-8")


def believed():
    """The lines that a reader has to believe, by crate."""
    lines = {}
    for path in sorted(ROOT.glob("crates/*/specs/*.antt")):
        crate = path.parent.parent.name
        if path.name not in LISTED and path.name != "Code.antt" and crate != "edges":
            said = [line for line in read(path).splitlines() if line.strip() and not line.startswith(("use ", "pub mod "))]
            lines[crate] = lines.get(crate, 0) + len(said)
    return lines


def is_passed_on(cited):
    """Whether a name of a module of proofs/, with what a `use` takes of it, is a definition of the library that it passes on."""
    module = re.fullmatch(r"Rattle\.std\.proofs\.([\w.]+?)\.(?:\{([^}]*)\}|([^\s.{}]+))", cited)
    return bool(module) and {name.split()[0] for name in (module[2] or module[3]).split(",")} <= PASSED_ON.get(module[1], set())


def resting_on_proofs():
    """A module of proofs/, wherever it is named outside a comment."""
    cite = re.compile(r"Rattle\.\w+\.proofs\b(?:\.\{[^}]*\}|[^\s(){};,])*")
    files = sorted(ROOT.glob("crates/*/specs/**/*.antt")) + sorted(ROOT.glob("crates/*/src/**/*.rt"))
    return [f"{p.relative_to(ROOT)}: {line.strip()}" for p in files for line in read(p).split("\n")
            if not all(map(is_passed_on, cite.findall(re.split(r"(?:^|\s)(?:--|//)", line)[0])))]


def uncalled():
    """Public functions, methods included, that stand in no other line of source and that the guide does not name."""
    named = set(re.findall(r"\w+", " ".join(re.findall(r"`([^`]+)`", read(ROOT / "docs/GUIDE.md")))))
    lines = [(path, line) for path in sorted(ROOT.glob("crates/*/src/**/*.rt")) for line in read(path).split("\n")
             if not line.lstrip().startswith(("//", "ghost use"))]
    declared = re.compile(r"\s*pub (?:extern \"C\" )?fn (\w+)")
    found = []
    for path, line in lines:
        name = declared.match(line)
        if name and name[1] not in named:
            calls = re.compile(rf"(?<!fn )\b{name[1]}\(")
            if not any(calls.search(other) for _, other in lines):
                found.append(f"{path.relative_to(ROOT)}: {name[1]}")
    return found


def words(text):
    """The words of a text, and what a name with places in it, as ◌+◌, is made of."""
    found = set()
    for line in text.split("\n"):
        line = line.strip()
        if line.startswith(("--", "//", "use ", "ghost use ")):
            continue
        for word in re.split(r"[\s(){},;⟦⟧«»]+", line):
            found.add(word)
            found.update(re.split(r"\.|::|\]", word))
    return found


def defined(line):
    """The name that a line declares, if it does."""
    rest = line.split()
    while rest and rest[0] in MARKS:
        rest.pop(0)
    if len(rest) > 1 and rest[0] in ("record", "data", "ruleset"):
        return rest[1]
    if len(rest) > 1 and rest[0] not in NOT_NAMES and (rest[1] == ":" or rest[1].startswith("{") and ":" in rest):
        return rest[0]
    return None


def blocks(text):
    """(name, text) of each declaration at the top of a module or of a section in it, and (None, text) of the rest."""
    out, name, lines, depth = [], None, [], 0
    for line in text.split("\n"):
        indent = len(line) - len(line.lstrip())
        if line.strip() and not line.lstrip().startswith("--"):
            starts = defined(line)
            if line.lstrip().startswith("module _"):
                out.append((name, "\n".join(lines)))
                name, lines, depth = None, [], indent + 2
            elif starts and indent <= depth:
                out.append((name, "\n".join(lines)))
                name, lines, depth = starts, [], indent
        lines.append(line)
    return out + [(name, "\n".join(lines))]


def uncited():
    named = set(re.findall(r"`([^`]+)`", read(ROOT / "docs/GUIDE.md")))
    pieces = []  # (file, name, words)
    for path in sorted([*ROOT.glob("crates/*/specs/**/*.antt"), *ROOT.glob("crates/*/proofs/**/*.antt")]):
        pieces += [(path, name, words(block)) for name, block in blocks(read(path))]
    for path in sorted(ROOT.glob("crates/*/src/**/*.rt")):
        pieces.append((path, None, words(read(path))))
    where = {}
    for index, (_, _, found) in enumerate(pieces):
        for word in found:
            where.setdefault(word, set()).add(index)
    stray = []
    for index, (path, name, _) in enumerate(pieces):
        if name is None or path.name in OF_GOALS or name in named:
            continue
        parts = [part for part in name.split("◌") if part]
        together = set.intersection(*(where.get(part, set()) for part in parts))
        if not (together | where.get(name, set())) - {index}:
            stray.append(f"{path.relative_to(ROOT)}: {name}")
    return stray


def main():
    by_crate = believed()
    lines = sum(by_crate.values())
    said = re.search(r"(\d+) lines to believe", read(ROOT / "README.md"))
    count = [] if said and int(said.group(1)) == lines else [f"README.md: there are {lines} lines to believe"]
    faults = 0
    for title, found in (
        ("rests on proofs", resting_on_proofs()),
        ("nothing cites it, and the guide does not name it", uncited()),
        ("nothing calls it, and the guide does not name it", uncalled()),
        ("not so", count),
    ):
        for fault in found:
            print(f"{title}: {fault}")
        faults += len(found)
    print(f"{lines} lines to believe:", ", ".join(f"{crate} {count}" for crate, count in by_crate.items()))
    sys.exit(1 if faults else 0)


if __name__ == "__main__":
    main()
