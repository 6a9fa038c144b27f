#!/usr/bin/env python3
"""Brings the repository's own names in .antt and .rt files to one spelling: words in snake case.

usage: tools/respell.py [ROOT] [--dry]

Run once, at the top, on files in the form that the kit's port.py leaves. A name counts as the repository's own where an .antt file declares
it, at any depth; a name that a file brings in from a library keeps its spelling there. Names that begin with a capital are types and modules
and keep theirs, and so do the names of goals, which the checker makes. In comments and in pages a name is respelled where it stands in
backticks, one in camel case everywhere. What would fall together is printed, and nothing is written then.
"""
import os
import re
import sys

ID = r"[^\s(){}\[\];,\"«».`]+"
TOKEN = re.compile(ID)
WORDS = r"(?:(?:pub|abbrev|unfoldable|private|mutual)\s+)*"
DECLARED = re.compile(r"^\s*(?:\|\s*)?" + WORDS + "(" + ID + r")((?:\s+" + ID + r")*)\s*(?:\{[^}]*\}\s*|\([^)]*\)\s*)*:\s")
LOCAL = re.compile(r"\b(?:let|in)\s+(" + ID + r")\s*(?::|=)")
BOUND = re.compile(r"[({](" + ID + r"(?:\s+" + ID + r")*)\s+:\s")
USED = re.compile(r"^\s*(?:pub\s+)?(?:ghost\s+)?use\s+([^\s{;]+?)\.\{([^}]*)\}", re.S | re.M)
# Names that would fall together with a field's, which a clause could not tell apart, or with another definition's.
GIVEN = {"binary-exponent": "binary_exponent_of", "errorBound": "error_bound_of", "refusal-number": "denial_number"}
SKIPPED = {"record", "data", "let", "use", "module", "in", "λ", "where", "elim", "if", "then", "else", "→", "×", "="}
LETTER = r"0-9A-Za-z\u0370-\u03ff\u2100-\u214f\u1d00-\u1dbf\u2070-\u209f\u00b2\u00b3\u00b9⩽⋖"


def spelled(name):
    """The name in snake case; a dash before or behind an operator stays, since it joins two names."""
    if name[0].isupper() or not re.match(r"[^\W\d_]|[*+⩽⋖≤<]", name):
        return name
    if re.fullmatch(r"[a-z]-\d.*", name) and re.search(r"[+]", name):
        return name
    s = re.sub(r"(?<=[" + LETTER + r"'])-(?=[" + LETTER + r"])", "_", name)
    s = re.sub(r"(?<=[a-z0-9])([A-Z])(?=[a-z0-9_']|$)", lambda m: "_" + m.group(1).lower(), s)
    s = re.sub(r"(?<=[a-z0-9])(?=[ℤℕ])", "_", s)
    return s


def files(root):
    for folder, dirs, names in os.walk(os.path.join(root, "crates")):
        dirs[:] = sorted(d for d in dirs if d not in ("out", ".git", "must-fail"))
        for n in sorted(names):
            if n.endswith((".antt", ".rt")):
                yield os.path.join(folder, n)


def pages(root):
    for top in ("README.md", "docs", "tests", "bench", "include", "examples"):
        path = os.path.join(root, top)
        if os.path.isfile(path):
            yield path
        for folder, dirs, names in os.walk(path):
            dirs[:] = sorted(d for d in dirs if d not in ("target", "__pycache__"))
            for n in sorted(names):
                if n.endswith((".md", ".py", ".h", ".c", ".rs", ".sh")):
                    yield os.path.join(folder, n)


def parted(line):
    """The text of a line and its comment."""
    m = re.search(r"(?:^|\s)(--|//)(?=\s|$)", line)
    return (line, "") if not m else (line[: m.start(1)], line[m.start(1) :])


def declared(path, text):
    """The names that a file declares, those of goals in a function's proof aside."""
    own = set()
    goals = os.path.basename(path) == "Proof.antt"
    for line in text.splitlines():
        code, _ = parted(line)
        m = DECLARED.match(code)
        if m and not (goals and re.search(r"\b(tie\.Need|statement\b)", code)):
            own.update([m.group(1), *m.group(2).split()])
        for m in list(LOCAL.finditer(code)) + list(BOUND.finditer(code)):
            own.update(m.group(1).split())
    return own - SKIPPED


def brought(text):
    """The names that a file has from a library, and those that it has from the repository."""
    library, ours = set(), set()
    for module, names in USED.findall(text):
        own = re.match(r"Rattle\.(?!std\b|core\b|bytes\b|io\b)\w+", module)
        for n in names.split(","):
            words = n.split()
            if words:
                (ours if own else library).update(words[:1] + words[2:])
    return library, ours


def main(argv):
    root = next((a for a in argv if not a.startswith("--")), ".")
    texts = {p: open(p, encoding="utf-8").read() for p in files(root)}
    own = set()
    for p, t in texts.items():
        if p.endswith(".antt"):
            own |= declared(p, t)
    # A definition may have the name of the function that it mirrors; a lemma may not have its definition's, and gets `_lem`.
    mirrored = set()
    for p, t in texts.items():
        if p.endswith(".rt"):
            mirrored.update(re.findall(r"\b(?:fn|mod) ([a-z_0-9]+)", t))
    mirrored.update(os.listdir(os.path.join(root, "crates")))
    turned = {n: GIVEN.get(n, spelled(n)) for n in own if spelled(n) != n}
    camel = {new for n, new in turned.items() if "-" not in n}
    for n, new in turned.items():
        if "-" in n and (new in camel or new in own) and not (new in mirrored and new not in own and new not in camel):
            turned[n] = new + "_lem"
    bad = []
    made = {}
    for p, t in texts.items():
        library, ours = brought(t)
        kept = {n for n in library if n in turned and n not in ours}
        goals = {m.group(1) for m in re.finditer(r"^(" + ID + r") : tie\.Need", t, re.M)} if p.endswith("Proof.antt") else set()
        kept |= {n for n in goals if n not in ours}
        before = set()
        for line in t.splitlines():
            before.update(TOKEN.findall(parted(line)[0]))

        aliases = set(re.findall(r"^\s*(?:pub\s+)?(?:ghost\s+)?use\s+(?!Rattle\.(?!std\b))\S+\s+as\s+([^\s;]+)", t, re.M))

        def turn(m, kept=kept, aliases=aliases):
            n, front = m.group(0), m.string[: m.start()]
            if n in kept and not front.endswith("."):
                return n
            if front.endswith(".") and re.split(r"[^\w.]", front[:-1])[-1] in aliases:
                return n
            return turned.get(n, n)

        def turn_words(m):
            return "`" + TOKEN.sub(lambda w: turned.get(w.group(0), w.group(0)), m.group(1)) + "`"

        out = []
        for line in t.splitlines(keepends=True):
            code, comment = parted(line)
            comment = re.sub(r"`([^`]*)`", turn_words, comment)
            comment = re.sub(r"\b[a-z]+[a-z0-9]*(?:[A-Z][a-z0-9]*)+\b", lambda m: turned.get(m.group(0), m.group(0)), comment)
            parts = re.split(r'(b?"(?:[^"\\]|\\.)*")', code) if p.endswith(".rt") else [code]
            out.append("".join(s if k % 2 else TOKEN.sub(turn, s) for k, s in enumerate(parts)) + comment)
        made[p] = "".join(out)
        after = {}
        for n in before:
            if n in turned and n not in kept:
                after.setdefault(turned[n], set()).add(n)
        for new, olds in after.items():
            if len(olds) > 1 or (new in before and new not in mirrored):
                bad.append(f"{os.path.relpath(p, root)}: {', '.join(sorted(olds))}{' and ' + new if new in before else ''} would be {new}")
    for line in bad:
        print(line)
    print(f"{len(own)} names, {len(turned)} to be respelled, {len(bad)} that fall together")
    if "--names" in argv:
        for n in sorted(turned):
            print(n, turned[n])
    if bad or "--dry" in argv:
        return 1 if bad else 0
    for p, t in made.items():
        if t != texts[p]:
            open(p, "w", encoding="utf-8").write(t)
    for p in pages(root):
        t = open(p, encoding="utf-8").read()
        new = re.sub(r"`([^`\n]*)`", lambda m: "`" + TOKEN.sub(lambda w: turned.get(w.group(0), w.group(0)), m.group(1)) + "`", t)
        if new != t:
            open(p, "w", encoding="utf-8").write(new)
    return 0


if __name__ == "__main__":
    raise SystemExit(main(sys.argv[1:]))
