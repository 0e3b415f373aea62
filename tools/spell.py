#!/usr/bin/env python3
"""Brings the names of this repository's own definitions and lemmas to today's spelling: snake case, with a dash
only where it joins two names (`length-take`), types and modules in upper camel case.

usage: python3 tools/spell.py [--dry]     at the top, once, right after port.py

It reads which names the files of specs/ and proofs/ declare, and rewrites them there, in the clauses of src/, in
must-fail/ and in the pages. Names of the source, strings, inputs and outputs stay. What falls together is printed.
"""

import glob
import re
import sys

NAME = r"[^\s(){}.;,@\"«»`]+"
DECLARED = re.compile(
    r"^(\s*)((?:(?:abbrev|unfoldable|pub|instance|constructor|private|opaque) )*)(?:record |data )?(" + NAME
    + r")((?: \{[^{}\n]*\})*(?: \((?:[^()\n]|\([^()\n]*\))*\))*) :(?=\s|$)"
)
# Words of the library that a lemma of ours joins to another name.
WORDS = {"length", "take", "drop", "append", "set", "replicate", "suc", "zero", "add", "mul", "sub", "div", "le", "lt", "min", "max", "true", "false", "and", "or", "not", "nil", "cons", "slice", "get_or"}
# A variable, which no file declares.
VARIABLES = {"isOpen": "is_open"}
# A name of a goal or of a step of the code: these are Rattle's, and the proofs' own turn with them.
GOALS = re.compile(r": (?:\([^)]*\) → )?(?:tie|lts)\.(?:Need-|invariant-|decreases-)")


def snake(word):
    if word[:1].isupper():
        return word
    return re.sub(r"(?<=[a-z0-9])[A-Z]", lambda m: "_" + m[0].lower(), word)


def read(path):
    with open(path, encoding="utf-8") as f:
        return f.read()


def declared():
    """The names that files declare, those of specs/ among them, and the fields."""
    names, words, stated, fields = set(), set(), set(), set()
    for path in sorted(glob.glob("crates/*/specs/**/*.antt", recursive=True) + glob.glob("crates/*/proofs/**/*.antt", recursive=True)):
        in_record = False
        for line in read(path).split("\n"):
            if re.match(r"(pub )?(record|data) ", line):
                in_record = True
            elif line and not line[0].isspace():
                in_record = False
            m = DECLARED.match(line)
            if not m or m[3] in ("use", "module", "λ", "let", "in", "--", "where", "infixl") or m[3].startswith("--"):
                continue
            if GOALS.search(line):
                continue
            names.add(m[3])
            if in_record and m[1]:
                fields.add(m[3])
            if "/specs/" in path:
                words.add(snake(m[3]))
                stated.add(m[3])
    return names, words, stated, fields


def spelled(name, words, fields):
    """The name in today's spelling: a dash stays between two names, and another is an underscore. A field has none."""
    if not re.fullmatch(r"[\w'₀-₉+μ-]+", name) or "-" not in name.strip("-") and not re.search(r"[a-z0-9][A-Z]", name):
        return name
    head = "+" if name.startswith("+") else ""
    parts = [snake(p) for p in name[len(head):].split("-")]
    known = words | WORDS
    groups, i = [], 0
    while i < len(parts):
        for n in range(len(parts) - i, 0, -1):
            it = "_".join(parts[i : i + n])
            if n == 1 or it in known:
                groups.append(it)
                i += n
                break
    return head + ("-" if name not in fields and all(g in known for g in groups) else "_").join(groups)


def main():
    dry = "--dry" in sys.argv
    names, words, stated, fields = declared()
    turned = {n: spelled(n, words, fields) for n in names}
    turned = {a: b for a, b in turned.items() if a != b}
    # A lemma that would have its definition's name gets `_lem`.
    back = {}
    for a, b in turned.items():
        back.setdefault(b, set()).add(a)
    for b, from_ in sorted(back.items()):
        met = sorted(from_ | ({b} & names))
        if len(met) > 1:
            lemmas = [n for n in met if "-" in n] or [n for n in met if "_" in n and n not in stated]
            if len(lemmas) != 1 or len(met) != 2:
                raise SystemExit(f"falls together: {b} from {met}")
            turned[lemmas[0]] = b + "_lem"
            print(f"falls together: {met}, so the lemma {lemmas[0]} is {b}_lem")
    # So does one that would have the name of something that its file brings in from a library.
    brought = set()
    for path in glob.glob("crates/*/proofs/**/*.antt", recursive=True) + glob.glob("crates/*/specs/**/*.antt", recursive=True):
        for m in re.finditer(r"(?m)^use ([^\s{]+)\.\{([^}]*)\}", read(path)):
            if not re.match(r"Rattle\.(?!std\b)", m[1]):
                brought |= {n.split()[-1] for n in m[2].split(",") if n.strip()}
    for a, b in sorted(turned.items()):
        if b in brought:
            turned[a] = b + "_lem"
            print(f"{b} is a library's, so {a} is {b}_lem")

    turned |= VARIABLES
    token = re.compile(r"(?<![^\s(){}.;,@\"«»`])(" + NAME + r")")

    def antt(text, path):
        def one(m):
            n = m[1]
            if n not in turned:
                return n
            if text[m.start() - 1 : m.start()] == "." and n not in fields:
                before = re.search(r"([^\s(){};,@\"«»`]+)\.$", text[max(0, m.start() - 200) : m.start()])
                last = before[1].split(".")[-1] if before else ""
                if not (before and (before[1].startswith("Rattle.") or last[:1].isupper())):
                    print("left:", path, (before[1] if before else "?") + "." + n)
                    return n
            return turned[n]

        return token.sub(one, text)

    for path in sorted(glob.glob("crates/*/specs/**/*.antt", recursive=True) + glob.glob("crates/*/proofs/**/*.antt", recursive=True)):
        old = read(path)
        put(path, old, antt(old, path), dry)
    # A hyphen or an inner capital after a small letter stands in no name of the source, so only clauses turn.
    strings = re.compile(r'"(?:[^"\\\n]|\\.)*"')
    for path in sorted(glob.glob("crates/*/src/**/*.rt", recursive=True) + glob.glob("crates/*/must-fail/*.edit")):
        old = read(path)
        kept = []

        def keep(m):
            kept.append(m[0])
            return f"\0{len(kept) - 1}\0"

        text = antt(strings.sub(keep, old), path)
        put(path, old, re.sub(r"\0(\d+)\0", lambda m: kept[int(m[1])], text), dry)
    for path in ["README.md", "CONTRIBUTING.md"] + sorted(glob.glob("docs/*.md")):
        old = read(path)
        put(path, old, re.sub(r"`[^`\n]+`", lambda m: token.sub(lambda t: turned.get(t[1], t[1]), m[0]), old), dry)
    if dry:
        for a, b in sorted(turned.items()):
            print(a, "->", b)


def put(path, old, new, dry):
    if new != old and not dry:
        with open(path, "w", encoding="utf-8") as f:
            f.write(new)


main()
