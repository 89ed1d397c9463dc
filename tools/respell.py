#!/usr/bin/env python3
"""Brings the repository's own definitions and lemmas to today's spelling: words in snake case, a dash only between two names.

usage: python3 tools/respell.py          at the top of the repository, once, after the kit's port.py
       python3 tools/respell.py --list   only prints the names, old and new

What is respelled: names that stand in specs/ or in a lemma file of proofs/, their fields and constructors. What keeps its name: types and
modules, functions of src/, exported names, strings, and the names that the check makes. Two names that would fall together are told apart by
the ending `_lem` on the lemma.
"""

import os
import re
import sys

LETTER = r"[\w'\-]"
MARKS = r"(?:(?:abbrev|unfoldable|pub|pattern|axiom|record|data|ruleset|syntax) +)*"
NAMES = r"([^\s:(){}=,;.]+(?: [^\s:(){}=,;.]+)*)"
TOP = re.compile(r"^" + MARKS + NAMES + r" +(?:[({].*[)}] *)?: ")
FIELD = re.compile(r"^ +(?:pub +)?" + NAMES + r" +: ")
MADE = ("Proof.antt", "Answers.antt", "Invariants.antt")
# What may stand behind a dash: a function or an operator. Before it stands a definition of specs/, or again one of these.
BEHIND = {"length", "append", "take", "drop", "map", "replicate", "get_or", "suc", "zero", "cons", "snoc", "not", "and", "or", "xor", "minus", "join", "split"}
# Names whose turn by rule would not read well, or would fall on another name.
BY_HAND = {"tab-getD": "tab-get_or"}


def is_made(path):
    """Whether the file is a function's proof, and not a lemma file, which stands right in proofs/."""
    return os.path.basename(path) in MADE and os.path.basename(os.path.dirname(path)) != "proofs"


def files(root):
    for folder, dirs, names in os.walk(os.path.join(root, "crates")):
        dirs[:] = sorted(d for d in dirs if d != "out")
        for name in sorted(names):
            if name.endswith((".antt", ".rt", ".edit")):
                yield os.path.join(folder, name)


def declared(root):
    """Names that specs/ and the lemma files declare, and which of them specs/ declares."""
    every, specs, others = set(), set(), set()
    for path in files(root):
        if not path.endswith(".antt"):
            continue
        made = is_made(path)
        for line in open(path, encoding="utf-8"):
            m = TOP.match(line) or FIELD.match(line)
            for name in m.group(1).split() if m else []:
                (others if made else every).add(name)
                if "/specs/" in path and not made:
                    specs.add(name)
    return every, specs, others


def imported(root):
    """Names that some file takes from outside the repository."""
    own = set(os.listdir(os.path.join(root, "crates")))
    names = set()
    for path in files(root):
        for line in open(path, encoding="utf-8"):
            m = re.match(r"(?:pub )?(?:ghost )?use ([\w.'+-]+)\.\{(.*)\}", line)
            if m and not (m.group(1).startswith("Rattle.") and m.group(1).split(".")[1] in own):
                names |= {n.strip().split(" as ")[0] for n in m.group(2).split(",")}
    return names


def snake(word):
    """One word without dashes: a hump becomes an underscore, and the hump's letter a small one."""
    word = re.sub(r"(?<=[a-z0-9])([A-Z])", lambda m: "_" + m.group(1).lower(), word)
    return re.sub(r"(?<=[a-z])ℤ", "_ℤ", word)


def joined(parts, known):
    """A dash stays between two names; other parts hang on by underscores."""
    for cut in range(len(parts) - 1, 0, -1):
        head, tail = "_".join(parts[:cut]), "_".join(parts[cut:])
        if head in known and tail in BEHIND:
            return head + "-" + tail
    return "_".join(parts)


def spelled(name, known):
    if not name[0].islower() or not (("-" in name) or re.search(r"[a-z0-9][A-Z]", name)):
        return name
    parts = [snake(p) for p in name.split("-")]
    return joined([p if re.search(r"[A-Z][A-Z]", p) else p.lower() if p.isascii() else p for p in parts], known)


def table(root):
    every, specs, others = declared(root)
    every -= imported(root)
    known = {snake(n) for n in specs if "-" not in n} | BEHIND
    new = {n: to for n, to in BY_HAND.items() if n in every}
    taken = {n for n in every | others if n not in new and spelled(n, known) == n} | set(new.values())
    # definitions first, so that of two names that fall together the lemma gets the ending
    for name in sorted(every, key=lambda n: ("-" in n, n)):
        to = spelled(name, known)
        if to == name or name in new:
            continue
        if "-" not in name and to in every and to not in specs:
            new[to] = to + "_lem"  # a lemma had the name that its definition gets
        else:
            while to in taken:
                to += "_lem"
        taken.add(to)
        new[name] = to
    return new


def functions(root):
    """The functions of src/, whose names keep their spelling wherever a proof goes by them."""
    return {n for path in files(root) if path.endswith(".rt") for n in re.findall(r"\bfn (\w+)", open(path, encoding="utf-8").read())}


def respell(text, new, pattern, path, code):
    made = is_made(path)

    def word(m):
        name = m.group(0)
        if made and m.start() and m.string[m.start() - 1] == "." and name.replace("-", "_") in code:
            return name.replace("-", "_")
        return new[name]

    def line_of(line):
        if path.endswith(".rt"):
            parts = re.split(r'("(?:[^"\\]|\\.)*")', line)
        else:
            parts = [line]
        return "".join(p if i % 2 else pattern.sub(word, p) for i, p in enumerate(parts))

    return "\n".join(line_of(l) for l in text.split("\n"))


def main(argv):
    root = os.getcwd()
    new, code = table(root), functions(root)
    if argv == ["--list"]:
        for name in sorted(new):
            print(name, new[name])
        return 0
    alternatives = "|".join(re.escape(n) for n in sorted(new, key=len, reverse=True))
    pattern = re.compile(rf"(?<!{LETTER})(?:{alternatives})(?!{LETTER})")
    for path in files(root):
        text = open(path, encoding="utf-8").read()
        turned = respell(text, new, pattern, path, code)
        if turned != text:
            open(path, "w", encoding="utf-8").write(turned)
    pages = [os.path.join(root, "README.md")] + [os.path.join(root, "docs", f) for f in sorted(os.listdir(os.path.join(root, "docs"))) if f.endswith(".md")]
    for path in pages:
        text = open(path, encoding="utf-8").read()
        turned = re.sub(r"`[^`\n]*`", lambda m: pattern.sub(lambda n: new[n.group(0)], m.group(0)), text)
        if turned != text:
            open(path, "w", encoding="utf-8").write(turned)
    print(f"{len(new)} names")
    return 0


if __name__ == "__main__":
    raise SystemExit(main(sys.argv[1:]))
