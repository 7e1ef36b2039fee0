#!/usr/bin/env python3
"""Turns the repository's own names to the spelling of today's Rattle: words in snake case, types and modules in camel case.

usage: python3 tools/respell.py [--list]     at the top, once, after port.py

It takes the names that specs/ and proofs/ declare (definitions, lemmas, fields, constructors and what a where-block names), and turns
those in camel case with a small first letter, and those with dashes, wherever they stand: in antt, in clauses, in must-fail edits and,
between backticks, in pages. A lemma `only-NAME` keeps its dash, which joins two names; NAME is then spelled as the source has it. A side's
letter keeps its capital (`of-A` is `of_A`, beside `ofA`, which is `of_a`). Names of src/ and names that Rattle makes are left alone.
"""
import collections
import glob
import re
import sys

WORD = re.compile(r"[\w'\u2080-\u2089\u25cc-]+")
MADE = re.compile(r"^\s*\S+ : (?:\([^)]*\) → )?tie\.|^\s*(?:pub )?\S+ : \{M : Type 1\} → statement M")
# Names with a word of the older library in them, and two lemmas on the digits of `bit_or` and `bit_and`.
ODD = {"getD-each": "get_or_each", "bit-or": "bit-bit_or", "bit-and": "bit-bit_and", "machineSteps": "machine_steps", "some-a": "some_a", "some-b": "some_b"}
# A register of Figure 2 that port.py took for a word of a library's.
BACK = {"Ra": "RA"}
# Lemmas that have the name of their function already.
NAMED_SO = {"crates/boundary/specs/ReadRunsLaws.antt": ["all_named"], "crates/recording/specs/VerdictLaws.antt": ["comes_back"]}


def snake(name):
    if name in ODD:
        return ODD[name]
    only = re.match(r"((?:\w+-)?)only-(.+)$", name)
    if only:
        return only[1] + "only-" + snake(only[2])
    if "-" in name:
        parts = [re.sub(r"(?<=[a-z0-9])([A-Z])", lambda m: "_" + m[1].lower(), p) for p in name.split("-")]
        return "_".join(parts)
    return re.sub(r"(?<=[a-z0-9])([A-Z]+)", lambda m: "_" + m[1].lower(), name)


def declared():
    """Returns where each name is declared, and the fields of records."""
    names, fields = collections.defaultdict(set), set()
    for path in sorted(glob.glob("crates/*/specs/**/*.antt", recursive=True) + glob.glob("crates/*/proofs/**/*.antt", recursive=True)):
        with open(path, encoding="utf-8") as f:
            lines = f.read().split("\n")
        walked, inside = path.endswith("Proof.antt"), None
        for line in lines:
            begins = re.match(r"(\s*)(?:pub )?record (?:pub )?\S+.* where$", line)
            if begins:
                inside = len(begins[1]) + 2
            if line.startswith("--") or walked and MADE.match(line):
                continue
            m = re.match(r"\s*(?:(?:pub|unfoldable|abbrev|let)\s+)*([^\s:(){}=]+(?: [^\s:(){}=]+)*) :(?: |$)", line)
            for name in m[1].split(" ") if m else re.findall(r"\blet (\S+) =", line) + re.findall(r"module _ \((\w+) :", line):
                names[name].add(path)
            if inside is not None and line.strip() and not begins:
                if len(line) - len(line.lstrip()) < inside:
                    inside = None
                elif m:
                    fields.update(m[1].split(" "))
    return names, fields


def main():
    names, fields = declared()
    turned = {}
    names["machineSteps"].add("")
    for name in names:
        if not re.match(r"[a-z]", name) or not WORD.fullmatch(name):
            continue
        new = snake(name)
        # port.py turned some lemmas `only-NAME` already: they take their dash back
        if re.match(r"only_(end|next|part|step)$", name):
            new = "only-" + name[5:]
        if new != name:
            turned[name] = new
    turned.update(BACK)
    back = collections.defaultdict(set)
    for old, new in turned.items():
        back[new].add(old)
    texts = {}
    for pattern in ("crates/*/specs/**/*.antt", "crates/*/proofs/**/*.antt", "crates/*/src/**/*.rt", "crates/*/must-fail/*.edit", "README.md", "docs/*.md"):
        for path in sorted(glob.glob(pattern, recursive=True)):
            if path == "docs/PORT.md":
                continue
            with open(path, encoding="utf-8") as f:
                texts[path] = f.read()
    # A lemma that would have its function's name gets `_lem`.
    for new, olds in list(back.items()):
        lemmas = [o for o in olds if "-" in o and o not in ODD]
        if len(olds) == 2 and len(lemmas) == 1:
            turned[lemmas[0]] = new + "_lem"
            back[new].remove(lemmas[0])
    for new, olds in sorted(back.items()):
        if len(olds) > 1 or new in names:
            print("look: names that fall together:", ", ".join(sorted(olds)), "->", new, "(declared too)" if new in names else "")
    if "--list" in sys.argv:
        for old in sorted(turned):
            print(old, turned[old])
        return

    def words(text, made=False):
        def turn(m):
            before = text[m.start() - 1] if m.start() else ""
            old = m[0]
            if old not in turned:
                return old
            # in a proof by the code, what stands behind a dot and is no field of ours may be a name that Rattle makes
            if made and before == "." and "-" in old and old not in fields:
                return old
            return turned[old]

        return WORD.sub(turn, text)

    for path, text in texts.items():
        for name in NAMED_SO.get(path, ()):
            text = re.sub(r"(?<![\w.-])%s(?![\w-])" % name, name + "_lem", text)
        lines = text.split("\n")
        for i, line in enumerate(lines):
            if path.endswith(".md"):
                lines[i] = re.sub(r"`[^`\n]*`", lambda m: words(m[0]), line)
            elif path.endswith(".edit"):
                if re.match(r"(old|new):", line):
                    lines[i] = line[:4] + words(line[4:])
            elif re.match(r"\s*(--|//)", line):
                lines[i] = re.sub(r"`[^`\n]*`", lambda m: words(m[0]), line)
            else:
                lines[i] = words(line, path.endswith("Proof.antt"))
        new = "\n".join(lines)
        if new != texts[path]:
            with open(path, "w", encoding="utf-8") as f:
                f.write(new)


main()
