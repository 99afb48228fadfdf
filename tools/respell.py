#!/usr/bin/env python3
"""Spells this repository's own definitions and lemmas as today's Rattle does: words in snake case,
facts and types in camel case.

usage: tools/respell.py [--check]     at the top, once, right after the kit's port.py

Only names that specs/ and proofs/ declare are respelled, and names that an import gives them by
`as`. Comments, strings, Rust names and what the kit generates (goals, and the steps behind `c.`)
stay. A new name that would meet another in its file is reported, and nothing is written.
"""

import glob
import os
import re
import sys

# Names that plain respelling would make equal to a field or a Rust name that their own clauses cite.
# `Up-to` would be a word of std, and the kit's own script took `Follows-on` for one.
APART = {
    "two-way": "made_two_way",
    "Up-to": "IsUpTo",
    "Follows_on": "FollowsOn",
    "getD-one-way": "get_or_one_way",
    "sorted-getD": "sorted_get_or",
}
END = r"\s(){}\[\],;.@«»"
TOKEN = re.compile(rf"[^{END}]+")
DECLARED = re.compile(r"^\s*(?:(?:pub|abbrev|unfoldable) )*([^\s:{(|=]+)(?: \{[^{}\n]*\})* : ?(.*)$")
NAMED = re.compile(r"^\s*(?:pub )?(?:data|record) ([^\s:{(]+)")
GHOST = re.compile(
    r"(?s)ghost use [^;]*;|ghost \w+ = \{.*?\};|\{[^{}]*[^\x00-\x7f-][^{}]*\}|(?:requires|ensures|ghost)\b[^\n]*"
)
USE = re.compile(r"^\s*(?:pub )?(?:ghost )?use ([^\s;{]+?)\.?\{([^}]*)\}", re.M)


def respelled(name):
    if name in APART:
        return APART[name]
    if "-" not in name:
        return name
    if name[0].isupper():
        return "".join(part[:1].upper() + part[1:] for part in name.split("-"))
    return name.replace("-", "_")


def files():
    for pattern in ("crates/*/specs/**/*.antt", "crates/*/proofs/**/*.antt", "crates/*/src/**/*.rt"):
        yield from sorted(glob.glob(pattern, recursive=True))


def is_per_function(path):
    return os.path.basename(path) in ("Answers.antt", "Invariants.antt", "Proof.antt")


def declared(path, text):
    """The names that a file of specs/ or proofs/ declares, and whether each is a record's field."""
    for line in text.splitlines():
        line = line.split(" -- ")[0]
        named = NAMED.match(line)
        if named:
            yield named[1]
        yield from re.findall(r"\(([a-z]\w*-[\w-]+) :", line)
        found = DECLARED.match(line)
        if found and not (is_per_function(path) and re.match(r"(goal|Rattle\.\S*Goals)\.", found[2])):
            yield found[1]


def code_parts(path, text):
    """Pieces of the text, each with whether it is code and not a comment or a string."""
    comment = r"//[^\n]*" if path.endswith(".rt") else r"(?<!\S)--[^\n]*"
    last = 0
    for m in re.finditer(rf'{comment}|"(?:\\.|[^"\\])*"', text):
        yield text[last : m.start()], True
        yield m[0], False
        last = m.end()
    yield text[last:], True


def main():
    texts = {p: open(p, encoding="utf-8").read() for p in files()}
    crates = {p.split("/")[1] for p in texts}
    table = {}
    for path, text in texts.items():
        if path.endswith(".antt"):
            for name in declared(path, text):
                if respelled(name) != name:
                    table[name] = respelled(name)
        for module, items in USE.findall(text):
            for alias in re.findall(r"\bas ([^\s,}]+)", items):
                if respelled(alias) != alias:
                    table[alias] = respelled(alias)

    trouble = []
    made = {}
    for old, new in table.items():
        made.setdefault(new, []).append(old)
    for new, olds in made.items():
        if len(olds) > 1:
            trouble.append(f"{' and '.join(olds)} fall together as {new}")

    out = {}
    for path, text in texts.items():
        foreign = set()
        for module, items in USE.findall(text):
            steps = module.split(".")
            if not (steps[0] == "Rattle" and len(steps) > 1 and steps[1] in crates):
                foreign |= {i.strip().split(" as ")[0] for i in items.split(",") if " as " not in i}
        rows = {old: new for old, new in table.items() if old not in foreign}
        code = "".join(part for part, is_code in code_parts(path, text) if is_code)
        if path.endswith(".rt"):
            code = " ".join(GHOST.findall(code))
        there = set(TOKEN.findall(re.sub(r"\buse [^\s{;]*\{", "{", code)))
        for old, new in rows.items():
            if old in there and new in there:
                trouble.append(f"{path}: {old} meets {new}")

        def turn(m, rows=rows):
            before = m.string[: m.start()]
            # what the kit generates stands behind `goal.` or a step's name behind `c.`
            if re.search(r"(?<![^\s(){}\[\],;])(goal|c)\.$", before):
                return m[0]
            return rows.get(m[0], m[0])

        parts = []
        for part, is_code in code_parts(path, text):
            if is_code and path.endswith(".rt"):
                part = GHOST.sub(lambda m: TOKEN.sub(turn, m[0]), part)
            elif is_code:
                part = TOKEN.sub(turn, part)
            parts.append(part)
        out[path] = "".join(parts)

    for line in trouble:
        print("meets:", line)
    if "--check" in sys.argv or trouble:
        for old in sorted(table):
            print(f"{old}\t{table[old]}")
        return 1 if trouble else 0
    for path, text in out.items():
        if text != texts[path]:
            with open(path, "w", encoding="utf-8") as f:
                f.write(text)
    print(f"{len(table)} names respelled")
    return 0


if __name__ == "__main__":
    sys.exit(main())
