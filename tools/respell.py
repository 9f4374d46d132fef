#!/usr/bin/env python3
"""Brings the repository's own definitions and lemmas to the spelling of today's Rattle: words in snake case, a prime as an apostrophe.

    python3 tools/respell.py        once, at the top, behind the kit's port.py

It renames what specs/ and proofs/ define, in specs/, proofs/, the clauses of src/, the edits, and between backticks in docs/ and README.md.
Names that the check makes for goals and steps, functions of src/, strings and data keep theirs.
"""
import collections
import glob
import re

WORD = r"[A-Za-z][A-Za-z0-9_'′+\-]*"
DEFINED = re.compile(r"^(\s*)((?:abbrev|unfoldable|opaque|pub)\s+)*([^\s(){}:;,]+)\s+:\s(.*)$")
ALIAS = re.compile(r"^(?:ghost )?use .* as (\w+)")

# Names that would fall together with another one of the same file, or say no word.
CHOSEN = {
    "until-header": "until_header_law",
    "entry-told": "entry_told_law",
    "line-told": "line_told_law",
    "mark-told": "mark_told_law",
    "check-opened": "check_opened_law",
    "post-opened": "post_opened_law",
    "line-count": "line_count_law",
    "own-checks": "own_checks_law",
    "is-pair": "is_pair_law",
    "lines-put": "lines_put_law",
    "file-code": "code_of_file",
    "texts-hold": "texts_hold_law",
    "in_order": "in_order_law",
    "no_lines": "no_lines_law",
    "any-++": "any_append",
}


def snake(name):
    name = name.replace("′", "'").replace("-", "_")
    name = re.sub(r"(?<=[a-z0-9'])([A-Z])", lambda m: "_" + m.group(1).lower(), name)
    return re.sub(r"[A-Z]", lambda m: m.group(0).lower(), name)


def proofs_of_functions(path):
    """A file of a function's proof: what it defines for the check keeps the check's names."""
    return re.search(r"/proofs/.*/", path) is not None


def names():
    """Old name to new one; and which of the old ones are fields."""
    found, fields = set(), set()
    for path in texts(".antt"):
        inside = False
        for line in open(path, encoding="utf-8"):
            if line.lstrip().startswith("--"):
                continue
            if re.match(r"\s*(pub\s+)?(record|data)\b.*\bwhere\s*$", line):
                inside = True
            elif line.strip() and not line.startswith(" "):
                inside = False
            m = DEFINED.match(line)
            if not m or re.search(r"\bgoal\.", m.group(4)):
                continue
            name = m.group(3)
            if not re.fullmatch(WORD, name) or name[0].isupper():
                continue
            found.add(name)
            if inside and m.group(1):
                fields.add(name)
    table = {n: CHOSEN.get(n, snake(n)) for n in found if n in CHOSEN or re.search(r"[-A-Z′+]", n)}
    return table, fields


def texts(*endings):
    for path in sorted(glob.glob("crates/*/**/*", recursive=True)):
        if path.endswith(endings) and "/out/" not in path and "/data/" not in path:
            yield path


def respell(text, table, fields, aliases):
    def one(m):
        if m.group(1) is not None:
            return m.group(0)
        before, name = m.group(2), m.group(3)
        new = table.get(name)
        if new is None:
            return m.group(0)
        if before.endswith("."):
            qualifier = re.search(r"([\w'«»]+)\.$", before)
            qualified = qualifier is not None and qualifier.group(1) in aliases
            if "-" in name and name not in fields and not qualified:
                return m.group(0)
        return before + new
    return re.sub(r"(\"(?:[^\"\\\n]|\\.)*\"|b'[^']')|((?:[\w'»]+\.|\.)?)(?<![\w'\-])(" + WORD + ")", one, text)


def main():
    table, fields = names()
    for path in texts(".antt", ".rt", ".edit"):
        with open(path, encoding="utf-8") as f:
            old = f.read()
        aliases = {m.group(1) for m in map(ALIAS.match, old.splitlines()) if m} - {"goal"}
        new = respell(old, table, fields, aliases)
        words = set(re.findall(WORD, old))
        for name in sorted(words & set(table)):
            if table[name] in words and name != table[name]:
                print(f"look: {path}: {name} and {table[name]}")
        if new != old:
            with open(path, "w", encoding="utf-8") as f:
                f.write(new)
    defined = set(table.values()) | {m.group(3) for p in texts(".antt") for m in map(DEFINED.match, open(p, encoding="utf-8")) if m}

    def in_page(word):
        name = word.group(0)
        new = table.get(name, snake(name) if name[0].islower() else name)
        return new if new in defined else name

    pages = ["README.md"] + sorted(glob.glob("docs/*.md"))
    for path in pages:
        if path.endswith("PORT.md"):
            continue
        with open(path, encoding="utf-8") as f:
            old = f.read()
        new = re.sub(r"`([^`\n]+)`", lambda m: "`" + re.sub(WORD, in_page, m.group(1)) + "`", old)
        if new != old:
            with open(path, "w", encoding="utf-8") as f:
                f.write(new)
    together = collections.defaultdict(list)
    for old, new in table.items():
        together[new].append(old)
    for new, olds in sorted(together.items()):
        if len(olds) > 1:
            print(f"look: {' and '.join(sorted(olds))} are both {new}")


main()
