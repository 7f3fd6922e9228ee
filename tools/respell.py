#!/usr/bin/env python3
"""Brings the repository's own names of clauses and proofs to today's spelling, once, right after port.py.

usage: python3 tools/respell.py        at the top of the repository

Words of specs/, fields and lemmas are in snake case: `firstFault` becomes `first_fault`, `names-fit` becomes `names_fit`. A dash stays
where it joins two definitions, as in `value-all_bytes`. Names of src/ and of files, exported names, strings and inputs are not touched.
The names in `APART` would fall together with others, and get the spelling given there.
"""
import collections
import os
import re
import sys

WORD = re.compile(r"(?<![\w'-])[A-Za-z_][\w'₀-₉-]*")
DECLARED = re.compile(
    r"^ *(?:(?:abbrev|unfoldable|axiom|record|data|ruleset|pub) +)*(«?[^\s(){}.;,@\":]+»?) +:(?: |$)"
)
KIND = re.compile(r"^ *(?:pub +)?(?:abbrev|unfoldable|axiom|record|data)\b")
HUMP = re.compile(r"(?<=[a-z0-9'A-Z])(?=[A-Z][a-z])|(?<=[a-z0-9'])(?=[A-Z])")
LOWER = re.compile(r"[a-z][a-z0-9']*[A-Z]\w*'*|[a-z][a-z0-9']*")
# Words that would take the name of a field or of a lemma beside them.
APART = {
    "inOrder": "is_in_order",
    "inPlace": "is_in_place",
    "atMostOne": "at_most_one_ids",
    "atLeastOne": "at_least_one_ids",
    "sizeIs": "size_of_rows",
    "noZero": "without_zero",
    "boxOf": "bounding_box_of",
    "wholeRow": "is_whole_row",
    "wordsSize": "size_of_words",
    "byParts": "sum_by_parts",
    "inItem": "put_in_item",
    "otherLength": "length_fault",
    "moreNumbers": "numbers_of_more",
}


def texts(root, *endings):
    for folder, dirs, files in os.walk(root):
        dirs[:] = sorted(d for d in dirs if d not in ("out", ".git", "target"))
        for name in sorted(files):
            if name.endswith(endings):
                yield os.path.join(folder, name)


def read(path):
    with open(path, encoding="utf-8", newline="") as it:
        return it.read()


def hump(word):
    """`firstFault` in snake case; a word of a number in base 16, or with a type's name in it, as it is."""
    if not LOWER.fullmatch(word) or not re.search("[A-Z]", word) or re.fullmatch(r"x[0-9A-F]+", word):
        return word
    if re.search(r"_[A-Z]", word):
        return word
    return "_".join(it.lower() for it in HUMP.split(word))


def declared(antt):
    """The names that lemma files and specs/ declare, and those among them that are definitions."""
    names, words = set(), set()
    for path, text in antt.items():
        shared = re.search(r"/(specs|proofs)/[A-Z]\w*\.antt$", path)
        for line in text.split("\n"):
            found = DECLARED.match(line)
            if found and shared:
                names.add(found.group(1))
                if KIND.match(line):
                    words.add(found.group(1))
        for used in re.finditer(r"^use \S+\.\{([^}]*)\}", text, re.M):
            words.update(it.strip() for it in used.group(1).split(",") if "-" not in it)
    return names, words


def dashes(name, words):
    """`names-fit` with each dash that does not join two definitions turned."""
    parts = name.split("-")
    out = parts[0]
    for i, part in enumerate(parts[1:], 1):
        left = re.split("-", out)[-1]
        right = any("_".join(parts[i:j]) in words for j in range(i + 1, len(parts) + 1))
        out += ("-" if left in words and right and part[:1].isalpha() else "_") + part
    return out


def table(antt):
    names, words = declared(antt)
    tokens = collections.Counter(m.group() for t in antt.values() for m in WORD.finditer(t))
    turned = {w: APART.get(w, hump(w)) for w in tokens if "-" not in w}
    words = {turned.get(w, w) for w in words}
    taken = {turned[w] for w in turned if turned[w] != w} | {w for w in names if "-" not in w}
    for w in names:
        if "-" in w:
            parts = "-".join(APART.get(p, hump(p)) for p in w.split("-"))
            turned[w] = dashes(parts, words)
            # A lemma that would have its definition's name.
            if turned[w] in taken:
                turned[w] += "_lem"
    for w in tokens:
        if "-" in w and w not in turned:
            turned[w] = "-".join(APART.get(p, hump(p)) for p in w.split("-"))
    return {old: new for old, new in turned.items() if old != new}


def apart(turned, texts_of, functions):
    """Leaves out what would fall together with another name of a file, but for a function of src/, which a clause cannot name."""
    left = set()
    while True:
        more = set()
        for path, text in texts_of.items():
            seen = {}
            for old in sorted({m.group() for m in WORD.finditer(text)} - functions):
                new = turned.get(old, old) if old not in left else old
                if new in seen and seen[new] != old:
                    more.update(it for it in (old, seen[new]) if it in turned and it not in left)
                seen[new] = old
        if not more:
            return left
        left |= more

CLAUSE = re.compile(r"(?:requires|ensures|ghost)\s*\*?\s*(?:\w+\s*)?(?::\s*)?(\{)")


def in_clauses(text, turn):
    """Turns the clauses, the ghost items and the code spans of comments of a file of code."""
    out, at = [], 0
    while at < len(text):
        if text.startswith("//", at):
            end = text.find("\n", at)
            end = len(text) if end < 0 else end
            out.append(re.sub(r"`[^`\n]*`", lambda m: turn(m.group()), text[at:end]))
        elif text.startswith("ghost use", at):
            end = text.index(";", at) + 1
            out.append(turn(text[at:end]))
        elif CLAUSE.match(text, at) and (at == 0 or not text[at - 1].isalnum()):
            end, depth = CLAUSE.match(text, at).end(), 1
            while depth:
                depth += {"{": 1, "}": -1}.get(text[end], 0)
                end += 1
            out.append(turn(text[at:end]))
        else:
            end = at + 1
            out.append(text[at])
        at = end
    return "".join(out)


def main():
    if not os.path.exists("crates.txt"):
        sys.exit("respell: run this at the top of the repository")
    antt = {p: read(p) for p in texts("crates", ".antt")}
    code = {p: read(p) for p in texts("crates", ".rt")}
    clauses = {}
    for path, text in code.items():
        kept = []
        in_clauses(text, lambda t: kept.append(t) or t)
        clauses[path] = "\n".join(kept)
    turned = table(antt | clauses)
    functions = {m.group(1) for text in code.values() for m in re.finditer(r"\bfn (\w+)", text)} - declared(antt)[0]
    left = apart(turned, antt | clauses, functions)
    turn = lambda t: WORD.sub(lambda m: m.group() if m.group() in left else turned.get(m.group(), m.group()), t)
    changed = 0
    for path, text in (antt | code).items():
        new = turn(text) if path.endswith(".antt") else in_clauses(text, turn)
        if new != text:
            changed += 1
            with open(path, "w", encoding="utf-8", newline="") as it:
                it.write(new)
    span = lambda t: re.sub(r"`[^`\n]+`", lambda m: turn(m.group()), t)
    for path in ["README.md", *texts("docs", ".md"), *texts("crates", ".edit")]:
        text = read(path)
        new = turn(text) if path.endswith(".edit") and "/specs/" in text else span(text)
        if path.endswith(".edit"):
            new = re.sub(r"^(old|new): (.*)$", lambda m: m.group(1) + ": " + turn(m.group(2)), text, flags=re.M)
        if new != text:
            changed += 1
            with open(path, "w", encoding="utf-8", newline="") as it:
                it.write(new)
    for name in sorted(left):
        print("left:", name, "would fall together with", turned[name])
    print(f"respell: {len(turned) - len(left)} names in {changed} files")


if __name__ == "__main__":
    main()
