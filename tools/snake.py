#!/usr/bin/env python3
"""Brings the repository's own definitions and lemmas to snake case, once, after port.py (docs/PORT.md).

usage: tools/snake.py         turns crates/, their must-fail edits, and the names in back quotes of the pages
       tools/snake.py --list  prints the table of old and new names, and turns nothing

A name is the repository's own where a .antt file of crates/ declares it. A dash and a capital inside a name become an underscore.
Names that would fall together in a file, and names that Rattle makes of the source, stand in the tables below. Names of Rust functions,
modules and fields are in snake case already and stay; so do names that a file imports from a library.
"""

import collections
import os
import re
import sys

TOP = os.path.join(os.path.dirname(os.path.abspath(__file__)), "..")
DECLARED = re.compile(
    r"(?m)^( *)(?:(?:pub|abbrev|unfoldable|opaque|record|data)\s+)*([^\s(){}.;,@\"«»]+)(?: \{[^{}\n]*\}| \([^()\n]*\))* :|^ *(?:pub )?ruleset ([^\s(){}.;,@\"«»]+)"
)
# Names that Rattle makes, which a proof file declares as they are.
MADE = re.compile(r"(invariant|decreases)-|returns-\d|loop-")
# Names that are bound and never declared, and declarations whose heads DECLARED does not read.
BOUND = ["match-no-digit", "match-next", "match-here", "sign-in", "follow-by", "stands-first", "locator-plain", "locator-labelled", "row-order", "finished-answer", "finished-values", "finished-items", "otherItems", "otherGroups", "restG", "beforeGroups", "beforeItems", "afterGroups", "afterItems"]
# Two names of one spelling in one file: the lemma or the field gives way.
SPECIAL = {
    "author-bytes": "author_as",
    "year-bytes": "year_as",
    "group-records": "groups_recorded",
    "item-records": "items_recorded",
    "in-line": "in_line_zero",
    "use-index": "use_as",
    "restG": "rest_g",
    "finished-items": "finished_items_lem",
}
LEM = "all-defined all-good annotation-note annotation-shows close-after decoded-in final-use group-field item-field in-value key-at key-of label-by last-from locator-values look-up-note look-up-shows size-values pair-good read-on records-length uses-added width-by annotate-left keys-defined look-up-left look-up-refused source-refused same-label white-one word-start last-alike year-in year-text item-numbers records-fit defined-as is-blank key-by year-by next-at"
SPECIAL.update({n: n.replace("-", "_") + "_lem" for n in LEM.split()})
# Names in snake case that give way: the files in which they stand by themselves.
GIVE_WAY = {
    "item_count": ("items_counted", None),
    "first_entry": ("first_entry_lem", None),
    "laid_out": ("laid_out_lem", None),
    "set_last": ("set_last_lem", ("uses/proofs/Fields.antt", "annotation/proofs/Passes.antt")),
}
TOKEN = re.compile(r"[^\s(){};,@\"«»\[\]`]+")


def snake(name):
    words = re.sub(r"(?<=[a-z0-9'₀-₉])[A-Z]", lambda m: "_" + m[0].lower(), name)
    return words.replace("-", "_").replace("′", "'")


def files(*endings):
    for folder, dirs, names in os.walk(os.path.join(TOP, "crates")):
        dirs[:] = sorted(d for d in dirs if d != "out")
        for name in sorted(names):
            if name.endswith(endings):
                yield os.path.join(folder, name)


def read(path):
    with open(path, encoding="utf-8") as f:
        return f.read()


def table():
    names = set(BOUND)
    for path in files(".antt"):
        for m in DECLARED.finditer(read(path)):
            names.add(m[2] or m[3])
    table = {}
    for name in names:
        if not name[0].islower() or MADE.match(name):
            continue
        new = SPECIAL.get(name) or snake(name)
        if new != name:
            table[name] = new
    return table


def imported(text):
    """The names that a file imports from outside the repository's crates."""
    found = set()
    own = "|".join(sorted(os.listdir(os.path.join(TOP, "crates"))))
    for m in re.finditer(r"(?m)^ *(?:ghost )?use ([^\s{]+?)\.?(?:\{([^}]*)\})?;?$", text):
        if re.match(rf"Rattle\.({own})\b", m[1]):
            continue
        for it in (m[2] or "").split(","):
            found.add(it.split(" as ")[0].strip())
            found.add(it.split(" as ")[-1].strip())
    return found


def turned(token, names):
    """A token, part by part of its path."""
    return ".".join(names.get(part, part) for part in token.split("."))


def turn_antt(path, text, names):
    outside = imported(text)
    names = {a: b for a, b in names.items() if a not in outside}
    for old, (new, where) in GIVE_WAY.items():
        if where is None:
            continue
        if any(path.endswith(w) for w in where):
            text = re.sub(rf"(?<![\w.'-]){old}(?![\w'-])", new, text)
    return TOKEN.sub(lambda m: turned(m[0], names), text)


def turn_rust(text, names):
    camel = {a: b for a, b in names.items() if "-" not in a}
    lines = []
    for line in text.split("\n"):
        code = line.split("//")[0]
        which = names if re.match(r"\s*(ghost use|requires|ensures|ghost )", code) or "Put item" in code or "≡" in code or "×" in code else camel
        lines.append(TOKEN.sub(lambda m: turned(m[0], which), line))
    return "\n".join(lines)


def turn_page(text, names):
    return re.sub(r"`[^`\n]+`", lambda m: TOKEN.sub(lambda t: turned(t[0], names), m[0]), text)


def write(path, text, old):
    if text != old:
        with open(path, "w", encoding="utf-8") as f:
            f.write(text)


def main(argv):
    names = table()
    wide = {a: b for a, (b, where) in GIVE_WAY.items() if where is None}
    if argv == ["--list"]:
        for a, b in sorted((names | wide).items()):
            print(a, b)
        return 0
    # A name that gives way goes first, so that it does not meet the one that comes.
    for path in files(".antt"):
        old = read(path)
        text = old
        for a, b in wide.items():
            if re.search(rf"(?<![\w'-]){a}(?![\w'-])", text):
                text = re.sub(rf"(?<![\w'-])(?<!proofs\.){a}(?![\w'-])", b, text)
        write(path, turn_antt(path, text, names), old)
    for path in files(".rt"):
        old = read(path)
        write(path, turn_rust(old, names), old)
    for path in files(".edit"):
        old = read(path)
        write(path, TOKEN.sub(lambda m: turned(m[0], names), old), old)
    pages = ["README.md", "CONTRIBUTING.md"] + ["docs/" + f for f in sorted(os.listdir(os.path.join(TOP, "docs"))) if f.endswith(".md")]
    pages += ["docs/changes/" + f for f in sorted(os.listdir(os.path.join(TOP, "docs/changes")))]
    for page in pages:
        path = os.path.join(TOP, page)
        old = read(path)
        write(path, turn_page(old, names | wide), old)
    return 0


if __name__ == "__main__":
    raise SystemExit(main(sys.argv[1:]))
