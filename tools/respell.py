#!/usr/bin/env python3
"""Brings the repository's own definitions and lemmas to Rattle's spelling.

usage: python3 tools/respell.py        once, at the top of the repository, after the toolkit's port.py
       python3 tools/respell.py --list prints each old name with its new one, and writes nothing

Functions, fields and constructors go to snake case (howMany: how_many), types to upper camel case.
In a lemma's name a dash stays where it joins two names that the lemma is about (howMany-keep: how_many-keep);
a plain word is joined by an underscore (left-more: left_more).
Names of src/, strings, and the goals that Rattle makes keep their spelling.
"""

import os
import re
import sys

TOKEN = re.compile(r"[A-Za-z_◌∷ℕℤ][\w'◌ℕℤ+*∷-]*")
TOP = re.compile(r"^(?:abbrev |pub |unfoldable |record |data )*([A-Za-z_][\w'-]*)\s*(?=[:({])")
LABEL = re.compile(r"^\s+(?:pub )?([A-Za-z_][\w'-]*)\s*:")
MADE = re.compile(r":\s*(goal|given)\.")
# Chosen by hand, where the rule would give two things one name.
CHOSEN = {
    "So-far": "LineSoFar",
    "after-false": "after_false_literal",
    "first-false": "first_false_found",
    "literals-of": "literals_of_words",
    "not-both": "not_false_and_unset",
    "on-answer": "on_answer_counts",
    "on-plan": "on_plan_counts",
    "on-problem": "on_problem_counts",
    "stanza-at": "stanza_at_place",
    "stored-all": "stored_all_filled",
    "unset-all": "unset_everywhere",
    "variable-of": "variable_positive",
}
# Other names under which a file takes a word in.
ALIASES = {
    "inTrial": "in_trial",
    "noRoom": "no_room",
    "notLive": "is_not_live",
    "notX": "not_x",
    "openInTrial": "open_in_trial",
    "openNoRoom": "open_no_room",
    "operatorOf": "operator_of",
}
# The same for a lemma that port.py had turned before.
CHOSEN_IN = {"crates/verdict/proofs/Law.antt": {"is_true": "refuted_means"}}


def files(root, endings):
    for folder, dirs, names in os.walk(os.path.join(root, "crates")):
        dirs[:] = sorted(d for d in dirs if d != "out")
        for name in sorted(names):
            if name.endswith(endings):
                yield os.path.join(folder, name)


def read(path):
    with open(path, encoding="utf-8") as f:
        return f.read()


def declared(root):
    """Each name that a file declares, with the text of its signature, and the labels of records and data."""
    tops, labels, made = {}, set(), set()
    for path in files(root, ".antt"):
        lines = read(path).split("\n")
        block, inner = None, False
        for line in lines:
            if not line.startswith((" ", "-", "use ", "mod ", "pub mod ", "}")) and line.strip():
                inner = bool(re.match(r"^(pub )?module .*where$", line))
            depth = 2 if inner and line.startswith("  ") else 0
            body = line[depth:]
            if not body.startswith((" ", "-", "use ", "mod ", "pub mod ", "}")) and body.strip():
                block = "labels" if re.match(r"^(abbrev |pub )*(record|data) ", body) else None
                m = TOP.match(body)
                if m and MADE.search(body):
                    made.add(m.group(1))
                elif m and m.group(1) not in ("module", "let", "in"):
                    tops.setdefault(m.group(1), []).append(body)
            m = LABEL.match(body)
            if m and block:
                labels.add(m.group(1))
        for line in lines:
            m = re.match(r"^use \S*\.Goals\.\{(.*)\}", line)
            if m:
                made.update(w.strip() for w in m.group(1).split(","))
    return tops, labels, made


def snake(word):
    if not word[:1].islower() or not re.search(r"[a-z0-9][A-Z]", word):
        return word
    return re.sub(r"(?<=[a-z0-9])([A-Z])", lambda m: "_" + m.group(1).lower(), word)


def joined(name, signature, plain):
    parts = name.split("-")
    words = set(TOKEN.findall(signature)) - {name}
    new = parts[0]
    for before, after in zip(parts, parts[1:]):
        names = before in plain and after in plain and before in words and after in words
        new += ("-" if names else "_") + after
    return new


def spelled(name, signatures, plain):
    if name in CHOSEN:
        return CHOSEN[name]
    if name[0].isupper() and "-" in name:
        return "".join(p[:1].upper() + p[1:] for p in name.split("-"))
    new = joined(name, signatures[0], plain) if "-" in name else name
    return "-".join("_".join(snake(w) for w in p.split("_")) for p in new.split("-"))


def table(root):
    tops, labels, made = declared(root)
    library = {"take", "drop", "length", "map", "append", "set", "get_or", "filter", "replicate", "min", "max", "zip", "flat_map", "reverse"}
    plain = {n for n in tops if "-" not in n} | library
    new = {}
    for name, signatures in tops.items():
        if name not in made:
            new[name] = spelled(name, signatures, plain)
    for label in labels:
        if "-" in label or snake(label) != label:
            new[label] = snake(label.replace("-", "_"))
    new.update(ALIASES)
    return {old: it for old, it in new.items() if old != it}, set(tops) | labels, made


def together(new, names):
    """Old names that would come to one new name, or to a name that is there already."""
    by = {}
    for old, it in new.items():
        by.setdefault(it, []).append(old)
    return {it: olds for it, olds in by.items() if len(olds) > 1 or it in names}


def turned(text, new):
    return TOKEN.sub(lambda m: new.get(m.group(0), m.group(0)), text)


def turn_source(text, new):
    """In a source file only clauses, ghost items and imports are turned: no comment, string or code has such a name."""
    lines = []
    for line in text.split("\n"):
        lines.append(line if line.lstrip().startswith("//") else turned(line, new))
    return "\n".join(lines)


def turn_page(text, new):
    return re.sub(r"`[^`\n]+`", lambda m: turned(m.group(0), new), text)


def turn_first(root):
    for path, new in CHOSEN_IN.items():
        path = os.path.join(root, path)
        text = read(path)
        with open(path, "w", encoding="utf-8") as f:
            f.write(turned(text, new))


def main():
    root = os.getcwd()
    if "--list" not in sys.argv:
        turn_first(root)
    new, names, _ = table(root)
    clash = together(new, names)
    if "--list" in sys.argv:
        for old in sorted(new):
            print(f"{old}\t{new[old]}")
    if clash:
        for it, olds in sorted(clash.items()):
            print(f"respell: {', '.join(olds)} would all be {it}", file=sys.stderr)
        raise SystemExit(1)
    if "--list" in sys.argv:
        return
    for path in files(root, (".antt", ".rt", ".edit")):
        text = read(path)
        it = turned(text, new) if path.endswith(".antt") else turn_source(text, new)
        if it != text:
            with open(path, "w", encoding="utf-8") as f:
                f.write(it)
    for folder in ("docs", "."):
        for page in sorted(os.listdir(folder)):
            path = os.path.join(folder, page)
            if page.endswith(".md") and page != "PORT.md":
                text = read(path)
                it = turn_page(text, new)
                if it != text:
                    with open(path, "w", encoding="utf-8") as f:
                        f.write(it)


if __name__ == "__main__":
    main()
