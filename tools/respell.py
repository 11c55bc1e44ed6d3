#!/usr/bin/env python3
"""Spells the repository's own definitions, lemmas and fields of records as today's Rattle does: words in snake case, types and modules in camel case.

usage: tools/respell.py            at the top of the repository: rewrites crates/ and docs in place
       tools/respell.py --list     prints what it would rename, and each name that falls together with another

A name that specs/ or proofs/ declare changes where it has a hump (taskCount, task_count), and a field of a record also where it has a dash
(few-tasks, few_tasks). Lemmas keep their dashes, which join names. Code, strings and files of other kinds keep their text.
"""

import os
import re
import sys

TOP = os.path.dirname(os.path.dirname(os.path.abspath(__file__)))
# A name of antt, a projection's dot left out.
WORD = re.compile(r"[^\s(){}\[\],;.:=«»⟨⟩`\"|]+")
DECLARED = re.compile(r"^( *)((?:abbrev |unfoldable |pub |record |data |ruleset )*)([^\s:(){},;=]+)((?: \([^)]*\)| \{[^}]*\})*) :")
# Fields that would fall together with a definition.
FIELDS = {
    "sheet-values": "sheet_values_again",
    "sheet-bytes": "sheet_bytes_again",
    "bundle-values": "bundle_values_again",
    "bundle-bytes": "bundle_bytes_again",
    "no-task": "without_task",
}
# Lemmas that would fall together with a definition, by the files that name them: they end in _lem.
LEMMAS = {
    "admission/proofs/Rights.antt": ["stands_at"],
    "admission/proofs/Written.antt": ["store_at", "target_at"],
    "arrivals/proofs/Settling.antt": ["store_at"],
    "bundle_writer/proofs/Judging.antt": ["went_on"],
    "drift/proofs/": ["sent_back"],
    "formulas/proofs/Bytes.antt": ["is_digit"],
    "formulas/proofs/Counts.antt": ["is_digit"],
    "formulas/proofs/+atom_product_sum/Proof.antt": ["product_at"],
    "generator/proofs/bytes/put_task/Proof.antt": ["store_in"],
    "least/proofs/Heads.antt": ["sum_over"],
    "least/proofs/Normal.antt": ["block_in"],
    "search/proofs/Steps.antt": ["store_by"],
    "sheet/proofs/": ["store_in"],
    "sheet_writer/proofs/unload/tasks/Proof.antt": ["store_in"],
    "topological_order/proofs/Levels.antt": ["place_at"],
}


def files(*endings):
    for folder, dirs, names in os.walk(os.path.join(TOP, "crates")):
        dirs[:] = sorted(d for d in dirs if d not in ("out", ".git"))
        for name in sorted(names):
            if name.endswith(endings):
                yield os.path.join(folder, name)


def read(path):
    with open(path, encoding="utf-8") as f:
        return f.read()


def humped(word):
    """taskCount as task_count; a part that begins with a capital is a type's name and stays."""
    parts = []
    for part in word.split("-"):
        if part[:1].islower():
            part = re.sub(r"getD", "get_or", part)
            part = re.sub(r"(?<=[a-z0-9'])([A-Z])", lambda m: "_" + m[1].lower(), part)
        parts.append(part)
    return "-".join(parts)


def declared():
    """Each declared name, and whether it is a field of a record or an item of its file."""
    fields, items = set(), set()
    for path in files(".antt"):
        inside = False
        for line in read(path).split("\n"):
            if re.match(r"(pub )?record ", line):
                inside = True
            elif line and not line.startswith(" ") and not line.startswith("--"):
                inside = False
            m = DECLARED.match(line)
            if not m:
                continue
            if m[1] and inside and "pub" in m[2]:
                fields.add(m[3])
            elif not m[1]:
                items.add(m[3])
            elif not inside:
                items.add(m[3])
    return fields, items


def table():
    fields, items = declared()
    # What Rattle makes (goals, steps of the code) has dashes of its own, and is named in the proofs of functions.
    made = {"returns"}
    rows = {}
    for word in sorted(fields | items):
        new = humped(word)
        if word in fields and "-" in word and not word[0].isupper():
            new = FIELDS.get(word) or new.replace("-", "_")
        if new != word and word not in made:
            rows[word] = new
    return rows, fields, items


def respelled(text, rows):
    return WORD.sub(lambda m: rows.get(m[0], m[0]), text)


def with_lemmas(path, text):
    """The lemmas of LEMMAS that the file names; a step of the code or a folder of that name stays."""
    name = os.path.relpath(path, os.path.join(TOP, "crates"))
    for head, words in LEMMAS.items():
        if name.startswith(head):
            for word in words:
                text = re.sub(rf"(?<![\w.'-]){word}(?![\w'-])(?!\.)", f"{word}_lem", text)
    return text


def in_ticks(text, rows):
    """What stands between ticks, but for the names of files of the examples."""
    return re.sub(r"`[^`\n]*`", lambda m: m[0] if re.search(r"\.(sheet|bundle|txt)`", m[0]) else respelled(m[0], rows), text)


def clashes(rows, fields, items):
    new_names = {}
    for old, new in rows.items():
        new_names.setdefault(new, []).append(old)
    found = []
    for new, olds in sorted(new_names.items()):
        if len(olds) > 1 or new in fields or new in items:
            found.append((new, olds))
    return found


def main(words):
    rows, fields, items = table()
    if words == ["--list"]:
        for old, new in rows.items():
            print(f"{old}\t{new}")
        for new, olds in clashes(rows, fields, items):
            print(f"together: {new} from {', '.join(olds)}" + (" and itself" if new in fields | items else ""))
        # A word that stood somewhere already may be a variable that hides the name.
        taken = {new: old for old, new in rows.items()}
        for path in files(".antt", ".rt"):
            for at, line in enumerate(read(path).split("\n"), 1):
                for m in WORD.finditer(line):
                    if m[0] in taken:
                        print(f"stands: {os.path.relpath(path, TOP)}:{at}: {m[0]} (for {taken[m[0]]}): {line.strip()[:140]}")
        return 0
    for path in files(".antt", ".rt"):
        text = read(path)
        new = respelled(with_lemmas(path, text), rows)
        if new != text:
            with open(path, "w", encoding="utf-8") as f:
                f.write(new)
    for path in files(".edit"):
        text = read(path)
        lines = []
        for line in text.split("\n"):
            head, colon, rest = line.partition(":")
            lines.append(head + colon + respelled(rest, rows) if head in ("old", "new") and colon else line)
        new = "\n".join(lines)
        if new != text:
            with open(path, "w", encoding="utf-8") as f:
                f.write(new)
    pages = [os.path.join(TOP, "README.md"), os.path.join(TOP, "examples", "README.md")]
    for folder, _, names in os.walk(os.path.join(TOP, "docs")):
        pages += [os.path.join(folder, name) for name in names if name.endswith(".md") and name != "PORT.md"]
    for path in pages:
        text = read(path)
        new = in_ticks(text, rows)
        if new != text:
            with open(path, "w", encoding="utf-8") as f:
                f.write(new)
    return 0


if __name__ == "__main__":
    raise SystemExit(main(sys.argv[1:]))
