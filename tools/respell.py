#!/usr/bin/env python3
"""Respells the repository's own definitions, lemmas and record fields: words in snake case, types in camel case.

usage: respell.py [--list]     at the top of the repository, once, right after the older spelling was turned

A name that a file of specs/ or proofs/ declares keeps its capital where a part of it names a type; a dash and a capital inside a word become an
underscore; where that would give a lemma its function's name, it ends in _lem. Files of proofs that walk code (Proof.antt) are read for uses alone, and in pages (README.md, docs/) only names in camel case are respelled.
Code of src/ has no such names but in clauses. --list prints the table and names that fall together, and writes nothing.
"""

import os
import re
import sys

# (name, what it becomes) where the plain rule makes two names fall together.
APART = dict(line.split() for line in """
acyclic-rules acyclic_rules_lem
amount-ok amount_holds
annotation-layout layout_of_annotation
assignment-rules assignment_rules_lem
bit-or bit_or_lem
claim-ok claim_holds
cyclic-rules cyclic_rules_lem
decimal-to decimal_to_lem
finish-step finish_step_lem
flow-rules flow_rules_lem
is-marked is_marked_lem
is-number number_is
is-word word_is
next-arc next_is
no-assignment-rules no_assignment_rules_lem
no-path-rules no_path_rules_lem
no-point no_point_lem
no-shortcut no_shortcut_lem
path-rules path_rules_lem
repeat-step repeat_step_lem
rule-ok rule_holds
rules-for rules_for_lem
same-print same_print_lem
word-arc word_is_arc
words-say words_say_lem
worked-examples worked_examples_lem
""".split("\n") if line.strip())

# Lemmas that were in snake case already and would fall together with a word: folder, name.
MOVED = [("tide_table", "goes_on"), ("judging", "list_read"), ("annotation_writing", "load_at"), ("runs", "number_step")]

# Variables, and names that an import gives.
VARIABLES = "isTable inRoom singleAt annBefore annAfter outBefore".split()

TOKEN = re.compile(r"[^\s(){}.;,@\"«»\[\]\\]+")
DECLARED = re.compile(r"^\s*(?:abbrev |unfoldable |pub |module )*([^\s(){}.;,@\"«»\[\]\\:]+)\s+:\s")
HEADED = re.compile(r"^\s*(?:pub |abbrev |unfoldable )*(?:record|data|ruleset)\s+(?:pub )?([^\s(){}.;,]+)")
EQUATION = re.compile(r"^\s*([^\s(){}.;,@\"«»\[\]\\:=|]*-[^\s(){}.;,@\"«»\[\]\\:=|]*)\s[^:]*=\s")
TYPED = re.compile(r"(?:\blet|[({λ]) ?([^\s(){}.;,@\"«»\[\]\\:]+)\s+:\s")
LET = re.compile(r"\blet\s+([^\s(){}.;,@\"«»\[\]\\:]+)\s+(?:=|:)\s")


def files(root, endings):
    for top in ("crates",):
        for folder, dirs, names in os.walk(os.path.join(root, top)):
            dirs[:] = sorted(d for d in dirs if d != "out")
            for name in sorted(names):
                if name.endswith(endings):
                    yield os.path.join(folder, name)


def read(path):
    with open(path, encoding="utf-8") as it:
        return it.read()


def snake(name):
    def part(word):
        if word[:1].isupper():
            return word
        word = re.sub(r"(?<=[a-z0-9₀-₉'])([A-Z])", lambda m: "_" + m.group(1).lower(), word)
        return re.sub(r"(?<=[a-z])ℤ", "_ℤ", word)

    return "_".join("→".join(part(w) for w in it.split("→")) for it in name.split("-"))


def own_names(root):
    out = set()
    for path in files(root, ".antt"):
        if os.path.basename(path) == "Proof.antt":
            continue
        for line in read(path).split("\n"):
            for pattern in (DECLARED, HEADED, EQUATION):
                m = pattern.match(line)
                if m:
                    out.add(m.group(1))
            out |= set(LET.findall(line))
    return out


def plain(name):
    return re.fullmatch(r"[A-Za-z][\w'₀-₉→≢≤ℤℕ+*∷-]*", name) and not name.endswith("-")


def of_the_kit(root):
    """Names that a line brings in from a library of the toolchain."""
    out = set()
    own = {d for d in os.listdir(os.path.join(root, "crates"))}
    for path in files(root, (".antt", ".rt")):
        for m in re.finditer(r"\buse\s+([^\s{;]+)\.\{([^}]*)\}", read(path)):
            parts = m.group(1).split(".")
            if not (parts[0] == "Rattle" and len(parts) > 1 and parts[1] in own):
                for it in m.group(2).split(","):
                    out |= set(it.split())
    return out


def table(root):
    kit = of_the_kit(root)
    out = {}
    for name in sorted(own_names(root)):
        if name in kit or not plain(name):
            continue
        new = APART.get(name, snake(name))
        if new != name:
            out[name] = new
    return out | {it: snake(it) for it in VARIABLES}


def respelled(text, names):
    def one(m):
        return names.get(m.group(0), m.group(0))

    return TOKEN.sub(one, text)


def clauses(text, names):
    """Of a .rt file: its `ghost use` lines and what stands in braces of clauses; names in camel case or with a dash stand nowhere else."""
    camel = {k: v for k, v in names.items() if re.search(r"[a-z0-9][A-Z]", k) and "-" not in k}
    out = []
    for line in text.split("\n"):
        at = line.find("//")
        code, rest = (line, "") if at < 0 else (line[:at], line[at:])
        both = names if code.startswith("ghost use") else camel
        out.append(respelled(code, both) + re.sub(r"[A-Za-z]\w*", lambda m: camel.get(m.group(0), m.group(0)), rest))
    return "\n".join(out)


def main(argv):
    root = os.getcwd()
    names = table(root)
    if "--list" in argv:
        for k in sorted(names):
            print(k, names[k])
        return 0
    for path in files(root, (".antt", ".rt")):
        text = read(path)
        moved = {it: it + "_lem" for crate, it in MOVED if "/" + crate + "/proofs/" in path}
        new = clauses(text, names) if path.endswith(".rt") else respelled(respelled(text, moved), names)
        if new != text:
            with open(path, "w", encoding="utf-8") as it:
                it.write(new)
    declared = own_names(root)
    camel = {k: v for k, v in names.items() if re.search(r"[a-z0-9][A-Z]", k)}
    for folder, dirs, pages in os.walk(os.path.join(root, "docs")):
        for page in sorted(pages):
            turn_page(os.path.join(folder, page), camel, declared)
    turn_page(os.path.join(root, "README.md"), camel, declared)
    print(len(names), "names respelled")
    return 0


def turn_page(path, names, declared):
    def one(m):
        word = m.group(0)
        if re.match(r"[a-z]+[A-Z]", word) and snake(word) in declared:
            return snake(word)
        return names.get(word, word)

    text = read(path)
    new = re.sub(r"[A-Za-z][\w'ℤ-]*", one, text)
    if new != text:
        with open(path, "w", encoding="utf-8") as it:
            it.write(new)


if __name__ == "__main__":
    raise SystemExit(main(sys.argv[1:]) or 0)
